#!/usr/bin/env python3
"""Compares the machine with a reference machine, for both processors: single steps, and runs of random programs.

bench/steps_against_oracle.py REFERENCE [STEPS [PROGRAMS [SEED]]]

REFERENCE is a folder with a Python package dccref, which is no part of this repository: its module machine runs an
image. For each processor STEPS single steps (100,000) are drawn: registers, flags, keys, and an instruction of any row
of the table or other bytes, on a memory of random bytes that goes through all of them. Then PROGRAMS programs (2,000)
run to the end or for 2,000 steps: those of the reference's generator, and random instructions of all rows with jumps to
their instructions. Compared are the answer, all registers, the flags, the instruction pointer, the bytes of memory that
the reference wrote, the output, and what is left of the input; and the whole memory every 1,000 single steps and every
100 programs. The machine is run unproved, by `rt try`, from a copy of the crates, in which it gets two functions more
that set and tell its state. Prints the number of differences, and the first of them; the status is 1 if there is one.
"""
import pathlib
import random
import struct
import sys
import tempfile
import zlib

from tried import tried

DEPENDENCIES = "dcc_num dcc_machine dcc_step dcc_io anyhow"
PROCESSORS = ["8086", "186"]
MOST_STEPS = 2_000
STEPS_TO_WHOLE = 1_000
PROGRAMS_TO_WHOLE = 100
DOS_NUMBERS = [0x01, 0x02, 0x02, 0x08, 0x09, 0x4C]
LOADED_AT = 0x1100
MEMORY = 1 << 20

# What the copy of the machine gets besides.
PROBE = """
/// A state: word registers, segment registers, flags, instruction pointer.
#[derive(Clone, Copy, PartialEq, Eq, Debug)]
pub struct Probe {
    /// The word registers.
    pub regs: [u16; 8],
    /// The segment registers.
    pub segs: [u16; 4],
    /// The flags.
    pub flags: Flags,
    /// The instruction pointer.
    pub ip: u16,
}

impl Machine {
    /// Sets the state, in which the run goes on, and some bytes of code at its instruction pointer.
    pub fn set_probe(&mut self, probe: Probe, code: &[u8]) {
        self.regs = probe.regs;
        self.segs = probe.segs;
        self.flags = probe.flags;
        self.ip = probe.ip;
        self.end = Ending::Running;
        for (k, byte) in code.iter().enumerate() {
            let offset = probe.ip.wrapping_add(k as u16);
            let place = (usize::from(probe.segs[1]) * 16 + usize::from(offset)) % MEMORY_SIZE;
            self.memory[place] = *byte;
        }
        // The bytes were put there by no store. What stands there is looked up, so that the step is a short one if it can.
        self.trusted = true;
        self.cache[usize::from(probe.ip) % crate::cache::CACHE_SIZE].known = false;
        let _found = self.next_instruction();
    }

    /// The state.
    pub fn probe(&self) -> Probe {
        Probe {
            regs: self.regs,
            segs: self.segs,
            flags: self.flags,
            ip: self.ip,
        }
    }
}
"""

# Makes the trials of a file, and prints how many of them came out otherwise than the file says.
SHOW = """\
//! Runs what a file asks for on the machine, and compares what comes out with what stands in the file.
#![tactic(auto)]

use anyhow::Error;
use dcc_io::{MemSink, MemSource, Source};
use dcc_machine::{Cpu, Image};
use dcc_num::Flags;
use dcc_step::{Machine, Probe, Stepped};
use std::alloc::{AllocError, Global};
use std::{env, fs};

#[derive(Drop)]
struct Reader {
    bytes: Vec<u8>,
    at: usize,
}

impl Reader {
    fn number(&mut self, size: usize) -> u32 {
        let mut number = 0;
        for k in 0..size {
            number += u32::from(self.bytes[self.at + k]) << (8 * k as u32);
        }
        self.at += size;
        number
    }

    fn word(&mut self) -> u16 {
        self.number(2) as u16
    }

    fn bytes(&mut self, alloc: Global, count: usize) -> Result<Vec<u8>, AllocError> {
        let taken = self.bytes[self.at..self.at + count].to_vec(alloc)?;
        self.at += count;
        Ok(taken)
    }

    fn probe(&mut self) -> Probe {
        let mut regs = [0; 8];
        for k in 0..8 {
            regs[k] = self.word();
        }
        let mut segs = [0; 4];
        for k in 0..4 {
            segs[k] = self.word();
        }
        let flags = Flags {
            cf: self.number(1) == 1,
            zf: self.number(1) == 1,
            sf: self.number(1) == 1,
            of: self.number(1) == 1,
        };
        Probe {
            regs,
            segs,
            flags,
            ip: self.word(),
        }
    }

    fn answer(&mut self) -> Stepped {
        let kind = self.number(1);
        let number = self.word();
        match kind {
            0 => Stepped::Running,
            1 => Stepped::Exit(number as u8),
            2 => Stepped::Divide,
            _ => Stepped::Outside(number),
        }
    }
}

// The Adler-32 sum, step by step.
#[derive(Clone, Copy)]
struct Sum {
    low: u32,
    high: u32,
}

impl Sum {
    fn with(self, byte: u8) -> Sum {
        let low = (self.low + u32::from(byte)) % 65521;
        Sum {
            low,
            high: (self.high + low) % 65521,
        }
    }

    fn number(self) -> u32 {
        self.high * 65536 + self.low
    }
}

// One trial: sets the state and the code, runs, and tells whether all is as the file says.
fn is_alike(alloc: Global, machine: &mut Machine, file: &mut Reader) -> Result<bool, Error> {
    let probe = file.probe();
    let size = file.number(2) as usize;
    let code = file.bytes(alloc, size)?;
    machine.set_probe(probe, code.as_slice());
    let count = file.number(1) as usize;
    let keys = file.bytes(alloc, count)?;
    let mut input = MemSource::new(keys, Vec::new(alloc), 1);
    let mut out = MemSink::new(alloc, Vec::new(alloc), 1);
    let steps = u64::from(file.number(2));
    let answer = machine.run(&mut input, &mut out, steps);
    let mut alike = answer == file.answer();
    alike = machine.probe() == file.probe() && alike;
    let mut left = 0;
    let mut byte = [0u8];
    while matches!(input.read(&mut byte), Ok(1)) {
        left += 1;
    }
    alike = left == file.number(1) && alike;
    let mut sum = Sum { low: 1, high: 0 };
    for byte in out.taken().iter() {
        sum = sum.with(*byte);
    }
    alike = out.taken().len() as u32 == file.number(4) && alike;
    alike = sum.number() == file.number(4) && alike;
    for _ in 0..file.number(4) {
        let place = file.number(4);
        alike = u32::from(machine.byte(place)) == file.number(1) && alike;
    }
    if file.number(1) == 1 {
        let mut whole = Sum { low: 1, high: 0 };
        for place in 0..0x10_0000 {
            whole = whole.with(machine.byte(place));
        }
        alike = whole.number() == file.number(4) && alike;
    }
    Ok(alike)
}

// The machine with the processor and the memory that stand in the file.
fn loaded(alloc: Global, file: &mut Reader) -> Result<Machine, Error> {
    let cpu = if file.number(1) == 0 {
        Cpu::I8086
    } else {
        Cpu::I186
    };
    let size = file.number(4);
    let image = Image {
        bytes: file.bytes(alloc, size as usize)?,
        code_len: 0x1_0000,
        cs: 0,
        ip: 0,
        ss: 0,
        sp: 0,
    };
    Ok(Machine::new(alloc, &image, cpu)?)
}

fn main(rt: HostRuntime) -> Result<(), Error> {
    let alloc = rt.alloc();
    for path in env::args(&rt)?.skip(1) {
        let mut file = Reader {
            bytes: fs::read(&rt, path)?,
            at: 0,
        };
        let mut machine = loaded(alloc, &mut file)?;
        let made = file.number(4);
        let (mut differ, mut first) = (0u32, 0u32);
        for trial in 0..made {
            if !is_alike(alloc, &mut machine, &mut file)? {
                if differ == 0 {
                    first = trial;
                }
                differ += 1;
            }
        }
        println!(rt; "trials {made} differ {differ} first {first}")?;
    }
    Ok(())
}
"""


def words(numbers):
    """Numbers as words, low byte first."""
    return b"".join(struct.pack("<H", number) for number in numbers)


class Trials:
    """What is drawn, what the reference makes of it, and the file that says both."""

    def __init__(self, reference, cpu, draw):
        self.machine, self.decode, self.flags, self.image = reference
        self.cpu = cpu
        self.draw = draw
        self.seen = []
        firsts = [0x2E, 0xC8, 0xCD] + list(range(256))
        self.firsts = [first for first in firsts if self.drawn(first) is not None]

    def drawn(self, first):
        """An instruction that begins with this byte, or None where no try gives one."""
        for _ in range(200):
            window = bytes([first]) + self.draw.randbytes(5)
            if first == 0x2E:
                window = bytes([first, 0xFF, self.draw.choice([0xA4, 0xA5, 0xA7])]) + window[3:]
            elif first == 0xCD:
                window = bytes([first, 0x21]) + window[2:]
            elif first == 0xC8:
                window = window[:3] + bytes(1) + window[4:]
            found = self.decode.decode_window(window, 0, self.cpu)
            if found is not None:
                return window[:found.len]
        return None

    def word(self):
        """A word, often at an edge."""
        edges = [0, 1, 2, 0x7F, 0x80, 0xFF, 0x100, 0x7FFF, 0x8000, 0x8001, 0xFFFE, 0xFFFF, self.draw.randrange(40)]
        return self.draw.choice(edges) if self.draw.random() < 0.3 else self.draw.randrange(65536)

    def state(self, machine):
        """Sets a random state of the reference."""
        for name in machine.regs:
            machine.regs[name] = self.word()
        if self.draw.random() < 0.5:
            machine.regs["Cx"] = machine.regs["Cx"] & 0xFF00 | self.draw.randrange(70)
        machine.seg = [self.word() for _ in range(4)]
        machine.flags = self.flags(*(self.draw.random() < 0.5 for _ in range(4)))
        machine.ip = self.draw.randrange(0xFFF8, 0x10000) if self.draw.random() < 0.05 else self.draw.randrange(65536)
        machine.end = ("running",)

    def stated(self, machine):
        """The reference's state, as the file has it."""
        flags = machine.flags
        bits = bytes([flags.cf, flags.zf, flags.sf, flags.of])
        return words(machine.regs.values()) + words(machine.seg) + bits + words([machine.ip])

    def code(self, machine):
        """The six bytes at the instruction pointer."""
        if self.draw.random() < 0.1:
            return self.draw.randbytes(6)
        code = self.drawn(self.draw.choice(self.firsts))
        if code[0] == 0xCD and self.draw.random() < 0.8:
            low = machine.regs["Ax"] & 0xFF
            machine.regs["Ax"] = self.draw.choice(DOS_NUMBERS) * 256 + low
        return (code + self.draw.randbytes(6))[:6]

    def trial(self, machine, code, steps, whole):
        """A trial of these bytes at the instruction pointer, with what comes out."""
        told = self.stated(machine) + words([len(code)]) + code
        for k, byte in enumerate(code):
            machine.mem[machine.place(1, machine.ip + k)] = byte
        keys = self.draw.randbytes(self.draw.randrange(4))
        places = set()
        machine.input, machine.taken, machine.out = keys, 0, bytearray()
        machine.hook = lambda access: places.update(self.places(machine, access))
        answer = machine.run(steps)
        machine.hook = None
        kind = ["running", "exit", "divide", "outside"].index(answer[0])
        told += bytes([len(keys)]) + keys + words([steps])
        told += bytes([kind]) + words([answer[1] if len(answer) > 1 else 0]) + self.stated(machine)
        told += bytes([len(keys) - machine.taken])
        told += struct.pack("<III", len(machine.out), zlib.adler32(machine.out), len(places))
        told += b"".join(struct.pack("<IB", place, machine.mem[place]) for place in sorted(places))
        return told + (b"\x01" + struct.pack("<I", zlib.adler32(machine.mem)) if whole else b"\x00")

    def places(self, machine, access):
        """The physical addresses of what is written."""
        if access.kind != "write":
            return []
        segment = ("Es", "Cs", "Ss", "Ds").index(access.segment)
        return [machine.place(segment, access.offset + k) for k in range(access.size)]

    def begun(self, count):
        """The reference on a random memory, and the head of a file of so many trials on it."""
        image = self.image(self.draw.randbytes(MEMORY - LOADED_AT), 0x10000, 0, 0, 0, 0)
        head = bytes([PROCESSORS.index(self.cpu)]) + struct.pack("<I", len(image.bytes)) + image.bytes
        return self.machine(image, self.cpu), [head, struct.pack("<I", count)]

    def steps(self, count):
        """The file of so many single steps."""
        machine, parts = self.begun(count)
        for number in range(1, count + 1):
            self.state(machine)
            if self.seen and self.draw.random() < 0.1:
                # The same bytes at the same offset again, which the machine may have kept.
                machine.ip, code = self.draw.choice(self.seen[-50:])
            else:
                code = self.code(machine)
            self.seen.append((machine.ip, code))
            parts.append(self.trial(machine, code, 1, number % STEPS_TO_WHOLE == 0 or number == count))
        return b"".join(parts)

    def program(self):
        """The code of a program: random instructions, with jumps to them."""
        parts = [b"\xB8\x00\x02\x8E\xD8"]
        for _ in range(self.draw.randrange(3, 60)):
            code = self.drawn(self.draw.choice(self.firsts))
            if code[0] in (0x8E, 0xC2, 0xC3, 0x2E) and self.draw.random() < 0.9:
                continue
            if code[0] == 0xCD:
                parts.append(bytes([0xB4, self.draw.choice(DOS_NUMBERS)]))
            parts.append(code)
        parts.append(b"\xB4\x4C\xCD\x21")
        starts = [sum(map(len, parts[:place])) for place in range(len(parts))]
        for place, part in enumerate(parts):
            distance = self.draw.choice(starts) - starts[place] - len(part)
            if part[0] in range(0x70, 0x80) or part[0] in (0xE0, 0xE1, 0xE2, 0xE3, 0xEB):
                parts[place] = part[:1] + bytes([max(-128, min(127, distance)) & 0xFF])
            elif part[0] in (0xE8, 0xE9):
                parts[place] = part[:1] + words([distance & 0xFFFF])
        return b"".join(parts)

    def programs(self, count, generated):
        """The file of so many programs, each loaded over the memory that the one before left; every third is one of the
        reference's generator."""
        machine, parts = self.begun(count)
        for number in range(1, count + 1):
            if number % 3 == 0:
                image = generated(self.draw.randrange(1 << 64), self.draw.randrange(1, 200))
            else:
                image = self.image(self.program(), 0, 0x110, 0, 0x1000, 0x1000)
            fresh = self.machine(image, self.cpu)
            machine.regs, machine.seg, machine.flags, machine.ip = fresh.regs, fresh.seg, fresh.flags, fresh.ip
            machine.end = ("running",)
            whole = number % PROGRAMS_TO_WHOLE == 0 or number == count
            parts.append(self.trial(machine, image.bytes, MOST_STEPS, whole))
        return b"".join(parts)


def main():
    if len(sys.argv) < 2:
        sys.exit(__doc__)
    sys.path.insert(0, sys.argv[1])
    from dccref import decode, gen, machine, mz, num
    steps, programs, seed = (int(word) for word in (sys.argv[2:] + ["100000", "2000", "1"][len(sys.argv) - 2:]))
    reference = (machine.Machine, decode, num.Flags, lambda *parts: mz.Image(*parts))
    titles, differ = [], 0
    with tempfile.TemporaryDirectory() as name:
        folder = pathlib.Path(name)
        paths = []
        for cpu in PROCESSORS:
            trials = Trials(reference, cpu, random.Random(f"{cpu} {seed}"))
            files = [("single steps", trials.steps(steps)),
                     ("programs", trials.programs(programs, lambda *words: mz.load(gen.make(*words))))]
            for kind, file in files:
                titles.append(f"{cpu}, {kind}")
                paths.append(folder / f"{len(paths)}.trials")
                paths[-1].write_bytes(file)
        lines = tried(folder, "steps_show", SHOW, DEPENDENCIES, paths, ("trials",), {"dcc_step/src/machine.rt": PROBE,
                      "dcc_step/src/lib.rt": "\npub use machine::Probe;\n"})
    for title, line in zip(titles, lines):
        _, made, _, count, _, first = line.split()
        differ += int(count)
        print(f"{title}: {made} compared, {count} differences" + (f", first {first}" if count != "0" else ""))
    sys.exit(1 if differ else 0)


if __name__ == "__main__":
    main()
