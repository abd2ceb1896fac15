#!/usr/bin/env python3
"""Compares all encodings of both processors with a reference, from bytes to words and back.

bench/encodings_against_oracle.py REFERENCE [PROGRAM]

REFERENCE is a folder with a Python package dccref, which is no part of this repository: its modules decode and listing
give the instruction of some bytes, its spelling and its standard encoding. Each pair of first bytes stands with some
further bytes at some offset, on each processor. Of each the spelling and the standard encoding are compared; then
listings of all these instructions are assembled, which has to give their bytes. PROGRAM is SHOW below as it was built
before; where no word stands, it is run over the crates before their proof.
Prints each difference; the status is 1 if there is one.
"""
import pathlib
import subprocess
import sys
import tempfile

from tried import tried

# Prints a line for each path: of a file of records, each a processor, an offset and seven bytes, what stands there,
# its standard encoding and whether its spelling is read back; of a listing the bytes, or the line that offends.
SHOW = """\
//! Prints the spellings and the standard encodings of instructions, and the bytes of listings.
#![tactic(auto)]

use anyhow::Error;
use dcc_asm::{ListFault, assemble};
use dcc_decode::decode_window;
use dcc_encode::standard;
use dcc_machine::Cpu;
use dcc_reread::operation_in;
use dcc_spelled::{push_bytes, push_spelling};
use std::alloc::{AllocError, Global};
use std::{env, fs};

fn push_shown(alloc: Global, line: &mut Vec<u8>, cpu: Cpu, at: u16, window: &[u8]) -> Result<(), AllocError> {
    let Some(instr) = decode_window(window, at, cpu) else {
        return line.extend_from_slice(b"none");
    };
    let mut spelled = Vec::new(alloc);
    push_spelling(&mut spelled, instr.op)?;
    line.extend_from_slice(spelled.as_slice())?;
    line.extend_from_slice(b";")?;
    match standard(alloc, instr.op, at, cpu)? {
        Some(best) => push_bytes(line, best.as_slice())?,
        None => line.extend_from_slice(b" none")?,
    }
    match operation_in(spelled.as_slice()) {
        Some(op) if op == instr.op => line.extend_from_slice(b";read"),
        _ => line.extend_from_slice(b";lost"),
    }
}

fn shown(alloc: Global, records: &[u8]) -> Result<Vec<u8>, AllocError> {
    let mut line = Vec::new(alloc);
    let mut place = 0;
    while place + 10 <= records.len() {
        let cpu = if records[place] == 0 { Cpu::I8086 } else { Cpu::I186 };
        let at = u16::from(records[place + 1]) + 256 * u16::from(records[place + 2]);
        push_shown(alloc, &mut line, cpu, at, &records[place + 3..place + 10])?;
        line.extend_from_slice(b"|")?;
        place += 10;
    }
    Ok(line)
}

fn main(rt: HostRuntime) -> Result<(), Error> {
    let alloc = rt.alloc();
    for path in env::args(&rt)?.skip(1) {
        let path = path;
        let bytes = fs::read(&rt, path.as_str())?;
        if path.ends_with(".records") {
            let line = String::from_utf8(shown(alloc, bytes.as_slice())?)?;
            println!(rt; "shown {line}")?;
            continue;
        }
        match assemble(alloc, &bytes) {
            Ok(image) => {
                let mut line = Vec::new(alloc);
                push_bytes(&mut line, image.as_slice())?;
                let line = String::from_utf8(line)?;
                println!(rt; "bytes{line}")?;
            }
            Err(ListFault::At { line, kind }) => println!(rt; "fault {kind:?} {line}")?,
            Err(ListFault::Memory) => println!(rt; "fault memory")?,
        }
    }
    Ok(())
}
"""
DEPENDENCIES = "dcc_num dcc_machine dcc_decode dcc_encode dcc_spelled dcc_reread dcc_asm anyhow"

CPUS = ("8086", "186")
# Further bytes, each with an offset: the least and the greatest numbers, and jumps both ways.
TAILS = [(0x0000, bytes(5)), (0x8000, b"\x34\x12\x78\x56\x9A"), (0xFFF9, b"\xFF\xFF\xFF\xFF\xFF"),
         (0x0080, b"\x80\x00\x05\x80\x7F"), (0x7FFF, b"\x7F\xFF\x7F\xFF\x01")]
# Instructions in a listing, no more than a segment holds.
MANY = 10000


def instructions(decode_window):
    """The processor, the offset, the bytes and the instruction of each."""
    for cpu in CPUS:
        for pair in range(0x10000):
            for at, tail in TAILS:
                window = pair.to_bytes(2, "big") + tail
                instr = decode_window(window[:6], at, cpu)
                if instr is not None and at + instr.len <= 0x10000:
                    yield cpu, at, window, instr


def records(rows):
    """The rows for the program."""
    return b"".join(bytes([cpu == "186"]) + at.to_bytes(2, "little") + window for cpu, at, window, _ in rows)


def hexes(data):
    """The bytes as the program writes them."""
    return "".join(f" {byte:02X}" for byte in data)


def listed(reference, cpu, rows):
    """A listing of the instructions' bytes, one behind another, and its bytes."""
    decode, listing = reference
    lines, data = [f"; dcc list 1 {cpu} 0110"], b""
    for _, _, window, instr in rows:
        told, at = window[:instr.len], len(data)
        op = decode.decode_window(window[:6], at, cpu).op
        odd = "" if told == listing.standard(op, at, cpu) else "odd" + hexes(told) + " "
        lines.append("    " + odd + listing.spell(op))
        data += told
    return "".join(line + "\n" for line in lines).encode(), data


def answers(folder, paths):
    """The program's lines."""
    heads = ("shown ", "bytes ", "fault ")
    if len(sys.argv) < 3:
        return tried(folder / "crates_of", "encodings_show", SHOW, DEPENDENCIES, paths, heads)
    done = subprocess.run([sys.argv[2], *map(str, paths)], capture_output=True, text=True, check=True)
    return done.stdout.splitlines()


def main():
    if len(sys.argv) < 2:
        sys.exit(__doc__)
    sys.path.insert(0, sys.argv[1])
    from dccref import decode, listing
    rows, faults = list(instructions(decode.decode_window)), 0
    parts = [rows[first:first + MANY] for first in range(0, len(rows), MANY)]
    groups = [(cpu, [row for row in part if row[0] == cpu]) for part in parts for cpu in CPUS]
    groups = [(cpu, some) for cpu, some in groups if some]
    texts = [listed((decode, listing), cpu, some) for cpu, some in groups]
    with tempfile.TemporaryDirectory() as name:
        folder = pathlib.Path(name)
        (folder / "crates_of").mkdir()
        paths = [folder / f"{place}.records" for place in range(len(parts))]
        paths += [folder / f"{place}.listing" for place in range(len(texts))]
        for path, data in zip(paths, [records(part) for part in parts] + [text for text, _ in texts]):
            path.write_bytes(data)
        lines = answers(folder, paths)
    for part, line in zip(parts, lines):
        for (cpu, at, window, instr), told in zip(part, line.removeprefix("shown ").split("|")):
            wanted = f"{listing.spell(instr.op)};{hexes(listing.standard(instr.op, at, cpu))};read"
            if told != wanted:
                faults += 1
                print(f"{cpu} {at:04X} {window.hex(' ')}: {told}, and not {wanted}")
    for (_, data), line in zip(texts, lines[len(parts):]):
        if line != "bytes" + hexes(data):
            faults += 1
            print(f"a listing of {len(data)} bytes: {line[:100]}")
    print(f"{len(rows)} instructions, {len(texts)} listings of them, {faults} faults")
    sys.exit(1 if faults else 0)


if __name__ == "__main__":
    main()
