#!/usr/bin/env python3
"""Measures dcc, and peers beside it on the same input: speed and memory.

bench/speed.py [PROGRAM]

PROGRAM is the built program; where no word stands, crates/dcc/out/dcc, which is built and proved first. Prints a table
of figures, each the best of three runs. Seconds are those of the processor that the measured process took, so that
what runs beside it matters little, and by the clock where bytes go through a pipe. The peers are Unicorn and DOSBox
for the machine and gcc for texts, which apt-get installs where they are missing; where that cannot be, the table says
so. What the emulators run ends by itself, so that all execute the same instructions: the mix of bench/programs.py in
two loops. gcc reads the same texts and makes no code; beside it stand the reader of texts alone, called by a small
program over the proved crates, and `runc`, which makes the text ready to run as well. Of the reader alone the seconds
are those of its call, without the text's way into memory; memory is always the peak of the whole process.
"""
import importlib.machinery
import importlib.util
import os
import pathlib
import shutil
import subprocess
import sys
import tempfile
import time

import built
from programs import HEADER_BYTES, program

BENCH = pathlib.Path(__file__).resolve().parent
MIB = 1 << 20
RUNS = 3

# The size of texts of one shape, in MiB.
TEXT_MIB = 4

# mov si,N; mov bx,2000h; mov cx,ffffh; mov ax,[bx]; mov [bx+2],ax; add ax,dx; xor dx,ax; dec cx; jnz to the load;
# dec si; jnz to the 3rd; mov ax,4c00h; int 21h
OUTER = 200
MIXED = bytes.fromhex("BE%s BB0020 B9FFFF 8B07 894702 03C2 33D0 49 75F4 4E 75EE B8004C CD21"
                      % OUTER.to_bytes(2, "little").hex())
INSTRUCTIONS = 4 + OUTER * (3 + 6 * 0xFFFF) + 2

# mov ah,9; mov dx,100h; mov byte [ffffh],'$'; int 21h; jmp to the int: the bytes behind the stack again and again
STRINGS = 10_000
PUTS = bytes.fromhex("B409 BA0001 C606FFFF24 CD21 EBFC")
PUTS_TEXT = b"#pragma dcc text 1\n#pragma dcc stack 0 256\nvoid start(void)\n{\nL:\n    dos_puts(0);\n    goto L;\n}\n"

# The first instructions of a program set DS, by a relocated word; Unicorn has its load image at this segment.
SEGMENT = 0x1000
UNICORN = f"""
import sys, time, unicorn as u, unicorn.x86_const as x
image = bytearray(open(sys.argv[1], 'rb').read()[{HEADER_BYTES}:])
image[1:3] = (int.from_bytes(image[1:3], 'little') + {SEGMENT}).to_bytes(2, 'little')
emulator = u.Uc(u.UC_ARCH_X86, u.UC_MODE_16)
emulator.mem_map(0, 1 << 20)
emulator.mem_write({SEGMENT} * 16, bytes(image))
for register in (x.UC_X86_REG_CS, x.UC_X86_REG_SS):
    emulator.reg_write(register, {SEGMENT})
begun = time.process_time()
emulator.emu_start({SEGMENT} * 16, {SEGMENT} * 16 + int(sys.argv[2]))
print(u.__version__, time.process_time() - begun)
"""
SYSTEM_PYTHON = "/usr/bin/python3"
DOSBOX = "[sdl]\noutput=surface\n[cpu]\ncore=normal\ncycles=max\n[mixer]\nnosound=true\n[midi]\n" \
    "mididevice=none\n[autoexec]\nmount c %s\nc:\n%s\nexit\n"


def loaded(name):
    """A script of this folder whose name has no ending."""
    loader = importlib.machinery.SourceFileLoader(name, str(BENCH / name))
    module = importlib.util.module_from_spec(importlib.util.spec_from_loader(name, loader))
    loader.exec_module(module)
    return module


def tell(what, figure):
    """Prints a line of the table."""
    print(f"| {what} | {figure} |", flush=True)


def measured(words, read=False, **more):
    """The status of a call, its seconds, its peak memory in bytes, the bytes that came through the pipe where they are
    read, and what it told on the error stream."""
    out, count, begun = subprocess.PIPE if read else subprocess.DEVNULL, 0, time.perf_counter()
    with subprocess.Popen(list(map(str, words)), stdin=subprocess.DEVNULL, stdout=out, stderr=subprocess.PIPE,
                          **more) as process:
        while read and (piece := os.read(process.stdout.fileno(), MIB)):
            count += len(piece)
        told = process.stderr.read()
        _, status, usage = os.wait4(process.pid, 0)
        process.returncode = os.waitstatus_to_exitcode(status)
    seconds = time.perf_counter() - begun if read else usage.ru_utime + usage.ru_stime
    return process.returncode, seconds, usage.ru_maxrss * 1024, count, told


def called(words, statuses, read=False):
    """The seconds, the memory and the bytes of a call of dcc, which has one of the statuses."""
    status, *figures, told = measured([built.PROGRAM, *words], read)
    if status not in statuses:
        sys.exit(f"bench/speed.py: {words} ended with status {status}: {told[:200]!r}")
    return figures


def best(words, statuses, read=False):
    """The call with the fewest seconds."""
    return min(called(words, statuses, read) for _ in range(RUNS))


def installed(package, is_there):
    """Whether the package is there, or apt-get installs it."""
    if not is_there() and shutil.which("apt-get") and os.geteuid() == 0:
        for words in (["update", "-qq"], ["install", "-y", "-qq", "--no-install-recommends", package]):
            subprocess.run(["apt-get", *words], stdout=subprocess.DEVNULL, stderr=subprocess.DEVNULL, check=False)
    return is_there()


def has_unicorn():
    """Whether the system's Python has Unicorn."""
    return os.path.exists(SYSTEM_PYTHON) and measured([SYSTEM_PYTHON, "-c", "import unicorn"])[0] == 0


def unicorn(path):
    """Instructions a second of Unicorn, up to the call that ends the program."""
    if not installed("python3-unicorn", has_unicorn):
        tell("Unicorn", "not there, and apt-get cannot install python3-unicorn here")
        return
    # The prelude has five bytes, and the last two instructions five.
    words = [SYSTEM_PYTHON, "-c", UNICORN, str(path), str(5 + len(MIXED) - 5)]
    runs = [subprocess.run(words, capture_output=True, check=True, text=True).stdout.split() for _ in range(RUNS)]
    seconds = min(float(run[1]) for run in runs)
    tell(f"Unicorn {runs[0][0]}, the same", f"{INSTRUCTIONS / seconds / 1e6:.1f} million instructions a second")


def dosbox_seconds(folder, line):
    """The seconds of a run of DOSBox with no display in which this line is executed."""
    conf = folder / "dosbox.conf"
    conf.write_text(DOSBOX % (folder, line))
    environment = {**os.environ, "SDL_VIDEODRIVER": "dummy", "SDL_AUDIODRIVER": "dummy"}
    status, seconds, *_ = measured(["timeout", "600", "dosbox", "-conf", conf, "-noconsole"], env=environment)
    if status != 0:
        raise ChildProcessError(f"status {status}")
    return seconds


def dosbox(folder):
    """Instructions a second of DOSBox's interpreting core, less the time of a run of nothing."""
    if not installed("dosbox", lambda: shutil.which("dosbox")):
        tell("DOSBox", "not there, and apt-get cannot install dosbox here")
        return
    try:
        empty = min(dosbox_seconds(folder, "rem") for _ in range(RUNS))
        seconds = min(dosbox_seconds(folder, "MIXED.EXE") for _ in range(RUNS)) - empty
    except ChildProcessError as error:
        tell("DOSBox", f"does not run without a display: {error}")
        return
    tell("DOSBox, interpreting core, the same", f"{INSTRUCTIONS / seconds / 1e6:.1f} million instructions a second")


def runs(folder):
    """Instructions a second, and strings to a pipe."""
    path = folder / "MIXED.EXE"
    path.write_bytes(program(MIXED))
    for command in ("run", "watch"):
        seconds = best([command, path, "--steps", 1_000_000_000], [0])[0]
        tell(f"`{command}`, a loop of load, store, ADD, XOR, DEC, JNZ",
             f"{INSTRUCTIONS / seconds / 1e6:.1f} million instructions a second")
    unicorn(path)
    dosbox(folder)
    path, text = folder / "PUTS.EXE", folder / "PUTS.C"
    path.write_bytes(program(PUTS))
    text.write_bytes(PUTS_TEXT)
    for command, file in (("run", path), ("watch", path), ("runc", text)):
        seconds, _, count = best([command, file, "--steps", 2 * STRINGS], [20], read=True)
        tell(f"`{command}`, strings of 64 KB to a pipe", f"{count / seconds / 1e6:.0f} MB/s")


def reading(text, seconds, memory):
    """The figures of reading a text."""
    return f"{len(text) / seconds / 1e6:.1f} MB/s, {memory / len(text):.0f} bytes of memory a byte"


def gcc(path, text):
    """How gcc reads the text at this path."""
    if not installed("gcc", lambda: shutil.which("gcc")):
        tell("gcc", "not there, and apt-get cannot install gcc here")
        return
    version = subprocess.run(["gcc", "-dumpfullversion"], capture_output=True, check=True, text=True).stdout.strip()
    runs = [measured(["gcc", "-std=gnu89", "-fsyntax-only", "-w", path]) for _ in range(RUNS)]
    status, seconds, memory, *_ = min(runs, key=lambda run: run[1])
    tell(f"gcc {version} with -fsyntax-only on the same",
         reading(text, seconds, memory) if status == 0 else f"ends with status {status}")


def read_alone(program, path, text):
    """How `parse` reads the text at this path: by the processor's time in which it does, and its peak memory."""
    runs = []
    for _ in range(RUNS):
        with path.open("rb") as keys, \
                subprocess.Popen([program], stdin=keys, stdout=subprocess.PIPE, text=True) as process:
            told = process.stdout.read()
            usage = os.wait4(process.pid, 0)[2]
            process.returncode = 0
        runs.append((int(told.split()[0]) / 1e6, usage.ru_maxrss * 1024))
    return reading(text, *min(runs))


def texts(folder):
    """How texts are read and prepared, and how much memory calls take."""
    shapes, path = loaded("measure_texts"), folder / "text.c"
    reader = built.over(folder, "read_text", BENCH / "texts" / "read.rt.txt", "dcc_parse", "anyhow")
    head, size = shapes.START + b"int a;\n", TEXT_MIB * MIB
    for what, text in (("functions", shapes.good(size)), ("`a=1;`", head + b"a=1;" * (size // 4) + b"}\n"),
                       ("`;`", head + b";" * size + b"}\n")):
        path.write_bytes(text)
        tell(f"`parse` on {TEXT_MIB} MiB of {what}", read_alone(reader, path, text))
        seconds, memory, _ = best(["runc", path, "--steps", 0], [20])
        tell("`runc --steps 0` on the same, which prepares and frees it too", reading(text, seconds, memory))
        gcc(path, text)
    for what, text in shapes.named(100_000).items():
        path.write_bytes(text)
        seconds, memory, _ = best(["runc", path, "--steps", 0], [20])
        tell(f"`runc --steps 0` on 100,000 {what}", f"{seconds:.2f} s, {memory / MIB:.0f} MiB")
    names = b"".join(b"int x%d;\n" % number for number in range(10))
    path.write_bytes(shapes.START + b"f();\n}\nvoid f(void)\n{\n" + names + b"f();\n}\n")
    seconds, memory, _ = best(["runc", path, "--steps", 1_000_000], [20])
    tell("`runc`, a million calls, none over, of a function of ten locals", f"{seconds:.2f} s, {memory / MIB:.0f} MiB")


def main():
    if len(sys.argv) > 1:
        built.PROGRAM = pathlib.Path(sys.argv[1]).resolve()
    else:
        built.build()
    names = [line.split(":")[1].strip() for line in open("/proc/cpuinfo") if line.startswith("model name")]
    print(f"| {names[0] if names else 'a processor'}, {os.cpu_count()} of them | |\n|---|---|")
    with tempfile.TemporaryDirectory() as name:
        runs(pathlib.Path(name))
        texts(pathlib.Path(name))


if __name__ == "__main__":
    main()
