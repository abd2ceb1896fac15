#!/usr/bin/env python3
"""Compares `dcc list` with a reference on random programs, and has `dcc asm` read the listings, for both processors.

bench/listings_against_oracle.py REFERENCE [COUNT [SEED [PROGRAM [ASSEMBLER]]]]

REFERENCE is a folder with a Python package dccref, which is no part of this repository: its modules mz, analyse and
listing give the image of a file, why it is refused, and the listing of its image. PROGRAM is the built program, and
crates/dcc/out/dcc where no word stands; ASSEMBLER the program whose `asm` is called, and PROGRAM where no word stands.
COUNT programs (3,000) are listed, of three kinds: those of the reference's generator, random procedures, and random
bytes with jumps into them, so that instructions stand over one another. Some have bytes before their code segment and
their entry. Those that are drawn besides and refused are compared too.
Prints each program whose listing or answer the reference contradicts, or whose listing isn't assembled to its image;
the status is 1 if there is one.
"""
import pathlib
import random
import subprocess
import sys
import tempfile
from collections import Counter

from procs_lines_against_oracle import allowed
from procs_show import ROOT, file_of
from random_procedures import code_of

START = 5
SHORT_JUMPS = [0xEB, 0x74, 0x75, 0x72, 0x7C, 0xE2, 0xE3]
PLAIN = bytes.fromhex("B8 3D 05 81 83 C7 BB A1 8B 89 03 2B 31 40 4B 93 90 98 D1 F7 D3 88 8A 6B 69")
EXIT = bytes.fromhex("B8 00 4C CD 21")


def strewn(draw, cpu):
    """Random bytes, among them jumps and many that begin an instruction; the exit stands behind them and between."""
    code = bytearray()
    size = draw.randrange(8, 60)
    while len(code) < size:
        kind = draw.randrange(6)
        if kind == 0:
            code += bytes([draw.choice(SHORT_JUMPS), draw.randrange(0, 24)])
        elif kind == 1:
            code += bytes(draw.randrange(256) for _ in range(draw.randrange(1, 4)))
        elif kind == 2 and draw.random() < 0.3:
            code += EXIT
        else:
            code += bytes([draw.choice(PLAIN if cpu == "186" else PLAIN[:-2]), draw.randrange(256)])
    return bytes(code) + bytes([0x90]) * 4 + EXIT


def moved(draw, build, code):
    """The file of code that begins with its prelude, with some paragraphs before its segment and bytes before its entry."""
    paragraphs, before = draw.randrange(4), draw.choice([0, 1, 7])
    entry = 16 * paragraphs + before
    end = -(-(entry + 5 + len(code)) // 16)
    image = bytes(draw.randrange(256) for _ in range(entry)) + b"\xB8" + end.to_bytes(2, "little") + b"\x8E\xD8" + code
    return build(image + bytes(-len(image) % 16), cs=paragraphs, ip=before, ss=end, sp=0x100, relocs=[(0, entry + 1)])


def drawn(draw, make, build, cpu):
    """The file of a random program."""
    kind = draw.randrange(10)
    if kind == 0:
        return make(draw.getrandbits(64), draw.randrange(1, 60))
    code = code_of(draw, START, cpu == "186") if kind < 5 else strewn(draw, cpu)
    if kind > 6:
        return moved(draw, build, code)
    rest = bytes(draw.randrange(256) for _ in range(draw.choice([0, 0, 4, 40])))
    return file_of(code, rest)


def called(program, *words):
    """The status of a call, what it puts out, and its line."""
    done = subprocess.run([str(program), *map(str, words)], capture_output=True, check=False)
    return done.returncode, done.stdout, done.stderr.decode()


def main():
    if len(sys.argv) < 2:
        sys.exit(__doc__)
    sys.path.insert(0, sys.argv[1])
    from dccref import analyse, listing, mz
    from dccref.files import build_mz
    from dccref.gen import make
    count = int(sys.argv[2]) if len(sys.argv) > 2 else 3000
    draw = random.Random(int(sys.argv[3]) if len(sys.argv) > 3 else 1)
    program = sys.argv[4] if len(sys.argv) > 4 else ROOT / "crates" / "dcc" / "out" / "dcc"
    assembler = sys.argv[5] if len(sys.argv) > 5 else program
    faults, lines, kinds = 0, 0, Counter()
    with tempfile.TemporaryDirectory() as name:
        path, told = pathlib.Path(name) / "P.EXE", pathlib.Path(name) / "LISTING"
        while kinds["listed"] < count:
            cpu = draw.choice(["8086", "186"])
            file = drawn(draw, make, build_mz, cpu)
            path.write_bytes(file)
            image = mz.load(file)
            found = analyse.front(image, cpu)
            stage, refusals = allowed(found)
            answer = called(program, "list", path, "--cpu", cpu)
            kinds[stage] += 1
            if stage != "listed":
                agrees = answer[1] == b"" and (answer[0], "", answer[2]) in refusals
            else:
                wanted = listing.listing(image, found.program)
                told.write_bytes(wanted)
                lines += wanted.count(b"\n")
                kinds["odd"] += wanted.count(b"\n    odd ")
                agrees = answer == (0, wanted, "") and called(assembler, "asm", told) == (0, bytes(image.bytes), "")
            if not agrees:
                faults += 1
                print(f"{cpu} {file.hex(' ')}: {answer}")
    odd = kinds.pop("odd")
    print(f"{kinds['listed']} listings of {sum(kinds.values())} programs, {lines} lines, {odd} of them odd, {faults} faults;",
          ", ".join(f"{n} {k}" for k, n in sorted(kinds.items())))
    sys.exit(1 if faults else 0)


if __name__ == "__main__":
    main()
