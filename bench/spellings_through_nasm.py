#!/usr/bin/env python3
"""Has each spelling of an operation assembled by NASM, and compares what the bytes decode to.

bench/spellings_through_nasm.py REFERENCE

REFERENCE is a folder with a Python package dccref, which is no part of this repository: its modules decode and listing
give the operation of some bytes, and its spelling as a listing of `dcc list` has it. The spelling of each operation
that the first two bytes of an instruction and some further bytes give, on the processor that has more of them, goes to
NASM; relative jumps from the offset at which their line stands. NASM's words differ in four places, which are put into
its own: a segment before an address stands within its brackets, `xlat` is `xlatb`, ENTER has its level, and a
conditional jump says that it is short. NASM takes the exchange of AX with itself for NOP, and of other exchanges it
may choose the one the other way round.
Prints each spelling that NASM refuses, or of which its bytes decode to another operation; the status is 1 if there is
one.
"""
import itertools
import pathlib
import subprocess
import sys
import tempfile

TAILS = (bytes(6), b"\x34\x12\x78\x56\x9a\x3c", b"\xff\xff\xff\xff\xff\xff", b"\x80\x00\x05\x80\x7f\x00")
AT = 0x4000
ROOM = 16
BLOCK = 512


def for_nasm(spelling):
    """The words that NASM has for a spelling."""
    words = spelling.replace("cs:[", "[cs:")
    if words == "xlat":
        return "xlatb"
    if words[0] == "j" and not words.startswith(("jmp ", "jcxz ")):
        return words.replace(" ", " short ", 1)
    return words + ",0" if words.startswith("enter ") else words


def is_alike(op, other):
    """Whether two operations are one, an exchange being the same both ways, and NOP that of AX with itself."""
    if op == ("Xchg", ("Word", "Ax"), ("Word", "Ax")):
        return other == ("Plain", "Nop")
    return op == other or op[0] == other[0] == "Xchg" and op[1:] == other[:0:-1]


def operations(decode_window, cpu):
    """Each operation with its encodings' first two bytes, once."""
    found = {}
    for first, second, tail in itertools.product(range(256), range(256), TAILS):
        instr = decode_window(bytes([first, second]) + tail, AT, cpu)
        if instr is not None:
            found.setdefault(instr.op)
    return list(found)


def assembled(spellings, folder):
    """What NASM gives for each spelling at the offset AT, and what it says of those that it refuses."""
    source = "bits 16\ncpu 186\n" + "".join(
        f"section .s{n} vstart={AT} align={ROOM}\n{for_nasm(words)}\n" for n, words in enumerate(spellings))
    (folder / "a.asm").write_text(source)
    done = subprocess.run(["nasm", "-f", "bin", "-w-all", "-o", str(folder / "a.bin"), str(folder / "a.asm")],
                          capture_output=True, text=True, check=False)
    if done.returncode != 0:
        return [], done.stderr.splitlines()
    data = (folder / "a.bin").read_bytes() + bytes(ROOM)
    return [data[ROOM * n:ROOM * (n + 1)] for n in range(len(spellings))], []


def main():
    if len(sys.argv) != 2:
        sys.exit(__doc__)
    sys.path.insert(0, sys.argv[1])
    from dccref.decode import decode_window
    from dccref.listing import spell
    faults, ops = 0, operations(decode_window, "186")
    with tempfile.TemporaryDirectory() as name:
        for at in range(0, len(ops), BLOCK):
            some = ops[at:at + BLOCK]
            pieces, told = assembled([spell(op) for op in some], pathlib.Path(name))
            for op, data in zip(some, pieces):
                instr = decode_window(data, AT, "186")
                if instr is None or not is_alike(op, instr.op):
                    told.append(f"{spell(op)}: {data.hex(' ')}")
            faults += len(told)
            for line in told:
                print(line)
    print(f"{len(ops)} operations, {faults} faults")
    sys.exit(1 if faults else 0)


if __name__ == "__main__":
    main()
