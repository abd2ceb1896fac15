#!/usr/bin/env python3
"""Compares `dcc asm` with a reference assembler on listings and on changed listings, for both processors.

bench/assembler_against_oracle.py REFERENCE [COUNT [SEED [PROGRAM]]]

REFERENCE is a folder with a Python package dccref, which is no part of this repository: its modules decode and listing
give the instruction of some bytes, its spelling and its standard encoding, and the bytes of a listing or the line that
offends. PROGRAM is the built program, and crates/dcc/out/dcc where no word stands. The listings are of random
bytes, most of which begin as instructions do; two of three are changed in a place or two.
Prints each text whose answer the reference contradicts; the status is 1 if there is one.
"""
import pathlib
import random
import subprocess
import sys
import tempfile
from collections import Counter

from procs_show import ROOT

FREQUENT = bytes.fromhex("89 8B 03 83 81 F7 FF C7 B8 74 EB E8 2E C2 40 50 D1 D3 C1 6B 69 68 6A C8 8D")
SEGMENTS = [0x0110, 0x0110, 0x0111, 0x0120, 0x010F, 0x0000, 0xFFFF]
LETTERS = b"0123456789ABCDEFabcdefxs,[]+: ;\n"
LINES = [b"    add 0x0001,ax", b"    push 0x0001", b"    nop ", b"    db", b"    db 0", b"    odd nop", b"    odd 90 nop",
         b"    jmp cs:[bx+0x0000]", b"    imul ax,bx,0x0001", b"    jz 0x9999", b"    jcxz 0xFFFF", b"0000", b"FFFF:",
         b"    ret 0x0000", b"    enter 0x0001", b"    mov ax,[bx]", b"    lea ax,[bp]", b"    mov cs,ax",
         b"    shl ax,0x01", b"    rcl ax,cl", b"    in", b""]


def bytes_of(draw):
    """Random bytes, many of which begin an instruction."""
    data, size = bytearray(), draw.randrange(1, 120)
    while len(data) < size:
        data += bytes(draw.choice([draw.randrange(256), draw.choice(FREQUENT)]) for _ in range(draw.randrange(1, 4)))
    return bytes(data)


def text_of(draw, reference, data, cpu, segment):
    """A listing of the bytes."""
    decode, listing = reference
    origin = (segment - 0x0110) * 16
    lines, place = [f"; dcc list 1 {cpu} {segment:04X}"], 0
    while place < len(data):
        at = place - origin
        inside = 0 <= at < 65536
        instr = decode.decode_window(data[place:place + 6], at, cpu) if inside and draw.random() < 0.9 else None
        if inside and draw.random() < 0.1:
            lines.append(f"{at:04X}:")
        if draw.random() < 0.05:
            lines.append("; words")
        if instr is None or at + instr.len > 65536:
            size = min(draw.randrange(1, 17), len(data) - place)
            lines.append("    db " + listing.hexes(data[place:place + size]))
        else:
            size = instr.len
            told = data[place:place + size]
            odd = "" if told == listing.standard(instr.op, at, cpu) else f"odd {listing.hexes(told)} "
            lines.append("    " + odd + listing.spell(instr.op))
        place += size
    return "".join(line + "\n" for line in lines).encode()


def changed(draw, text):
    """The text with one change: of a byte, or of a line."""
    way = draw.randrange(8)
    place = draw.randrange(len(text))
    if way < 3:
        return text[:place] + bytes([draw.choice([draw.choice(LETTERS), draw.randrange(256)])]) + text[place + 1:]
    if way == 3:
        return text[:place] + text[place + 1:]
    if way == 4:
        return text[:place] + bytes([draw.randrange(32, 127)]) + text[place:]
    lines = text.split(b"\n")
    one, other = draw.randrange(len(lines)), draw.randrange(len(lines))
    if way == 5:
        del lines[one]
    elif way == 6:
        lines[one], lines[other] = lines[other], lines[one]
    else:
        lines.insert(one + 1, draw.choice(LINES))
    return b"\n".join(lines)


def wanted(listing, text):
    """The status, the bytes and the line that the reference gives."""
    try:
        return 0, listing.assemble(text), ""
    except listing.ListFault as fault:
        return 25, b"", f"dcc: {fault}\n"


def main():
    if len(sys.argv) < 2:
        sys.exit(__doc__)
    sys.path.insert(0, sys.argv[1])
    from dccref import decode, listing
    count = int(sys.argv[2]) if len(sys.argv) > 2 else 2000
    draw = random.Random(int(sys.argv[3]) if len(sys.argv) > 3 else 1)
    program = sys.argv[4] if len(sys.argv) > 4 else ROOT / "crates" / "dcc" / "out" / "dcc"
    faults, kinds = 0, Counter()
    with tempfile.TemporaryDirectory() as name:
        path = pathlib.Path(name) / "LISTING"
        for _ in range(count):
            cpu, segment = draw.choice(["8086", "186"]), draw.choice(SEGMENTS)
            text = text_of(draw, (decode, listing), bytes_of(draw), cpu, segment)
            for _ in range(draw.randrange(3)):
                text = changed(draw, text) if text else text
            path.write_bytes(text)
            done = subprocess.run([str(program), "asm", str(path)], capture_output=True, check=False)
            answer, known = (done.returncode, done.stdout, done.stderr.decode()), wanted(listing, text)
            kinds[known[2].split()[2] if known[2] else "bytes"] += 1
            if answer != known:
                faults += 1
                print(f"{text!r}: {answer}: {known}")
    print(f"{sum(kinds.values())} texts, {faults} faults;", ", ".join(f"{n} {k}" for k, n in sorted(kinds.items())))
    sys.exit(1 if faults else 0)


if __name__ == "__main__":
    main()
