#!/usr/bin/env python3
"""Counts lines, variables, casts, jumps and depth pragmas of texts, beside those of a reference.

bench/figures.py REFERENCE [--program PROGRAM] [--folder FOLDER] [COUNT [SEED]]

REFERENCE is a folder with a Python package decompile, which is no part of this repository: called with a file it prints
a text. PROGRAM is the built program, and crates/dcc/out/dcc where the option doesn't stand. COUNT random programs with
a text are drawn as bench/both_sides.py draws them for the 8086; with FOLDER its files *.EXE are taken in place of them.
Prints the sums of both, and the number of functions.
"""
import argparse
import pathlib
import random
import re
import subprocess
import sys
import tempfile
from collections import Counter

from both_sides import drawn_file
from built import PROGRAM

VARIABLE = re.compile(r"^    (?:auto |register )?(?:unsigned |signed )*(?:char|int|long) \**\w+(?:\[\d+\])?;$", re.M)
CAST = re.compile(r"\((?:unsigned |signed )*(?:char|int|long)(?: \*+)?\)")


def counts(text):
    """What stands in a text."""
    return Counter({"lines": text.count("\n"), "functions": len(re.findall(r"^}", text, re.M)),
                    "variables": len(VARIABLE.findall(text)), "casts": len(CAST.findall(text)),
                    "gotos": len(re.findall(r"\bgoto\b", text)), "depths": text.count("#pragma dcc depth")})


def texts(program, reference, path):
    """The text of the program and that of the reference, where the program has one."""
    ours = subprocess.run([program, "c", path], capture_output=True, text=True, check=False)
    if ours.returncode != 0:
        return None
    other = subprocess.run([sys.executable, "-m", "decompile", path], cwd=reference, capture_output=True, text=True,
                           check=True)
    return ours.stdout, other.stdout


def drawn(seed, folder):
    """Random programs, one after another."""
    draw = random.Random(seed)
    while True:
        path = folder / "A.EXE"
        path.write_bytes(drawn_file(draw, "8086"))
        yield path


def main():
    words = argparse.ArgumentParser(usage=__doc__)
    words.add_argument("reference", type=pathlib.Path)
    words.add_argument("--program", default=str(PROGRAM))
    words.add_argument("--folder", type=pathlib.Path)
    words.add_argument("count", type=int, nargs="?", default=40)
    words.add_argument("seed", type=int, nargs="?", default=1)
    asked = words.parse_args()
    ours, others, taken = Counter(), Counter(), 0
    with tempfile.TemporaryDirectory() as name:
        paths = sorted(asked.folder.glob("*.EXE")) if asked.folder else drawn(asked.seed, pathlib.Path(name))
        for path in paths:
            both = texts(asked.program, asked.reference, str(path))
            if both is None:
                continue
            ours, others, taken = ours + counts(both[0]), others + counts(both[1]), taken + 1
            if taken == asked.count and not asked.folder:
                break
    print(f"{taken} programs")
    for what in ("functions", "lines", "variables", "casts", "gotos", "depths"):
        print(f"{what}: {ours[what]}, the reference {others[what]}")


if __name__ == "__main__":
    main()
