#!/usr/bin/env python3
"""Compares `dcc procs` with a reference analysis on random programs, for both processors.

bench/procs_lines_against_oracle.py REFERENCE [COUNT [SEED [PROGRAM]]]

REFERENCE is a folder with a Python package dccref, which is no part of this repository: its modules mz and analyse
give the image of a file, its stages in the order in which they refuse, and the lines of its procedures. PROGRAM is
the built program, and crates/dcc/out/dcc where no word stands. The programs are those of random_procedures.
Prints each program whose answer the reference contradicts; the status is 1 if there is one.
"""
import pathlib
import random
import subprocess
import sys
import tempfile
from collections import Counter
from concurrent.futures import ThreadPoolExecutor

from procs_show import ROOT, file_of
from random_procedures import code_of

START = 5


def answer_of(program, cpu, path):
    """The status of the command, what it wrote, and its line."""
    done = subprocess.run([str(program), "procs", str(path), "--cpu", cpu], capture_output=True, text=True, check=False)
    return done.returncode, done.stdout, done.stderr


def allowed(found):
    """The name of the first stage that refuses, none where no stage does, and the answers that are allowed."""
    for stage in found.stages:
        lines = {(9, "", f"dcc: construct {kind} at {at:04X}\n") for kind, at in stage.constructs}
        lines |= {(10, "", f"dcc: limit {name} {count}\n") for name, count in stage.limits}
        if lines:
            return stage.name, lines
    return "listed", {(0, "".join(line + "\n" for line in found.program.lines()), "")}


def main():
    if len(sys.argv) < 2:
        sys.exit(__doc__)
    sys.path.insert(0, sys.argv[1])
    from dccref import analyse, mz
    count = int(sys.argv[2]) if len(sys.argv) > 2 else 2000
    draw = random.Random(int(sys.argv[3]) if len(sys.argv) > 3 else 1)
    program = sys.argv[4] if len(sys.argv) > 4 else ROOT / "crates" / "dcc" / "out" / "dcc"
    faults, kinds = 0, Counter()
    with tempfile.TemporaryDirectory() as name, ThreadPoolExecutor(2) as pool:
        folder = pathlib.Path(name)
        for cpu in ("8086", "186"):
            codes = [code_of(draw, START, cpu == "186") for _ in range(count // 2)]
            paths = [folder / f"{place}.EXE" for place in range(len(codes))]
            for path, code in zip(paths, codes):
                path.write_bytes(file_of(code, bytes(draw.randrange(256) for _ in range(draw.choice([0, 4, 40])))))
            answers = pool.map(lambda path, cpu=cpu: answer_of(program, cpu, path), paths)
            for path, code, answer in zip(paths, codes, answers):
                stage, wanted = allowed(analyse.front(mz.load(path.read_bytes()), cpu))
                kinds[stage if answer[0] != 0 else f"{answer[1].count(chr(10))} procedures"] += 1
                if answer not in wanted:
                    faults += 1
                    print(f"{cpu} {code.hex(' ')}: {answer}: {stage} {sorted(wanted)[:4]}")
    print(f"{sum(kinds.values())} programs, {faults} faults;", ", ".join(f"{n} {k}" for k, n in sorted(kinds.items())))
    sys.exit(1 if faults else 0)


if __name__ == "__main__":
    main()
