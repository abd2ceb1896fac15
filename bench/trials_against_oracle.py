#!/usr/bin/env python3
"""Compares `dcc trial` with a reference on programs made at random.

bench/trials_against_oracle.py REFERENCE [COUNT [SEED [PROGRAM]]]

REFERENCE is a folder with a Python package dccref, which is no part of this repository: its modules gen, mz, analyse and
machine give the file of a seed and a size, its procedures and what it puts out. The text's run has to end as the
machine's does, with the same number of bytes; of runs that are cut off both sides are running, the machine has put out
what the reference has, and the text no more than a whole run puts out. PROGRAM is the built program, and
crates/dcc/out/dcc where no word stands. Of COUNT trials (50) one of three is cut off.
Prints each trial that the reference contradicts; the status is 1 if there is one.
"""
import pathlib
import random
import subprocess
import sys

from procs_show import ROOT

# The most steps of a trial whose sides have both ended.
STEPS = 1000000


def side_of(machine, image, steps):
    """The number of bytes that the machine puts out, and how it ends."""
    run = machine.Machine(image)
    run.run(steps)
    return len(run.out), " ".join(map(str, run.end))


def disagreement(reference, row, lines):
    """What the lines should have been, where they aren't."""
    make, mz, analyse, machine = reference
    seed, size, steps = row
    file = make(seed, size)
    image = mz.load(file)
    whole, cut = side_of(machine, image, STEPS), side_of(machine, image, steps)
    wanted = [f"file {len(file)}", f"procedures {len(analyse.front(image, '8086').program.procs)}",
              f"machine {cut[0]} {cut[1]}", "prefix yes"]
    if len(lines) != 6 or [lines[0], lines[1], lines[3], lines[5]] != wanted or not lines[2].startswith("text "):
        return wanted
    head, count, ending = lines[4].split(" ", 2)
    agrees = (int(count), ending) == whole if steps == STEPS else ending in ("running", whole[1]) and int(count) <= whole[0]
    return None if head == "c" and agrees else [*wanted, f"c {whole}"]


def main():
    if len(sys.argv) < 2:
        sys.exit(__doc__)
    sys.path.insert(0, sys.argv[1])
    from dccref import analyse, machine, mz
    from dccref.gen import make
    count = int(sys.argv[2]) if len(sys.argv) > 2 else 50
    draw = random.Random(int(sys.argv[3]) if len(sys.argv) > 3 else 1)
    program = pathlib.Path(sys.argv[4]) if len(sys.argv) > 4 else ROOT / "crates" / "dcc" / "out" / "dcc"
    rows = [(7, 400, STEPS), (1, 1000, STEPS), (0, 1, 0)]
    rows += [(draw.getrandbits(64), draw.randint(1, 1000), draw.choice([STEPS, STEPS, draw.randrange(5000)]))
             for _ in range(count)]
    wrong = 0
    for row in rows:
        done = subprocess.run([str(program), "trial", *map(str, row)], capture_output=True, text=True, check=False)
        wanted = disagreement((make, mz, analyse, machine), row, done.stdout.splitlines())
        if done.returncode != 0 or wanted is not None:
            wrong += 1
            print(f"seed {row[0]}, size {row[1]}, steps {row[2]}: {done}, and not {wanted}")
    print(f"{len(rows)} trials compared, {wrong} others")
    return 1 if wrong else 0


if __name__ == "__main__":
    sys.exit(main())
