#!/usr/bin/env python3
"""Compares `dcc watch` with a reference watch on random programs, for both processors.

bench/watch_against_oracle.py REFERENCE [COUNT [SEED [PROGRAM]]]

REFERENCE is a folder with a Python package dccref, which is no part of this repository: its modules analyse and
watch find a program's frames or why it is refused, and run it with each step's cleanness tested. PROGRAM is the built
program, and crates/dcc/out/dcc where no word stands. COUNT accepted programs (5,000) of three kinds are drawn: those
of the reference's generator, random procedures, and procedures that use their stacks, now and then in ways that are
not clean; each runs for at most 3,000 steps on random keys. Those that are drawn besides and refused are compared too.
Prints each program whose output, status or line the reference contradicts, and how often each answer came; the status
is 1 if there is a difference.
"""
import pathlib
import random
import subprocess
import sys
import tempfile
from collections import Counter
from concurrent.futures import ThreadPoolExecutor

from procs_lines_against_oracle import allowed
from procs_show import ROOT, file_of
from random_procedures import code_of
from random_stacks import stack_code

MOST_STEPS = 3_000
START = 5


def answer_of(program, path, trial):
    """The status of the command, what it wrote, and its line."""
    words = [str(program), "watch", str(path), "--cpu", trial.cpu, "--steps", str(trial.steps)]
    done = subprocess.run(words, input=trial.keys, capture_output=True, check=False)
    return done.returncode, done.stdout, done.stderr.decode()


class Trial:
    """A program's file, how it is run, and the answers that the reference allows."""

    def __init__(self, reference, cpu, draw, number):
        analyse, self.watch, self.gen, mz = reference
        self.cpu, self.draw = cpu, draw
        self.file = self.drawn(number)
        self.keys = draw.randbytes(draw.randrange(4))
        self.steps = draw.choice([MOST_STEPS, MOST_STEPS, draw.randrange(200)])
        self.image = mz.load(self.file)
        self.found = analyse.front(self.image, cpu)
        self.kind, self.wanted = self.answers()

    def drawn(self, number):
        """A program's file."""
        draw = self.draw
        rest = draw.randbytes(draw.choice([0, 4, 40]))
        if number % 10 == 0:
            return self.gen.make(draw.randrange(1 << 64), draw.randrange(1, 100))
        if number % 10 < 4:
            return file_of(code_of(draw, START, self.cpu == "186"), rest)
        return file_of(stack_code(draw, self.cpu == "186"), rest)

    def answers(self):
        """A word for what comes of the program, and the answers that are allowed."""
        if not self.found.accepted:
            stage, lines = allowed(self.found)
            return f"refused by {stage}", {(status, out.encode(), line) for status, out, line in lines}
        watch = self.watch.Watch(self.image, self.found.program, self.keys)
        end = watch.run(self.steps)
        out = bytes(watch.out)
        kind = watch.foul.kind if end[0] == "foul" else end[0]
        lines = {
            "running": lambda: (20, out, f"running after {self.steps} steps\n"),
            "exit": lambda: (0, out, f"exit {end[1]}\n"),
            "divide": lambda: (21, out, "divide\n"),
            "outside": lambda: (22, out, f"outside at {end[1]:04X}\n"),
            "foul": lambda: (23, out, watch.foul.line + "\n"),
        }
        return kind, {lines[end[0]]()}


def trials(reference, cpu, draw, count):
    """Trials with so many accepted programs among them."""
    number, accepted = 0, 0
    while accepted < count:
        try:
            trial = Trial(reference, cpu, draw, number)
        except IndexError:
            # The reference follows the displacement of an instruction past the code's end.
            trial = None
        number += 1
        if trial is not None:
            accepted += trial.found.accepted
            yield trial


def main():
    if len(sys.argv) < 2:
        sys.exit(__doc__)
    sys.path.insert(0, sys.argv[1])
    from dccref import analyse, gen, mz, watch
    count = int(sys.argv[2]) if len(sys.argv) > 2 else 5000
    seed = sys.argv[3] if len(sys.argv) > 3 else "1"
    program = sys.argv[4] if len(sys.argv) > 4 else ROOT / "crates" / "dcc" / "out" / "dcc"
    differ, kinds = 0, Counter()
    with tempfile.TemporaryDirectory() as name, ThreadPoolExecutor(2) as pool:
        folder = pathlib.Path(name)
        for cpu in ("8086", "186"):
            drawn = list(trials((analyse, watch, gen, mz), cpu, random.Random(f"{cpu} {seed}"), count // 2))
            paths = [folder / f"{place}.EXE" for place in range(len(drawn))]
            for path, trial in zip(paths, drawn):
                path.write_bytes(trial.file)
            for trial, answer in zip(drawn, pool.map(answer_of, [program] * len(drawn), paths, drawn)):
                kinds[trial.kind] += 1
                if answer not in trial.wanted:
                    differ += 1
                    drawn_so = f"{cpu} {trial.steps} {trial.keys.hex()} {trial.file.hex()}"
                    print(f"{drawn_so}: {answer}: {sorted(trial.wanted)[:4]}")
    print(f"{sum(kinds.values())} programs, {differ} differ;", ", ".join(f"{n} {k}" for k, n in sorted(kinds.items())))
    sys.exit(1 if differ else 0)


if __name__ == "__main__":
    main()
