#!/usr/bin/env python3
"""Compares the runs of random programs with those of their texts, by the commands `c`, `watch` and `runc`.

bench/both_sides.py [--cpu 8086|186] [COUNT [SEED]]

Random programs are drawn until COUNT have a text for the processor, the 8086 where the option doesn't stand. Some have
one procedure, with instructions on registers and jumps to each of them, or with memory, frames, pushes, divisions,
tables and strings; most have several, with recursion, arguments, results, saved registers, addresses of frames that are
passed on, and tails that procedures share. What is refused is counted besides. The program dcc is built, and runs each
executable, with data, on the processor and its text on a random input, the text with the fills 0 and 65535. Where the executable's run is
clean up to its end, the text ends alike behind the same output; where it goes on after 3,000 steps, or the next step
isn't clean, the text has put out as much after 120,000 steps; and where the run goes on and the text has ended by then,
the executable ends alike in 10,000,000 steps.
Prints each program whose text differs; the status is 1 if there is one.
"""
import argparse
import pathlib
import random
import sys
import tempfile
from collections import Counter

from built import build, called
from procs_show import file_of
from random_calls import calling_file
from random_programs import code_of
from random_wholes import alone_code, whole_code

RUNNING = 20
FOUL = 23


def is_alike(file, cpu, text, keys, fill):
    """Whether the runs of the executable and of its text agree."""
    watch = ["watch", file, "--cpu", cpu, "--steps"]
    machine = called([*watch, 3000], keys)
    shown = called(["runc", text, "--steps", 120000, "--fill", fill], keys)
    if machine[0] not in (RUNNING, FOUL):
        return machine == shown
    if machine[0] == FOUL or shown[0] == RUNNING:
        return shown[1].startswith(machine[1])
    later = called([*watch, 10_000_000], keys)
    return later == shown or later[0] == FOUL


def answer_of(folder, drawn, cpu, draw):
    """What comes of a program's file: the status of `c`, or whether both sides agree and whether the run is clean."""
    file, text = folder / "F.EXE", folder / "F.C"
    file.write_bytes(drawn)
    status, out, _ = called(["c", file, "--cpu", cpu])
    if status != 0:
        return f"refused with {status}"
    text.write_bytes(out)
    keys = bytes(draw.randrange(256) for _ in range(draw.randrange(12)))
    if not all(is_alike(file, cpu, text, keys, fill) for fill in (0, 65535)):
        return "differ"
    return "agree and foul" if called(["watch", file, "--cpu", cpu, "--steps", 3000], keys)[0] == FOUL else "agree"


def drawn_file(draw, cpu):
    """A program's file, with some data."""
    later, kind = cpu == "186", draw.randrange(8)
    if kind > 3:
        return calling_file(draw, later)
    code = code_of(draw, cpu) if kind == 0 else alone_code(draw, later) if kind < 3 else whole_code(draw, later)
    return file_of(code, draw.randbytes(draw.choice([0, 4, 40, 64, 300])), draw.choice([0, 0, 2, 4]))


def main():
    words = argparse.ArgumentParser(usage=__doc__)
    words.add_argument("--cpu", choices=["8086", "186"], default="8086")
    words.add_argument("count", type=int, nargs="?", default=1000)
    words.add_argument("seed", type=int, nargs="?", default=1)
    asked = words.parse_args()
    draw = random.Random(asked.seed)
    build()
    answers = Counter()
    with tempfile.TemporaryDirectory() as name:
        while answers["agree"] + answers["agree and foul"] + answers["differ"] < asked.count:
            file = drawn_file(draw, asked.cpu)
            answer = answer_of(pathlib.Path(name), file, asked.cpu, draw)
            answers[answer] += 1
            if answer == "differ":
                print(file.hex(" "), flush=True)
    print(", ".join(f"{n} {answer}" for answer, n in sorted(answers.items())))
    sys.exit(1 if answers["differ"] else 0)


if __name__ == "__main__":
    main()
