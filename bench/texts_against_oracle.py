#!/usr/bin/env python3
"""Compares the refusals of `c`, and the events of both sides, with a reference, on random programs with calls.

bench/texts_against_oracle.py REFERENCE [--program PROGRAM] [COUNT [SEED]]

REFERENCE is a folder with a Python package dccref, which is no part of this repository: its module analyse gives the
constructs and the counts of a file, its modules watch and crun run an executable and a text.
PROGRAM is the built program, and crates/dcc/out/dcc where the option doesn't stand. Programs are drawn as
bench/both_sides.py draws them, for either processor, until COUNT have a text. A refusal has to be one that the
reference has, and a text has to have none. Where the executable's run of 600 steps is clean, the text's events begin
with its events, bytes that are taken and reads at the end among them, from the fills 0 and 65535; and where it ended,
the text ends alike with the same events.
Prints each program of which one of these doesn't hold; the status is 1 if there is one.
"""
import argparse
import pathlib
import random
import subprocess
import sys
import tempfile
from collections import Counter

from both_sides import drawn_file
from built import PROGRAM

REFUSED, GREAT = 9, 10
CLEAN_STEPS, TEXT_STEPS = 600, 25_000


def is_told(words, constructs, limits):
    """Whether the reference has what a refusal tells."""
    if words[:2] == ["dcc:", "construct"]:
        return (int(words[2]), int(words[4], 16)) in constructs
    return words[:2] == ["dcc:", "limit"] and (words[2], int(words[3])) in limits


def are_events_alike(reference, image, unit, cpu, keys, fill):
    """Whether a text's events are those of the executable, as far as that run is clean."""
    watched = reference.watch.Watch(image, reference.analyse.front(image, cpu).program, keys)
    end = watched.run(CLEAN_STEPS)
    events = watched.machine.events
    text = reference.crun.CRun(unit, fill, keys)
    text.run(TEXT_STEPS)
    if text.events[:len(events)] != events:
        return False
    return end[0] in ("running", "foul") or (text.end == end and text.events == events)


def answer_of(reference, program, path, drawn, draw):
    """What comes of a program's file: a refusal, or whether both sides agree, or what the reference contradicts."""
    cpu = draw.choice(["8086", "186"])
    path.write_bytes(drawn)
    done = subprocess.run([program, "c", path, "--cpu", cpu], capture_output=True, check=False)
    image = reference.mz.load(drawn)
    constructs, limits = reference.analyse.refusals(image, cpu)
    if done.returncode in (REFUSED, GREAT):
        return "refused" if is_told(done.stderr.decode().split(), constructs, limits) else "REFUSED OTHERWISE"
    if done.returncode or constructs or limits:
        return "ANSWERED OTHERWISE"
    keys = draw.randbytes(draw.randrange(12))
    unit = reference.ctext.parse(done.stdout)
    if all(are_events_alike(reference, image, unit, cpu, keys, fill) for fill in (0, 65535)):
        return "agree"
    return "DIFFER"


def main():
    words = argparse.ArgumentParser(usage=__doc__)
    words.add_argument("reference")
    words.add_argument("--program", default=str(PROGRAM))
    words.add_argument("count", type=int, nargs="?", default=1000)
    words.add_argument("seed", type=int, nargs="?", default=1)
    asked = words.parse_intermixed_args()
    sys.path.insert(0, asked.reference)
    import dccref.analyse, dccref.crun, dccref.ctext, dccref.mz, dccref.watch
    draw, answers = random.Random(asked.seed), Counter()
    with tempfile.TemporaryDirectory() as folder:
        path = pathlib.Path(folder) / "F.EXE"
        while answers["agree"] < asked.count:
            drawn = drawn_file(draw, draw.choice(["8086", "186"]))
            answer = answer_of(dccref, asked.program, path, drawn, draw)
            answers[answer] += 1
            if answer.isupper():
                print(answer, drawn.hex(" "), flush=True)
    print(", ".join(f"{n} {answer}" for answer, n in sorted(answers.items())))
    sys.exit(1 if any(answer.isupper() for answer in answers) else 0)


if __name__ == "__main__":
    main()
