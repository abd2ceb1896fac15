#!/usr/bin/env python3
"""Compares the parser with a reference reader of texts.

bench/refusals/compare.py REFERENCE [COUNT [SEED]]

REFERENCE is the folder with the reference's package `dccref`, which is no part of this repository. Compared are the
systematic texts, and COUNT texts that are made at random and changed. The program dcc is built, and asked for no step of
each text's run. Prints each text whose answer differs, and tells how many differ as the reference allows for another
reading; the status is 1 where one differs otherwise.
"""
import pathlib
import random
import sys
import tempfile
import threading
from collections import Counter

sys.path.insert(0, str(pathlib.Path(__file__).resolve().parent.parent))
import systematic  # noqa: E402
import texts  # noqa: E402
from built import build, called  # noqa: E402

# The status of a text that is refused.
REFUSED = 11


def reference(text):
    """The first offence that the reference tells, or None; and other answers that it allows."""
    from dccref.ctext import ParseFault, parse
    try:
        parse(text.encode("latin-1"), 1)
    except ParseFault as fault:
        return (fault.line, fault.kind), fault.also
    return None, set()


def answer_of(path):
    """The line and the kind that the parser tells, or None."""
    status, _, line = called(["runc", path, "--steps", 0])
    if status != REFUSED:
        return None
    words = line.decode().split()
    return int(words[-1]), words[2]


def compared(named):
    """Compares the parser and the reference on texts with names; tells how many differ."""
    counts = Counter()
    with tempfile.TemporaryDirectory() as name:
        path = pathlib.Path(name) / "TEXT.C"
        for title, text in named:
            path.write_bytes(text.encode("latin-1"))
            ours = answer_of(path)
            theirs, also = reference(text)
            counts[theirs[1] if theirs else "accepted"] += 1
            if ours == theirs:
                continue
            counts["allowed" if ours in also else "different"] += 1
            if ours not in also:
                print(f"--- {title}: ours {ours}, reference {theirs}, or {sorted(also, key=str)}", flush=True)
                print("\n".join(f"{n + 1:3} {part!r}" for n, part in enumerate(text.split("\n")[:40])), flush=True)
    print(len(named), "texts:", dict(counts), flush=True)
    return counts["different"]


def changed_at_random(count, seed):
    for n in range(count):
        draw = random.Random(seed * 1000003 + n)
        text = texts.good(draw.random())
        yield f"random {seed} {n}", texts.changed(text, draw) if n % 10 else text


def main():
    build()
    sys.path.insert(0, sys.argv[1])
    count = int(sys.argv[2]) if len(sys.argv) > 2 else 2000
    seed = int(sys.argv[3]) if len(sys.argv) > 3 else 1
    named = list(systematic.texts()) + list(changed_at_random(count, seed))
    differ.append(compared(named))


differ = []

if __name__ == "__main__":
    if len(sys.argv) < 2:
        sys.exit(__doc__)
    # The reference's reader calls itself for each part inside another.
    sys.setrecursionlimit(1000000)
    threading.stack_size(512 * 1024 * 1024)
    thread = threading.Thread(target=main)
    thread.start()
    thread.join()
    sys.exit(1 if not differ or differ[0] else 0)
