#!/usr/bin/env python3
"""Compares the runs of random programs with those of their texts, by a reference.

bench/goto_against_oracle.py REFERENCE [COUNT [SEED]]

REFERENCE is a folder with a program dcc_ref.py, which is no part of this repository: `run FILE` runs an executable, and
`runc TEXT` a text. Each random program has the built forms, with jumps to their instructions. The texts are those of
`dcc c`; the program is built. A text's run is compared with the executable's on a few
inputs and fills: the one output begins the other, and where both end, they end alike.
Prints each program whose text differs; the status is 1 if there is one.
"""
import pathlib
import random
import subprocess
import sys
import tempfile

from built import build, called
from random_programs import code_of, file_of

STEPS = 3000
RUNNING, OUTSIDE = 20, 22


def ran(reference, words, keys):
    """The status, the output and the end of a run."""
    done = subprocess.run(["python3", str(reference), *words], input=keys, capture_output=True, check=False)
    return done.returncode, done.stdout


def fault_of(reference, path, draw):
    """How the text's run differs from the executable's, or None."""
    text = pathlib.Path(f"{path}.c")
    for fill in (0, 0xFFFF, draw.randrange(65536)):
        keys = bytes(draw.randrange(256) for _ in range(draw.randrange(12)))
        status, out = ran(reference, ["run", str(path), "--steps", str(STEPS)], keys)
        other, shown = ran(reference, ["runc", str(text), "--steps", str(40 * STEPS), "--fill", str(fill)], keys)
        if not (shown.startswith(out) or out.startswith(shown)):
            return f"outputs {out!r} and {shown!r} on {keys!r}"
        if status != RUNNING and (other != status or out != shown):
            return f"ends {status} and {other}, outputs {out!r} and {shown!r} on {keys!r}"
        if status == RUNNING and other == RUNNING and not shown.startswith(out):
            return f"the text lags: {out!r} and {shown!r} on {keys!r}"
    return None


def main():
    if len(sys.argv) < 2:
        sys.exit(__doc__)
    reference = pathlib.Path(sys.argv[1]) / "dcc_ref.py"
    count = int(sys.argv[2]) if len(sys.argv) > 2 else 100
    draw = random.Random(int(sys.argv[3]) if len(sys.argv) > 3 else 1)
    programs = [code_of(draw) for _ in range(count)]
    faults, compared = 0, 0
    build()
    with tempfile.TemporaryDirectory() as name:
        folder = pathlib.Path(name)
        for place, code in enumerate(programs):
            path = folder / f"{place}.EXE"
            path.write_bytes(file_of(code))
            status, text, _ = called(["c", path])
            if status != 0:
                continue
            pathlib.Path(f"{path}.c").write_bytes(text)
            compared += 1
            fault = fault_of(reference, path, draw)
            if fault is not None:
                faults += 1
                print(f"{code.hex(' ')}: {fault}")
    print(f"{count} programs, {compared} texts, {faults} faults")
    sys.exit(1 if faults else 0)


if __name__ == "__main__":
    main()
