#!/usr/bin/env python3
"""Compares find, heights and cells with a reference analysis on random programs, for both processors.

bench/procs_against_oracle.py REFERENCE [COUNT [SEED]]

REFERENCE is a folder with a Python package dccref, which is no part of this repository: its modules
mz, layout, trails, heights and cells give the image, the layout, the nodes with their heights, the frames, the
constructs and the counts of a file.
The programs have procedures with frames, calls, divisions, DOS calls and jumps through tables, or use their frames in
many ways; some are careless, some are changed at random.
Prints each program whose answer the reference contradicts; the status is 1 if there is one.
"""
import pathlib
import random
import sys
import tempfile
from collections import Counter

import random_frames
import random_procedures
from procs_show import answers, built, file_of

START = 5


def wanted(found, heights, cells):
    """The words for the procedures that the reference finds, with their heights and frames."""
    words = ["found"]
    for place, proc in enumerate(found.procs):
        words.append(f"={proc.entry}-{heights.ret(place)}")
        for at, node in proc.nodes.items():
            number = f"#{next(iter(node.ahs))}" if node.op[0] == "Int21" else ""
            words.append(f"{at}+{node.instr.len}@{heights.only(place, at)}"
                         + "".join(f">{to}" for to in node.succ) + number)
    for frame in cells.frames:
        words += [str(frame.framed).lower(), str(frame.args),
                  f"{frame.local}" + ("" if frame.arg is None else f"-{frame.arg}")]
        words += [f"{first}:{size}" for first, size in frame.cells]
    return words


def refused(words, constructs, limits):
    """What is wrong with a refusal."""
    if words[0] == "construct":
        return None if (int(words[1]), int(words[2])) in constructs else "no such construct"
    return None if (words[1].lower(), int(words[2])) in limits else "no such count"


def fault_of(line, found, heights, cells, stands):
    """What is wrong with an answer, by the reference; None where it is right.

    `stands`: what trails, limits and heights refuse.
    """
    constructs, limits, of_heights = stands
    words = line.split()
    if words[0] in ("construct", "limit"):
        return refused(words, constructs, limits)
    if constructs or limits:
        return f"accepted, with {sorted(constructs)} and {sorted(limits)}"
    if words[0] == "heights":
        return refused(words[1:], of_heights, [])
    if of_heights:
        return f"accepted, with {sorted(of_heights)}"
    if words[0] == "frames":
        return refused(words[1:], cells.constructs, cells.limits)
    if words[0] != "found":
        return "no answer"
    if cells.constructs or cells.limits:
        return f"accepted, with {sorted(cells.constructs)} and {sorted(cells.limits)}"
    right = wanted(found, heights, cells)
    return None if words == right else f"nodes {right}"


def kind_of(line, found):
    """A name for the answer."""
    words = line.split()
    if words[0] in ("heights", "frames"):
        return " ".join(words[:3])
    if words[0] != "found":
        return " ".join(words[:2])
    tables = any(node.op[0] == "Table" for proc in found.procs for node in proc.nodes.values())
    return "found with tables" if tables else "found several" if len(found.procs) > 1 else "found one"


def main():
    if len(sys.argv) < 2:
        sys.exit(__doc__)
    sys.path.insert(0, sys.argv[1])
    from dccref import cells, heights, layout, mz, trails
    count = int(sys.argv[2]) if len(sys.argv) > 2 else 2000
    draw = random.Random(int(sys.argv[3]) if len(sys.argv) > 3 else 1)
    faults, kinds = 0, Counter()
    with tempfile.TemporaryDirectory() as name:
        folder = pathlib.Path(name)
        program = built(folder)
        for cpu in ("8086", "186"):
            codes = [draw.choice([random_procedures, random_frames]).code_of(draw, START, cpu == "186")
                     for _ in range(count // 2)]
            paths = [folder / f"{place}.EXE" for place in range(len(codes))]
            for path, code in zip(paths, codes):
                rest = bytes(draw.randrange(256) for _ in range(draw.choice([0, 4, 40])))
                path.write_bytes(file_of(code, rest, draw.choice([0, 0, 0, 0, 0, 1])))
            for path, code, line in zip(paths, codes, answers(program, cpu, paths)):
                image = mz.load(path.read_bytes())
                plan = layout.layout(image, cpu)
                if plan is None:
                    fault, kind = None if line == "no layout" else "no layout", "no layout"
                else:
                    found = trails.find(image, plan)
                    at = heights.heights(found)
                    stands = (trails.find_constructs(image, plan, found), trails.find_limits(found),
                              heights.height_constructs(found, at))
                    frames = cells.cells(found, at, plan.delta)
                    fault = fault_of(line, found, at, frames, stands)
                    kind = kind_of(line, found)
                kinds[kind] += 1
                if fault is not None:
                    faults += 1
                    print(f"{cpu} {code.hex(' ')}: {line}: {fault}")
    print(f"{sum(kinds.values())} programs, {faults} faults;", ", ".join(f"{n} {k}" for k, n in sorted(kinds.items())))
    sys.exit(1 if faults else 0)


if __name__ == "__main__":
    main()
