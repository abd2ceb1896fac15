#!/usr/bin/env python3
"""Compares the structure of texts, and what they do, with a reference, on random graphs and on structured programs.

bench/shapes_against_oracle.py REFERENCE [--program PATH] [--graphs N] [--runs N] [--seed N]

REFERENCE is a folder with a package dccref, which is no part of this repository: it tells whether a text has the shape
that its executable asks for. PATH is a built dcc; where it doesn't stand, dcc is built and proved first.
Each of N graphs (10,000) becomes an executable of one procedure: reducible or not, of up to 60 blocks, with tests that
go to one block both ways, choices with shared cases, and tables of one word. `c` must give its text, whose labels,
loops, jumps and numbers of statements must be as the graph asks, and in which no statement stands twice. Of a graph
without a text a small part that has none either is sought. Each of N programs (1,000) has loops, most have tests and choices, many several procedures. Executable
and text run on the same inputs: the one output begins the other, and where both end, they end alike; of a few the
events of both runs are compared too, by the reference. Last, tests and loops are nested up to 300 deep.
Prints what is wrong, and how many there were of each kind; the status is 1 if something is wrong.
"""
import argparse
import pathlib
import random
import sys
import tempfile
from collections import Counter

import built
from procs_show import file_of
from random_structures import assembled, code_of_graph, graph_of, nested_code, structured_code

SHAPELESS = 12
RUNNING = 20
# The steps of a graph's executable, and of a program's; a text takes a few for each.
FEW, STEPS, MORE = 400, 4000, 40
SMALLER = 400
# Stores of blocks go to this offset of the data and those behind it.
STORES = 0x4000


class Shelf:
    """A folder with one executable and its text, and the reference."""

    def __init__(self, folder, reference):
        self.file, self.text = folder / "F.EXE", folder / "F.C"
        sys.path.insert(0, str(reference))
        from dccref import analyse, crun, ctext, machine, mz, shape
        self.analyse, self.shape, self.machine, self.mz = analyse, shape, machine, mz
        self.crun, self.ctext = crun, ctext
        self.first = self.func = None

    def decompiled(self, lines):
        """The status of `c` on an executable of these lines; its text is on the shelf where that is 0."""
        self.file.write_bytes(file_of(assembled(lines)))
        status, text, _ = built.called(["c", self.file])
        self.text.write_bytes(text)
        return status

    def breaches(self):
        """What the shape of the text on the shelf lacks; then the first procedure and its function are on the shelf."""
        shape, unit = self.shape, self.ctext.parse(self.text.read_bytes())
        answer = self.analyse.front(self.mz.load(self.file.read_bytes()), "8086")
        procs, found = [shape.procedure_of(proc) for proc in answer.program.procs], []
        self.first, self.func = procs[0], unit.funcs[0]
        for asked, func in zip(procs, unit.funcs):
            for check in (shape.check_s4, shape.check_s5, shape.check_count, shape.check_s8):
                found += check(func, asked)
        return found

    def runs_differ(self, keys, fill, steps=STEPS):
        """How the run of the text differs from that of the executable, or None."""
        run = built.called(["run", self.file, "--steps", steps], keys)
        shown = built.called(["runc", self.text, "--steps", MORE * steps, "--fill", fill], keys)
        if run[0] != RUNNING:
            return None if run == shown else f"{run} and {shown}"
        if not shown[1].startswith(run[1]):
            return f"the text lags: {run} and {shown}"
        if shown[0] == RUNNING:
            return None
        later = built.called(["run", self.file, "--steps", 10_000_000], keys)
        return None if later == shown else f"{later} and {shown}"

    def events_differ(self, keys, fill):
        """Whether the events of the executable's run aren't the first of the text's, or not all where it ends."""
        run = self.machine.Machine(self.mz.load(self.file.read_bytes()), "8086", keys)
        text = self.crun.CRun(self.ctext.parse(self.text.read_bytes()), fill, keys)
        end, shown = run.run(STEPS // 8), text.run(MORE * STEPS // 8)
        if end == self.machine.RUNNING:
            return text.events[:len(run.events)] != run.events
        return (end, run.events) != (shown, text.events)


def smaller(draw, shelf, ends):
    """A part of a graph without a text that has none either: some of its ends lead on, or are left out."""
    for _ in range(SMALLER):
        part = list(ends)
        if draw.random() < 0.6 and len(part) > 1:
            gone = draw.randrange(len(part))
            part = [moved(end, gone, len(part) - 1) for n, end in enumerate(part) if n != gone]
        else:
            part[draw.randrange(len(part))] = ("goes", draw.randrange(len(part)))
        if any(shelf.decompiled(plain_graph(part)) == SHAPELESS for _ in range(2)):
            ends = part
    return ends


def moved(end, gone, count):
    """The end of a block in a graph of so many, from which a block is gone."""
    def to(block):
        return min(count - 1, block - (block > gone))
    if end[0] == "choice":
        return ("choice", [to(block) for block in end[1]], to(end[2]))
    return (end[0], *map(to, end[1:]))


def plain_graph(ends):
    """The lines of a graph whose blocks have no instructions but those that their ends need."""
    return code_of_graph(random.Random(0), ends)


def not_once(shelf, lines):
    """The blocks of a graph whose store, which no other block has, stands more than once in the text."""
    stores = []
    for line in lines:
        stores.append(line)
        if line[0] == "at":
            stores.append(("put", b"\xA3" + (STORES + 2 * line[1]).to_bytes(2, "little")))
    if shelf.decompiled(stores) != 0:
        return []
    text = shelf.text.read_bytes()
    return [line[1] for line in lines
            if line[0] == "at" and text.count(b"*(unsigned int *)%d = " % (STORES + 2 * line[1])) > 1]


def graphs(shelf, draw, count, told):
    """Tells of the texts of so many graphs."""
    for _ in range(count):
        ends = graph_of(draw)
        status = shelf.decompiled(code_of_graph(draw, ends))
        told[f"graphs with status {status}"] += 1
        if status == SHAPELESS:
            wrong(told, f"no text of {ends}; smaller: {smaller(draw, shelf, ends)}")
        if status != 0:
            continue
        found = shelf.breaches()
        if found:
            wrong(told, f"{ends}: {', '.join(map(str, found))}")
        told["graphs that are reducible"] += shelf.first.ends_in_one
        told["graphs with loops"] += bool(shelf.first.headers)
        told["graphs of 20 branches or more"] += shelf.first.branches >= 20
        fault = shelf.runs_differ(draw.randbytes(draw.randrange(12)), draw.choice([0, 65535]), FEW)
        if fault is not None:
            wrong(told, f"{ends}: {fault}")
        twice = not_once(shelf, code_of_graph(draw, ends))
        if twice:
            wrong(told, f"{ends}: blocks {twice} stand twice")


def structured(shelf, draw, count, told):
    """Tells of the runs of so many programs with loops and of their texts."""
    while told["programs with a text"] < count:
        lines = structured_code(draw, draw.choice([2, 3, 3, 4]))
        status = shelf.decompiled(lines)
        text = shelf.text.read_bytes()
        if status == 0 and not any(word in text for word in (b"while (", b"for (;;)")):
            continue
        told[f"programs with status {status}"] += 1
        if status == SHAPELESS:
            wrong(told, f"no text of {assembled(lines).hex()}")
        if status != 0:
            continue
        told["programs with a text"] += 1
        told["with calls"] += b"f_" in text
        told["with goto"] += b"goto " in text
        found = shelf.breaches()
        if found:
            wrong(told, f"{assembled(lines).hex()}: {', '.join(map(str, found))}")
        for fill in (0, 65535, draw.randrange(65536)):
            keys = draw.randbytes(draw.randrange(12))
            fault = shelf.runs_differ(keys, fill)
            if fault is not None:
                wrong(told, f"{assembled(lines).hex()} with {keys.hex()} and {fill}: {fault}")
        if draw.random() < 0.1:
            told["compared by events"] += 1
            if shelf.events_differ(keys, fill):
                wrong(told, f"{assembled(lines).hex()} with {keys.hex()} and {fill}: events differ")


def nests(shelf, told):
    """Tells of the texts of deep nests."""
    for kind in ("tests", "loops", "whiles", "jumps back", "jumps far back"):
        for count in (99, 100, 101, 190, 198, 199, 200, 201, 202, 220, 260, 300):
            status = shelf.decompiled(nested_code(count, kind))
            told[f"nests with status {status}"] += 1
            if status != 0:
                wrong(told, f"no text of {count} {kind} in each other")
                continue
            found, gotos = shelf.breaches(), shelf.text.read_text().count("goto ")
            print(f"{count} {kind}: {shelf.shape.nesting(shelf.shape.spots(shelf.func))} deep, {gotos} goto")
            if found:
                wrong(told, f"{count} {kind}: {', '.join(map(str, found))}")
            fault = shelf.runs_differ(b"", 0)
            if fault is not None:
                wrong(told, f"{count} {kind}: {fault}")


def wrong(told, what):
    """Tells what is wrong."""
    told["faults"] += 1
    print(what, flush=True)


def main():
    words = argparse.ArgumentParser(usage=__doc__)
    words.add_argument("reference", type=pathlib.Path)
    words.add_argument("--program", type=pathlib.Path)
    words.add_argument("--graphs", type=int, default=10_000)
    words.add_argument("--runs", type=int, default=1000)
    words.add_argument("--seed", type=int, default=1)
    asked = words.parse_args()
    if asked.program:
        built.PROGRAM = asked.program.resolve()
    else:
        built.build()
    told = Counter()
    with tempfile.TemporaryDirectory() as name:
        shelf = Shelf(pathlib.Path(name), asked.reference)
        graphs(shelf, random.Random(asked.seed), asked.graphs, told)
        structured(shelf, random.Random(asked.seed), asked.runs, told)
        nests(shelf, told)
    print(", ".join(f"{n} {what}" for what, n in sorted(told.items())))
    sys.exit(1 if told["faults"] else 0)


if __name__ == "__main__":
    main()
