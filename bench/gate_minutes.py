#!/usr/bin/env python3
"""Runs the gate, `rt ci`, in the current folder, and prints the processor minutes of each crate: its proof, its tests' proof and its
must-fail edits. The gate's own output goes to the file that is named (gate.log, if none is).

usage: bench/gate_minutes.py [FILE]
"""
import collections
import os
import re
import subprocess
import sys
import threading
import time

KINDS = ("proof", "tests", "edits")


def checks(folder):
    """The running checks of the folder's crates: (crate, kind), process, processor seconds so far."""
    ticks = os.sysconf("SC_CLK_TCK")
    for process in filter(str.isdigit, os.listdir("/proc")):
        try:
            words = open(f"/proc/{process}/cmdline").read().split("\0")
            stat = open(f"/proc/{process}/stat").read().rsplit(")", 1)[1].split()
            at = os.readlink(f"/proc/{process}/cwd")
        except OSError:
            continue
        name = re.search(r"--crate-name\0(\w+)", "\0".join(words))
        is_edit = "/rt-edit-" in at
        if not words[0].endswith("/rattle") or not name or not (is_edit or at.startswith(folder)):
            continue
        kind = "edits" if is_edit else "tests" if "--test" in words else "proof"
        yield (name[1], kind), (process, stat[19]), (int(stat[11]) + int(stat[12])) / ticks


def measure(folder, total, stop):
    """Adds up, until it is told to stop, what each check takes; what a check takes in its last second is lost."""
    last = {}
    while not stop.wait(1):
        for key, process, seconds in checks(folder):
            total[key] += seconds - last.get(process, 0)
            last[process] = seconds


def main():
    log = sys.argv[1] if len(sys.argv) > 1 else "gate.log"
    total, stop = collections.Counter(), threading.Event()
    watch = threading.Thread(target=measure, args=(os.getcwd() + "/", total, stop))
    watch.start()
    start = time.time()
    with open(log, "w") as out:
        status = subprocess.run(["rt", "ci"], stdout=out, stderr=subprocess.STDOUT, stdin=subprocess.DEVNULL).returncode
    stop.set()
    watch.join()
    names = sorted({name for name, _ in total}, key=lambda it: -sum(total[it, kind] for kind in KINDS))
    print("| Crate | Proof | Tests | Edits | Together |\n|---|---|---|---|---|")
    for name in names:
        each = [total[name, kind] / 60 for kind in KINDS]
        print(f"| {name} | " + " | ".join(f"{it:.1f}" for it in [*each, sum(each)]) + " |")
    print(f"| all | " + " | ".join(f"{sum(total[n, k] for n in names) / 60:.0f}" for k in KINDS) + f" | {sum(total.values()) / 60:.0f} |")
    print(f"\n{(time.time() - start) / 60:.0f} minutes; {subprocess.run(['tail', '-1', log], capture_output=True, text=True).stdout.strip()}")
    return status


if __name__ == "__main__":
    sys.exit(main())
