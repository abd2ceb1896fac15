#!/usr/bin/env python3
"""Refuses each growth of memory in turn, and gives less and less address space, and tells what dcc answers.

bench/refused_growths.py [PROGRAM]

PROGRAM is the built program, and crates/dcc/out/dcc where no word stands. The program that fills a buffer in its
caller's frame and writes it goes through `c`, `procs`, `watch` and `run`, and its text through `runc`. Wanted: just the
answer of a call to which nothing was refused, or status 7 with `dcc: memory`, where `c` and `procs` have put out nothing
and a run has put out what it had before. A line has the command, its growths, how many of the refused ones ended in 7
and how many in the answer; then for the address space the greatest number of MiB that ended in 7 and the least that gave
the answer. Another answer ends the bench with status 1.
"""
import os
import pathlib
import resource
import subprocess
import sys
import tempfile

from built import PROGRAM, build
from procs_show import file_of

FILLS = bytes.fromhex("E80500B8004CCD21558BEC83EC16C746FE00008D7EEAE80B008D56EAB409CD218BE55DC3"
                      "B90400C6057847E2FAC60524C3")

# Stands before the C library's calls, counts them and refuses the one that FAIL_AT names; tells the count on request.
REFUSES = r"""
#define _GNU_SOURCE
#include <dlfcn.h>
#include <errno.h>
#include <stdio.h>
#include <stdlib.h>
static long calls, at = -1;
static int refused(void) {
    if (at < 0) { const char *word = getenv("FAIL_AT"); at = word ? atol(word) : 0; }
    return ++calls == at;
}
void *malloc(size_t size) {
    static void *(*next)(size_t);
    if (!next) next = dlsym(RTLD_NEXT, "malloc");
    if (refused()) { errno = ENOMEM; return 0; }
    return next(size);
}
void *realloc(void *old, size_t size) {
    static void *(*next)(void *, size_t);
    if (!next) next = dlsym(RTLD_NEXT, "realloc");
    if (refused()) { errno = ENOMEM; return 0; }
    return next(old, size);
}
__attribute__((destructor)) static void told(void) {
    const char *path = getenv("FAIL_COUNT");
    if (!path) return;
    FILE *file = fopen(path, "w");
    if (file) { fprintf(file, "%ld", calls); fclose(file); }
}
"""
RUNS = ("watch", "run", "runc")


def answer(words, env=None, limit=None):
    """The status of a call, what it puts out and its line, where so many bytes of address space are given."""
    done = subprocess.run([str(word) for word in words], input=b"", capture_output=True, check=False,
                          env={**os.environ, **(env or {})}, timeout=60,
                          preexec_fn=limit and (lambda: resource.setrlimit(resource.RLIMIT_AS, (limit, limit))))
    return done.returncode, done.stdout, done.stderr


def is_want_of_memory(command, given, whole):
    """Whether the call told want of memory, having put out no more than it may have."""
    put_out = whole[1].startswith(given[1]) if command in RUNS else given[1] == b""
    return given[0] == 7 and put_out and given[2] == b"dcc: memory\n"


def refused_in_turn(words, library, folder):
    """How many growths the call has, and how many refused ones ended in each way."""
    count = folder / "count"
    whole = answer(words, {"LD_PRELOAD": library, "FAIL_COUNT": str(count)})
    growths, memory = int(count.read_text()), 0
    for at in range(1, growths + 1):
        given = answer(words, {"LD_PRELOAD": library, "FAIL_AT": str(at)})
        if given != whole and not is_want_of_memory(words[1], given, whole):
            sys.exit(f"{words[1]}: growth {at} refused gives {given[0]} {given[2]!r} and {len(given[1])} bytes")
        memory += given != whole
    return growths, memory


def in_less_space(words):
    """The greatest address space in MiB that ended in status 7, and the least with the answer."""
    whole, most, least = answer(words), 0, 0
    for mib in range(4, 65, 2):
        given = answer(words, limit=mib << 20)
        if given == whole:
            least = least or mib
        elif is_want_of_memory(words[1], given, whole):
            most = mib
        else:
            sys.exit(f"{words[1]}: {mib} MiB give {given[0]} {given[2]!r}")
    return most, least


def main():
    if len(sys.argv) < 2:
        build()
    program = pathlib.Path(sys.argv[1] if len(sys.argv) > 1 else PROGRAM).resolve()
    with tempfile.TemporaryDirectory() as name:
        folder = pathlib.Path(name)
        library, source = folder / "refuses.so", folder / "refuses.c"
        source.write_text(REFUSES)
        subprocess.run(["gcc", "-shared", "-fPIC", "-O1", "-o", library, source, "-ldl"], check=True)
        file, text = folder / "FILLS.EXE", folder / "FILLS.C"
        file.write_bytes(file_of(FILLS, b"", 0))
        text.write_bytes(answer([program, "c", file])[1])
        for command, given in [("c", file), ("procs", file), ("watch", file), ("run", file), ("runc", text)]:
            words = [program, command, given]
            growths, memory = refused_in_turn(words, str(library), folder)
            most, least = in_less_space(words)
            print(f"{command:6}{growths:6} growths: {memory} refused end in 7, {growths - memory} in the answer;"
                  f" up to {most} MiB of address space 7, from {least} MiB the answer")


if __name__ == "__main__":
    main()
