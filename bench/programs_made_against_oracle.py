#!/usr/bin/env python3
"""Compares the files that `make` gives with those of a reference, byte for byte.

bench/programs_made_against_oracle.py REFERENCE [COUNT [SEED [PROGRAM]]]

REFERENCE is a folder with a Python package dccref, which is no part of this repository: its module gen gives the file
of a seed and a size. PROGRAM is SHOW below as it was built before; where no word stands, it is run over the crates
before their proof. Prints each seed and size whose file is another one; the status is 1 if there is one.
"""
import pathlib
import random
import subprocess
import sys
import tempfile

from tried import tried

# Prints, for each word SEED:SIZE, the bytes of the file in hexadecimal digits.
SHOW = """\
//! Prints the files of seeds and sizes.
#![tactic(auto)]

use anyhow::Error;
use dcc_gen::make;
use std::env;

fn main(rt: HostRuntime) -> Result<(), Error> {
    let alloc = rt.alloc();
    for word in env::args(&rt)?.skip(1) {
        let word = word;
        let Some((seed, size)) = word.split_once(':') else {
            continue;
        };
        let (Ok(seed), Ok(size)) = (seed.parse::<u64>(), size.parse::<u16>()) else {
            continue;
        };
        if size < 1 || size > 1000 {
            continue;
        }
        let file = make(alloc, seed, size)?;
        let mut line = String::new(alloc);
        for byte in file.iter() {
            line.push_str(&format!(in alloc; "{byte:02x}")?)?;
        }
        println!(rt; "made {line}")?;
    }
    Ok(())
}
"""


def main():
    if len(sys.argv) < 2:
        sys.exit(__doc__)
    sys.path.insert(0, sys.argv[1])
    from dccref.gen import make
    count = int(sys.argv[2]) if len(sys.argv) > 2 else 200
    draw = random.Random(int(sys.argv[3]) if len(sys.argv) > 3 else 1)
    rows = [(0, 1), (7, 400), (1, 1000), (2 ** 64 - 1, 1000)]
    rows += [(draw.getrandbits(draw.choice([8, 32, 64])), draw.randint(1, 1000)) for _ in range(count)]
    words = [f"{seed}:{size}" for seed, size in rows]
    if len(sys.argv) > 4:
        lines = subprocess.run([sys.argv[4], *words], capture_output=True, text=True, check=True).stdout.splitlines()
    else:
        with tempfile.TemporaryDirectory() as name:
            lines = tried(pathlib.Path(name), "made_show", SHOW, "dcc_gen anyhow", words, ("made ",))
    wrong = [row for row, line in zip(rows, lines) if bytes.fromhex(line.split()[1]) != make(*row)]
    for seed, size in wrong:
        print(f"another file: seed {seed}, size {size}")
    print(f"{len(rows)} files compared, {len(wrong)} others")
    return 1 if wrong else 0


if __name__ == "__main__":
    sys.exit(main())
