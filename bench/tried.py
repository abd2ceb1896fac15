"""Runs a program over the crates of this repository without proving it."""
import pathlib
import shutil
import subprocess
import sys

ROOT = pathlib.Path(__file__).resolve().parent.parent

# The most seconds that the run may take.
SECONDS = 3000


def tried(folder, name, source, dependencies, paths, heads, added=None):
    """The lines that begin with one of the heads, of which the program prints one for each path.

    The crates are copied into the folder, and the program is a crate of this name beside them. What is to be added to
    files of the copied crates stands by their paths."""
    crates = folder / "crates"
    shutil.copytree(ROOT / "crates", crates, ignore=shutil.ignore_patterns("out"))
    for path, text in (added or {}).items():
        (crates / path).write_text((crates / path).read_text() + text)
    sources = crates / name / "src"
    sources.mkdir(parents=True)
    (sources / "main.rt").write_text(source)
    (folder / "crates.txt").write_text(f"{(ROOT / 'crates.txt').read_text()}{name}: {dependencies}\n")
    words = ["rt", "try", "--seconds", str(SECONDS), "--", *map(str, paths)]
    done = subprocess.run(words, cwd=sources.parent, capture_output=True, text=True, check=False)
    lines = [line for line in done.stdout.splitlines() if line.startswith(heads)]
    if len(lines) != len(paths):
        sys.exit(f"rt try gave {len(lines)} lines of {len(paths)}:\n{done.stdout}{done.stderr}")
    return lines
