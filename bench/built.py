"""The program as it is built and proved, and programs over its crates."""
import pathlib
import shutil
import subprocess
import sys

ROOT = pathlib.Path(__file__).resolve().parent.parent
PROGRAM = ROOT / "crates" / "dcc" / "out" / "dcc"


def build():
    """Proves and builds the program where that isn't done; the script at the root does it."""
    subprocess.run([str(ROOT / "dcc"), "--prove"], check=True)


def called(words, keys=b""):
    """The status of a call of the program, what it puts out, and its line on the error stream."""
    done = subprocess.run([str(PROGRAM), *map(str, words)], input=keys, capture_output=True, check=False)
    return done.returncode, done.stdout, done.stderr


def crates_below(name):
    """The lines of crates.txt of this crate and of those below it, by their names."""
    lines = [line for line in (ROOT / "crates.txt").read_text().splitlines() if ":" in line.split("#")[0]]
    found, pending, all_lines = {}, [name], {line.split(":")[0].strip(): line for line in lines}
    while pending:
        crate = pending.pop()
        if crate in all_lines and crate not in found:
            found[crate] = all_lines[crate]
            pending += all_lines[crate].split(":")[1].split()
    return found


def over(folder, name, source, crate, others=""):
    """The path of the program of that name, which is proved and built in this folder from the file and from copies of
    the crate and of those below it; what it uses besides stands in others."""
    lines = crates_below(crate)
    for below in lines:
        shutil.copytree(ROOT / "crates" / below, folder / "crates" / below,
                        ignore=shutil.ignore_patterns("out", "must-fail"))
    program = folder / "crates" / name
    (program / "src").mkdir(parents=True)
    shutil.copy(source, program / "src" / "main.rt")
    (folder / "crates.txt").write_text("\n".join([*lines.values(), f"{name}: {crate} {others}"]) + "\n")
    done = subprocess.run(["rt", "run"], cwd=program, stdin=subprocess.DEVNULL, capture_output=True, text=True,
                          check=False)
    if done.returncode != 0 or not (program / "out" / name).exists():
        sys.exit(f"the program is not built:\n{done.stdout}{done.stderr}")
    return program / "out" / name
