"""Programs over the crates of the inner language, from the sources in bench/graphs, beside a copy of these crates."""
import pathlib
import shutil
import subprocess
import sys

ROOT = pathlib.Path(__file__).resolve().parent.parent
SOURCES = ROOT / "bench" / "graphs"
CRATES = ["dcc_run", "dcc_num", "dcc_ir", "dcc_flow", "dcc_live"]
FLAGS = "dcc_flags"
FLAGS_LINE = "dcc_flags: dcc_run dcc_num dcc_ir dcc_flow"

# The most seconds of a run without a proof.
SECONDS = 3000


def lines_of(names):
    """The lines of crates.txt for these crates."""
    return [line for line in (ROOT / "crates.txt").read_text().splitlines() if line.split(":")[0] in names]


def are_flags_proved():
    """Whether the crate that folds flags is listed, as each crate is that is wholly proved."""
    return bool(lines_of([FLAGS]))


def laid_out(folder, name, sources, folds=False, proofs=None):
    """The folder of the program of that name, which is made of these sources and proofs: files of the program by files here."""
    names = CRATES + ([FLAGS] if folds else [])
    for crate in names:
        shutil.copytree(ROOT / "crates" / crate, folder / "crates" / crate,
                        ignore=shutil.ignore_patterns("out", "must-fail"))
    program = folder / "crates" / name
    (program / "src").mkdir(parents=True)
    for to, source in sources.items():
        shutil.copy(SOURCES / f"{source}.rt.txt", program / "src" / f"{to}.rt")
    for to, source in (proofs or {}).items():
        (program / "proofs" / to).parent.mkdir(parents=True, exist_ok=True)
        shutil.copy(SOURCES / f"{source}.antt.txt", program / "proofs" / f"{to}.antt")
    lines = lines_of(CRATES) + ([FLAGS_LINE] if folds else [])
    lines.append(f"{name}: dcc_num dcc_ir dcc_live {FLAGS if folds else ''} anyhow")
    (folder / "crates.txt").write_text("\n".join(lines) + "\n")
    return program


def built(folder, name, sources, folds=False, proofs=None):
    """The path of the program, which is proved and built in this folder."""
    program = laid_out(folder, name, sources, folds, proofs)
    done = subprocess.run(["rt", "run"], cwd=program, capture_output=True, text=True, check=False)
    path = program / "out" / name
    if done.returncode != 0 or not path.exists():
        sys.exit(f"the program is not built:\n{done.stdout}{done.stderr}")
    return path


def tried(folder, name, sources, words, folds=False):
    """What the program prints, which is run without a proof, with faults stopped."""
    program = laid_out(folder, name, sources, folds)
    done = subprocess.run(["rt", "try", "--seconds", str(SECONDS), "--", *words], cwd=program, capture_output=True,
                          text=True, check=False)
    if done.returncode != 0:
        sys.exit(f"the program does not end:\n{done.stdout}{done.stderr}")
    return done.stdout
