"""A program that prints what `find`, `heights` and `cells` answer; it is proved and built beside a copy of the crates."""
import pathlib
import shutil
import subprocess
import sys

ROOT = pathlib.Path(__file__).resolve().parent.parent
CRATES = ["dcc_run", "dcc_num", "dcc_machine", "dcc_prog", "dcc_mz", "dcc_decode", "dcc_layout", "dcc_procs", "dcc_heights",
          "dcc_frames"]
NAME = "procs_show"
DEPENDENCIES = "dcc_num dcc_machine dcc_prog dcc_mz dcc_layout dcc_procs dcc_heights dcc_frames indexmap anyhow"

# Prints a line for each program: its nodes with their heights and its frames, or their number, or why it is refused.
SHOW = """\
//! Prints what `find`, `heights` and `cells` answer for each program of a folder.
#![tactic(auto)]

use anyhow::Error;
use dcc_frames::cells;
use dcc_heights::heights;
use dcc_layout::layout;
use dcc_machine::{Cpu, Image};
use dcc_mz::load;
use dcc_prog::{Cells, Frame, Heights, Proc, Refusal};
use dcc_procs::find;
use indexmap::IndexMap;
use std::alloc::Global;
use std::{env, fs};

fn nodes_of(
    alloc: Global,
    line: &mut String,
    proc: &Proc,
    heights: &IndexMap<u16, u16>,
) -> Result<(), Error> {
    for ((at, node), (_, height)) in proc.nodes.iter().zip(heights.iter()) {
        line.push_str(&format!(in alloc; " {at}+{}@{height}", node.instr.len)?)?;
        for to in node.succ.as_slice() {
            line.push_str(&format!(in alloc; ">{to}")?)?;
        }
        if let Some(number) = node.number {
            line.push_str(&format!(in alloc; "#{number}")?)?;
        }
    }
    Ok(())
}

fn frame_of(alloc: Global, line: &mut String, frame: &Frame) -> Result<(), Error> {
    line.push_str(&format!(in alloc; " {} {} {}", frame.framed, frame.args, frame.exposed.local)?)?;
    if let Some(arg) = frame.exposed.arg {
        line.push_str(&format!(in alloc; "-{arg}")?)?;
    }
    for cell in frame.cells.iter() {
        line.push_str(&format!(in alloc; " {}:{}", cell.first, cell.size)?)?;
    }
    Ok(())
}

fn refusal_of(alloc: Global, refusal: Refusal) -> Result<String, Error> {
    Ok(match refusal {
        Refusal::Construct { kind, at } => {
            let number = kind.number();
            format!(in alloc; "construct {number} {at}")?
        }
        Refusal::Limit { what, count } => format!(in alloc; "limit {what:?} {count}")?,
        Refusal::Memory => format!(in alloc; "memory")?,
    })
}

fn line_of(
    alloc: Global,
    procs: &Vec<Proc>,
    heights: &Heights,
    cells: &Cells,
    full: bool,
) -> Result<String, Error> {
    if !full {
        return Ok(format!(in alloc; "found {} procedures", procs.len())?);
    }
    let mut line = format!(in alloc; "found")?;
    for ((proc, ret), at) in procs.iter().zip(heights.ret.iter()).zip(heights.at.iter()) {
        line.push_str(&format!(in alloc; " ={}-{ret}", proc.entry)?)?;
        nodes_of(alloc, &mut line, proc, at)?;
    }
    for frame in cells.frames.iter() {
        frame_of(alloc, &mut line, frame)?;
    }
    Ok(line)
}

fn answer_of(alloc: Global, bytes: &Vec<u8>, cpu: Cpu, full: bool) -> Result<String, Error> {
    let Ok(image) = load(alloc, bytes) else {
        return Ok(format!(in alloc; "no image")?);
    };
    let Ok(layout) = layout(alloc, &image, cpu) else {
        return Ok(format!(in alloc; "no layout")?);
    };
    let procs = match find(alloc, &image, &layout) {
        Ok(procs) => procs,
        Err(refusal) => return refusal_of(alloc, refusal),
    };
    let heights = match heights(alloc, &procs) {
        Ok(heights) => heights,
        Err(refusal) => {
            return Ok(format!(in alloc; "heights {}", refusal_of(alloc, refusal)?)?);
        }
    };
    match cells(alloc, &procs, &heights, layout.delta) {
        Ok(cells) => line_of(alloc, &procs, &heights, &cells, full),
        Err(refusal) => Ok(format!(in alloc; "frames {}", refusal_of(alloc, refusal)?)?),
    }
}

fn main(rt: HostRuntime) -> Result<(), Error> {
    let alloc = rt.alloc();
    let mut cpu = Cpu::I8086;
    let mut full = true;
    for word in env::args(&rt)?.skip(1) {
        match word.as_str() {
            "8086" => cpu = Cpu::I8086,
            "186" => cpu = Cpu::I186,
            "short" => full = false,
            path => {
                let bytes = fs::read(&rt, path)?;
                let line = answer_of(alloc, &bytes, cpu, full)?;
                println!(rt; "{line}")?;
            }
        }
    }
    Ok(())
}
"""


def built(folder):
    """The path of the program, which is built in this folder."""
    crates = folder / "crates"
    for name in CRATES:
        shutil.copytree(ROOT / "crates" / name, crates / name, ignore=shutil.ignore_patterns("out", "must-fail"))
    sources = crates / NAME / "src"
    sources.mkdir(parents=True)
    (sources / "main.rt").write_text(SHOW)
    lines = [line for line in (ROOT / "crates.txt").read_text().splitlines() if line.split(":")[0] in CRATES]
    (folder / "crates.txt").write_text("\n".join(lines) + f"\n{NAME}: {DEPENDENCIES}\n")
    done = subprocess.run(["rt", "run"], cwd=sources.parent, capture_output=True, text=True, check=False)
    program = sources.parent / "out" / NAME
    if done.returncode != 0 or not program.exists():
        sys.exit(f"the program is not built:\n{done.stdout}{done.stderr}")
    return program


def answers(program, cpu, paths, *words):
    """The lines of the program for these files."""
    lines = []
    for first in range(0, len(paths), 1000):
        part = [str(path) for path in paths[first:first + 1000]]
        done = subprocess.run([str(program), cpu, *words, *part], capture_output=True, text=True, check=True)
        lines += done.stdout.splitlines()
    return lines


def file_of(code, rest=b"", apart=0):
    """The file whose prelude of 5 bytes sets DS to the segment behind the code.

    The stack's segment begins so many paragraphs above it."""
    paragraphs = -(-(5 + len(code)) // 16)
    image = bytes([0xB8]) + paragraphs.to_bytes(2, "little") + bytes([0x8E, 0xD8]) + code
    image += bytes(-len(image) % 16) + rest
    length = 32 + len(image)
    words = [length % 512, -(-length // 512), 1, 2, 0, 0xFFFF, paragraphs + apart, 0x0100, 0, 0, 0, 28, 0, 1, 0]
    return b"MZ" + b"".join(word.to_bytes(2, "little") for word in words) + image
