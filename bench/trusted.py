#!/usr/bin/env python3
"""Lists what must be believed: the definitions that the theorem of the top call rests on, file by file.

  bench/trusted.py            writes docs/TRUSTED.md
  bench/trusted.py --check    ends with 1 where docs/TRUSTED.md isn't what it would write

The definitions are found in the sources: those that `HasText` and `KeepsPromises` (the clause `promises` of the call
`dcc`) name, and all that these name in turn. Types that come from Rust sources are listed by their files.
"""
import pathlib
import re
import sys

ROOT = pathlib.Path(__file__).resolve().parent.parent
PAGE = ROOT / "docs" / "TRUSTED.md"
ROOTS = [("dcc_top", "Headline", "HasText"), ("dcc_top", "Promises", "KeepsPromises")]

USE = re.compile(r"^use Rattle\.(\w+)\.specs\.([\w.]+?)(?:\.\{([^}]*)\}| as (\w+))?\s*$", re.M | re.S)
ITEM = re.compile(r"^( *)(?:abbrev |unfoldable )?(?:pub )?(?:abbrev |unfoldable |record |data )?(\S+)")
HEAD = re.compile(r"^ *(?:abbrev|unfoldable|pub|record|data)\b")
WORD = re.compile(r"[A-Za-z_◌][\w◌\-']*(?:\.[A-Za-z_][\w\-']*)*|[^\s\w(){},.;:]+")


class Spec:
    """A file of definitions: its imports, its first comment, and each definition's lines."""

    def __init__(self, path):
        self.path = path
        self.crate = path.parts[-3]
        self.module = path.stem
        text = path.read_text()
        self.lines = text.splitlines()
        self.about = self.first_comment()
        self.names, self.modules = {}, {}
        for crate, module, names, alias in USE.findall(text):
            if alias:
                self.modules[alias] = (crate, module)
            for name in filter(None, map(str.strip, (names or "").split(","))):
                own, _, other = name.partition(" as ")
                self.names[(other or own).strip()] = (crate, module, own.strip())
        self.items = self.definitions()

    def first_comment(self):
        found = []
        for line in self.lines:
            if not line.startswith("--"):
                break
            found.append(line[2:].strip())
        return " ".join(found)

    def definitions(self):
        """The numbers of the lines of each definition: from its head to the next one."""
        items, name, inside = {}, None, 0
        for number, line in enumerate(self.lines):
            if re.match(r"^(module|mutual)\b", line):
                inside, name = 2, None
                continue
            if line and not line.startswith(" ") and not line.startswith("--"):
                inside = 0 if HEAD.match(line) or not re.match(r"^\w", line) else inside
            head = re.match(r"^( *)(?:(?:abbrev|unfoldable) pub|pub (?:record|data|abbrev|unfoldable)|pub|record|data|abbrev) (\S+)",
                            line)
            if head and len(head[1]) <= (2 if inside else 0) and head[2] not in ("mod", "use"):
                name = head[2]
                items.setdefault(name, [])
            if name and line.strip() and not line.strip().startswith("--"):
                items[name].append(number)
        return items

    def words(self, name):
        text = "\n".join(self.lines[number] for number in self.items[name])
        for word in WORD.findall(text):
            yield word
            if "." in word:
                yield word.split(".")[0]


def closure(specs):
    """The definitions that the roots rest on, and the types of Rust sources that they name."""
    pending, found, declared = list(ROOTS), set(), set()
    constructors = {}
    for key, spec in specs.items():
        for name, numbers in spec.items.items():
            for number in numbers[1:]:
                case = re.match(r"^ +(\S+) :", spec.lines[number])
                if case:
                    constructors[key + (case[1],)] = name
    while pending:
        crate, module, name = pending.pop()
        if module.startswith("declared"):
            declared.add((crate, module))
            continue
        spec = specs.get((crate, module))
        if spec is None:
            continue
        if name not in spec.items:
            name = constructors.get((crate, module, name))
            if name is None:
                continue
        if (crate, module, name) in found:
            continue
        found.add((crate, module, name))
        for word in spec.words(name):
            first, _, rest = word.partition(".")
            if word in spec.names:
                pending.append(spec.names[word])
            elif rest and first in spec.modules:
                pending.append(spec.modules[first] + (rest.split(".")[0],))
            elif word in spec.items and word != name:
                pending.append((crate, module, word))
    return found, declared


def layers():
    """The place of each crate in crates.txt."""
    names = [line.split(":")[0].split()[0] for line in (ROOT / "crates.txt").read_text().splitlines()
             if ":" in line and not line.startswith("#")]
    return {name: place for place, name in enumerate(names)}


def in_reading_order(specs, used):
    """The files, each after those that name it, so that one reads from the theorem down."""
    places = layers()
    order, done = [], set()

    def visit(key):
        if key in done:
            return
        done.add(key)
        spec = specs[key]
        for other in sorted({(crate, module) for crate, module, _ in spec.names.values()},
                            key=lambda it: (places.get(it[0], 0), it[1])):
            if other in used:
                visit(other)
        order.append(key)

    for crate, module, _ in reversed(ROOTS):
        visit((crate, module))
    return list(reversed(order))


def page():
    specs = {}
    for path in sorted(ROOT.glob("crates/*/specs/*.antt")):
        spec = Spec(path)
        specs[(spec.crate, spec.module)] = spec
    found, declared = closure(specs)
    used = {}
    for crate, module, name in found:
        used.setdefault((crate, module), set()).add(name)
    rows, total = [], 0
    for key in in_reading_order(specs, used):
        spec = specs[key]
        count = len({number for name in used[key] for number in spec.items[name]})
        total += count
        rows.append(f"| {spec.crate}/specs/{spec.module}.antt | {count} | {spec.about} |")
    return "\n".join([
        "# What must be believed",
        "",
        "The theorem is the record `IsDecompiled`, which `HasText` says of a call; all that the program promises is"
        " `KeepsPromises`, the clause `promises` of"
        " the call `dcc` (`crates/dcc_top/src/top.rt`). Whoever believes it believes the definitions that these rest on, the"
        " Rattle toolchain with its logic, and the C library; all other definitions, laws and code are proved, and no error in"
        " them can make it false.",
        "",
        f"These are the definitions, computed from the sources by `bench/trusted.py`: {total:,} lines in {len(rows)} of"
        f" {len(specs)} files. They stand in reading order, the theorem first: each file comes after those that name it. Lines"
        " are those of the definitions that are needed, without comments and imports. Paths are below `crates/`.",
        "",
        "| File | Lines | What it says |",
        "|---|---|---|",
        *rows,
        "",
        "Besides they name types and constants of Rust sources, of which Rattle makes definitions: "
        + ", ".join(sorted({f"`{crate}`" for crate, _ in declared})) + ".",
        "",
    ])


def main():
    text = page()
    if "--check" in sys.argv[1:]:
        sys.exit(0 if PAGE.exists() and PAGE.read_text() == text else "docs/TRUSTED.md is stale: run bench/trusted.py")
    PAGE.write_text(text)


main()
