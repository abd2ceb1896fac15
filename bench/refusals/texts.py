"""Texts for the comparison: good ones at random, changed ones, and systematic ones for each kind of refusal."""

import random
import re

TYPES = ["signed char", "unsigned char", "int", "unsigned int", "long", "unsigned long"]
BINARY = ["||", "&&", "|", "^", "&", "==", "!=", "<", "<=", ">", ">=", "<<", ">>", "+", "-", "*", "/", "%"]
TOKEN = re.compile(r"#pragma dcc \w+(?: \d+)*|\w+|\|\||&&|==|!=|<=|>=|<<|>>|\S")


class Good:
    """A text that stands for a unit."""

    def __init__(self, r):
        self.r, self.count = r, 0

    def name(self, letter):
        self.count += 1
        return f"{letter}{self.count}"

    def text(self):
        r = self.r
        lines = ["#pragma dcc text 1", "#pragma dcc stack 0 256"]
        self.globals = []
        at = 256
        for _ in range(r.randrange(3)):
            if not self.globals or r.random() < 0.3:
                at += r.randrange(3) * 16
                lines.append(f"#pragma dcc at {at}")
            lines.append(self.declare())
            at += self.globals[-1][3]
        self.funcs = [("start", None, [])]
        for _ in range(r.randrange(3)):
            result = r.choice([None] + TYPES + ["int *"])
            self.funcs.append((self.name("f"), result, [self.type() for _ in range(r.randrange(3))]))
        for func in self.funcs:
            lines += self.function(*func)
        return "\n".join(lines) + "\n"

    def type(self):
        return self.r.choice(TYPES) + (" *" if self.r.random() < 0.25 else "")

    def declare(self):
        ty, name, r = self.type(), self.name("g"), self.r
        size = {"char": 1, "int": 2, "long": 4}[ty.split()[-1]] if "*" not in ty else 2
        n = r.randrange(1, 4)
        if r.random() < 0.5:
            self.globals.append((name, ty, False, size, True))
            return f"{ty} {name}" + (f" = {r.randrange(99)};" if r.random() < 0.5 else ";")
        ty = ty.rstrip(" *")
        size = {"char": 1, "int": 2, "long": 4}[ty.split()[-1]]
        self.globals.append((name, ty, True, size * n, True))
        some = ", ".join(str(r.randrange(300)) for _ in range(r.randrange(1, n + 1)))
        return f"{ty} {name}[{n}]" + (f" = {{{some}}};" if r.random() < 0.5 else ";")

    def function(self, name, result, params):
        r = self.r
        self.vars, self.result, self.labels, self.budget = list(self.globals), result, [], 7
        self.here = name
        heads = []
        for ty in params:
            own, cls = self.name("p"), r.choice(["", "", "register ", "auto "])
            self.vars.append((own, ty, False, 0, cls != "register "))
            heads.append(f"{cls}{ty} {own}")
        lines = [f"{result or 'void'} {name}({', '.join(heads) or 'void'})", "{"]
        for _ in range(r.randrange(4)):
            own, ty = self.name("v"), self.type()
            kind = r.randrange(3)
            if kind == 2 and "*" not in ty:
                self.vars.append((own, ty, True, 0, True))
                lines.append(f"    {ty} {own}[{r.randrange(1, 5)}];")
            else:
                self.vars.append((own, ty, False, 0, kind == 1))
                lines.append(f"    {'auto ' if kind == 1 else ''}{ty} {own};")
        body = self.block(r.randrange(1, 5), False, False)
        for label in self.labels:
            body += [f"{label}:", "    ;"]
        if result:
            body.append(f"    return {self.value(result)};")
        return lines + body + ["}"]

    def block(self, count, loop, leaves):
        lines = []
        for _ in range(count):
            lines += self.statement(loop, leaves)
        return lines

    def place(self):
        single = [v for v in self.vars if not v[2]]
        pointers = [v for v in self.vars if "*" in v[1] or v[2]]
        if pointers and self.r.random() < 0.4:
            v = self.r.choice(pointers)
            if not (v[2] and "*" in v[1]):
                return "*" + self.r.choice([v[0], f"({v[0]} + {self.r.randrange(3)})"]), v[1].rstrip(" *")
        if single:
            v = self.r.choice(single)
            return v[0], v[1]
        return None

    def value(self, ty):
        return self.pointer(ty.rstrip(" *")) if "*" in ty else self.number(self.r.randrange(3))

    def pointer(self, base):
        found = [v[0] for v in self.vars if v[1] == base + " *" and not v[2] or v[1] == base and v[2]]
        found += ["&" + v[0] for v in self.vars if v[1] == base and not v[2] and v[4]]
        found.append(f"({base} *)256")
        p = self.r.choice(found)
        return p if self.r.random() < 0.6 else f"{p} + {self.number(0)}"

    def number(self, depth):
        r = self.r
        if depth == 0 or r.random() < 0.2:
            found = [v[0] for v in self.vars if "*" not in v[1] and not v[2]]
            if found and r.random() < 0.6:
                return r.choice(found)
            return r.choice(["0", "1", "7U", "3L", "0x1F", "40000", "65535U", "4294967295", "0xFFFFFFFFUL"])
        kind = r.randrange(8)
        a = self.number(depth - 1)
        if kind < 4:
            b = self.number(depth - 1)
            return f"({a}) {r.choice(BINARY)} ({b})" if r.random() < 0.4 else f"{a} {r.choice(BINARY)} {b}"
        if kind == 4:
            return f"{r.choice('-~!')}{self.number(0)}"
        if kind == 5:
            return f"({a} ? {self.number(0)} : {self.number(0)})"
        if kind == 6:
            return f"({r.choice(TYPES)}){self.number(0)}"
        return "*" + self.r.choice([f"({self.pointer(r.choice(TYPES))})"])

    def statement(self, loop, leaves):
        r = self.r
        self.budget -= 1
        kind = r.randrange(14)
        if self.budget < 0:
            kind = kind % 4
        ind = "    "
        if kind < 4:
            found = self.place()
            return [f"{ind}{found[0]} = {self.value(found[1])};"] if found else [ind + "dos_putc(1);"]
        if kind == 4:
            return [ind + r.choice([f"dos_putc({self.number(1)});", "dos_getch();", f"dos_puts({self.number(0)});"])]
        if kind in (5, 6):
            name, result, params = r.choice(self.funcs)
            call = f"{name}({', '.join(self.value(p) for p in params)});"
            found = self.place()
            if result and found and ("*" in result) == ("*" in found[1]) and ("*" not in result or result == found[1]):
                call = f"{found[0]} = {call}"
            return ([f"#pragma dcc depth {r.randrange(2, 9)}"] if r.random() < 0.3 else []) + [ind + call]
        if kind == 7:
            lines = [f"{ind}if ({self.number(1)}) {{"] + self.block(1, loop, leaves)
            return lines + ([ind + "} else {"] + self.block(1, loop, leaves) if r.random() < 0.5 else []) + [ind + "}"]
        if kind == 8:
            return [f"{ind}while ({self.number(1)}) {{"] + self.block(1, True, True) + [ind + "}"]
        if kind == 9:
            return [ind + "do {"] + self.block(1, True, True) + [f"{ind}}} while ({self.number(1)});"]
        if kind == 10:
            return [ind + "for (;;) {"] + self.block(1, True, True) + ["    break;", ind + "}"]
        if kind == 11:
            lines = [f"{ind}switch ((int)({self.number(1)})) {{"]
            for n in r.sample(range(9), r.randrange(1, 3)):
                lines += [f"{ind}case {n}:"] + self.block(r.randrange(2), loop, True) + ["    break;"]
            if r.random() < 0.5:
                lines += [ind + "default:"] + self.block(1, loop, True) + ["    break;"]
            return lines + [ind + "}"]
        if kind == 12:
            if self.labels and r.random() < 0.5:
                return [f"{ind}goto {r.choice(self.labels)};"]
            self.labels.append(self.name("L"))
            return [f"{ind}goto {self.labels[-1]};"]
        if leaves and r.random() < 0.6:
            return [ind + "break;"]
        if loop:
            return [ind + "continue;"]
        return [ind + (";" if self.result or r.random() < 0.6 else "return;")]


def good(seed):
    return Good(random.Random(seed)).text()


POOL = """( ) { } [ ] ; : , = ? || && | ^ & == != < <= > >= << >> + - * / % ~ ! auto break case char continue default
do else for goto if int long register return signed switch unsigned void while const sizeof x f1 g1 v2 start dos_putc
0 1 2U 70000 65536 4294967296 07 0x 12ab @ $ # . " \x80 #pragma a23456789012345678901234567890
a234567890123456789012345678901 L1""".replace("\n", " ").split(" ") + ["\r"]
LINES = ["#pragma dcc depth 4", "#pragma dcc at 300", "#pragma dcc stack 1 2", "#pragma dcc text 1",
         "#pragma dcc depth", " #pragma dcc depth 4", "#pragma dcc depth  4", "#pragma dcc depth 4 ",
         "#pragma dcc depth 4;", "#pragma dcc depth 0x4", "#pragma dcc depth 4 4", "#pragma dcc depths 4",
         "#pragma  dcc depth 4", "int x;", "void start(void)", "L1:", "f1(1);", "int *q;", "break;", "}"]


def spans(text):
    """The places of the tokens behind the first line; a pragma's line is one."""
    return [m.span() for m in TOKEN.finditer(text) if m.start() > 18]


def changed(text, r):
    """The text with one to three changes."""
    for _ in range(r.choice((1, 1, 1, 2, 3))):
        at = spans(text)
        if len(at) < 3:
            return text
        n = r.randrange(len(at) - 1)
        (i, j), (k, m) = at[n], at[n + 1]
        kind = r.randrange(13)
        if kind < 2:
            text = text[:i] + text[j:]
        elif kind == 2:
            text = text[:j] + " " + text[i:j] + text[j:]
        elif kind < 5:
            text = text[:i] + text[k:m] + text[j:k] + text[i:j] + text[m:]
        elif kind == 5:
            text = text[:i] + r.choice(POOL) + text[j:]
        elif kind == 6:
            text = text[:j] + " " + r.choice(POOL) + " " + text[j:]
        elif kind == 7:
            text = text[:j] + r.choice("\n\t @\x01") + text[j:]
        elif kind == 8:
            a, b = r.choice(at)
            text = text[:i] + text[a:b] + text[j:]
        elif kind == 9:
            text = text[:r.choice((i, j))] if r.random() < 0.5 else text[:r.randrange(19, len(text))]
        elif kind == 10:
            lines = text.split("\n")
            kept = [r.choice(([], [y, y])) if r.random() > 0.93 else [y] for y in lines[1:]]
            text = "\n".join(lines[:1] + [y for ys in kept for y in ys])
        elif kind == 11:
            lines = text.split("\n")
            lines.insert(r.randrange(1, len(lines)), r.choice(LINES))
            text = "\n".join(lines)
        else:
            n = r.randrange(19, len(text))
            text = text[:n] + text[n + 1:] if r.random() < 0.5 else text[:n] + r.choice("()*&;@ 0x") + text[n:]
    return text
