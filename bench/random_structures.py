"""Random code by its control: graphs of one procedure, and procedures of loops, tests and choices that call others.

Code is a list of lines: a label `("at", n)`, bytes `("put", bytes)`, a jump `("jump", n)`, a conditional jump
`("test", opcode, n)` that goes on where it doesn't jump, a jump through a table `("choice", register, labels,
default)`, and a call `("call", n)`. Labels are whole numbers. Jumps are short where they reach, else near, a
conditional one by its opposite over a near jump.
"""
AX, CX, DX, BX, SI, DI = 0, 1, 2, 3, 6, 7
TABLES = {BX: 0xA7, SI: 0xA4, DI: 0xA5}
WORKING = [AX, BX, DX]
COUNTERS = [SI, DI, CX]
# MOV AX,4C00h + AL; INT 21h
EXIT = bytes([0xB4, 0x4C, 0xCD, 0x21])
# MOV DL,AL; MOV AH,2; INT 21h, and MOV AH,8; INT 21h
PUT_KEY = bytes([0x8A, 0xD0, 0xB4, 0x02, 0xCD, 0x21])
GET_KEY = bytes([0xB4, 0x08, 0xCD, 0x21])
# A short jump surely goes as far.
NEAR = 118
# How many jumps a jump goes back.
BACK = {"jumps back": 1, "jumps far back": NEAR // 2 - 1}


def sized(line, is_short):
    """How many bytes a line takes. A choice is CMP r,N; JBE +3; JMP default; SHL r,1; JMP CS:[r+table]."""
    if line[0] == "put":
        return len(line[1])
    return 2 if is_short else {"at": 0, "jump": 3, "test": 5, "choice": 15, "call": 3}[line[0]]


def places(lines, short):
    """Where each line begins, and each label is."""
    at, begins, labels = 0, [], {}
    for n, line in enumerate(lines):
        begins.append(at)
        if line[0] == "at":
            labels[line[1]] = at
        at += sized(line, n in short)
    return begins, labels, at


def word(number):
    """A word's bytes."""
    return (number & 0xFFFF).to_bytes(2, "little")


def near(target, end):
    """The near jump to a place that ends at another."""
    return b"\xE9" + word(target - end)


def assembled(lines, base=5):
    """The bytes of code that begins at an offset of its segment; the tables stand behind it."""
    begins, labels, _ = places(lines, set())
    short = {n for n, line in enumerate(lines)
             if line[0] in ("jump", "test") and abs(labels[line[-1]] - begins[n]) < NEAR}
    begins, labels, end = places(lines, short)
    code, tables = bytearray(), bytearray()
    for n, (line, at) in enumerate(zip(lines, begins)):
        kind = line[0]
        if kind == "put":
            code += line[1]
        elif kind == "jump" and n in short:
            code += bytes([0xEB, (labels[line[1]] - at - 2) & 0xFF])
        elif kind == "jump":
            code += near(labels[line[1]], at + 3)
        elif kind == "test" and n in short:
            code += bytes([line[1], (labels[line[2]] - at - 2) & 0xFF])
        elif kind == "test":
            code += bytes([line[1] ^ 1, 3]) + near(labels[line[2]], at + 5)
        elif kind == "choice":
            _, r, targets, default = line
            code += bytes([0x83, 0xF8 | r, len(targets) - 1, 0x76, 3]) + near(labels[default], at + 8)
            code += bytes([0xD1, 0xE0 | r, 0x2E, 0xFF, TABLES[r]]) + word(base + end + len(tables))
            for target in targets:
                tables += word(base + labels[target])
        elif kind == "call":
            code += b"\xE8" + word(labels[line[1]] - at - 3)
    return bytes(code + tables)


def condition(draw):
    """The opcode of a short conditional jump, but those on parity."""
    return draw.choice([code for code in range(0x70, 0x80) if code not in (0x7A, 0x7B)])


def plain(draw):
    """An instruction that goes on and changes no counter."""
    r, q = draw.choice(WORKING), draw.choice(WORKING)
    return draw.choice([
        lambda: bytes([0xB8 + r]) + word(draw.randrange(65536)),
        lambda: bytes([draw.choice([0x03, 0x2B, 0x33, 0x23, 0x0B, 0x3B, 0x8B]), 0xC0 | r << 3 | q]),
        lambda: bytes([draw.choice([0x40, 0x48]) + r]),
        lambda: bytes([draw.choice([0x04, 0x2C, 0x34, 0x3C, 0xA8]), draw.randrange(256)]),
        lambda: bytes([0xD1, 0xE0 | r]),
    ])()


def compared(draw):
    """An instruction that sets the flags for a test."""
    r = draw.choice(WORKING)
    return draw.choice([
        lambda: bytes([0x3C, draw.randrange(256)]),
        lambda: bytes([0x83, 0xF8 | r, draw.randrange(8)]),
        lambda: bytes([0xA8, 1 << draw.randrange(8)]),
        lambda: bytes([0x3B, 0xC0 | r << 3 | draw.choice(WORKING)]),
    ])()


# Graphs of one procedure.


STEPS_ON = {"forwards": [1, 1, 2, 3, 4], "loops": [1, 1, 2, 3, 4, 0, -1, -2, -4, -7], "ladder": [1, 2, 2, -1, -2, -3]}


def target_of(draw, block, count, style):
    """The block that an edge of a block leads to, in a graph of a style."""
    if style in STEPS_ON and draw.random() < 0.95:
        return max(0, min(count - 1, block + draw.choice(STEPS_ON[style])))
    return draw.randrange(count)


def graph_of(draw):
    """A random graph of up to 60 blocks: for each block its end, as `("exit",)`, `("goes", block)`, `("test", block,
    block)` or `("choice", blocks, default)`."""
    count = draw.choice([draw.randrange(1, 8), draw.randrange(4, 25), draw.randrange(16, 61)])
    style = draw.choice(["forwards", "loops", "loops", "ladder", "any"])
    tests, choices = draw.choice([0.4, 0.6, 0.8]), draw.choice([0.0, 0.05, 0.2])
    ends = []
    for block in range(count):
        follows = min(count - 1, block + 1)

        def target():
            return target_of(draw, block, count, style)
        kind = draw.random()
        if kind < 0.02 or block == count - 1 and kind < 0.9:
            ends.append(("exit",))
        elif kind < 0.02 + choices:
            kinds = [target() for _ in range(draw.choice([1, 2, 3]))]
            blocks = [draw.choice(kinds) for _ in range(draw.choice([1, 1, 2, 3, 4, 6]))]
            ends.append(("choice", blocks, draw.choice([target(), target(), kinds[0], follows])))
        elif kind < 0.02 + choices + tests * (0.98 - choices):
            one = target()
            ends.append(("test", one, one if draw.random() < 0.06 else draw.choice([follows, follows, target()])))
        else:
            ends.append(("goes", draw.choice([follows, follows, target()])))
    return ends


def code_of_graph(draw, ends):
    """The lines of a graph, in which each block has a few instructions, or at times none."""
    lines = []
    for block, end in enumerate(ends):
        lines.append(("at", block))
        puts = [draw.choice([plain(draw), plain(draw), PUT_KEY]) for _ in range(draw.choice([0, 0, 1, 1, 2]))]
        lines += [("put", put) for put in puts]
        if end[0] == "exit":
            lines.append(("put", EXIT))
        elif end[0] == "choice":
            lines.append(("choice", BX, end[1], end[2]))
        else:
            if end[0] == "test":
                if draw.random() < 0.8:
                    lines.append(("put", compared(draw)))
                lines.append(("test", condition(draw), end[1]))
            if end[-1] != block + 1 or draw.random() < 0.1:
                lines.append(("jump", end[-1]))
    return lines


# Procedures of loops, tests and choices.


class Text:
    """The lines of a procedure in the making; `calls`: the labels of those that it may call."""

    def __init__(self, draw, names, calls):
        self.draw, self.names, self.calls, self.lines = draw, names, calls, []

    def label(self):
        """A label that is used for nothing yet."""
        return next(self.names)

    def put(self, *lines):
        """Appends lines."""
        self.lines += lines

    def test_to(self, label):
        """A test that goes to a label, or on."""
        self.put(("put", compared(self.draw)), ("test", condition(self.draw), label))

    def body(self, size, at):
        """So many statements; `at` has the labels of loops around, each that behind it and that of its next turn, the
        counters that are free, and the label of the procedure's end."""
        for _ in range(size):
            self.statement(size, at)

    def statement(self, size, at):
        """A statement, with as many in it at most as its size."""
        draw, (around, free, end) = self.draw, at
        kind = draw.random()
        if kind < 0.25 or size < 1:
            self.put(("put", plain(draw)))
        elif kind < 0.4:
            self.put(("put", draw.choice([PUT_KEY, PUT_KEY, GET_KEY])))
        elif kind < 0.48 and self.calls:
            self.put(("call", draw.choice(self.calls)))
        elif kind < 0.55 and around:
            self.test_to(draw.choice(draw.choice(around)))
        elif kind < 0.58:
            self.test_to(end)
        elif kind < 0.75 or not free:
            self.choice(size - 1, at) if draw.random() < 0.25 else self.conditional(size - 1, at)
        else:
            self.loop(size - 1, at)

    def conditional(self, size, at):
        """A test with one side or two."""
        other, behind = self.label(), self.label()
        self.test_to(other)
        self.body(size, at)
        if self.draw.random() < 0.5:
            self.put(("jump", behind), ("at", other))
            self.body(size, at)
            self.put(("at", behind))
        else:
            self.put(("at", other))

    def choice(self, size, at):
        """A choice, some of whose arms have several cases; an arm may fall into the next one."""
        draw, behind = self.draw, self.label()
        arms = [self.label() for _ in range(draw.choice([1, 2, 3]))]
        cases = [draw.choice([*arms, behind]) for _ in range(draw.choice([1, 2, 4, 5]))]
        self.put(("put", bytes([0x83, 0xE3, draw.choice([1, 3, 7])])),
                 ("choice", BX, cases, draw.choice([behind, behind, arms[0]])))
        for arm in arms:
            self.put(("at", arm))
            self.body(draw.randrange(min(2, size + 1)), at)
            if draw.random() < 0.85:
                self.put(("jump", behind))
        self.put(("at", behind))

    def loop(self, size, at):
        """A loop that a counter ends: its test stands first, or last, or in its middle."""
        draw, (around, free, end) = self.draw, at
        counter, turn, behind, next_turn = free[0], self.label(), self.label(), self.label()
        inside = ([*around, (behind, next_turn)], free[1:], end)
        self.put(("put", bytes([0xB8 + counter]) + word(draw.randrange(1, 5))), ("at", turn))
        down = bytes([0x48 + counter])
        place = draw.choice(["first", "last", "middle"])
        if place == "first":
            self.put(("put", down), ("test", 0x74, behind))
        self.body(size, inside)
        if place == "middle":
            self.put(("put", down), ("test", 0x74, behind))
            self.body(size, inside)
        self.put(("at", next_turn))
        self.put(*([("put", down), ("test", 0x75, turn)] if place == "last" else [("jump", turn)]), ("at", behind))


def structured_code(draw, size=4):
    """The lines of a program of one procedure or several, each of which calls later ones alone."""
    names = iter(range(10**6))
    count = draw.choice([1, 1, 2, 3, 4])
    entries = [next(names) for _ in range(count)]
    lines = []
    for n, entry in enumerate(entries):
        text, end = Text(draw, names, entries[n + 1:]), next(names)
        text.put(("at", entry))
        kept = [] if n == 0 else [r for r in COUNTERS if draw.random() < 0.95]
        text.put(*[("put", bytes([0x50 + r])) for r in kept])
        text.body(size, ([], COUNTERS, end))
        text.put(("at", end), *[("put", bytes([0x58 + r])) for r in reversed(kept)])
        text.put(("put", EXIT if n == 0 else b"\xC3"))
        lines += text.lines
    return lines


def nested_code(count, kind):
    """The lines of so many "tests" in each other, or "loops", or "whiles", which test first; or of "jumps back", each
    to the one before, and "jumps far back", each as far as it reaches."""
    lines, behind = [], count
    if kind in BACK:
        for n in range(count):
            lines += [("at", n), ("test", 0x75, max(0, n - BACK[kind]))]
        return [*lines, ("put", EXIT)]
    if kind == "tests":
        for _ in range(count):
            lines.append(("test", 0x74, behind))
        return [*lines, ("put", b"\x43"), ("at", behind), ("put", EXIT)]
    for n in range(count):
        lines += [("at", n), ("put", b"\x43")]
        if kind == "whiles":
            lines += [("put", bytes([0x3C, n & 0xFF])), ("test", 0x74, 1000 + n)]
    for n in reversed(range(count)):
        if kind == "whiles":
            lines += [("jump", n), ("at", 1000 + n)]
        else:
            lines += [("put", bytes([0x3C, n & 0xFF])), ("test", 0x75, n)]
    return [*lines, ("put", EXIT)]
