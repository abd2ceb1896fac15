"""Random code of several procedures that use their stacks and frames, now and then in ways that are not clean."""

GENERAL = [0, 1, 2, 3, 6, 7]


class Code:
    """Bytes with the calls that are filled in when all is written; `later`: for the 80186."""

    def __init__(self, draw, later):
        self.draw, self.later, self.alone = draw, later, False
        self.bytes = bytearray()
        self.entries, self.calls = [], []

    def put(self, *parts):
        """One instruction."""
        self.bytes += bytes(parts)

    def put_word(self, word, *parts):
        """One instruction that ends in a word."""
        self.put(*parts, word & 0xFF, word >> 8 & 0xFF)


class Frame:
    """What a procedure has: the bytes of its locals, its argument words, and whether BP stands for them."""

    def __init__(self, draw, is_start):
        self.framed = not is_start and draw.random() < 0.85
        self.local = draw.choice([0, 2, 4, 6, 10]) if self.framed else 0
        self.args = 0 if is_start else draw.choice([0, 0, 1, 2, 3])
        self.removes = self.args > 0 and draw.random() < 0.4

    def place(self, draw, byte=False):
        """A byte or a word of the frame, by its distance from BP."""
        places = list(range(-self.local, 0, 1 if byte else 2)) + list(range(4, 4 + 2 * self.args, 2))
        return draw.choice(places) if places else None


def by_frame(code, frame):
    """A direct access to the frame."""
    draw = code.draw
    r = draw.choice(GENERAL)
    byte = draw.random() < 0.15
    at = frame.place(draw, byte)
    if at is None:
        code.put(0x40 + r)
    elif byte:
        code.put(draw.choice([0x88, 0x8A]), 0x46 | draw.choice([0, 1]) << 3, at & 0xFF)
    else:
        forms = [[0x89, 0x46 | r << 3], [0x8B, 0x46 | r << 3], [0x03, 0x46 | r << 3], [0x01, 0x46 | r << 3], [0x87, 0x46 | r << 3],
                 [0xFF, 0x46], [0xFF, 0x76], [0x89, 0x46 | r << 3], [0x89, 0x46 | r << 3]]
        form = draw.choice(forms)
        code.put(*form, at & 0xFF)
        if form == [0xFF, 0x76]:
            code.put(0x58 + draw.choice(GENERAL))


def by_address(code, frame):
    """An address in the frame is taken, and bytes near it are used through it."""
    draw = code.draw
    q = draw.choice([3, 6, 7])
    at = frame.place(draw)
    if at is None:
        code.put(0x90)
        return
    code.put(0x8D, 0x46 | q << 3, at & 0xFF)
    for _ in range(draw.randrange(1, 4)):
        use(code, q)


def use(code, q):
    """An access through BX, SI or DI."""
    draw = code.draw
    rm = {3: 7, 6: 4, 7: 5}[q]
    r = draw.choice([0, 1, 2])
    far = draw.choice([0, 0, 0, 2, 1, -2, -1, 4, 3]) if draw.random() < 0.9 else draw.randrange(-128, 128)
    opcode = draw.choice([0x89, 0x89, 0x89, 0x8B, 0x01, 0x88, 0x8A, 0x87, 0xFE, 0x39])
    if opcode == 0xFE:
        code.put(0xFF, 0x40 | rm, far & 0xFF)
    else:
        code.put(opcode, 0x40 | r << 3 | rm, far & 0xFF)


def pushed(code, frame):
    """Something is pushed, and what was pushed is popped again, maybe into the frame or through an address."""
    draw = code.draw
    if draw.random() < 0.3 and code.later:
        code.put(0x6A, draw.randrange(256))
    else:
        code.put(0x50 + draw.choice(GENERAL))
    if draw.random() < 0.3:
        body(code, frame, 1)
    at = frame.place(draw)
    kind = draw.randrange(5)
    if kind == 0 and at is not None and frame.framed:
        code.put(0x8F, 0x46, at & 0xFF)
    elif kind == 1:
        code.put(0x8F, draw.choice([7, 4, 5]))
    elif kind == 2:
        code.put(0x83, 0xC4, 2)
    else:
        code.put(0x58 + draw.choice(GENERAL))


def called(code, frame):
    """A call, with arguments; some of them are addresses."""
    draw = code.draw
    for _ in range(draw.choice([0, 1, 2, 3])):
        at = frame.place(draw)
        if frame.framed and at is not None and draw.random() < 0.4:
            code.put(0x8D, 0x46, at & 0xFF)
        code.put(0x50)
    code.put(0xE8, 0, 0)
    code.calls.append(len(code.bytes))


def printed(code, frame):
    """A DOS call."""
    draw = code.draw
    number = draw.choice([1, 2, 2, 8, 9])
    at = frame.place(draw)
    if number == 9 and at is not None and frame.framed:
        code.put(0xC7, 0x46, at & 0xFF, draw.choice([0x41, 0x24]), draw.choice([0x24, 0x42]))
        code.put(0x8D, 0x56, at & 0xFF)
    elif number == 9:
        code.put_word(draw.randrange(64), 0xBA)
    code.put(0xB4, number)
    code.put(0xCD, 0x21)


def plain(code, frame):
    """Something in registers or in memory at a constant offset."""
    draw = code.draw
    r, q = draw.choice(GENERAL), draw.choice(GENERAL)
    kind = draw.randrange(6)
    if kind == 0:
        code.put_word(draw.randrange(65536), 0xB8 + r)
    elif kind == 1:
        code.put(draw.choice([0x89, 0x01, 0x29, 0x31, 0x39, 0x87]), 0xC0 | r << 3 | q)
    elif kind == 2:
        code.put_word(draw.choice([0, 2, 0x40, 0xFFF0, draw.randrange(65536)]), draw.choice([0xA1, 0xA3]))
    elif kind == 3:
        code.put(0xD7)
    elif kind == 4:
        use(code, draw.choice([3, 6, 7]))
    else:
        code.put(0x40 + r)


PIECES = [(plain, 3), (by_frame, 6), (by_address, 3), (pushed, 3), (called, 2), (printed, 2)]


def body(code, frame, most):
    """Some pieces."""
    for _ in range(code.draw.randrange(1, most + 1)):
        pieces = [(piece, weight) for piece, weight in PIECES if frame.framed or piece not in (by_frame, by_address)]
        kinds, weights = zip(*pieces)
        code.draw.choices(kinds, weights)[0](code, frame)


def procedure(code, is_start):
    """A procedure."""
    draw = code.draw
    frame = Frame(draw, is_start)
    code.entries.append(len(code.bytes))
    enter = frame.framed and code.later and draw.random() < 0.5
    if enter:
        code.put(0xC8, frame.local, 0, 0)
    elif frame.framed:
        code.put(0x55)
        code.put(0x8B, 0xEC)
        if frame.local:
            code.put(0x83, 0xEC, frame.local)
    for at in range(-frame.local, 0, 2):
        if draw.random() < 0.7:
            code.put(0x89, 0x46, at & 0xFF)
    body(code, frame, 8)
    if is_start:
        code.put_word(0x4C00, 0xB8)
        code.put(0xCD, 0x21)
        return
    if frame.framed and (code.later and (enter or draw.random() < 0.3)):
        code.put(0xC9)
    elif frame.framed:
        code.put(*draw.choice([[0x8B, 0xE5], [0x8D, 0x66, 0]]))
        code.put(0x5D)
    if frame.removes:
        code.put(0xC2, 2 * frame.args, 0)
    else:
        code.put(0xC3)


def stack_code(draw, later):
    """The bytes of the code."""
    code = Code(draw, later)
    for place in range(draw.choice([2, 2, 3, 4])):
        procedure(code, place == 0)
    for end in code.calls:
        target = draw.choice(code.entries[1:])
        code.bytes[end - 2:end] = ((target - end) & 0xFFFF).to_bytes(2, "little")
    return bytes(code.bytes)
