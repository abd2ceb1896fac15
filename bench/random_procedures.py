"""Random code of several procedures: frames, calls, divisions, jumps and tables; some of it is changed at random."""

GENERAL = [0, 1, 2, 3, 6, 7]
TABLES = {3: 0xA7, 6: 0xA4, 7: 0xA5}
DOS_NUMBERS = [0x01, 0x02, 0x08, 0x09, 0x4C]


class Code:
    """Bytes with the places that are filled in when all is written; `later`: for the 80186."""

    def __init__(self, draw, later, careless):
        self.draw = draw
        self.later, self.careless = later, careless
        self.bytes = bytearray()
        self.starts, self.entries = [], []
        self.short, self.near, self.calls, self.words = [], [], [], []
        self.inner = []

    def put(self, *parts):
        """One instruction."""
        self.starts.append(len(self.bytes))
        self.bytes += bytes(parts)

    def put_word(self, *parts):
        """One instruction that ends in a word."""
        self.put(*parts, self.draw.randrange(256), self.draw.randrange(256))


def plain(code):
    """An instruction that goes on."""
    draw = code.draw
    r, q = draw.choice(GENERAL), draw.choice(GENERAL)
    kind = draw.randrange(14)
    if kind == 0:
        code.put_word(0xB8 + r)
    elif kind == 1:
        code.put(0xB0 + draw.randrange(8), draw.randrange(256))
    elif kind == 2:
        code.put(draw.choice([0x89, 0x8B, 0x01, 0x2B, 0x33, 0x3B, 0x87]), 0xC0 | r << 3 | q)
    elif kind == 3:
        code.put(draw.choice([0x88, 0x8A, 0x30, 0x32, 0x28]), 0xC0 | draw.randrange(64))
    elif kind == 4:
        code.put(0x83, 0xF8 | r, draw.randrange(8))
    elif kind == 5:
        code.put(0x3C, draw.randrange(8))
    elif kind == 6:
        code.put(0xD1, 0xC0 | draw.choice([0, 1, 2, 3, 4, 5, 7]) << 3 | r)
    elif kind == 7:
        code.put(draw.choice([0x40, 0x48]) + draw.choice(GENERAL))
    elif kind == 8:
        code.put(draw.choice([0x98, 0x99, 0x90, 0xF8, 0xD7]))
    elif kind == 9:
        code.put_word(draw.choice([0xA1, 0xA3]))
    elif kind == 10:
        code.put(draw.choice([0x50, 0x58]) + r)
    elif kind == 11:
        code.put(0xF7, 0xC0 | draw.choice([2, 3, 4, 5]) << 3 | r)
    elif kind == 12:
        code.put(0xC7, 0x07, 1, 0)
    else:
        code.put(0x8B, 0x40 | r << 3 | draw.choice([4, 5, 7]), draw.randrange(256))


def division(code):
    """What prepares a division, something between, and the division."""
    draw = code.draw
    wide, signed = draw.randrange(2), draw.randrange(2)
    if signed:
        code.put(0x99 if wide else 0x98)
    else:
        code.put(*draw.choice([[0x33, 0xD2], [0x2B, 0xD2], [0xBA, 0, 0]] if wide
                              else [[0x32, 0xE4], [0x2A, 0xE4], [0xB4, 0]]))
    for _ in range(draw.choice([0, 0, 0, 1, 2])):
        if draw.random() < 0.3:
            plain(code)
        elif draw.random() < 0.2:
            jump(code)
        else:
            code.put(draw.choice([0x40, 0x48]) + draw.choice([1, 3, 6, 7]))
    code.put(0xF6 | wide, 0xC0 | (0x38 if signed else 0x30) | draw.choice([1, 3]))


def frame_use(code):
    """An instruction on SP or BP."""
    draw = code.draw
    r = draw.choice(GENERAL)
    forms = [[0x8B, 0x46 | r << 3, draw.randrange(256)], [0x89, 0x46 | r << 3, 0xFE], [0x8D, 0x46 | r << 3, 0xFA],
             [0x83, 0xEC, 4], [0x83, 0xC4, 0xFC], [0x44], [0x4C], [0x8D, 0x66, 0xFC], [0x8B, 0xC5 | r << 3],
             [0x8B, 0xE5], [0x81, 0xEC, 4, 0]]
    later = [[0xC9], [0x68, 1, 2], [0x6A, 5], [0x6B, 0xC3 | r << 3, 7], [0xC1, 0xE0 | r, 3]]
    others = [[0x8D, 0x66, 4], [0x8D, 0x62, 0xFC], [0x8B, 0xEC], [0x8B, 0xC4 | r << 3], [0x55], [0x5D], [0xC8, 4, 0, 0],
              [0x6B, 0xE3, 7], [0x83, 0xC5, 2], [0x8D, 0x6E, 2], [0x45]]
    if code.later:
        forms += later
    if code.careless:
        forms += later + others
    code.put(*draw.choice(forms))


def stack_use(code):
    """Words on the stack, at times as arguments of a call, and what takes them off again; at times not all of them."""
    draw = code.draw
    words = draw.choice([1, 1, 2])
    for _ in range(words):
        code.put(*draw.choice([[0x50 + draw.choice(GENERAL)], [0x83, 0xEC, 2], [0xFF, 0x37], [0x4C, 0x4C]]))
    for _ in range(draw.choice([0, 1, 1, 2])):
        draw.choice([plain, jump])(code)
    taken = 0
    if draw.random() < 0.5:
        code.put(0xE8, 0, 0)
        code.calls.append(len(code.bytes))
        taken = draw.choice([0, 0, 1])
    if draw.random() < 0.05:
        taken += draw.choice([-1, 1])
    if draw.random() < 0.4:
        code.put(0x83, 0xC4, 2 * (words - taken) & 0xFF)
    else:
        for _ in range(words - taken):
            code.put(0x58 + draw.choice(GENERAL))


def jump(code):
    """A jump, whose target is filled in later."""
    draw = code.draw
    if draw.random() < 0.2:
        code.put(0xE9, 0, 0)
        code.near.append(len(code.bytes))
    else:
        code.put(draw.choice([0xEB, 0xE0, 0xE1, 0xE2, 0xE3] + list(range(0x70, 0x80))), 0)
        code.short.append(len(code.bytes))


def dos(code):
    """A DOS call; mostly its number stands before it."""
    draw = code.draw
    if draw.random() < 0.9:
        number = draw.choice(DOS_NUMBERS)
        if draw.random() < 0.3:
            code.put(0xB8, 0x41, number)
        else:
            code.put(0xB4, number)
        if draw.random() < 0.2:
            plain(code)
    code.put(0xCD, 0x21)


def comparison(code, r, byte, number):
    """`cmp r,N`, or `cmp al,N`."""
    draw = code.draw
    if byte:
        code.put(*draw.choice([[0x3C, number], [0x80, 0xF8, number]]))
    elif r == 0 and draw.random() < 0.5:
        code.put(0x3D, number, 0)
    elif draw.random() < 0.2:
        code.put(0x81, 0xF8 | r, number, draw.choice([0, 0, 0, 1]))
    else:
        code.put(0x83, 0xF8 | r, number)


def table_jump(code):
    """A jump through a table in one of its forms, at times with a part that is wrong."""
    draw = code.draw
    r = draw.choice(GENERAL)
    q = r if r in TABLES and draw.random() < 0.7 else draw.choice(list(TABLES))
    byte = r == 0 and draw.random() < 0.5
    number = draw.choice([0, 1, 2, 3, 3, 4])
    careless = draw.random() < 0.15
    comparison(code, r, byte, number)
    begin = len(code.bytes)
    if careless and draw.random() < 0.4:
        plain(code)
    if draw.random() < 0.6:
        code.put(0x77, 0)
        code.short.append(len(code.bytes))
    else:
        code.put(0x76, 2)
        if draw.random() < 0.9:
            code.put(0xEB, 0)
            code.short.append(len(code.bytes))
        else:
            code.put(0x90, 0x90)
    if byte and not (careless and draw.random() < 0.3):
        code.put(*draw.choice([[0x32, 0xE4], [0x30, 0xE4]]))
    if careless and draw.random() < 0.3:
        plain(code)
    code.put(0xD1, 0xE0 | (draw.choice(GENERAL) if careless and draw.random() < 0.3 else r))
    if q != r and not (careless and draw.random() < 0.3):
        code.put(*draw.choice([[0x8B, 0xC0 | q << 3 | r], [0x89, 0xC0 | r << 3 | q]]))
    if careless and draw.random() < 0.2:
        plain(code)
    if careless and draw.random() < 0.1:
        jump(code)
    code.inner += range(begin, len(code.bytes) + 1)
    code.put(0x2E, 0xFF, TABLES[q], 0, 0)
    code.words.append((len(code.bytes), number + 1 + (draw.randrange(-1, 2) if careless else 0)))


def refused(code):
    """Bytes that are a construct."""
    draw = code.draw
    code.put(*draw.choice([[0xFF, draw.randrange(256)], [draw.randrange(256)], [0xCD, 0x21], [0x8E, 0xD8], [0xFA],
                           [0xF7, 0xF0], [0x2E, 0xFF, 0x27]]))


PIECES = [(plain, 10), (jump, 4), (dos, 2), (division, 1), (frame_use, 1), (stack_use, 2), (table_jump, 2)]


def procedure(code, is_start):
    """A procedure, and the calls in it."""
    draw, careless = code.draw, code.careless
    code.entries.append(len(code.bytes))
    framed = not is_start and draw.random() < 0.5
    enter = framed and (code.later or careless) and draw.random() < 0.3
    if enter:
        code.put(0xC8, draw.choice([0, 2, 10]), 0, 0)
    elif framed:
        code.put(0x55)
        code.put(0x8B, 0xEC)
    for _ in range(draw.randrange(1, 9)):
        if draw.random() < 0.15:
            code.put(0xE8, 0, 0)
            code.calls.append(len(code.bytes))
        elif careless and draw.random() < 0.1:
            refused(code)
        else:
            kinds, weights = zip(*PIECES)
            draw.choices([k for k in kinds if k is not frame_use or framed or careless],
                         [w for k, w in PIECES if k is not frame_use or framed or careless])[0](code)
    if is_start and draw.random() < 0.98:
        code.put(0xB4, 0x4C)
        code.put(0xCD, 0x21)
    elif draw.random() < 0.97:
        if framed and draw.random() < 0.9:
            if not enter and draw.random() < 0.7:
                code.put(0x8B, 0xE5)
            code.put(*([0xC9] if enter else [0x5D]))
        code.put(*draw.choice([[0xC3], [0xC3], [0xC2, 2, 0]]))


def fill(code, end, target, size):
    """Writes the distance of a jump or call that ends there."""
    if size == 1:
        distance = max(-128, min(127, target - end))
    else:
        distance = (target - end) & 0xFFFF
    code.bytes[end - size:end] = (distance & (256 ** size - 1)).to_bytes(size, "little")


def target(code, near):
    """An instruction in the procedure of a place; where it's careless, also one elsewhere, or beside one."""
    draw = code.draw
    first = max(entry for entry in code.entries if entry <= near)
    last = min([entry for entry in code.entries if entry > near] + [len(code.bytes)])
    own = [start for start in code.starts if first <= start < last and abs(start - near) < 110
           and code.bytes[start:start + 2] != b"\xCD\x21" and start not in code.inner]
    if code.careless and draw.random() < 0.1:
        return draw.choice(code.starts) + draw.randrange(-2, 3)
    return draw.choice(own or [near])


def code_of(draw, base, later):
    """The bytes of code that begins at an offset."""
    code = Code(draw, later, draw.random() < 0.3)
    for place in range(draw.choice([1, 1, 2, 3, 5])):
        procedure(code, place == 0)
    for end in code.short:
        fill(code, end, target(code, end - 1), 1)
    for end in code.near:
        fill(code, end, target(code, end - 1), 2)
    for end in code.calls:
        others = code.entries[1:] or code.entries
        fill(code, end, draw.choice(others) if draw.random() < 0.95 else target(code, end - 1), 2)
    tables = []
    for end, count in code.words:
        at = len(code.bytes) + len(tables) if draw.random() < 0.95 else draw.randrange(len(code.bytes))
        code.bytes[end - 2:end] = (base + at).to_bytes(2, "little")
        if at >= len(code.bytes):
            for _ in range(count):
                tables += ((base + target(code, end - 1)) & 0xFFFF).to_bytes(2, "little")
    code.bytes += bytes(tables)
    if draw.random() < 0.25:
        for _ in range(draw.randrange(1, 4)):
            change(draw, code.bytes)
    return bytes(code.bytes)


def change(draw, data):
    """Changes some bytes."""
    if not data:
        return
    place = draw.randrange(len(data))
    kind = draw.randrange(4)
    if kind == 0:
        data[place] = draw.randrange(256)
    elif kind == 1:
        del data[place]
    elif kind == 2:
        data.insert(place, draw.randrange(256))
    else:
        data[place] ^= 1 << draw.randrange(8)
