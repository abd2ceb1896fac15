"""Random code of procedures that use their frames: pushes and pops, direct accesses, addresses, calls with arguments."""

GENERAL = [0, 1, 2, 3, 6, 7]


class Frame:
    """A procedure that is written; `height` is known where the code goes on."""

    def __init__(self, draw, later):
        self.draw, self.later = draw, later
        self.bytes = bytearray()
        self.calls = []
        self.height = 0
        self.framed = False

    def put(self, *parts):
        self.bytes += bytes(part & 0xFF for part in parts)


def begin(frame):
    """What sets the frame up, and room for locals."""
    draw = frame.draw
    room = draw.choice([0, 0, 2, 4, 4, 6, 10, 3])
    if frame.later and draw.random() < 0.4:
        frame.put(0xC8, room, 0, 0)
    else:
        frame.put(0x55)
        frame.put(0x8B, 0xEC)
        if room:
            frame.put(*draw.choice([[0x83, 0xEC, room], [0x83, 0xC4, -room], [0x8D, 0x66, -room]]))
    frame.framed = True
    frame.height = 2 + room


def lower(frame):
    """A push, or a move of SP that lowers it."""
    draw = frame.draw
    kind = draw.randrange(10)
    if kind < 6:
        frame.put(0x50 + draw.choice(GENERAL))
        frame.height += 2
    elif kind < 8:
        frame.put(0x4C)
        frame.height += 1
    elif kind < 9 and frame.framed:
        frame.put(0xFF, 0x76, offset(frame))
        frame.height += 2
    else:
        room = draw.choice([1, 2, 3, 4])
        frame.put(0x83, 0xEC, room)
        frame.height += room


def rise(frame):
    """A pop, or a move of SP that raises it, where the frame has the bytes."""
    draw = frame.draw
    own = frame.height - (2 if frame.framed else 0)
    kind = draw.randrange(10)
    if own >= 2 and kind < 7:
        if frame.framed and draw.random() < 0.2:
            frame.put(0x8F, 0x46, offset(frame))
        else:
            frame.put(0x58 + draw.choice(GENERAL))
        frame.height -= 2
    elif own >= 1 and kind < 8:
        frame.put(0x44)
        frame.height -= 1
    elif own >= 2:
        room = draw.randrange(1, own + 1)
        frame.put(0x83, 0xC4, room)
        frame.height -= room


def offset(frame):
    """An offset from BP: mostly a local or an argument."""
    draw = frame.draw
    kind = draw.randrange(20)
    if kind < 12 and frame.height > 2:
        return -draw.randrange(1, frame.height - 1)
    if kind < 18:
        return draw.choice([4, 4, 4, 5, 6, 6, 8])
    return draw.randrange(-128, 128)


def access(frame):
    """A direct access, or a start of exposure."""
    draw = frame.draw
    kind, r, k = draw.randrange(30), draw.choice(GENERAL), offset(frame)
    if kind < 12:
        frame.put(draw.choice([0x8B, 0x89, 0x01, 0x3B]), 0x46 | r << 3, k)
    elif kind < 18:
        frame.put(draw.choice([0x8A, 0x88, 0x32]), 0x46 | draw.randrange(4) << 3, k)
    elif kind < 20:
        frame.put(0xC7, 0x46, k, 1, 0)
    elif kind < 22:
        frame.put(0x83, 0x7E, k, 3)
    elif kind < 24:
        frame.put(0x8D, 0x46 | r << 3, k)
    elif kind < 25:
        frame.put(0x8B, 0x42 | r << 3, k)
    elif kind < 26:
        frame.put(0x8B, 0xC5 | r << 3)
    elif kind < 27:
        frame.put(0xFE, 0x46, k)
    elif kind < 28:
        frame.put(0xD1, 0x66, k)
    else:
        frame.put(0x87, 0x46 | r << 3, k)


def call(frame, count, removes):
    """A call with arguments that are pushed, and what takes them from the stack again."""
    draw = frame.draw
    missing = draw.random() < 0.05
    for _ in range(count - 1 if missing and count else count):
        frame.put(0x50 + draw.choice(GENERAL))
        frame.height += 2
    frame.put(0xE8, 0, 0)
    frame.calls.append(len(frame.bytes))
    frame.height -= removes
    own = frame.height - (2 if frame.framed else 0)
    rest = min(2 * count - removes, own)
    if rest > 0 and draw.random() < 0.8:
        frame.put(0x83, 0xC4, rest)
        frame.height -= rest


def end(frame, removes, is_start):
    """What gives the frame up and returns."""
    draw = frame.draw
    if is_start:
        frame.put(0xB4, 0x4C)
        frame.put(0xCD, 0x21)
        return
    if frame.framed:
        if frame.later and draw.random() < 0.5:
            frame.put(0xC9)
        else:
            if frame.height != 2 or draw.random() < 0.2:
                frame.put(0x8B, 0xE5)
            frame.put(0x5D)
    elif frame.height:
        frame.put(0x83, 0xC4, frame.height)
    if removes:
        frame.put(0xC2, removes, 0)
    else:
        frame.put(0xC3)


def procedure(draw, later, is_start, signatures):
    """The bytes of a procedure, and the places of its calls with the callees' numbers."""
    frame = Frame(draw, later)
    callees = []
    if draw.random() < (0.15 if is_start else 0.7):
        begin(frame)
    for _ in range(draw.randrange(1, 14)):
        kind = draw.randrange(20)
        if kind < 5:
            lower(frame)
        elif kind < 9:
            rise(frame)
        elif kind < 14 and frame.framed:
            access(frame)
        elif kind < 17 and len(signatures) > 1:
            callee = draw.randrange(1, len(signatures))
            callees.append(callee)
            call(frame, *signatures[callee])
        elif kind < 18:
            frame.put(draw.choice([0x74, 0x75, 0xE3]), 0)
        elif kind < 19:
            frame.put(0x81, 0xEC, draw.randrange(256), draw.choice([0, 0, 1, 0x40]))
            frame.put(0x8B, 0xE5) if frame.framed else frame.put(0x90)
            frame.height = 2 if frame.framed else frame.height
        else:
            frame.put(0x40)
    end(frame, signatures[0 if is_start else 1][1] if is_start else 0, is_start)
    return frame, callees


def code_of(draw, base, later):
    """The bytes of code that begins at an offset."""
    count = draw.choice([1, 2, 2, 3, 4])
    signatures = [(0, 0)]
    for _ in range(count):
        words = draw.choice([0, 0, 1, 1, 2, 3, 5, 33 if draw.random() < 0.1 else 2])
        signatures.append((words, draw.choice([0, 0, 2 * words])))
    code, entries, patches = bytearray(), [], []
    for place in range(count + 1):
        frame, callees = procedure(draw, later, place == 0, signatures)
        if place and signatures[place][1]:
            if frame.bytes[-1] == 0xC3:
                frame.bytes[-1:] = bytes([0xC2, signatures[place][1] & 0xFF, signatures[place][1] >> 8])
        entries.append(len(code))
        patches += [(len(code) + at, callee) for at, callee in zip(frame.calls, callees)]
        code += frame.bytes
    for at, callee in patches:
        code[at - 2:at] = ((entries[callee] - at) & 0xFFFF).to_bytes(2, "little")
    for _ in range(draw.choice([0, 0, 0, 1, 2])):
        code[draw.randrange(len(code))] = draw.randrange(256)
    return bytes(code)
