"""Random code of several procedures that pass each other arguments, registers and results, as compilers and people do.

It has recursion, exposed and written arguments, saved registers, pointers into frames, and tails that procedures share.
"""
import random_stacks
import random_wholes
from procs_show import file_of
from random_stacks import Code, Frame

AX, CX, DX, BX, SI, DI = 0, 1, 2, 3, 6, 7
WORDS = [AX, CX, DX, BX, SI, DI]
POINTED = {BX: 7, SI: 4, DI: 5}


class Shape(Frame):
    """What a procedure has, and how it is called.

    `saved`: the registers that it pushes at its entry and pops at its end; `given`: those that hold its result;
    `taken`: those that it takes; `depth`: whether it calls itself, with an argument or CX that counts down.
    """

    def __init__(self, draw, later):
        self.framed = draw.random() < 0.75
        self.enters = self.framed and later and draw.random() < 0.4
        self.local = draw.choice([0, 0, 2, 4, 6, 10]) if self.framed else 0
        self.args = draw.choice([0, 1, 1, 2, 3]) if self.framed or draw.random() < 0.3 else 0
        self.removes = self.args > 0 and draw.random() < 0.4
        self.given = draw.choice([[], [AX], [AX], [AX], [BX], [AX, DX], ["carry"]])
        self.taken = draw.sample(WORDS, draw.choice([0, 0, 1, 2]))
        others = [r for r in WORDS if r not in self.given]
        self.saved = others if draw.random() < 0.4 else draw.sample(others, draw.randrange(len(others) + 1))
        self.counts = draw.random() < 0.3
        self.exposes = self.framed and draw.random() < 0.25


def saved_by(code, registers, pop):
    """The registers are pushed, or popped in the other order."""
    for r in reversed(registers) if pop else registers:
        code.put((0x58 if pop else 0x50) + r)


def opened(code, shape):
    """What sets the frame up, with room for locals, of which some are stored; and the saved registers."""
    draw = code.draw
    if shape.enters:
        code.put(0xC8, shape.local, 0, 0)
    elif shape.framed:
        code.put(0x55)
        code.put(0x8B, 0xEC)
        if shape.local:
            code.put(*draw.choice([[0x83, 0xEC, shape.local], [0x83, 0xC4, -shape.local & 0xFF],
                                   [0x8D, 0x66, -shape.local & 0xFF]]))
    for at in range(-shape.local, 0, 2):
        if draw.random() < 0.95:
            code.put(*draw.choice([[0xC7, 0x46, at & 0xFF, draw.randrange(256), draw.randrange(256)],
                                   [0x89, 0x46 | draw.choice(WORDS) << 3, at & 0xFF]]))
    saved_by(code, shape.saved, False)


def closed(code, shape):
    """The end of a procedure: what it gives back, what it saved, its frame and its RET."""
    draw = code.draw
    for r in shape.given:
        if r == "carry":
            code.put(*draw.choice([[0xF8], [0xF9], [0xF5], [0x39, 0xC0 | draw.choice(WORDS) << 3]]))
        elif draw.random() < 0.6:
            code.put(0x8B, 0xC0 | r << 3 | draw.choice(WORDS))
    saved_by(code, shape.saved, True)
    if shape.framed:
        if code.later and draw.random() < (0.9 if shape.enters else 0.2):
            code.put(0xC9)
        else:
            if shape.local or draw.random() < 0.5:
                code.put(*draw.choice([[0x8B, 0xE5], [0x8D, 0x66, 0]]))
            code.put(0x5D)
    code.put(*([0xC2, 2 * shape.args, 0] if shape.removes else [0xC3]))


def pushed_argument(code, frame):
    """An argument: a register, a constant, a word of the frame or of memory, or the address of one."""
    draw = code.draw
    at = frame.place(draw) if frame.framed else None
    kind = draw.randrange(6)
    if kind == 0 and at is not None and frame.exposes:
        r = draw.choice(WORDS)
        code.put(0x8D, 0x46 | r << 3, at & 0xFF)
        code.put(0x50 + r)
    elif kind <= 1 and at is not None:
        code.put(0xFF, 0x76, at & 0xFF)
    elif kind == 2 and code.later:
        code.put(0x6A, draw.randrange(256))
    elif kind == 3:
        code.put(0xFF, 0x36, draw.choice([0, 2, 0x20]), 0)
    elif kind == 4:
        r = draw.choice(WORDS)
        code.put_word(draw.choice([0, 1, 2, 5, 0x41, 0xFFFF]), 0xB8 + r)
        code.put(0x50 + r)
    else:
        code.put(0x50 + draw.choice(WORDS))


def called(code, frame):
    """A call of a later procedure, now and then of any, as it wants it: registers, arguments; afterwards they are taken
    off, and results are used."""
    draw = code.draw
    first = code.number + 1 if draw.random() < 0.97 else 0
    if first >= len(code.shapes):
        return
    number = draw.randrange(first, len(code.shapes))
    shape = code.shapes[number]
    kept = draw.sample(WORDS, draw.choice([0, 0, 0, 1, 2]))
    saved_by(code, kept, False)
    for r in shape.taken:
        if draw.random() < 0.5:
            code.put_word(draw.choice([0, 1, 2, 3, 0x41, 0x120]), 0xB8 + r)
    for place in range(shape.args):
        if shape.counts and place == shape.args - 1:
            code.put_word(draw.randrange(5), 0xB8 + DX)
            code.put(0x50 + DX)
        else:
            pushed_argument(code, frame)
    if shape.counts and not (shape.framed and shape.args):
        code.put_word(draw.randrange(5), 0xB8 + CX)
    code.put(0xE8, 0, 0)
    code.targets.append((len(code.bytes), number))
    if not shape.removes and shape.args:
        count = 2 * shape.args
        off = [[[0x83, 0xC4, count]], [[0x83, 0xEC, -count & 0xFF]], [[0x44]] * count,
               [[0x58 + draw.choice([CX, CX, CX, BX, SI])]] * shape.args]
        for part in draw.choice(off):
            code.put(*part)
    saved_by(code, kept, True)
    used(code, frame, shape)


def used(code, frame, shape):
    """What a call gives back is printed, stored or tested; other registers are set anew."""
    draw = code.draw
    at = frame.place(draw) if frame.framed else None
    for r in shape.given:
        if r == "carry":
            code.put(0x72, 1)
            code.put(0x40 + draw.choice(WORDS))
        elif draw.random() < 0.3 and at is not None:
            code.put(0x89, 0x46 | r << 3, at & 0xFF)
        elif draw.random() < 0.3:
            code.put(0x89, 0x06 | r << 3, draw.choice([0, 2, 0x20]), 0)
    for r in WORDS:
        if r not in shape.saved and r not in shape.given and draw.random() < 0.8:
            code.put(*draw.choice([[0xB8 + r, draw.randrange(256), 0], [0x31, 0xC0 | 9 * r], [0x2B, 0xC0 | 9 * r]]))


def recursive(code, shape, number):
    """The procedure calls itself with one less, where its count is not 0 yet."""
    draw = code.draw
    if shape.framed and shape.args:
        code.put(0x83, 0x7E, 4, 0)
        code.put(draw.choice([0x74, 0x7E, 0x76]), 0)
        test = len(code.bytes)
        for _ in range(shape.args - 1):
            pushed_argument(code, shape)
        r = draw.choice([AX, BX, DX])
        code.put(0x8B, 0x46 | r << 3, 4)
        code.put(*draw.choice([[0x48 + r], [0xD1, 0xE8 | r], [0x83, 0xE8 | r, 1]]))
        code.put(0x50 + r)
    else:
        code.put(0xE3, 0)
        test = len(code.bytes)
        code.put(0x49)
        for _ in range(shape.args):
            pushed_argument(code, shape)
    code.put(0xE8, 0, 0)
    code.targets.append((len(code.bytes), number))
    if not shape.removes and shape.args:
        code.put(0x83, 0xC4, 2 * shape.args)
    if draw.random() < 0.5 and shape.framed and shape.args:
        code.put(0x03, 0x46, 4)
    code.bytes[test - 1] = min(len(code.bytes) - test, 127)


def argument_written(code, frame):
    """An argument is computed upon where it stands."""
    if not frame.framed or not frame.args:
        return
    at = 4 + 2 * code.draw.randrange(frame.args)
    r = code.draw.choice(WORDS)
    forms = [[0xD1, 0x66, at], [0xFF, 0x46, at], [0x89, 0x46 | r << 3, at], [0x01, 0x46 | r << 3, at],
             [0x88, 0x46, at], [0x88, 0x66, at + 1], [0xF7, 0x5E, at]]
    code.put(*code.draw.choice(forms))


def argument_shown(code, frame):
    """An argument is written, or used as an address."""
    draw = code.draw
    if not frame.framed or not frame.args:
        return
    at = 4 + 2 * draw.randrange(frame.args)
    if draw.random() < 0.4:
        q = draw.choice([BX, SI, DI])
        code.put(0x8B, 0x46 | q << 3, at)
        code.put(draw.choice([0x8B, 0x89, 0x01, 0x8A, 0x88, 0xFF]), draw.choice([0, 1]) << 3 | POINTED[q])
    else:
        code.put(0x8A, 0x56, at + draw.randrange(2))
        code.put(0xB4, 2)
        code.put(0xCD, 0x21)


def exposed(code, frame):
    """An address in the frame is taken and used, where the procedure does so."""
    if frame.exposes:
        code.draw.choice([random_stacks.by_address, random_wholes.copied_bp, random_wholes.indexed])(code, frame)


def pushed(code, frame):
    """A register is saved over some pieces."""
    r = code.draw.choice(WORDS)
    code.put(0x50 + r)
    body(code, frame, 2)
    code.put(0x58 + (r if code.draw.random() < 0.7 else code.draw.choice(WORDS)))


PIECES = [(random_wholes.quiet, 3), (random_stacks.by_frame, 4), (pushed, 1), (called, 3), (random_stacks.printed, 0.3),
          (random_wholes.sp_moved, 0.5), (random_wholes.worked, 3), (random_wholes.divided, 0.7),
          (random_wholes.tabled, 0.4), (random_wholes.looped, 0.7), (random_wholes.skipped, 1.5), (random_wholes.pushed_memory, 0.7),
          (random_wholes.pointed, 0.5), (random_wholes.shown, 1.5), (argument_written, 1.5), (argument_shown, 1.5),
          (exposed, 2)]


def body(code, frame, most):
    """Some pieces."""
    kinds, weights = zip(*[(piece, weight) for piece, weight in PIECES
                           if frame.framed or piece is not random_stacks.by_frame])
    for _ in range(code.draw.randrange(1, most + 1)):
        code.draw.choices(kinds, weights)[0](code, frame)


def procedure(code, number):
    """A procedure, of which a later one may share the tail."""
    draw, shape = code.draw, code.shapes[number]
    code.number = number
    code.entries.append(len(code.bytes))
    opened(code, shape)
    body(code, shape, 4)
    if shape.counts:
        recursive(code, shape, number)
    if number in code.shared:
        place = code.middles[code.shared[number]]
        code.put(0xE9, *((place - len(code.bytes) - 3) & 0xFFFF).to_bytes(2, "little"))
        return
    code.middles.append(len(code.bytes))
    body(code, shape, 3)
    closed(code, shape)


def calling_file(draw, later):
    """A file with such code, some data, and a stack of some hundred bytes."""
    code = calling_code(draw, later)
    file = bytearray(file_of(code, draw.randbytes(draw.choice([64, 80, 96, 128])), draw.choice([0] * 9 + [2])))
    file[16:18] = draw.choice([0x0100, 0x0180, 0x0400, 0x0400]).to_bytes(2, "little")
    return bytes(file)


def calling_code(draw, later):
    """The bytes of the code of several procedures; `later`: for the 80186."""
    code = Code(draw, later)
    code.shapes, code.shared, code.middles, code.targets, code.number = [], {}, [], [], -1
    for number in range(draw.choice([1, 1, 2, 2, 3, 4, 6])):
        if number and not code.shared and draw.random() < 0.2:
            code.shared[number] = number - 1
            code.shapes.append(code.shapes[-1])
        else:
            code.shapes.append(Shape(draw, later))
    entry = Shape(draw, later)
    entry.args, entry.removes, entry.saved, entry.given = 0, False, [], []
    entry.framed = entry.framed and draw.random() < 0.4
    entry.local = entry.local if entry.framed else 0
    entry.enters = entry.enters and entry.framed
    entry.exposes = entry.exposes and entry.framed
    first, random_stacks.body = random_stacks.body, body
    try:
        opened(code, entry)
        for _ in range(draw.randrange(1, 5)):
            body(code, entry, 2)
            called(code, entry)
        code.put_word(0x4C00 | draw.randrange(256), 0xB8)
        code.put(*draw.choice([[0x8A, 0xC3], [0x8A, 0xC2], [0x90]]))
        code.put(0xCD, 0x21)
        for number in range(len(code.shapes)):
            procedure(code, number)
    finally:
        random_stacks.body = first
    for end, number in code.targets:
        code.bytes[end - 2:end] = ((code.entries[number] - end) & 0xFFFF).to_bytes(2, "little")
    return bytes(code.bytes)
