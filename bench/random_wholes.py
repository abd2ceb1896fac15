"""Random code with every form that is accepted, of several procedures or of one without calls: what random_stacks draws,
and besides that BP copied and indexed, moves of SP whose flags are used, divisions, jumps through tables, loops, and all
operations on registers, frames and memory.
"""
import random_stacks
from random_stacks import GENERAL, Code, Frame, by_address, by_frame, called, plain, printed, pushed, use

START = 5
MEMORY_FORM = {3: 7, 6: 4, 7: 5}


def jumped(code):
    """A conditional jump over an increment."""
    draw = code.draw
    code.put(draw.choice([0x70, 0x71, 0x72, 0x73, 0x74, 0x75, 0x76, 0x77, 0x78, 0x79, 0x7C, 0x7D, 0x7E, 0x7F]), 1)
    code.put(0x40 + draw.choice(GENERAL))


def copied_bp(code, frame):
    """A register takes BP, and bytes near it are used through it."""
    draw = code.draw
    q = draw.choice([3, 6, 7])
    code.put(0x8B, 0xC5 | q << 3)
    for _ in range(draw.randrange(1, 4)):
        far = draw.randrange(-frame.local - 2, 6 + 2 * frame.args)
        code.put(draw.choice([0x89, 0x8B, 0x01, 0x88, 0x8A, 0xFF]), 0x40 | draw.choice([0, 1]) << 3 | MEMORY_FORM[q], far & 0xFF)


def indexed(code, frame):
    """BP with SI or DI."""
    draw = code.draw
    rm = draw.choice([2, 3])
    at = frame.place(draw)
    if at is None:
        code.put(0x90)
        return
    code.put_word(draw.choice([0, 0, 2, 1, 0xFFFF, 0xFFFE, 4]), 0xBC + rm)
    for _ in range(draw.randrange(1, 3)):
        code.put(draw.choice([0x89, 0x8B, 0x01, 0x88, 0x8A, 0x87]), 0x40 | draw.choice([0, 1, 2]) << 3 | rm, at & 0xFF)
    if draw.random() < 0.3:
        code.put(0x8D, 0x40 | draw.choice(GENERAL) << 3 | rm, at & 0xFF)


def sp_moved(code, frame):
    """SP is lowered and raised, in several forms; a jump may follow each."""
    draw = code.draw
    count = draw.choice([1, 2, 2, 3, 4, 6])
    down = [[0x83, 0xEC, count], [0x83, 0xC4, -count & 0xFF], [0x4C] * count, [0x81, 0xEC, count, 0]]
    up = [[0x83, 0xC4, count], [0x83, 0xEC, -count & 0xFF], [0x44] * count]
    code.put(*draw.choice(down))
    if draw.random() < 0.7:
        jumped(code)
    if draw.random() < 0.6:
        random_stacks.body(code, frame, 2)
    code.put(*draw.choice(up))
    if draw.random() < 0.7:
        jumped(code)


def sp_from_bp(code, frame):
    """A push that LEA of SP gives up."""
    code.put(0x50 + code.draw.choice(GENERAL))
    code.put(0x8D, 0x66, -frame.local & 0xFF)


def memory_of(code, frame):
    """The mod and rm bits, and the displacement, of an operand in memory; its register may be set before."""
    draw = code.draw
    at = frame.place(draw) if frame.framed else None
    if at is not None and draw.random() < 0.7:
        return 0x46, [at & 0xFF]
    if draw.random() < 0.8:
        return 0x06, [draw.choice([0, 2, 3, 0x20, 0x30, 0x3C]), 0]
    q = draw.choice([3, 6, 7])
    code.put_word(draw.choice([0, 4, 0x11, 0x20]), 0xB8 + q)
    return 0x40 | MEMORY_FORM[q], [draw.randrange(0, 9)]


def worked(code, frame):
    """Any operation on a register or on memory."""
    draw = code.draw
    wide = draw.choice([0, 1, 1])
    r = draw.choice(GENERAL) if wide else draw.randrange(8)
    if draw.random() < 0.6:
        form, far = memory_of(code, frame)
    else:
        form, far = 0xC0 | (draw.choice(GENERAL) if wide else draw.randrange(8)), []
    shift = draw.choice([0, 1, 4, 5, 7]) << 3
    constant = draw.choice([0, 1, 0x80, 0xFF, draw.randrange(256)])
    forms = [
        [8 * draw.randrange(8) + draw.choice([0, 2]) + wide, form | r << 3, *far],
        [0x80 + wide, form | draw.randrange(8) << 3, *far, constant, *[draw.choice([0, 0x80, 0xFF])] * wide],
        [0xD0 + wide, form | draw.choice([0, 1, 2, 3, 4, 5, 7]) << 3, *far],
        [0xB1, draw.choice([0, 1, 3, 8, 16, 17, 40]), 0xD2 + wide, form | shift, *far],
        [0xF6 + wide, form | draw.choice([2, 3, 4, 5]) << 3, *far],
        [0xFE + wide, form | draw.choice([0, 1]) << 3, *far],
        [0x84 + wide + draw.choice([0, 2, 4, 6]), form | r << 3, *far],
    ]
    if code.later:
        forms.append([0xC0 + wide, form | shift, *far, draw.choice([0, 1, 5, 9, 32, 33])])
        forms.append([0x6B, form | draw.choice(GENERAL) << 3, *far, constant] if wide else [0xF5])
    code.put(*draw.choice(forms))
    if draw.random() < 0.5:
        jumped(code)


def divided(code, frame):
    """A division whose upper half is prepared."""
    draw = code.draw
    wide, signed = draw.choice([0, 1]), draw.choice([0, 1])
    if draw.random() < 0.4:
        form, far = memory_of(code, frame)
    else:
        form, far = 0xC0 | draw.choice([1, 3, 6, 7] if wide else [1, 3, 5, 7]), []
        divisor = draw.choice([1, 3, 0xFF, 7, draw.randrange(256)])
        code.put(*([0xB8 + (form & 7), divisor, draw.choice([0, 0xFF])] if wide else [0xB0 + (form & 7), divisor]))
    if signed:
        code.put(0x99 if wide else 0x98)
    else:
        code.put(*draw.choice([[0x31, 0xD2], [0x29, 0xD2], [0xBA, 0, 0]] if wide else [[0x30, 0xE4], [0x28, 0xE4], [0xB4, 0]]))
    code.put(0xF6 + wide, form | (6 + signed) << 3, *far)


def tabled(code, frame):
    """A jump through a table of one to three targets; the table follows them."""
    draw = code.draw
    last, q = draw.choice([0, 1, 2]), draw.choice([3, 6, 7])
    short = draw.random() < 0.3
    r = 0 if short else draw.choice([q, q, 0, 1, 2])
    code.put_word(draw.randrange(4), 0xB8 + r)
    code.put(*([0x3C, last] if short else [0x83, 0xF8 | r, last]))
    test = len(code.bytes)
    code.put(0x77, 0)
    if short:
        code.put(0x32, 0xE4)
    code.put(0xD1, 0xE0 | r)
    if q != r:
        code.put(0x8B, 0xC0 | q << 3 | r)
    jump = len(code.bytes)
    code.put(0x2E, 0xFF, {6: 0xA4, 7: 0xA5, 3: 0xA7}[q], 0, 0)
    targets = []
    for _ in range(last + 1):
        targets.append(START + len(code.bytes))
        code.put(0x40 + draw.choice(GENERAL))
    code.put(0xEB, 2 * (last + 1))
    code.bytes[jump + 3:jump + 5] = (START + len(code.bytes)).to_bytes(2, "little")
    for _ in targets:
        code.bytes += draw.choice(targets).to_bytes(2, "little")
    code.bytes[test + 1] = len(code.bytes) - test - 2


def looped(code, frame):
    """A short loop that counts in CX."""
    draw = code.draw
    code.put_word(draw.randrange(1, 5), 0xB9)
    start = len(code.bytes)
    code.put(*draw.choice([[0x43], [0x01, 0xD8], [0x50, 0x5B], [0xF7, 0xD3], [0x11, 0xC3]]))
    code.put(draw.choice([0xE0, 0xE1, 0xE2]), (start - len(code.bytes) - 2) & 0xFF)


def skipped(code, frame):
    """Pieces under a condition."""
    at = len(code.bytes)
    code.put(code.draw.choice([0x72, 0x74, 0x75, 0x7C, 0xE3]), 0)
    random_stacks.body(code, frame, 2)
    count = len(code.bytes) - at - 2
    if count < 128:
        code.bytes[at + 1] = count
    else:
        del code.bytes[at:]
        code.calls[:] = [end for end in code.calls if end <= at]


def pushed_memory(code, frame):
    """A word of memory is pushed, and popped into memory or a register."""
    form, far = memory_of(code, frame)
    code.put(0xFF, form | 6 << 3, *far)
    form, far = memory_of(code, frame)
    if code.draw.random() < 0.6:
        code.put(0x8F, form, *far)
    else:
        code.put(0x58 + code.draw.choice(GENERAL))


def quiet(code, frame):
    """Something in registers, flags or memory at a constant offset."""
    draw = code.draw
    r, q = draw.choice(GENERAL), draw.choice(GENERAL)
    word = draw.choice([0, 1, 2, 0xFF])
    code.put(*draw.choice([
        [0xB8 + r, word, draw.choice([0, 0xFF])],
        [draw.choice([0x89, 0x01, 0x29, 0x31, 0x39, 0x87, 0x11, 0x19]), 0xC0 | r << 3 | q],
        [draw.choice([0xA0, 0xA1, 0xA2, 0xA3]), draw.choice([0, 2, 0x11, 0x30]), 0],
        [0x40 + r], [0x48 + r], [0xF5], [0xF8], [0xF9], [0x98], [0x99],
    ]))


def pointed(code, frame):
    """A use of memory through a pointer into the data, or through XLAT."""
    draw = code.draw
    q = draw.choice([3, 6, 7])
    code.put_word(draw.choice([0, 2, 5, 0x10, 0x1E]), 0xB8 + q)
    use(code, q)
    if q == 3 and draw.random() < 0.3:
        code.put(0xB0, draw.randrange(16))
        code.put(0xD7)


def shown(code, frame):
    """A byte of a register is written."""
    code.put(0x88, 0xC2 | code.draw.randrange(8) << 3)
    code.put(0xB4, 2)
    code.put(0xCD, 0x21)


PIECES = [(quiet, 3), (plain, 0.3), (by_frame, 4), (by_address, 1), (pushed, 1.5), (called, 3), (printed, 1), (copied_bp, 0.4),
          (indexed, 0.4), (sp_moved, 1.5), (sp_from_bp, 0.4), (worked, 5), (divided, 1), (tabled, 1), (looped, 1),
          (skipped, 1.5), (pushed_memory, 1.5), (pointed, 1), (shown, 1)]
FRAMED = (by_frame, by_address, copied_bp, indexed, sp_from_bp)


def body(code, frame, most):
    """Some pieces; none is a call where no other procedure is to stand."""
    for _ in range(code.draw.randrange(1, most + 1)):
        pieces = [(piece, weight) for piece, weight in PIECES if frame.framed or piece not in FRAMED]
        kinds, weights = zip(*[(piece, weight) for piece, weight in pieces if not code.alone or piece != called])
        code.draw.choices(kinds, weights)[0](code, frame)


def entry_procedure(code):
    """The entry procedure, with some calls."""
    frame = Frame(code.draw, True)
    code.entries.append(len(code.bytes))
    for _ in range(code.draw.randrange(1, 5)):
        body(code, frame, 2)
        called(code, frame)
    body(code, frame, 3)
    code.put_word(0x4C00, 0xB8)
    code.put(0xCD, 0x21)


def alone_code(draw, later):
    """The bytes of the code of one procedure, which ends by INT 21h; `later`: for the 80186."""
    code = Code(draw, later)
    code.alone = True
    first, random_stacks.body = random_stacks.body, body
    try:
        frame = Frame(draw, False)
        frame.args = 0
        if frame.framed and later and draw.random() < 0.4:
            code.put(0xC8, frame.local, 0, 0)
        elif frame.framed:
            code.put(0x55)
            code.put(0x8B, 0xEC)
            if frame.local:
                code.put(*draw.choice([[0x83, 0xEC, frame.local], [0x83, 0xC4, -frame.local & 0xFF]]))
        for at in range(-frame.local, 0, 2):
            if draw.random() < 0.7:
                code.put(0x89, 0x46, at & 0xFF)
        body(code, frame, 9)
        code.put_word(0x4C00 | draw.randrange(256), 0xB8)
        code.put(0xCD, 0x21)
    finally:
        random_stacks.body = first
    return bytes(code.bytes)


def whole_code(draw, later):
    """The bytes of the code of several procedures; `later`: for the 80186."""
    first, other_body = random_stacks.procedure, random_stacks.body
    random_stacks.body = body
    random_stacks.procedure = lambda code, is_start: entry_procedure(code) if is_start else first(code, False)
    try:
        return random_stacks.stack_code(draw, later)
    finally:
        random_stacks.procedure, random_stacks.body = first, other_body
