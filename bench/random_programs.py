"""Random DOS programs of the built forms; about a third have other forms too."""

REGISTERS = [0, 1, 2, 3, 6, 7]
DOS_NUMBERS = [0x01, 0x02, 0x08, 0x4C]


def two_registers(draw):
    """A ModRM byte with two word registers, neither SP nor BP."""
    return 0xC0 | draw.choice(REGISTERS) << 3 | draw.choice(REGISTERS)


def plain(draw):
    """An instruction that goes on."""
    word = draw.randrange(65536).to_bytes(2, "little")
    return draw.choice([
        lambda: bytes([0xB8 + draw.choice(REGISTERS)]) + word,
        lambda: bytes([0xB0 + draw.randrange(8), word[0]]),
        lambda: bytes([draw.choice([0x89, 0x8B, 0x01, 0x2B, 0x33, 0x21, 0x09, 0x13, 0x1B, 0x3B, 0x85, 0x87]),
                       two_registers(draw)]),
        lambda: bytes([draw.choice([0x88, 0x8A, 0x00, 0x28, 0x30, 0x38, 0x84, 0x86]), 0xC0 | word[0]]),
        lambda: bytes([0x81, 0xC0 | draw.randrange(8) << 3 | draw.choice(REGISTERS)]) + word,
        lambda: bytes([draw.choice([0x04, 0x2C, 0x3C, 0xA8, 0x24]), word[0]]),
        lambda: bytes([draw.choice([0x05, 0x2D, 0x3D, 0xA9])]) + word,
        lambda: bytes([draw.choice([0x40, 0x48]) + draw.choice(REGISTERS)]),
        lambda: bytes([0xF7, 0xC0 | draw.choice([2, 3, 4, 5]) << 3 | draw.choice(REGISTERS)]),
        lambda: bytes([draw.choice([0xD1, 0xD3, 0xD0]),
                       0xC0 | draw.choice([0, 1, 2, 3, 4, 5, 7]) << 3 | draw.choice(REGISTERS[:4])]),
        lambda: bytes([draw.choice([0x90, 0x91, 0x92, 0x93, 0x96, 0x97, 0x98, 0x99, 0xF5, 0xF8, 0xF9])]),
    ])()


def later(draw):
    """An instruction that goes on, of the 80186 alone: a shift or rotate by a constant, or a product of three operands."""
    word = draw.randrange(65536).to_bytes(2, "little")
    return draw.choice([
        lambda: bytes([draw.choice([0xC0, 0xC1]),
                       0xC0 | draw.choice([0, 1, 4, 5, 7]) << 3 | draw.choice(REGISTERS[:4]),
                       draw.choice([draw.randrange(9), draw.randrange(40), word[0]])]),
        lambda: bytes([0x69, two_registers(draw)]) + word,
        lambda: bytes([0x6B, two_registers(draw), word[0]]),
    ])()


def refused(draw):
    """Bytes that are a construct, or that are not built."""
    return draw.choice([bytes([0xFF, draw.randrange(256)]), bytes([draw.randrange(256)]),
                        bytes([0xCD, 0x21]), bytes([0xB4, draw.choice([0x09, 0x30])]) + bytes([0xCD, 0x21]),
                        bytes([0xF7, 0xF0]), bytes([0x8E, 0xD8]), bytes([0xA1, 0, 0]), bytes([0x50])])


def jump(draw):
    """The opcode of a short jump, whose distance is filled in later."""
    return bytes([draw.choice([0xEB, 0xE0, 0xE1, 0xE2, 0xE3] + list(range(0x70, 0x80))), 0])


def code_of(draw, cpu="8086"):
    """The bytes of a program's code for a processor."""
    careless = draw.random() < 0.3
    parts, jumps = [], []
    for _ in range(draw.randrange(1, 25)):
        kind = draw.random()
        if kind < 0.25:
            jumps.append(len(parts))
            parts.append(jump(draw))
        elif kind < 0.4:
            parts.append(bytes([0xB4, draw.choice(DOS_NUMBERS)]))
            parts.append(bytes([0xCD, 0x21]))
        elif careless and kind < 0.5:
            parts.append(refused(draw))
        elif cpu == "186" and kind < 0.7:
            parts.append(later(draw))
        else:
            parts.append(plain(draw))
    parts += [bytes([0xB4, 0x4C]), bytes([0xCD, 0x21])]
    starts = [sum(map(len, parts[:place])) for place in range(len(parts))]
    for place in jumps:
        # No jump leads between a number and its INT 21h, where the program is to be accepted.
        safe = [start for start, part in zip(starts, parts) if part != bytes([0xCD, 0x21])]
        target = draw.choice(starts) if careless else draw.choice(safe)
        if careless and draw.random() < 0.2:
            target += draw.randrange(-2, 3)
        distance = max(-128, min(127, target - starts[place] - 2))
        parts[place] = parts[place][:1] + (distance & 0xFF).to_bytes(1, "little")
    return b"".join(parts)


def file_of(code):
    """The file whose prelude sets DS to the segment behind the code."""
    length = 5 + len(code)
    paragraphs = -(-length // 16)
    image = bytes([0xB8]) + paragraphs.to_bytes(2, "little") + bytes([0x8E, 0xD8]) + code
    words = [(32 + length) % 512, -(-(32 + length) // 512), 1, 2, 0, 0xFFFF, paragraphs, 0x0100,
             0, 0, 0, 28, 0, 1, 0]
    return b"MZ" + b"".join(word.to_bytes(2, "little") for word in words) + image
