"""Small DOS programs for measurements and for the README's session."""

HEADER_BYTES = 32
MZ_RELOCATIONS = 1


def program(code):
    """The MZ file whose image sets DS to the segment behind the code and then runs the code."""
    body = bytes([0x8E, 0xD8]) + code
    paragraphs = (3 + len(body) + 15) // 16
    image = bytes([0xB8]) + paragraphs.to_bytes(2, "little") + body
    image += bytes(16 * paragraphs - len(image))
    length = HEADER_BYTES + len(image)
    words = [length % 512, (length + 511) // 512, MZ_RELOCATIONS, HEADER_BYTES // 16, 0, 0xFFFF,
             paragraphs, 0x0100, 0, 0, 0, 0x1C, 0]
    header = b"MZ" + b"".join(word.to_bytes(2, "little") for word in words)
    relocation = bytes([1, 0, 0, 0])
    return header + relocation + image


PROGRAMS = {
    # mov ax,1; mov bx,0; cwd; idiv bx
    "DIVIDE.EXE": "B80100 BB0000 99 F7FB",
    # jmp to itself
    "LOOP.EXE": "EBFE",
    # add ax,bx; xor dx,ax; inc cx; mov si,ax; sub di,dx; cmp ax,dx; jmp to the first
    "REGISTER.EXE": "03C3 33D0 41 8BF0 2BFA 3BC2 EBF3",
    # mov bx,100h; add [bx],ax; mov cx,[bx]; inc word [bx+si]; mov [bx+2],cx; add ax,[bx+2]; jmp to the add
    "MEMORY.EXE": "BB0001 0107 8B0F FF00 894F02 034702 EBF2",
    # mov bx,2000h; mov cx,ffffh; mov ax,[bx]; mov [bx+2],ax; add ax,dx; xor dx,ax; dec cx; jnz to the load; jmp to 2nd
    "MIXED.EXE": "BB0020 B9FFFF 8B07 894702 03C2 33D0 49 75F4 EBEF",
}


def write_all(folder):
    """Writes each program into the folder."""
    for name, code in PROGRAMS.items():
        (folder / name).write_bytes(program(bytes.fromhex(code)))


def chain(count, size, frame):
    """Procedures of that many instructions, each of which calls the next; with frames and locals, or without."""
    parts = []
    for place in range(count):
        begin = b"\x55\x8B\xEC\x83\xEC\x7E" if frame and place else b""
        leave = b"\xB4\x4C\xCD\x21" if place == 0 else b"\x8B\xE5\x5D\xC3" if frame else b"\x40\xC3"
        fixed = (3 if begin else 0) + 1 + (2 if len(leave) == 2 or place == 0 else 3)
        call = b"\xE8\0\0" if place < count - 1 else b"\x90"
        body = [bytes([0x8B, 0x46, 0x82 + step % 62 * 2]) if begin else b"\x90" for step in range(size - fixed)]
        parts.append((begin, call, b"".join(body) + leave))
    sizes = [len(begin) + len(call) + len(rest) for begin, call, rest in parts]
    code = b""
    for place, (begin, call, rest) in enumerate(parts):
        if place < count - 1:
            # The next procedure follows this one.
            call = b"\xE8" + (sizes[place] - len(begin) - 3).to_bytes(2, "little")
        code += begin + call + rest
    return code
