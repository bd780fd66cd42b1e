"""The encodings: every built form, the undefined and the unbuilt ones, and the flags that each leaves undefined."""
from layout import GENERATED

ARITHMETIC = GENERATED[:8]
UNDEFINED = {"MUL": 0xD4, "IMUL": 0xD4, "DIV": 0x8D5, "IDIV": 0x8D5}
OVERRIDES = [0x26, 0x2E, 0x36, 0x3E, 0x64, 0x65]


def undefined(family, code, ecx):
    """Mask of the flags that the manual calls undefined and that document 01 keeps. AF after logic is 0 by document 02, as in the emulator."""
    if family not in ("SHL", "SHR", "SAR"):
        return UNDEFINED.get(family, 0)
    opcode = next(b for b in code if b not in OVERRIDES)
    count = (code[-1] if opcode < 0xD0 else 1 if opcode < 0xD2 else ecx) % 32
    return 0x10 | (0 if count == 1 else 0x800)


class Form:
    """An opcode with its ModRM reg field, if fixed. use: how it uses its memory operand (r, w, rw, address)."""

    def __init__(self, family, opcode, modrm=False, reg=None, imm=0, use="r", wide=True, shift=None):
        self.family, self.opcode, self.modrm, self.reg, self.imm, self.use, self.wide, self.shift = family, opcode, modrm, reg, imm, use, wide, shift


def forms():
    out = []
    add = lambda *a, **k: out.append(Form(*a, **k))
    for n, f in enumerate(ARITHMETIC):
        to = "r" if f == "CMP" else "rw"
        add(f, [n * 8], True, use=to, wide=False)
        add(f, [n * 8 + 1], True, use=to)
        add(f, [n * 8 + 2], True, wide=False)
        add(f, [n * 8 + 3], True)
        add(f, [n * 8 + 4], imm=1, wide=False)
        add(f, [n * 8 + 5], imm=4)
        for op, imm, wide in ((0x80, 1, False), (0x81, 4, True), (0x82, 1, False), (0x83, 1, True)):
            add(f, [op], True, reg=n, imm=imm, use=to, wide=wide)
    add("TEST", [0x84], True, wide=False)
    add("TEST", [0x85], True)
    add("TEST", [0xA8], imm=1, wide=False)
    add("TEST", [0xA9], imm=4)
    for wide in (False, True):
        op = 0xF6 + wide
        add("TEST", [op], True, reg=0, imm=4 if wide else 1, wide=wide)
        add("NOT", [op], True, reg=2, use="rw", wide=wide)
        add("NEG", [op], True, reg=3, use="rw", wide=wide)
        for reg, f in ((4, "MUL"), (5, "IMUL"), (6, "DIV"), (7, "IDIV")):
            add(f, [op], True, reg=reg, wide=wide)
        add("INC", [0xFE + wide], True, reg=0, use="rw", wide=wide)
        add("DEC", [0xFE + wide], True, reg=1, use="rw", wide=wide)
        add("MOV", [0x88 + wide], True, use="w", wide=wide)
        add("MOV", [0x8A + wide], True, wide=wide)
        add("MOV", [0xA0 + wide], imm=4, wide=wide, use="r")
        add("MOV", [0xA2 + wide], imm=4, wide=wide, use="w")
        add("MOV", [0xC6 + wide], True, reg=0, imm=4 if wide else 1, use="w", wide=wide)
        add("XCHG", [0x86 + wide], True, use="rw", wide=wide)
        for reg, f in ((4, "SHL"), (5, "SHR"), (7, "SAR")):
            add(f, [0xC0 + wide], True, reg=reg, imm=1, use="rw", wide=wide, shift="imm")
            add(f, [0xD0 + wide], True, reg=reg, use="rw", wide=wide, shift="one")
            add(f, [0xD2 + wide], True, reg=reg, use="rw", wide=wide, shift="cl")
    add("IMUL", [0x69], True, imm=4)
    add("IMUL", [0x6B], True, imm=1)
    add("IMUL", [0x0F, 0xAF], True)
    add("MOVZX", [0x0F, 0xB6], True, wide=False)
    add("MOVSX", [0x0F, 0xBE], True, wide=False)
    add("LEA", [0x8D], True, use="address")
    add("PUSH", [0xFF], True, reg=6)
    add("POP", [0x8F], True, reg=0, use="w")
    add("JMP", [0xFF], True, reg=4)
    add("CALL", [0xFF], True, reg=2)
    for cc in range(16):
        add("SETcc", [0x0F, 0x90 + cc], True, use="w", wide=False)
        add("Jcc", [0x70 + cc], imm=1)
        add("Jcc", [0x0F, 0x80 + cc], imm=4)
    for r in range(8):
        add("INC", [0x40 + r])
        add("DEC", [0x48 + r])
        add("PUSH", [0x50 + r])
        add("POP", [0x58 + r])
        add("XCHG", [0x90 + r])
        add("MOV", [0xB0 + r], imm=1, wide=False)
        add("MOV", [0xB8 + r], imm=4)
    add("PUSH", [0x68], imm=4)
    add("PUSH", [0x6A], imm=1)
    add("CONVERT", [0x98])
    add("CONVERT", [0x99])
    add("JMP", [0xEB], imm=1)
    add("JMP", [0xE9], imm=4)
    add("CALL", [0xE8], imm=4)
    add("RET", [0xC3])
    add("RET", [0xC2], imm=2)
    for op in range(0xE0, 0xE4):
        add("LOOP", [op], imm=1)
    for op in (0xF5, 0xF8, 0xF9, 0xFA, 0xFB, 0xFC, 0xFD):
        add("FLAGS", [op])
    add("LAHF", [0x9E])
    add("LAHF", [0x9F])
    add("INT", [0xCC])
    add("INT", [0xCD], imm=1)
    add("HLT", [0xF4])
    return out


def undefined_forms():
    """Fault 6, by name."""
    out = [Form("FAULT6", [0x0F, 0x0B])]
    for reg in range(1, 8):
        out += [Form("FAULT6", [op], True, reg=reg) for op in (0x8F, 0xC6, 0xC7)]
    out += [Form("FAULT6", [0xFE], True, reg=reg) for reg in range(2, 8)]
    return out + [Form("FAULT6", [0xFF], True, reg=7)]


def unbuilt_forms():
    """Everything that document 01 does not list, from its list."""
    one = {0x0F, 0xF5, 0xF8, 0xF9, 0xFA, 0xFB, 0xFC, 0xFD, 0x9E, 0x9F, 0xCC, 0xCD, 0xF4, 0x98, 0x99, 0x8D, 0xC6, 0xC7, 0x8F, 0x68, 0x6A, 0x69, 0x6B}
    one |= {n * 8 + k for n in range(8) for k in range(6)} | set(OVERRIDES) | {0x80, 0x81, 0x82, 0x83, 0x84, 0x85, 0x86, 0x87, 0xA8, 0xA9, 0xF6, 0xF7}
    one |= set(range(0x40, 0x60)) | {0xFE, 0xFF} | set(range(0x88, 0x8C)) | set(range(0xA0, 0xA4)) | set(range(0xB0, 0xC0)) | set(range(0x90, 0x98))
    one |= {0xC0, 0xC1, 0xD0, 0xD1, 0xD2, 0xD3} | set(range(0x70, 0x80)) | {0xEB, 0xE9, 0xE8, 0xC3, 0xC2, 0xE0, 0xE1, 0xE2, 0xE3}
    two = {0x0B, 0xAF, 0xB6, 0xBE} | set(range(0x80, 0xA0))
    out = [Form("UNBUILT", [b]) for b in range(256) if b not in one]
    out += [Form("UNBUILT", [0x0F, b]) for b in range(256) if b not in two]
    out += [Form("UNBUILT", [b], True, reg=1) for b in (0xF6, 0xF7)] + [Form("UNBUILT", [0xFF], True, reg=r) for r in (3, 5)]
    out += [Form("UNBUILT", [b], True, reg=r) for b in (0xC0, 0xC1, 0xD0, 0xD1, 0xD2, 0xD3) for r in (0, 1, 2, 3, 6)]
    return out
