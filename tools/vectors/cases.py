"""Cases for Micro32: which instructions, registers, maps and memory. No results here; see emulator.py and gen.py."""
from forms import Form, OVERRIDES, forms, unbuilt_forms, undefined_forms
from layout import SIZE, dword

SEED = 0x4D6963726F3332
DIRECTORY, TABLE = 0x1000, 0x2000

EDGES = [0, 1, 2, 0x7F, 0x80, 0xFF, 0x7FFFFFFF, 0x80000000, 0x80000001, 0xFFFFFFFE, 0xFFFFFFFF, 0x0F, 0x10, 0x100, 0xFFFF8000]


class Random:
    """xorshift64*, so that no version of Python changes a byte."""

    def __init__(self, seed):
        self.s = seed

    def bits(self):
        s = self.s
        s ^= s >> 12
        s ^= s << 25 & 0xFFFFFFFFFFFFFFFF
        s ^= s >> 27
        self.s = s
        return (s * 0x2545F4914F6CDD1D & 0xFFFFFFFFFFFFFFFF) >> 32

    def below(self, n):
        return self.bits() % n

    def pick(self, xs):
        return xs[self.below(len(xs))]

    def number(self):
        k = self.below(4)
        return self.bits() if k == 0 else self.pick(EDGES) if k < 3 else self.below(256) * 0x01010101


class Case:
    """form, code bytes, registers, eip, eflags, ring, paging, wp, ne (bit 4 of CR0), low (CR3's free bits), writes {address: bytes}."""


def entry(rnd, page, user_rate):
    k = rnd.below(100)
    kind = 7 if k < user_rate else 5 if k < user_rate + 12 else 3 if k < user_rate + 22 else 1 if k < user_rate + 28 else 6
    return page * 4096 | kind | rnd.pick([0, 0x20, 0x60, 0]) | rnd.pick([0, 0, 0, 0xE98, 0x80])


def address(rnd, c, form, target, mod, rm, sib):
    """ModRM, SIB and displacement that reach target where the registers allow it; sets registers in c."""
    reg = form.reg if form.reg is not None else rnd.below(8)
    m = bytes([mod << 6 | reg << 3 | rm])
    if mod == 3:
        return m
    size = {0: 0, 1: 1, 2: 4}[mod]
    disp = rnd.pick([0, 1, 0x7F, -128, -1, 4, rnd.below(128)]) if size == 1 else rnd.pick([rnd.bits(), 0x10, -16 & 0xFFFFFFFF]) if size else 0
    base, index, scale = rm, None, 1
    if rm == 4:
        m += bytes([sib])
        base, index, scale = sib & 7, sib >> 3 & 7, 1 << (sib >> 6)
        index = None if index == 4 else index
    if base == 5 and mod == 0:
        base, size = None, 4
        i = rnd.pick([0, 1, 0x40000000, rnd.bits()]) if index is not None else 0
        if index is not None:
            c.regs[index] = i
        disp = target - i * scale
    elif index is not None and index == base:
        k = 1 + scale
        t = target - disp
        x = t // 2 if k == 2 else t * pow(k, -1, 1 << 32)
        c.regs[base] = x & 0xFFFFFFFF
    else:
        i = 0
        if index is not None:
            i = rnd.pick([1, 3, 0x20000000, rnd.bits()])
            c.regs[index] = i
        c.regs[base] = target - disp - i * scale & 0xFFFFFFFF
    return m + (disp & (256 ** size - 1)).to_bytes(size, "little") if size else m


def immediate(rnd, form, target):
    if form.opcode[0] in (0xA0, 0xA1, 0xA2, 0xA3):
        return dword(target)
    x = rnd.number()
    if form.shift == "imm":
        x = rnd.pick([0, 1, 2, 7, 8, 9, 31, 32, 33, rnd.below(256)])
    return (x & 256 ** form.imm - 1).to_bytes(form.imm, "little")


def place(rnd):
    """Where an operand lies: inside a page mostly, over a page's end often, sometimes outside memory."""
    k = rnd.below(16)
    page = rnd.pick([0, 4, 5, 6, 7])
    if k < 8:
        return page * 4096 + rnd.below(4092)
    if k < 14:
        return page * 4096 + 4093 + rnd.below(3)
    if k < 15:
        return 0x7FFC + rnd.below(6)
    return rnd.pick([rnd.bits(), 0x9000, 0xFFFFFFFE, 0x400000])


def make(rnd, form, mod=3, rm=None, sib=None, paged=None, ring=None, calm=False, regs=None, at=None):
    c = Case()
    c.form = form
    c.paged = rnd.below(2) if paged is None else paged
    c.ring = rnd.pick([0, 3]) if ring is None else ring
    c.wp, c.ne, c.low = rnd.below(2), rnd.below(2), rnd.pick([0, 8, 16, 24])
    c.eflags = 2 | rnd.bits() & 0x3ED5
    c.regs = [rnd.number() for _ in range(8)] if regs is None else list(regs)
    stack = rnd.pick([0x5000, 0x6000]) + rnd.below(1024) * 4
    if rnd.below(6) == 0:
        stack = rnd.pick([0x5FFE, 0x6001, 0x6003, 0x7FFF, 0x7FFD, 0, 2, 0x8000])
    if regs is None:
        c.regs[4] = stack
    target = place(rnd) & 0xFFFFFFFF
    if form.shift == "cl" and rnd.below(2):
        c.regs[1] = rnd.pick([0, 1, 2, 7, 8, 9, 31, 32, 33, rnd.below(256)])
    if form.family == "LOOP" and rnd.below(2):
        c.regs[1] = rnd.below(3)
    if form.family in ("DIV", "IDIV") and rnd.below(2):
        c.regs[2] = rnd.pick([0, 0xFFFFFFFF, 1])
    code = bytes(rnd.pick(OVERRIDES) for _ in range(rnd.pick([0, 0, 0, 0, 1, 3]))) if not calm else b""
    code += bytes(form.opcode)
    if form.modrm:
        code += address(rnd, c, form, target, mod, rnd.below(8) if rm is None else rm, rnd.below(256) if sib is None else sib)
    if form.imm:
        code += immediate(rnd, form, target)
    c.code = code
    c.eip = 0x3000 + rnd.below(4000) if at is None else at - rnd.below(len(code)) - 1 if at else 0
    if at is None and rnd.below(12) == 0:
        c.eip = 0x4000 - 1 - rnd.below(len(code))
    c.writes = {}
    fill(rnd, c, target)
    return c


def fill(rnd, c, target):
    mem = {}
    for a in (target - 2, c.regs[4] - 6):
        for i, b in enumerate(dword(rnd.number()) + dword(rnd.number()) + dword(rnd.number())[:(4 if a == target - 2 else 2)]):
            if 0 <= a + i < SIZE:
                mem[a + i] = b
    for i, b in enumerate(c.code):
        if 0 <= c.eip + i < SIZE:
            mem[c.eip + i] = b
    if c.paged:
        d = 0x2000 | rnd.pick([7, 7, 7, 7, 7, 7, 7, 7, 5, 3, 1]) | rnd.pick([0, 0x20, 0xE98, 0x80])
        if rnd.below(60) == 0:
            d &= ~1
        for i, b in enumerate(dword(d)):
            mem[DIRECTORY + i] = b
        for p in range(8):
            for i, b in enumerate(dword(entry(rnd, p, 92 if p == 3 else 65))):
                mem[TABLE + 4 * p + i] = b
    runs, last = [], None
    for a in sorted(mem):
        if last is not None and a == last + 1:
            runs[-1][1].append(mem[a])
        else:
            runs.append((a, [mem[a]]))
        last = a
    c.writes = [(a, bytes(b)) for a, b in runs]


def all_cases():
    rnd = Random(SEED)
    out = []
    built = forms()
    sibs = 0
    for f in built:
        if f.modrm:
            for mod in range(4):
                for rm in range(8):
                    for n in range(6 if mod < 3 and rm == 4 else 2 if f.family == "SETcc" or mod == 3 else 4):
                        sibs += 37
                        out.append(make(rnd, f, mod, rm, sibs % 256))
        else:
            for n in range(24 if f.family not in ("Jcc", "MOV", "XCHG") else 12):
                out.append(make(rnd, f))
    out += operands(rnd, built) + crossings(rnd, built)
    for f in undefined_forms():
        for n in range(6):
            out.append(make(rnd, f, rnd.below(4)))
    lea = Form("FAULT6", [0x8D], True)
    out += [make(rnd, lea, 3, rm) for rm in range(8) for _ in range(2)]
    for f in unbuilt_forms():
        for ring in (0, 3):
            out.append(make(rnd, f, rnd.below(4), paged=0, ring=ring))
    return out


def operands(rnd, built):
    """Boundary operands against each other, between registers."""
    out = []
    for f in built:
        if not f.modrm or f.family in ("LEA", "JMP", "CALL", "PUSH", "POP", "SETcc", "MOV", "XCHG"):
            continue
        if f.shift:
            counts = list(range(34)) + [63, 64, 255] if f.shift != "one" else [1] * 8
            for n in counts:
                for _ in range(2):
                    c = make(rnd, f, 3, rnd.pick([0, 2, 3, 5, 6, 7]), paged=0, calm=True)
                    if f.shift == "imm":
                        c.code = c.code[:-1] + bytes([n])
                    elif f.shift == "cl":
                        c.regs[1] = c.regs[1] & ~0xFF | n
                    relay(c)
                    out.append(c)
            continue
        count = 60 if f.family in ("MUL", "IMUL", "DIV", "IDIV") else 25 if f.reg is None else 12
        for _ in range(count):
            c = make(rnd, f, 3, paged=0, calm=True, regs=[rnd.pick(EDGES) for _ in range(8)])
            if f.family in ("DIV", "IDIV") and rnd.below(3):
                c.regs[2] = rnd.pick([0, 0, 0xFFFFFFFF, 1])
                if not f.wide:
                    c.regs[0] = rnd.pick([rnd.below(65536), rnd.below(512), 0xFF80, 0xFFF9])
            relay(c)
            out.append(c)
    return out


def relay(c):
    """The code again, after it was changed."""
    c.writes = [(c.eip, c.code)] if c.eip + len(c.code) <= SIZE else []


def crossings(rnd, built):
    """Fetches over a page's end, with every map of the second page."""
    out = []
    for f in built:
        for _ in range(6):
            out.append(make(rnd, f, rnd.below(4), paged=1, at=rnd.pick([0x4000, 0x4000, 0x4000, 0x8000])))
        out.append(make(rnd, f, rnd.below(4), paged=0, at=0x8000))
    return out
