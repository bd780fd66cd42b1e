"""The layout of data/cases and data/directed, and what the program is to write on them. docs/VECTORS.md describes it."""
import os
import struct
from collections import Counter

HERE = os.path.dirname(os.path.abspath(__file__))
CRATE = os.path.join(HERE, "../../crates/vectors")
SIZE = 0x8000          # the lent memory: eight pages
GENERATED = [
    "ADD", "OR", "ADC", "SBB", "AND", "SUB", "XOR", "CMP", "TEST", "NOT", "NEG", "MUL", "IMUL", "DIV", "IDIV", "INC", "DEC", "CONVERT",
    "MOV", "MOVZX", "MOVSX", "LEA", "XCHG", "PUSH", "POP", "SHL", "SHR", "SAR", "Jcc", "SETcc", "JMP", "CALL", "RET", "LOOP", "FLAGS",
    "LAHF", "INT", "HLT", "FAULT6", "UNBUILT",
]
FAMILIES = GENERATED + ["MARKS", "ORDER", "WRAP", "LENGTH", "RECORD", "MAPS", "RUN", "AUDIT"]
DONE, FAULT, TRAP, HALT, BAD, NO_MEMORY, NOT_BUILT, SPENT, SAFE, TABLE_OUTSIDE, EXPOSED = range(11)
STEP, RUN, AUDIT = range(3)
ASKED = "<BBIIIII"


def dword(x):
    return (x & 0xFFFFFFFF).to_bytes(4, "little")


def part(b):
    assert len(b) < 256, len(b)
    return bytes([len(b)]) + b


def case(family, mode, eflags, eip, regs, low, writes, reply, record, stores):
    """One case. record: None where it is as it was, or the changed registers by number, EIP and EFLAGS."""
    b = struct.pack("<BBHI8IBB", FAMILIES.index(family), mode, eflags, eip, *regs, low, len(writes))
    b += b"".join(struct.pack("<H", a) + part(w) for a, w in writes) + struct.pack("<BBBI", *reply)
    if record is not None:
        changed, eip, eflags = record
        b += bytes([sum(1 << i for i in changed)]) + b"".join(dword(v) for _, v in sorted(changed.items())) + struct.pack("<IH", eip, eflags)
    b += bytes([len(stores)]) + b"".join(struct.pack("<HB", a, v) for a, v in stores)
    return part(b)


def asked(call, ring, budget, count, size, cr0, cr3, rule):
    return part(struct.pack(ASKED, call, ring, budget, count, size, cr0, cr3) + rule.encode("ascii"))


def parts(name):
    with open(os.path.join(CRATE, "data", name), "rb") as f:
        b = f.read()
    at = 0
    while at < len(b):
        n = b[at]
        yield b[at + 1:at + 1 + n]
        at += 1 + n


class Read:
    """A case read back: family, mode, eflags, eip, regs, memory, reply, and what it says of the record (regs, eip, eflags) and the stores after."""

    def __init__(self, b):
        family, self.mode, self.eflags, self.eip, *self.regs, _, pieces = struct.unpack_from("<BBHI8IBB", b)
        self.family, at, self.memory = FAMILIES[family], 42, {}
        for _ in range(pieces):
            a, n = struct.unpack_from("<HB", b, at)
            self.memory.update(zip(range(a, a + n), b[at + 3:at + 3 + n]))
            at += 3 + n
        self.reply = struct.unpack_from("<BBBI", b, at)
        at += 7
        self.after = self.regs, self.eip, self.eflags
        if self.reply[0] == DONE:
            regs, mask = list(self.regs), b[at]
            at += 1
            for i in range(8):
                if mask >> i & 1:
                    regs[i], at = struct.unpack_from("<I", b, at)[0], at + 4
            self.after = regs, *struct.unpack_from("<IH", b, at)
            at += 6
        self.stores = dict(struct.unpack_from("<HB", b, at + 1 + 3 * i) for i in range(b[at]))


def write(name, b):
    path = os.path.join(CRATE, name)
    os.makedirs(os.path.dirname(path), exist_ok=True)
    with open(path, "wb") as f:
        f.write(b)


def rows(families, lines):
    """A row for each family in the order of the cases, after the lines of its cases."""
    counts = Counter(families)
    out = ""
    for k in sorted(counts):
        out += "".join(f"{FAMILIES[k]:8} agrees: {rule}\n" for family, rule in lines if family == k)
        out += f"{FAMILIES[k]:8} cases {counts[k]}, agreed {counts[k]}, differing 0\n"
    return out


def write_stdout():
    """What the program is to write: every case agrees."""
    plain = [b[0] for b in parts("cases")]
    both = list(parts("directed"))
    size = struct.calcsize(ASKED)
    lines = [(b[0], a[size:].decode("ascii")) for a, b in zip(both[::2], both[1::2])]
    text = rows(plain, []) + rows([family for family, _ in lines], lines)
    write("stdout", (text + f"in all   cases {len(plain) + len(lines)}, differing 0\n").encode("ascii"))
