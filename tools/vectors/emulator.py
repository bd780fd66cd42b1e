"""One instruction under Unicorn: a fresh machine for each case, single-stepped by the trap flag, so that no second instruction is fetched."""
import struct
from unicorn import Uc, UcError, UC_ARCH_X86, UC_MODE_32, UC_HOOK_INTR, UC_HOOK_MEM_INVALID, UC_HOOK_MEM_READ, UC_HOOK_MEM_WRITE, UC_MEM_WRITE
from unicorn import UC_ERR_INSN_INVALID
from unicorn import x86_const as x

from cases import DIRECTORY
from layout import SIZE

OWN = 0x100000  # a page of its own, for the descriptors and the return to ring 3
REGS = [x.UC_X86_REG_EAX, x.UC_X86_REG_ECX, x.UC_X86_REG_EDX, x.UC_X86_REG_EBX, x.UC_X86_REG_ESP, x.UC_X86_REG_EBP, x.UC_X86_REG_ESI, x.UC_X86_REG_EDI]


def descriptor(access):
    return struct.pack("<Q", 0xFFFF | access << 40 | 0xF << 48 | 0xC << 52)


GDT = bytes(8) + b"".join(descriptor(a) for a in (0x9B, 0x93, 0xFB, 0xF3))


def machine(ring):
    uc = Uc(UC_ARCH_X86, UC_MODE_32)
    uc.mem_map(0, SIZE)
    uc.mem_map(OWN, 0x1000)
    uc.mem_write(OWN, GDT)
    uc.reg_write(x.UC_X86_REG_GDTR, (0, OWN, len(GDT) - 1, 0))
    uc.reg_write(x.UC_X86_REG_CS, 0x08)
    uc.reg_write(x.UC_X86_REG_SS, 0x10)
    if ring == 3:
        uc.mem_write(OWN + 0x800, b"\xcf" + bytes(255))
        uc.mem_write(OWN + 0x900, struct.pack("<5I", OWN + 0xA00, 0x1B, 2, 0, 0x23))
        uc.reg_write(x.UC_X86_REG_ESP, OWN + 0x900)
        uc.emu_start(OWN + 0x800, 0xFFFFFFFF, count=1)
        assert uc.reg_read(x.UC_X86_REG_CS) == 0x1B
    return uc


class Result:
    pass


def run(c):
    """The result, and the accesses. Unicorn's flags after a shift by CL of memory are wrong while accesses are watched, so it runs twice."""
    r = once(c, False)
    r.accesses = once(c, True).accesses
    return r


def once(c, watch):
    uc = machine(c.ring)
    for a, b in c.writes:
        uc.mem_write(a, b)
    before = bytes(uc.mem_read(0, SIZE))
    uc.reg_write(x.UC_X86_REG_CR3, DIRECTORY | c.low)
    uc.reg_write(x.UC_X86_REG_CR0, 1 | c.ne << 4 | c.wp << 16 | c.paged << 31)
    for r, v in zip(REGS, c.regs):
        uc.reg_write(r, v)
    uc.reg_write(x.UC_X86_REG_EFLAGS, c.eflags | 0x100)
    r = Result()
    r.vector, r.cr2, r.accesses, r.missing = None, 0, [], []

    def interrupt(uc, n, _):
        if r.vector is None:
            r.vector, r.cr2 = n, uc.reg_read(x.UC_X86_REG_CR2)
        uc.emu_stop()

    def access(uc, kind, address, size, value, _):
        r.accesses.append((kind == UC_MEM_WRITE, address, size))

    def missing(uc, kind, address, size, value, _):
        r.missing.append((kind, address, size))
        return False

    uc.hook_add(UC_HOOK_INTR, interrupt)
    if watch:
        uc.hook_add(UC_HOOK_MEM_READ | UC_HOOK_MEM_WRITE, access)
    uc.hook_add(UC_HOOK_MEM_INVALID, missing)
    r.invalid = False
    try:
        uc.emu_start(c.eip, 0xFFFFFFFF, count=2)
    except UcError as e:
        r.invalid = e.errno == UC_ERR_INSN_INVALID
        assert r.invalid or r.missing, e
    r.regs = [uc.reg_read(q) for q in REGS]
    r.eip = uc.reg_read(x.UC_X86_REG_EIP)
    r.eflags = uc.reg_read(x.UC_X86_REG_EFLAGS) & ~0x100
    after = bytes(uc.mem_read(0, SIZE))
    r.stores = []
    for k in range(0, SIZE, 64):
        if after[k:k + 64] != before[k:k + 64]:
            r.stores += [(a, after[a]) for a in range(k, k + 64) if after[a] != before[a]]
    r.before = before
    return r
