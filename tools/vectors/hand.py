"""How a directed case is written: what is asked, and what is to come of it."""
import layout
from layout import AUDIT, DONE, RUN, SIZE, STEP

d = layout.dword


def case(code, eip=0x403000, regs=None, paged=True, ring=3, wp=0, cr0=1, cr3=0x1000, eflags=2, size=SIZE, maps=(), memory=(), call=STEP, budget=0):
    """Code stands at physical 3000h; maps and memory: physical addresses and bytes."""
    writes = [(0x3000, bytes.fromhex(code))] if code else []
    return dict(call=call, budget=budget, ring=ring, cr0=cr0 | paged << 31 | wp << 16, cr3=cr3, size=size, eip=eip,
                regs=regs or [0] * 8, eflags=eflags, writes=writes + list(maps) + list(memory))


def flat(code, eip=0x3000, ring=0, **more):
    return case(code, eip, ring=ring, paged=False, **more)


# Linear 400000h to 407FFFh by the table at 2000h; 403000h is physical 3000h, 405000h is physical 6000h, 406000h absent, 407000h past memory.
MAP = [(0x1004, d(0x2007)), (0x200C, d(0x3005)), (0x2010, d(0x5001)), (0x2014, d(0x6007)), (0x2018, d(0x6)), (0x201C, d(0x9000 | 7)), (0x2008, d(0x9001))]
# 405000h is the table itself.
SELF = [(0x1004, d(0x2007)), (0x200C, d(0x3005)), (0x2014, d(0x2007))]
CODE = [(0x1004, 0x27), (0x200C, 0x25)]


def done(code_length, changes=(), regs=(), eip=None, eflags=2, marks=CODE):
    eip = 0x403000 + code_length if eip is None else eip
    return dict(reply=(DONE, 0, 0, 0), count=0, record=(dict(regs), eip, eflags), stores=sorted(marks + list(changes)))


def no(number, vector=0, code=0, address=0):
    return dict(reply=(number, vector, code, address), count=0, record=None, stores=[])


def run(code, budget, **more):
    """A run in ring 0 with paging off."""
    return flat(code, call=RUN, budget=budget, **more)


def ran(count, number, vector=0, code=0, address=0, regs=(), eip=0x3000, eflags=2, stores=()):
    return dict(reply=(number, vector, code, address), count=count, record=(dict(regs), eip, eflags), stores=sorted(stores))


def audit(entries, **more):
    """An audit; entries: dwords by physical address."""
    return case("", call=AUDIT, memory=[(a, d(e)) for a, e in entries.items()], **more)
