"""Directed runs that use a page again and again, and change its maps in between. Code is at linear 403000h, data at 404000h, what is written to at
405000h. All marks are made already but where a case says otherwise, so that every step before the last can go the quick way."""
from hand import case, d, ran
from layout import FAULT, RUN, TRAP

READ_EAX, READ_ECX = "8b0500404000", "8b0d00404000"
WRITE_EAX, WRITE_ECX = "890500404000", "890d00404000"
END = "cd30"
ONES, TWOS = (0x5000, b"\x11" * 4), (0x6000, b"\x22" * 4)


def put(address, entry):
    return "c705" + d(address).hex() + d(entry).hex()


def paged(code, table, more=(), memory=(ONES, TWOS), regs=None):
    """table: entries of 400000h's table at 2000h, by page, and code's; more: dwords elsewhere."""
    entries = {0x1004: 0x2027, 0x200C: 0x3025, **{0x2000 + 4 * n: e for n, e in table.items()}, **dict(more)}
    return case(code, regs=regs, maps=[(a, d(e)) for a, e in entries.items()], memory=list(memory), call=RUN, budget=100)


def trapped(count, length, regs, stores):
    return ran(count, TRAP, 0x30, 0, 0x403000 + length + 2, regs, 0x403000 + length, stores=stores)


BOTH = {0: 0x11111111, 1: 0x22222222}
LIST = [
    ("a page that was read twice is read through its new table entry",
     paged(READ_EAX * 2 + put(0x405010, 0x6067) + READ_ECX + END, {4: 0x5067, 5: 0x2067}), trapped(4, 28, BOTH, [(0x2011, 0x60)])),
    ("the next instruction is fetched through the code page's new table entry",
     paged("414141" + put(0x40500C, 0x7025) + "40" + END, {5: 0x2067}, memory=[(0x700D, bytes.fromhex(END))]),
     ran(4, TRAP, 0x30, 0, 0x40300F, {1: 3}, 0x40300D, 6, [(0x200D, 0x70)])),
    ("a page that was written twice is not written once its entry forbids it",
     paged(WRITE_EAX * 2 + put(0x405010, 0x5065) + WRITE_EAX + END, {4: 0x5067, 5: 0x2067}, memory=[], regs=[7] + [0] * 7),
     ran(3, FAULT, 14, 7, 0x404000, {}, 0x403016, stores=[(0x2010, 0x65), (0x5000, 7)])),
    ("code and data are reached through the directory's new entry",
     paged(READ_EAX * 2 + put(0x405004, 0x4027) + READ_ECX + END, {4: 0x5067, 5: 0x1067}, {0x400C: 0x3025, 0x4010: 0x6067}),
     trapped(4, 28, BOTH, [(0x1005, 0x40)])),
    ("a page of another table than the code's is read through its new entry",
     paged("8b0500008000" * 2 + put(0x405000, 0x6067) + "8b0d00008000" + END, {5: 0x4067}, {0x1008: 0x4027, 0x4000: 0x5067}),
     trapped(4, 28, BOTH, [(0x4001, 0x60)])),
    ("code of one table changes the entry of data that code of another table read",
     paged(READ_EAX * 2 + "e9efff3f00", {4: 0x5067, 5: 0x2067}, {0x1008: 0x4027, 0x400C: 0x7025},
           [ONES, TWOS, (0x7000, bytes.fromhex(put(0x405010, 0x6067) + READ_ECX + END))]),
     ran(5, TRAP, 0x30, 0, 0x803012, BOTH, 0x803010, stores=[(0x2011, 0x60)])),
    ("a page that was read twice is not written where it may not be",
     paged(READ_EAX * 2 + WRITE_EAX + END, {4: 0x5065}), ran(2, FAULT, 14, 7, 0x404000, {0: 0x11111111}, 0x40300C)),
    ("a page that was read twice is marked dirty when it is written",
     paged(READ_EAX * 2 + WRITE_ECX + END, {4: 0x5027}), trapped(3, 18, {0: 0x11111111}, [(0x2010, 0x67)] + [(0x5000 + i, 0) for i in range(4)])),
    ("a supervisor's page whose marks are made is not read by the user",
     paged("41" + READ_EAX + END, {4: 0x5061}), ran(1, FAULT, 14, 5, 0x404000, {1: 1}, 0x403001)),
    ("a page whose marks are made is not written where it may not be",
     paged("41" + WRITE_EAX + END, {4: 0x5065}), ran(1, FAULT, 14, 7, 0x404000, {1: 1}, 0x403001)),
    ("two turns: a dword over two pages whose frames are apart, after another of the first page",
     paged("8b138b43064975f8" + END, {4: 0x5067, 5: 0x7067}, memory=[(0x5FFE, b"\x11\x22"), (0x7000, b"\x33\x44")], regs=[0, 2, 0, 0x404FF8, 0, 0, 0, 0]),
     ran(8, TRAP, 0x30, 0, 0x40300A, {0: 0x44332211, 1: 0}, 0x403008, 0x46)),
]
