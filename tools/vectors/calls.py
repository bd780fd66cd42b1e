"""Directed cases of a run and of the audit, written from document 01 by hand: family, rule, what is asked, what is to come of it."""
import remaps
from hand import CODE, MAP, SELF, audit, case, d, no, ran, run
from layout import BAD, EXPOSED, FAULT, HALT, NO_MEMORY, NOT_BUILT, RUN, SAFE, SPENT, TABLE_OUTSIDE, TRAP

STORE = "c6050050000007"  # MOV BYTE [5000h],7
# MOV EAX,[EDI] and ADD [ESI],EAX, then the same with ADC at 4, 8 and 12; and with SUB and SBB
ADD_FOUR = "8b070106" "8b4704114604" "8b4708114608" "8b470c11460c"
SUB_FOUR = "8b072906" "8b4704194604" "8b4708194608" "8b470c19460c"
AT = [0, 0, 0, 0, 0, 0, 0x5000, 0x5010]
LONG = d(0xFFFFFFFF) + d(0xFFFFFFFE) + d(0) + d(0xFFFFFFFF)
RUNS = [
    ("a budget of 0 is Spent with nothing done", run("40", 0), ran(0, SPENT)),
    ("a budget of 1 takes one step", run("4043", 1), ran(1, SPENT, regs={0: 1}, eip=0x3001)),
    ("a budget of 3 takes three", run("4141414141", 3), ran(3, SPENT, regs={1: 3}, eip=0x3003, eflags=6)),
    ("what each step stored stands when the budget is spent", run(STORE + "c6050150000008f4", 2), ran(2, SPENT, eip=0x300E, stores=[(0x5000, 7), (0x5001, 8)])),
    ("Halt ends a run; the record is as before the HLT", run("4040f4", 10), ran(2, HALT, 0, 0, 0x3003, {0: 2}, 0x3002)),
    ("a refusal at the budget's last step is answered, not counted", run("40f4", 2), ran(1, HALT, 0, 0, 0x3002, {0: 1}, 0x3001)),
    ("a budget used up just before a refusal is Spent", run("40f4", 1), ran(1, SPENT, regs={0: 1}, eip=0x3001)),
    ("Trap ends a run with its vector and next EIP", run("40cd21", 10), ran(1, TRAP, 0x21, 0, 0x3003, {0: 1}, 0x3001)),
    ("CC is vector 3, at the first step too", run("cc", 10), ran(0, TRAP, 3, 0, 0x3001)),
    ("a divide fault ends a run; the store before it stands", run(STORE + "f6f1", 10), ran(1, FAULT, 0, eip=0x3007, stores=[(0x5000, 7)])),
    ("Fault 6 ends a run", run("400f0b", 10), ran(1, FAULT, 6, regs={0: 1}, eip=0x3001)),
    ("Fault 13 ends a run: HLT in ring 3", run("90f4", 10, ring=3), ran(1, FAULT, 13, eip=0x3001)),
    ("a page fault ends a run; marks and stores of the steps before it stand",
     case("a300504000a100604000", regs=[7] * 8, maps=MAP, call=RUN, budget=10),
     ran(1, FAULT, 14, 4, 0x406000, eip=0x403005, stores=CODE + [(0x2014, 0x67), (0x6000, 7)])),
    ("No memory there ends a run", run("40a100900000", 10), ran(1, NO_MEMORY, 0, 0, 0x9000, {0: 1}, 0x3001)),
    ("Not built ends a run with the EIP of that instruction", run("40f0", 10), ran(1, NOT_BUILT, 0, 0, 0x3001, {0: 1}, 0x3001)),
    ("the record is checked first, even at budget 0", run("40", 0, eflags=0), ran(0, BAD, eflags=0)),
    ("a bad record takes no step", run("40", 5, ring=1), ran(0, BAD)),
    ("a length that is not sound takes no step", run("40", 5, size=0x7001), ran(0, BAD)),
    ("a loop: five turns, then Halt", run("e2fef4", 100, regs=[0, 5, 0, 0, 0, 0, 0, 0]), ran(5, HALT, 0, 0, 0x3003, {1: 0}, 0x3002)),
    ("a budget may be any 32-bit number", run("40f4", 0xFFFFFFFF), ran(1, HALT, 0, 0, 0x3002, {0: 1}, 0x3001)),
    ("a step fetches what the step before it stored", run("c60507300000f490", 9), ran(1, HALT, 0, 0, 0x3008, eip=0x3007, stores=[(0x3007, 0xF4)])),
    ("AND clears AF that a sum has set, and LAHF shows it", run("83c00121c09ff4", 9, regs=[0xF] + [0] * 7), ran(3, HALT, 0, 0, 0x3007, {0: 0x210}, 0x3006)),
    ("TEST of a byte by a number clears AF, and LAHF shows it", run("f6c3019ff4", 9, eflags=0x12, regs=[0, 0, 0, 3, 0, 0, 0, 0]), ran(2, HALT, 0, 0, 0x3005, {0: 0x200}, 0x3004)),
    # each loop uses its pages again, so that what was kept of the turn before it serves the next
    ("three turns: a load, a sum with memory and a store", run("8b030343048903" "4975f6f4", 99, regs=[0, 3, 0, 0x5000, 0, 0, 0, 0], memory=[(0x5000, b"\x01"), (0x5004, b"\x05")]),
     ran(15, HALT, 0, 0, 0x300B, {0: 16, 1: 0}, 0x300A, 0x46, [(0x5000, 16)])),
    ("three turns: a register is pushed, a call comes back, the register is popped", run("50e8050000005a" "4975f6f4" "40c3", 99, regs=[7, 3, 0, 0, 0x5100, 0, 0, 0]),
     ran(21, HALT, 0, 0, 0x300B, {0: 10, 1: 0, 2: 9}, 0x300A, 0x46, [(0x50F8, 0x06), (0x50F9, 0x30), (0x50FC, 9)])),
    ("three turns: a number is pushed with its sign", run("6af05a" "4975fa" "f4", 99, regs=[0, 3, 0, 0, 0x5100, 0, 0, 0]),
     ran(12, HALT, 0, 0, 0x3007, {1: 0, 2: 0xFFFFFFF0}, 0x3006, 0x46, [(0x50FC + i, b) for i, b in enumerate(b"\xf0\xff\xff\xff")])),
    ("texts are compared to the first byte that differs", run("8a063a077506464784c075f4f4", 99, regs=[0, 0, 0, 0, 0, 0, 0x5000, 0x5010], memory=[(0x5000, b"abz"), (0x5010, b"aby")]),
     ran(17, HALT, 0, 0, 0x300D, {0: 0x7A, 6: 0x5002, 7: 0x5012}, 0x300C)),
    ("two turns: a difference of two dwords each, with the borrow, which DEC keeps", run("8b068b56042b071b5704" "4975f3f4", 99, regs=[0, 2, 0, 0, 0, 0, 0x5000, 0x5010], memory=[(0x5010, b"\x01\0\0\0\x01")]),
     ran(12, HALT, 0, 0, 0x300E, {0: 0xFFFFFFFF, 1: 0, 2: 0xFFFFFFFE}, 0x300D, 0x47)),
    # positions of four dwords, the lowest first
    ("ADD and three ADCs: the carry goes through four dwords and out", run(ADD_FOUR + "f4", 99, regs=AT, memory=[(0x5000, LONG), (0x5010, d(1) * 2 + d(0xFFFFFFFF))]),
     ran(8, HALT, 0, 0, 0x3017, eip=0x3016, eflags=0x57, stores=[(0x5000 + i, 0) for i, b in enumerate(LONG) if b])),
    ("SUB and three SBBs: the borrow goes through dwords of ones and out", run(SUB_FOUR + "f4", 99, regs=AT, memory=[(0x5008, d(5) + d(1)), (0x5010, d(1) + d(0xFFFFFFFF) * 2 + d(1))]),
     ran(8, HALT, 0, 0, 0x3017, {0: 1}, 0x3016, 0x97, [(a + i, 0xFF) for a in (0x5000, 0x500C) for i in range(4)])),
    ("SUB and SBBs take away what ADD and ADCs added", run(ADD_FOUR + SUB_FOUR + "f4", 99, regs=AT, memory=[(0x5000, LONG), (0x5010, d(1) * 2 + d(0xFFFFFFFF))]),
     ran(16, HALT, 0, 0, 0x302D, eip=0x302C, eflags=0x97)),
    ("three turns: an instruction is fetched as the one before it stored it", run("890341bb023000003503000000" "4e75f0f4", 99, regs=[0x3002BB41, 0, 0, 0x5000, 0, 0, 3, 0]),
     ran(18, HALT, 0, 0, 0x3011, {0: 0x3002BB42, 1: 2, 2: 1, 3: 0x3002, 6: 0}, 0x3010, 0x46, [(0x5000 + i, b) for i, b in enumerate(b"\x41\xbb\x02\x30")])),
    ("two turns: an instruction nine bytes on is fetched as the turn before stored it", run("41" * 8 + "4289034e75f2f4", 99, regs=[0x4E038945, 0, 0, 0x3008, 0, 0, 2, 0]),
     ran(24, HALT, 0, 0, 0x300F, {1: 16, 2: 1, 5: 1, 6: 0}, 0x300E, 0x46, [(0x3008, 0x45)])),
    ("INC keeps CF too where no block can begin, in a page's last bytes", run("", 1, eip=0x3FE8, eflags=3, memory=[(0x3FE8, b"\x41")]), ran(1, SPENT, regs={1: 1}, eip=0x3FE9, eflags=3)),
    ("two turns: an instruction forty-eight bytes on is fetched as the turn before stored it", run("81c101000000" * 8 + "4289034e75caf4", 99, regs=[0x4E038945, 0, 0, 0x3030, 0, 0, 2, 0]),
     ran(24, HALT, 0, 0, 0x3037, {1: 16, 2: 1, 5: 1, 6: 0}, 0x3036, 0x46, [(0x3030, 0x45)])),
    ("two turns: a dword that runs over a page's end is loaded from both", run("8b03" "4975fbf4", 99, regs=[0, 2, 0, 0x4FFE, 0, 0, 0, 0], memory=[(0x4FFE, b"\x01\x02\x03\x04")]),
     ran(6, HALT, 0, 0, 0x3006, {0: 0x04030201, 1: 0}, 0x3005, 0x46)),
    ("a step walks the entries as the step before it stored them", case("c6051550400040a110504000", maps=SELF, memory=[(0x4010, b"\x09")], call=RUN, budget=2),
     ran(2, SPENT, regs={0: 9}, eip=0x40300C, stores=CODE + [(0x2014, 0x67), (0x2015, 0x40)])),
]
TABLE = {0x1000: 0x2007}
AUDITS = [
    ("no table at all is Safe", audit({}), no(SAFE)),
    ("a user-writable page on a frame of its own is Safe", audit({**TABLE, 0x2014: 0x5007}), no(SAFE)),
    ("a page that reaches the directory's frame is Exposed", audit({**TABLE, 0x2014: 0x1007}), no(EXPOSED, 0, 0, 0x5000)),
    ("a page that reaches its own table's frame is Exposed", audit({**TABLE, 0x2018: 0x2007}), no(EXPOSED, 0, 0, 0x6000)),
    ("a page that reaches another table's frame is Exposed, though that table is the supervisor's", audit({0x1000: 0x2003, 0x1004: 0x3007, 0x3008: 0x2007}), no(EXPOSED, 0, 0, 0x402000)),
    ("the frame of an absent table is no reach", audit({0x1000: 0x2006, 0x1004: 0x3007, 0x3008: 0x2007}), no(SAFE)),
    ("a directory that is its own table is Exposed at page 0", audit({0x1000: 0x1007}), no(EXPOSED, 0, 0, 0)),
    ("of two pages in a table the lowest is named", audit({**TABLE, 0x2010: 0x2007, 0x201C: 0x1007}), no(EXPOSED, 0, 0, 0x4000)),
    ("of two tables the lowest page is named", audit({0x1008: 0x3007, 0x1010: 0x2007, 0x3FFC: 0x1007, 0x2000: 0x1007}), no(EXPOSED, 0, 0, 0xBFF000)),
    ("the last linear page can be Exposed", audit({0x1FFC: 0x2007, 0x2FFC: 0x1007}), no(EXPOSED, 0, 0, 0xFFFFF000)),
    ("a page whose frame does not exist is no reach", audit({**TABLE, 0x2014: 0x9007}), no(SAFE)),
    ("no U/S in the table entry is no reach", audit({**TABLE, 0x2014: 0x1003}), no(SAFE)),
    ("no U/S in the directory entry is no reach", audit({0x1000: 0x2003, 0x2014: 0x1007}), no(SAFE)),
    ("no R/W in the table entry is no reach", audit({**TABLE, 0x2014: 0x1005}), no(SAFE)),
    ("no R/W in the directory entry is no reach", audit({0x1000: 0x2005, 0x2014: 0x1007}), no(SAFE)),
    ("an absent table entry is no reach", audit({**TABLE, 0x2014: 0x1006}), no(SAFE)),
    ("bit 7 is ignored, as are the marks", audit({0x1000: 0x20E7, 0x2014: 0x10E7}), no(EXPOSED, 0, 0, 0x5000)),
    ("the directory outside is index 1024", audit({}, cr3=0x8000), no(TABLE_OUTSIDE, 0, 0, 1024)),
    ("of two tables outside the lowest index is named", audit({0x100C: 0xA007, 0x101C: 0x8007}), no(TABLE_OUTSIDE, 0, 0, 3)),
    ("the last table can be outside", audit({0x1FFC: 0xFFFFF001}), no(TABLE_OUTSIDE, 0, 0, 1023)),
    ("an absent entry is no table outside", audit({0x100C: 0x9006}), no(SAFE)),
    ("Table outside comes before Exposed", audit({**TABLE, 0x2014: 0x1007, 0x1024: 0x8003}), no(TABLE_OUTSIDE, 0, 0, 9)),
    ("the memory's length decides what is outside", audit(TABLE, size=0x2000), no(TABLE_OUTSIDE, 0, 0, 0)),
    ("CR3 is read with PG clear too", audit({**TABLE, 0x2014: 0x1007}, paged=False), no(EXPOSED, 0, 0, 0x5000)),
    ("CR3's bits 3 and 4 are ignored", audit({**TABLE, 0x2014: 0x1007}, cr3=0x1018), no(EXPOSED, 0, 0, 0x5000)),
    ("the record's ring does not matter", audit({**TABLE, 0x2014: 0x1007}, ring=0), no(EXPOSED, 0, 0, 0x5000)),
    ("Bad record comes before Table outside", audit({}, cr3=0x8000, eflags=0), no(BAD)),
    ("a length that is not sound is a bad record for the audit too", audit({}, size=0x1800), no(BAD)),
]
LIST = [("RUN", *c) for c in RUNS + remaps.LIST] + [("AUDIT", *c) for c in AUDITS]
