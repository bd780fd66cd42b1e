#!/usr/bin/python3
"""Writes the files of crates/vectors/data, and stdout. Fixed seed: the same bytes each time. See docs/VECTORS.md."""
import os
import pickle
import struct
import sys
from collections import Counter

from unicorn import UC_MEM_FETCH_UNMAPPED, UC_MEM_WRITE_UNMAPPED

sys.path.insert(0, os.path.dirname(__file__))
import cases
import directed
import emulator
import forms
import layout
from cases import DIRECTORY
from layout import DONE, FAULT, TRAP, HALT, NO_MEMORY, NOT_BUILT, SIZE

classes = Counter()


def entries(mem, a):
    """Directory and table entry of a linear address, or None where one is absent."""
    d = struct.unpack_from("<I", mem, DIRECTORY + 4 * (a >> 22))[0]
    if not d & 1:
        return None
    t = struct.unpack_from("<I", mem, (d & 0xFFFFF000) + 4 * (a >> 12 & 1023))[0]
    return (d, t) if t & 1 else None


def refused(c, mem, write, a, size):
    """The page fault that document 01 gives an access: (code, address), or None."""
    for i in range(size):
        at = a + i & 0xFFFFFFFF
        e = entries(mem, at)
        code = 2 * write + 4 * (c.ring == 3)
        if e is None:
            return code, at
        user, writable = e[0] & e[1] & 4, e[0] & e[1] & 2
        if c.ring == 3 and (not user or write and not writable) or c.ring == 0 and write and c.wp and not writable:
            return code + 1, at
    return None


def last_access(r):
    """The access that was refused. Unicorn names one over two pages whole, and then its parts; no instruction makes two of one kind."""
    if not r.accesses:
        kind, a, size = r.missing[0]
        return kind == UC_MEM_WRITE_UNMAPPED, a, size
    kind = r.accesses[-1][0]
    return next(a for a in r.accesses if a[0] == kind)


def page_fault(c, r):
    """Unicorn says that a page fault, or an unmapped address, ends the step. Its place is Unicorn's, its code the document's."""
    if r.accesses or r.missing and r.missing[0][0] != UC_MEM_FETCH_UNMAPPED:
        write, a, size = last_access(r)
        if c.form.use == "rw":
            if not write:
                classes["read-and-write checked as a read first"] += 1
            write = True
    else:
        write, a, size = False, r.cr2 if r.vector == 14 else r.missing[0][1], 1
    f = refused(c, r.before, write, a, size)
    assert f is not None, "no refusal"
    if r.vector == 14 and f[1] != r.cr2:
        assert c.form.use == "rw", "another address"
        classes["read-and-write over two pages: the second page's fault first"] += 1
    if r.vector != 14:
        classes["absent page above Unicorn's memory: its own error, not 14"] += 1
    return FAULT, 14, f[0], f[1]


def fault6(c, r):
    """Settled at the ModRM byte, or at 0B: a fetch can be refused up to there, and nothing after it counts."""
    length = next(i for i, b in enumerate(c.code) if b not in forms.OVERRIDES) + 2
    for a in range(c.eip, c.eip + length):
        if a >= SIZE and not c.paged:
            return NO_MEMORY, 0, 0, a
        f = refused(c, r.before, False, a, 1) if c.paged else None
        if f is not None:
            return FAULT, 14, f[0], f[1]
    return FAULT, 6, 0, 0


def reply(c, r):
    if c.form.family == "FAULT6":
        q = fault6(c, r)
        if q == (FAULT, 6, 0, 0) and not r.invalid:
            classes["fault 6 by name: the emulator carries on, or refuses a later byte or the operand"] += 1
        return q
    if c.form.family == "UNBUILT":
        classes["not built: the emulator carries on or refuses otherwise"] += 1
        return NOT_BUILT, 0, 0, c.eip
    if r.invalid:
        return FAULT, 6, 0, 0
    if c.form.family == "INT" and r.vector is not None and r.eip != c.eip:
        return TRAP, r.vector, 0, r.eip
    if r.missing or r.vector == 14:
        if c.paged:
            return page_fault(c, r)
        a = last_access(r)[1]
        return NO_MEMORY, 0, 0, max(a, SIZE)
    if r.vector == 1:
        return DONE, 0, 0, 0
    if r.vector is None:
        assert c.form.family == "HLT"
        return HALT, 0, 0, r.eip
    assert r.vector in (0, 13), r.vector
    return FAULT, r.vector, 0, 0


def settle(c, r):
    """Where document 01 decides otherwise."""
    m = forms.undefined(c.form.family, c.code, c.regs[1])
    if (r.eflags ^ c.eflags) & m:
        classes["undefined flag kept, changed by the emulator"] += 1
        r.eflags = r.eflags & ~m | c.eflags & m
    if c.form.opcode == [0xC2] and c.code[-1] >= 0x80:
        classes["RET's immediate without sign"] += 1
        r.regs[4] = r.regs[4] + 0x10000 & 0xFFFFFFFF


def touches_tables(r):
    return any(DIRECTORY - 4 < a < DIRECTORY + 0x2000 for _, a, _ in r.accesses)


def encode(c, r, q):
    mode = (c.ring == 3) | c.paged << 1 | c.wp << 2 | c.ne << 3
    record, stores = None, []
    if q[0] == DONE:
        record = {i: r.regs[i] for i in range(8) if r.regs[i] != c.regs[i]}, r.eip, r.eflags
        stores = r.stores
    elif r.stores:
        classes["refused: the emulator left marks or half a store"] += 1
    return layout.case(c.form.family, mode, c.eflags, c.eip, c.regs, c.low, c.writes, q, record, stores)


def results(batch):
    """The emulator's results in a process of its own: some cases abort it, and have none."""
    take, give = os.pipe()
    child = os.fork()
    if child == 0:
        os.close(take)
        with os.fdopen(give, "wb") as f:
            pickle.dump([emulator.run(c) for c in batch], f)
        os._exit(0)
    os.close(give)
    with os.fdopen(take, "rb") as f:
        data = f.read()
    if os.waitpid(child, 0)[1] == 0:
        return pickle.loads(data)
    if len(batch) == 1:
        return [None]
    half = len(batch) // 2
    return results(batch[:half]) + results(batch[half:])


def run_all(cs):
    for k in range(0, len(cs), 256):
        yield from zip(cs[k:k + 256], results(cs[k:k + 256]))


def main():
    out, dropped, bad, replies = [], 0, 0, Counter()
    for n, (c, r) in enumerate(run_all(cases.all_cases())):
        if r is None:
            print("case", n, c.form.family, c.code.hex(), "eip", hex(c.eip), "ring", c.ring, "paged", c.paged, "aborts the emulator")
            bad += 1
            continue
        if c.paged and touches_tables(r):
            dropped += 1
            continue
        try:
            q = reply(c, r)
        except AssertionError as e:
            print("case", n, c.form.family, c.code.hex(), "eip", hex(c.eip), "ring", c.ring, "paged", c.paged, r.vector, r.missing, r.accesses, hex(r.cr2), repr(e))
            raise
        if q[0] == DONE:
            settle(c, r)
        replies[q[0], q[1] if q[0] == FAULT else 0] += 1
        out.append((layout.FAMILIES.index(c.form.family), encode(c, r, q)))
    out.sort(key=lambda p: p[0])
    data = b"".join(b for _, b in out)
    layout.write("data/cases", data)
    directed.write()
    print(len(out), "cases,", len(data), "bytes;", dropped, "left out, since they read or write the tables")
    print(bad, "without a result")
    for k, v in sorted(replies.items()):
        print("reply", *k, v)
    for k, v in sorted(classes.items()):
        print(v, k)


main()
