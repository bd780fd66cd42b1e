#!/usr/bin/python3
"""Runs the cases of data/cases that a user program may do on the machine's own CPU (hostcpu.c), and compares. Not part of the gate.

A case under paging has its own maps' rights by mprotect, so that its page faults are the CPU's. It needs an x86 Linux machine with gcc -m32
(gcc-multilib). Elsewhere CC and RUNNER may name a compiler and an emulator, to try the program itself: then no CPU confirms anything, and it
says so."""
import ctypes
import mmap
import os
import platform
import signal
import struct
import subprocess
import sys
import tempfile
from collections import Counter, namedtuple

import forms
import layout
from cases import DIRECTORY
from layout import DONE, FAULT, NO_MEMORY, SIZE

FLAGS = 0xCD5  # CF PF AF ZF SF DF OF: IF and IOPL are not a user's
SIGNALS = {
    (DONE, 0): {signal.SIGTRAP},
    (FAULT, 0): {signal.SIGFPE},
    (FAULT, 6): {signal.SIGILL},
    (FAULT, 14): {signal.SIGSEGV},
    (NO_MEMORY, 0): {signal.SIGSEGV, signal.SIGBUS},
}
RING3, PAGING, WP = 1, 2, 4  # of a case's mode
PRESENT, WRITE, USER = 1, 2, 4  # of a page fault's code, and of an entry
UNTOLD = 0xFFFFFFFF  # for a vector, by QEMU's user mode
ABSENT, SUPERVISOR, READ_ONLY, WRITABLE = range(4)
LOOK = mmap.PROT_READ | mmap.PROT_EXEC
RIGHTS = {ABSENT: 0, SUPERVISOR: 0, READ_ONLY: LOOK, WRITABLE: LOOK | mmap.PROT_WRITE}
Result = namedtuple("Result", "signal vector code address eip eflags regs changed")


def code_of(c):
    return [c.memory.get(c.eip + i, 0) for i in range(15)]


def left_out(c):
    """Why a user program cannot do it, or None."""
    code = code_of(c)
    overrides = next((i for i, b in enumerate(code) if b not in forms.OVERRIDES), 15)
    opcode = code[overrides] if overrides < 15 else None
    if c.reply[:2] != (FAULT, 14) and (c.family in ("INT", "HLT") or opcode in (0xFA, 0xFB)):
        return "the system's: INT, HLT, CLI, STI"
    if c.family == "UNBUILT":
        return "not built: the CPU has it"
    if c.reply[:2] not in SIGNALS:
        return "another reply"
    return None


def through_cs(c):
    """Is CS its override, the last of several? A user program can read through its code segment and not write."""
    code = code_of(c)
    return 0x2E in code[:next((i for i, b in enumerate(code) if b not in forms.OVERRIDES), 15)][-1:]


def page(c, number):
    """What the case's own maps let its ring do with a page."""
    if not c.mode & PAGING:
        return WRITABLE
    entry = lambda a: sum(c.memory.get(a + i, 0) << 8 * i for i in range(4))
    d = entry(DIRECTORY + 4 * (number >> 10))
    t = entry((d & 0xFFFFF000) + 4 * (number & 1023)) if d & PRESENT else 0
    if not t & PRESENT:
        return ABSENT
    assert t >> 12 == number, "no identity"
    if c.mode & RING3 and not d & t & USER:
        return SUPERVISOR
    return WRITABLE if d & t & WRITE or not c.mode & (RING3 | WP) else READ_ONLY


def sent(c):
    rights = [RIGHTS[page(c, n)] for n in range(SIZE >> 12)]
    b = struct.pack("<19I", c.eip, c.eflags, *c.regs, c.mode & PAGING, *rights)
    return b + struct.pack("<I", len(c.memory)) + b"".join(struct.pack("<2I", *p) for p in sorted(c.memory.items()))


def keep_places():
    """The program's own pages lie in the same places each time, so that no far address of a case finds one by chance."""
    ctypes.CDLL(None).personality(0x0040000)  # ADDR_NO_RANDOMIZE


def run(chosen, folder):
    program = os.path.join(folder, "hostcpu")
    compiler = os.environ.get("CC", "gcc -m32").split()
    subprocess.run([*compiler, "-O1", "-fno-stack-protector", "-static", "-o", program, os.path.join(layout.HERE, "hostcpu.c")], check=True)
    command = [*os.environ.get("RUNNER", "").split(), program]
    said = subprocess.run(command, input=b"".join(sent(c) for c in chosen), stdout=subprocess.PIPE, preexec_fn=keep_places)
    at, out = 0, []
    while at < len(said.stdout):
        *end, eip, eflags, r0, r1, r2, r3, r4, r5, r6, r7, changed = struct.unpack_from("<15I", said.stdout, at)
        at += 60
        out.append(Result(*end, eip, eflags, [r0, r1, r2, r3, r4, r5, r6, r7], dict(struct.iter_unpack("<2I", said.stdout[at:at + 8 * changed]))))
        at += 8 * changed
    assert said.returncode == 0 and len(out) == len(chosen), f"it ended with {said.returncode} after {len(out)} cases"
    return out


# The families that write their operand: a case of another one that the CPU refuses through CS differs.
WRITERS = set("ADD ADC SUB SBB AND OR XOR INC DEC NEG NOT SHL SHR SAR MOV XCHG POP SETcc".split())


def unmoved(c, r):
    return r.regs == c.regs and r.eip == c.eip and not (r.eflags ^ c.eflags) & FLAGS and not r.changed


def cannot_write(c, r):
    """Refused by its segment with nothing changed, through CS, by a family that writes?"""
    may = c.reply[0] == DONE or c.reply[:2] == (FAULT, 14) and c.reply[2] & WRITE
    return may and through_cs(c) and c.family in WRITERS and r[:2] == (signal.SIGSEGV, 13) and unmoved(c, r)


def over_the_top(c, r):
    """Is it a dword from the last three addresses, which wraps? The CPU may refuse it by the segment's limit, before any page."""
    return c.reply[:2] == (FAULT, 14) and c.reply[3] > 0xFFFFFFFC and r.vector in (12, 13) and unmoved(c, r)


def page_fault(c, r):
    """Both say that a page fault ends the step: where, and with which code? A supervisor's page is an absent one to the program."""
    if r.address != c.reply[3]:
        return "differs"
    if r.vector == UNTOLD:
        return "agrees in a page fault's address: the emulator tells no vector, and makes up the code"
    ring0, supervisor = not c.mode & RING3, page(c, r.address >> 12) == SUPERVISOR
    if (r.code ^ c.reply[2]) & (PRESENT | WRITE | USER) != (USER if ring0 else PRESENT if supervisor else 0):
        return "differs"
    return "agrees but for the user bit: the case is ring 0" if ring0 else "left out: a supervisor's page" if supervisor else "agrees"


def refused(c, r):
    if over_the_top(c, r):
        return "left out: a dword over the top of the addresses, which the segment's limit refuses"
    if r.signal not in SIGNALS[c.reply[:2]] or c.reply[0] == FAULT and r.vector not in (c.reply[1], UNTOLD) or not unmoved(c, r):
        return "differs"
    return page_fault(c, r) if c.reply[:2] == (FAULT, 14) else "agrees"


def done(c, r):
    regs, eip, eflags = c.after
    # Under paging the marks in the directory and the table are Micro32's alone: no case reaches those by data.
    stores = {a: b for a, b in c.stores.items() if not (c.mode & PAGING and DIRECTORY <= a < DIRECTORY + 0x2000)}
    if r.signal not in SIGNALS[DONE, 0] or r.regs != regs or r.eip != eip or r.changed != stores:
        return "differs"
    apart = (r.eflags ^ eflags) & FLAGS
    if not apart:
        return "agrees"
    return "agrees but for an undefined flag" if not apart & ~forms.undefined(c.family, code_of(c)[:eip - c.eip], c.regs[1]) else "differs"


def compared(c, r):
    if cannot_write(c, r):
        return "left out: a write through CS, which a user program cannot do"
    return done(c, r) if c.reply[0] == DONE else refused(c, r)


def main():
    machine = platform.machine()
    native = machine in ("x86_64", "i386", "i486", "i586", "i686")
    if not native and not os.environ.get("RUNNER"):
        sys.exit(f"this machine is {machine}: it has no x86 CPU to ask")
    print("run on the machine's own CPU" if native and not os.environ.get("RUNNER") else "run by an emulator: this tries hostcpu.c, and confirms nothing")
    chosen, out = [], Counter()
    for c in map(layout.Read, layout.parts("cases")):
        why = left_out(c)
        out.update([why] if why else [])
        chosen += [] if why else [c]
    with tempfile.TemporaryDirectory() as folder:
        results = run(chosen, folder)
    classes, differing = Counter(), []
    for c, r in zip(chosen, results):
        k = compared(c, r)
        classes[k] += 1
        differing += [(c, r)] if k == "differs" else []
    for c, r in differing[:40]:
        print(c.family, bytes(code_of(c)).hex(), "mode", c.mode, "reply", c.reply, "signal %d vector %d code %x address %x" % r[:4],
              "EIP %x flags %x" % r[4:6], "wanted %x %x" % c.after[1:],
              [(i, hex(a), hex(b)) for i, (a, b) in enumerate(zip(r.regs, c.after[0])) if a != b], r.changed, c.stores)
    for k, n in sorted(classes.items()):
        print(n, k)
    for k, n in sorted(Counter(c.family for c, _ in differing).items()):
        print(n, "differing:", k)
    for k, n in sorted(out.items()):
        print(n, "left out:", k)


main()
