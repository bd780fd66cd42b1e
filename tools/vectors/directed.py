#!/usr/bin/python3
"""Writes data/directed from the cases of steps.py and calls.py, and stdout, beside the data/cases that is there. No emulator takes part."""
import calls
import layout
import steps


def encode(family, rule, c, want):
    about = layout.asked(c["call"], c["ring"], c["budget"], want["count"], c["size"], c["cr0"], c["cr3"], rule)
    return about + layout.case(family, 0, c["eflags"], c["eip"], c["regs"], 0, c["writes"], want["reply"], want["record"], want["stores"])


def write():
    cases = steps.LIST + calls.LIST
    assert {want["reply"][0] for _, _, _, want in cases} == set(range(11)), "a reply has no directed case"
    layout.write("data/directed", b"".join(encode(*c) for c in cases))
    layout.write_stdout()


if __name__ == "__main__":
    write()
