#!/usr/bin/env python3
"""Measures what the verdict adds to a run of a built m386, in instructions, which no other work on the machine changes.

usage: bench/verdicts.py PROGRAM

It builds nothing and wants valgrind. Two processors exchange EAX with one place in memory for ever (XCHG, JMP), in the order round. In an
image that breaks a static rule the verdict looks at no cycle; in one that breaks none it walks over all of them. What a cycle costs is
the difference between a run of 4,000 steps more of each processor and a run without these, so that what the beginning costs falls out. It is
printed for images with no task, with three, and with 8,191, as many as a GDT can have.
"""
import os
import re
import struct
import subprocess
import sys
import tempfile

MEMORY = 0x100_0000
CODE = 0x1000
DATA = 0x80_0000
STEPS = (1_000, 5_000)
EXCHANGE = b"\x87\x05" + struct.pack("<I", DATA) + b"\xeb\xf8"


def image(gdt, limit, sections):
    header = b"M386" + struct.pack("<HBBIIHHIII", 1, 2, 0, MEMORY, gdt, limit, 0, 0, 0, len(sections))
    starts = struct.pack("<II", CODE, CODE) + bytes(24)
    return header + starts + b"".join(struct.pack("<II", at, len(data)) + data for at, data in sections)


def tss(base):
    """A descriptor of an available TSS of 104 bytes."""
    return struct.pack("<HHBBBB", 0x67, base & 0xFFFF, base >> 16 & 0xFF, 0x89, 0, base >> 24)


def with_tasks(bases):
    """An image whose GDT holds a null descriptor and then such TSSs."""
    if not bases:
        return image(0, 0, [(CODE, EXCHANGE)])
    table = bytes(8) + b"".join(tss(base) for base in bases)
    return image(0x10_0000, len(table) - 1, [(CODE, EXCHANGE), (0x10_0000, table)])


def instructions(program, data, steps):
    """The instructions of one run, and the last line of its report."""
    with tempfile.TemporaryDirectory() as folder:
        words = ["valgrind", "--tool=callgrind", f"--callgrind-out-file={folder}/out", program]
        words += ["run", "--order=round", f"--steps={steps}"]
        done = subprocess.run(words, input=data, capture_output=True, check=True)
    return int(re.search(rb"Collected : (\d+)", done.stderr)[1]), done.stdout.splitlines()


def a_cycle(program, data, wanted):
    """Instructions a cycle of the runs that end with the wanted line."""
    (few, short), (many, long) = (instructions(program, data, steps) for steps in STEPS)
    if short[-1] != wanted or long[-1] != wanted:
        sys.exit(f"a run ended with {long[-1].decode()}")
    return (many - few) / (len(long) - len(short))


def main():
    program = os.path.abspath(sys.argv[1])
    bare = a_cycle(program, with_tasks([0x20_0000, 0x20_0000]), b"unclean rule 4")
    print(f"no cycle judged: {bare:.0f} instructions a cycle")
    for count in (0, 3, 8_191):
        whole = a_cycle(program, with_tasks([0x20_0000 + 0x80 * i for i in range(count)]), b"clean")
        print(f"{count} tasks: {whole:.0f}, of which the verdict has {whole - bare:.0f} ({(whole - bare) / whole:.1%})")


main()
