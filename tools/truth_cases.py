#!/usr/bin/env python3
"""Writes the cases of crates/m386_truth, its files stdin and stdout, in the repository's top folder.

usage: tools/truth_cases.py

None of them is worked out from the crates. Arithmetic is that of this machine's own processor, which must be of the x86
family (truth_arithmetic.c, built by gcc); opcodes are those of objdump and nasm (truth_opcodes.py, of the packages binutils
and nasm). What the project chooses otherwise is named in these two. The program writes how many cases of each kind it
compared, and each that differs: its stdout here has none that does.
"""
import os
import subprocess
import tempfile

import truth_opcodes

CRATE = os.path.join(os.path.dirname(os.path.dirname(os.path.abspath(__file__))), "crates", "m386_truth")


def arithmetic():
    """The lines of arithmetic, of all its kinds."""
    source = os.path.join(os.path.dirname(os.path.abspath(__file__)), "truth_arithmetic.c")
    with tempfile.TemporaryDirectory() as folder:
        subprocess.run(["gcc", "-O1", "-mno-red-zone", "-o", folder + "/truth", source], check=True)
        return subprocess.run([folder + "/truth"], capture_output=True, text=True, check=True).stdout.splitlines()


def opcodes():
    """The lines of decoding."""
    return ["= decode", *(f"{data.hex()} : {answer}" for data, answer in truth_opcodes.cases())]


def told(lines):
    """What the program writes where no case differs."""
    counts = {}
    for line in lines:
        if line.startswith("= "):
            kind = line[2:]
            counts[kind] = 0
        else:
            counts[kind] += 1
    return [f"{kind}: {count} compared, 0 different" for kind, count in counts.items()]


def main():
    lines = arithmetic() + opcodes()
    for name, text in (("stdin", lines), ("stdout", told(lines))):
        with open(os.path.join(CRATE, name), "w") as file:
            file.write("".join(line + "\n" for line in text))
    print(f"{len(lines)} lines")


if __name__ == "__main__":
    main()
