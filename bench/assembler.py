#!/usr/bin/env python3
"""Measures the assembler: lines a second, and that a text of twice the length takes twice the time, up to 20 MB.

usage: bench/assembler.py [--least MB] [COMMAND..]

COMMAND is a program that reads a text and writes the image, as `crates/m386/out/m386 asm`. Where none is given, this script proves and builds one over
m386_asm in a scratch repository. The text is the block of lines below again and again, each time with names of its own, so that twice the text has
twice the names too. The times are of the processor, the best of three runs, and of one for texts above 5 MB.
"""
import argparse
import os
import resource
import subprocess
import sys
import tempfile

sys.path.insert(0, os.path.join(os.path.dirname(os.path.abspath(__file__)), "..", "tools"))
from built_program import built

# A usual mix. `#` stands for the number of the block.
BLOCK = """
size# = 24
enter#: push ebp                ; the frame
        mov ebp, esp
        sub esp, size#
        mov eax, [ebp+8]
        mov ebx, [ebp+12]
        xor ecx, ecx
again#: mov edx, [ebx+ecx*4+table#]
        add eax, edx
        inc ecx
        cmp ecx, 16
        jne again#
        movzx eax, byte [ebx]
        test eax, eax
        je done#
        lock inc dword [0x2000]
        imul eax, edx
        shl eax, 4
        rep movsb

done#:  leave
        ret
table#: .long enter#, done#, 0x1234, -1
        .byte 1, 2, 3, 4
"""

PROGRAM = """//! Assembles standard input, and writes the image.
#![tactic(auto)]

use m386_asm::assemble::assemble;
use std::io::{self, Read, Write};

fn main(rt: HostRuntime) -> io::Result<()> {
    let mut text = Vec::new(rt.alloc());
    rt.stdin().read_to_end(&mut text)?;
    match assemble(rt.alloc(), text.as_slice()) {
        Ok(bytes) => rt.stdout().write_all(bytes.as_slice()),
        Err(stop) => {
            eprintln!(rt; "{stop:?}")?;
            Ok(())
        }
    }
}
"""


def text_of(length):
    """A text of about so many bytes, and the number of its lines."""
    parts = [".memory 16777216\n.cpus 1\n"]
    left, number = length, 0
    while left > 0:
        parts.append(BLOCK.replace("#", str(number)))
        left -= len(parts[-1])
        number += 1
    text = "".join(parts)
    return text.encode(), text.count("\n")


def seconds(command, text):
    """The processor's seconds for a text that is assembled."""
    before = resource.getrusage(resource.RUSAGE_CHILDREN)
    done = subprocess.run(command, input=text, capture_output=True)
    after = resource.getrusage(resource.RUSAGE_CHILDREN)
    if done.stdout[:4] != b"M386":
        sys.exit(f"no image: {done.stderr.decode().strip()}")
    return after.ru_utime + after.ru_stime - before.ru_utime - before.ru_stime


def main():
    words = argparse.ArgumentParser()
    words.add_argument("--least", type=float, default=1.25, help="megabytes of the shortest text; the longest has 16 times as many")
    words.add_argument("command", nargs=argparse.REMAINDER)
    args = words.parse_args()
    with tempfile.TemporaryDirectory() as folder:
        command = args.command or [built(folder, "assembler_rounds", PROGRAM, ["m386_asm"])]
        last = None
        for doubled in range(5):
            megabytes = args.least * 2**doubled
            text, lines = text_of(int(megabytes * 1_000_000))
            spent = min(seconds(command, text) for _ in range(3 if megabytes <= 5 else 1))
            ratio = f", {spent / last:.2f} times those of half the text" if last else ""
            print(f"{len(text) / 1e6:.2f} MB, {lines:,} lines: {spent:.2f} seconds, {lines / spent:,.0f} lines a second{ratio}", flush=True)
            last = spent


main()
