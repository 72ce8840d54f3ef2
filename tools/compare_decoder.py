#!/usr/bin/env python3
"""Compares the decoder with a disassembler, objdump of the package binutils, on random strings of bytes. No part of the gate.

usage: tools/compare_decoder.py [COUNT [SEED]]

COUNT strings (100,000) of sixteen bytes are drawn by the seed (386): half of them uniformly, and half as random prefixes, an
opcode, a ModRM byte that often wants a SIB byte, and random bytes. Each is decoded by a program over m386_decode, which this
script proves and builds in a scratch repository, and by objdump. Length, name and operands must be the same, or neither know an
operation. `CHOICES` lists the differences that are choices of this project, or of objdump's text, each with its reason; it is
printed how often each was met. Any other difference is printed, and the exit status is 1.
"""
import itertools
import random
import subprocess
import sys
import tempfile
from collections import Counter

import compare_opcodes as opcodes
import operand_text
from built_program import built

SIZE = 16
ADDRESS_SIZE = 0x67
LOCK = 0xF0
WIDTHS = {"W8": 8, "W16": 16, "W32": 32}
REPEATS = {0xF2, 0xF3}
WORDS = {"lock", "rep", "repz", "repnz", "data16", "addr16", "bnd", "notrack", "xacquire", "xrelease", "cs", "ds", "es", "fs", "gs", "ss"}

PROGRAM = """//! Prints of each string of sixteen bytes the operation that it begins with and its length, or the exception.
#![tactic(auto)]

use m386_base::fault::Break;
use m386_decode::bytes::decode_bytes;
use std::io::{self, Read};

const SIZE: usize = 16;

fn main(rt: HostRuntime) -> io::Result<()> {
    let mut bytes = Vec::new(rt.alloc());
    rt.stdin().read_to_end(&mut bytes)?;
    for string in bytes.as_slice().chunks(SIZE) {
        match decode_bytes(string) {
            Ok(decoded) => {
                let op = decoded.op;
                println!(rt; "{} {:?} {:?} {:?}", decoded.len, op.name, op.width, op.args.as_slice())?;
            }
            Err(Break::Fault(fault)) => println!(rt; "0 {} - -", fault.vector)?,
            Err(Break::Stop(_)) => println!(rt; "0 paused - -")?,
        }
    }
    Ok(())
}
"""


def drawn(count, seed):
    """Strings of bytes, half of them uniform and half in the form of instructions."""
    dice = random.Random(seed)
    return [dice.randbytes(SIZE) if i % 2 else shaped(dice) for i in range(count)]


def shaped(dice):
    """Prefixes, an opcode, a ModRM byte and further bytes, all random."""
    prefixes = sorted(opcodes.PREFIXES)
    many = dice.choice([0, 0, 0, 1, 1, 2, 3, dice.randrange(SIZE)])
    data = bytes(dice.choice(prefixes) for _ in range(many))
    data += bytes([0x0F]) if dice.random() < 0.4 else b""
    data += bytes([dice.randrange(256), dice.randrange(4) << 6 | dice.randrange(8) << 3 | dice.choice([0, 1, 2, 3, 4, 4, 4, 5, 5, 6, 7])])
    return (data + dice.randbytes(SIZE))[:SIZE]


def decoded(strings):
    """The decoder's length, name, width and operands for each string, the length 0 and a vector where there is no operation."""
    with tempfile.TemporaryDirectory() as folder:
        program = built(folder, "decode_lines", PROGRAM, ["m386_base", "m386_decode"])
        run = subprocess.run([program], input=b"".join(strings), capture_output=True, check=True)
    lines = [line.split(" ", 3) for line in run.stdout.decode().splitlines()]
    if len(lines) != len(strings):
        sys.exit(f"{len(lines)} answers for {len(strings)} strings")
    return lines


class Case:
    """A string of bytes, what the decoder answers, and what objdump does."""

    def __init__(self, table, data, address, ours, theirs):
        self.table = table
        self.data = data
        self.address = address
        length, self.name, self.width, self.operands = ours
        self.length = int(length)
        words, self.other_length = theirs
        rest = list(itertools.dropwhile(lambda w: w.split(",")[0] in WORDS, words))
        self.words = words
        self.other = rest[0].split(",")[0] if rest else words[-1]
        self.other_operands = " ".join(rest[1:])
        self.behind = next((i for i, b in enumerate(data) if b not in opcodes.PREFIXES), len(data))
        self.prefixes = set(data[: self.behind])
        self.opcode, at = opcodes.opcode_of(data + bytes(3))
        modrm = (data + bytes(3))[at]
        self.middle = modrm >> 3 & 7
        self.register = modrm >= 0xC0
        self.row = next((r for r in table if r.covers(self.opcode, self.middle)), None)

    def is_known(self):
        return "(bad)" not in self.words

    def is_undefined(self):
        return (self.length, self.name) == (0, "6")

    def is_same(self):
        if self.length == 0:
            return not self.is_known()
        named = self.name == self.row.name and self.other in opcodes.expected_names(self.row)
        return self.is_known() and named and self.length == self.other_length and self.has_same_operands()

    def has_same_operands(self):
        if self.name in ("Esc", "Wait"):
            return True
        others = operand_text.shown(self.name, self.other_operands)
        end = self.address + self.length
        return operand_text.are_same(self.name, operand_text.printed(self.operands), others, WIDTHS[self.width], end)

    def __str__(self):
        return f"{self.data.hex(' ')}: the decoder has {self.length} {self.name} {self.width} {self.operands}, objdump {self.other_length} {' '.join(self.words)}"


def is_left_out(case):
    return case.is_undefined() and opcodes.left_out(case.table, case.opcode, case.middle, case.register) is not None


def is_lock_refused(case):
    return case.is_undefined() and LOCK in case.prefixes and case.row is not None and not (case.row.lock and not case.register)


def is_coprocessor(case):
    return case.name in ("Esc", "Wait") and case.length == case.behind + 1 and (case.other.startswith("f") or not case.is_known())


def is_other_by_repeat(case):
    later = not case.is_known() or case.other in ("tzcnt", "lzcnt")
    return case.length and case.prefixes & REPEATS and (case.opcode >= 0xF00 and later or case.name == "Nop" and case.other == "pause")


def is_too_long(case):
    return (case.length, case.name) == (0, "13") and case.other_length == 1 and set(case.words) <= WORDS


def is_exchange(case):
    return case.name == "Nop" and case.other == "xchg" and case.length == case.other_length


# Why the two may differ, and whether that is the reason of a case. The first that holds counts.
CHOICES = [
    ("objdump shows fourteen prefixes and more alone", lambda case: case.behind >= 14),
    ("an instruction of more than 15 bytes is #GP(0), where objdump shows its first prefix alone", is_too_long),
    ("the address-size prefix 67h isn't built", lambda case: case.is_undefined() and case.opcode == ADDRESS_SIZE),
    ("opcodes that are left out, second codes, and those of later processors", is_left_out),
    ("LOCK where the row doesn't take it is #UD, which objdump shows", is_lock_refused),
    ("all of the coprocessor's instructions are one operation of one byte, and WAIT is one before them", is_coprocessor),
    ("F2h or F3h, which has no effect, makes another operation of later processors, or none", is_other_by_repeat),
    ("90h is NOP with 66h too, which objdump shows as XCHG", is_exchange),
]


def main():
    count = int(sys.argv[1]) if len(sys.argv) > 1 else 100_000
    seed = int(sys.argv[2]) if len(sys.argv) > 2 else 386
    table = opcodes.rows()
    strings = drawn(count, seed)
    met, wrong = Counter(), 0
    for i, (data, ours, theirs) in enumerate(zip(strings, decoded(strings), opcodes.disassembled(strings, 2 * SIZE))):
        case = Case(table, data, 2 * SIZE * i, ours, theirs)
        if case.is_same():
            met["the same operation" if case.length else "no operation on either side"] += 1
            continue
        reason = next((reason for reason, holds in CHOICES if holds(case)), None)
        if reason is None:
            print(case)
            wrong += 1
        else:
            met[reason] += 1
    for reason, times in met.most_common():
        print(f"{times:>7} {reason}")
    print(f"{count} strings compared, {wrong} differences that are no choice")
    return 1 if wrong else 0


if __name__ == "__main__":
    sys.exit(main())
