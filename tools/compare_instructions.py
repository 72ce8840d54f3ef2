#!/usr/bin/env python3
"""Compares whole instructions with this machine's own processor, which must be of the x86 family under Linux. No part of the gate.

usage: tools/compare_instructions.py [COUNT [SEED [NAME..]]]      COUNT cases (100,000) of each name, drawn by the seed (386)
       tools/compare_instructions.py --stored [EACH [SEED]]       prints the cases that the gate runs

run_instruction.c, which gcc builds here, runs each case of instruction_cases.py in a process of 32 bits; what it answers
is written behind the case, and m386_cases, which this script proves and builds, makes one step over each and compares registers,
flags, EIP, the exception and memory. Flags that the manual leaves undefined are left out, for each operation as undefined_flags
names them. Printed is how many cases of each name differ, with the first few of them; the exit status is 1 if there is one.

The stored cases are EACH (8) of each form, one of each with LOCK, which most refuse, and one of each ModRM and SIB byte that names
memory. They set only what the instruction names, and leave the rest as m386_cases begins. Some are wrong on purpose, under the name
WRONG: the program has to find each.
"""
import os
import random
import struct
import subprocess
import sys
import tempfile
import time

from instruction_cases import AREA, AREA_SIZE, CODE, COMPARED, FIRST_AREA, FIRST_REGISTERS, FORMS, NAMES, PLAIN, SCALED, case_of, takes_lock_alike

HERE = os.path.dirname(os.path.abspath(__file__))
CRATE = f"{HERE}/../crates/m386_cases"
GCC = (
    "gcc -m32 -O1 -std=gnu99 -Wall -Wextra -ffreestanding -fno-builtin -fno-pic -no-pie -fno-stack-protector -fcf-protection=none"
    " -fno-tree-loop-distribute-patterns -mno-sse -nostdlib -static"
).split()
TAKEN = struct.Struct(f"<16sI8II{AREA_SIZE}s")
GIVEN = struct.Struct(f"<8IIIII{AREA_SIZE}s")
NO_VECTOR = 0xFFFFFFFF
PAGE_FAULT = 14
BLOCK = 20_000
SHOWN = 5


def built_processor(folder):
    """The path of the built run_instruction."""
    path = f"{folder}/run_instruction"
    subprocess.run([*GCC, "-o", path, f"{HERE}/run_instruction.c"], check=True)
    return path


def built_machine():
    """The path of m386_cases, proved and built."""
    run = subprocess.run(["rt", "run"], cwd=CRATE, stdin=subprocess.DEVNULL, capture_output=True, text=True)
    if run.returncode:
        sys.exit(run.stdout + run.stderr)
    return f"{CRATE}/out/m386_cases"


def answers(processor, cases):
    """What the processor makes of each case: registers, flags, vector, EIP, stray bytes, memory."""
    taken = b"".join(TAKEN.pack(case.code, len(case.code), *case.registers, case.flags, bytes(case.area)) for case in cases)
    run = subprocess.run([processor], input=taken, stdout=subprocess.PIPE, check=True)
    found = list(GIVEN.iter_unpack(run.stdout))
    if len(found) != len(cases):
        sys.exit(f"{len(found)} answers for {len(cases)} cases")
    return found


def words(old_registers, registers, old_area, area):
    """The words for what is changed of registers and of memory."""
    found = [f"{i}={value:08x}" for i, value in enumerate(registers) if value != old_registers[i]]
    if old_area != area:
        places = [i for i in range(AREA_SIZE) if old_area[i] != area[i]]
        found.append(f"{AREA + places[0]:x}={area[places[0] : places[-1] + 1].hex()}")
    return found


def line(case, answer):
    """The case with what the processor made of it, as a line for m386_cases."""
    registers, flags, vector, eip, strays, area = answer[:8], answer[8] & COMPARED | 2, *answer[9:]
    if strays or vector == PAGE_FAULT or eip != (CODE + len(case.code) if vector == NO_VECTOR else CODE):
        sys.exit(f"{case} left its area: vector {vector:x}, EIP {eip:x}, {strays} doublewords changed outside")
    before = words(FIRST_REGISTERS, case.registers, FIRST_AREA, bytes(case.area))
    if case.flags != 2:
        before.append(f"f={case.flags:x}/0")
    undefined = case.undefined if vector == NO_VECTOR else 0
    after = words(case.registers, registers, bytes(case.area), area)
    if undefined or flags != case.flags:
        after.append(f"f={flags & ~undefined:x}/{undefined:x}")
    if vector != NO_VECTOR:
        after.append(f"v={vector:x}")
    return " ".join([case.form.name, case.code.hex(), *before, ">", *after])


def differences(machine, lines):
    """The cases that m386_cases finds otherwise, each with what it found."""
    lines = list(lines)
    text = "".join(f"{line}\n" for line in lines)
    found = subprocess.run([machine], input=text, capture_output=True, check=True, text=True).stdout.splitlines()
    total = found[-1].split()
    if total[0] != "all:" or int(total[1]) != len(lines):
        sys.exit(f"{len(lines)} cases, and m386_cases says: {found[-1]}")
    shown = [f"{said}\n{made}" for said, made in zip(found, found[1:]) if made.startswith("    found ")]
    if len(shown) != int(total[3]):
        sys.exit(f"{len(shown)} differences shown, and m386_cases says: {found[-1]}")
    return shown


def compare(count, seed, names):
    """Compares so many cases of each name; prints what differs, and says how many do."""
    unknown = set(names) - set(NAMES)
    if unknown:
        sys.exit(f"no such names: {' '.join(sorted(unknown))}")
    machine = built_machine()
    begun = time.time()
    differ = 0
    with tempfile.TemporaryDirectory() as folder:
        processor = built_processor(folder)
        for name in names or NAMES:
            dice = random.Random(f"{seed} {name}")
            forms = [form for form in FORMS if form.name == name]
            shown = []
            for begin in range(0, count, BLOCK):
                cases = [case_of(dice, dice.choice(forms), True) for _ in range(min(BLOCK, count - begin))]
                shown += differences(machine, map(line, cases, answers(processor, cases)))
            print(f"{name}: {count} cases, {len(shown)} differ", flush=True)
            for text in shown[:SHOWN]:
                print(f"  {text}")
            differ += len(shown)
    print(f"{count * len(names or NAMES)} cases in {time.time() - begun:.0f} seconds, {differ} differ")
    return differ


def wrong_words(case, answer):
    """Words that are wrong of a case with no exception: of each register, each flag, the first and the last byte, an exception."""
    registers, flags, area = answer[:8], answer[8] & COMPARED | 2, answer[12]
    yield from (f"{i}={value ^ 1 << 4 * i:08x}" for i, value in enumerate(registers))
    yield from (f"f={flags ^ 1 << bit:x}/0" for bit in range(12) if COMPARED >> bit & 1)
    yield from (f"{AREA + i:x}={area[i] ^ 1:02x}" for i in (0, AREA_SIZE - 1))
    yield "v=6"


def wrong_lines(cases, found):
    """Cases that are wrong in one thing: those of wrong_words, the length, a store, and an exception that isn't said."""
    together = list(zip(cases, found))
    case, answer = next((c, a) for c, a in together if c.form.name == "ADC" and c.form.place == "register")
    said = line(case, answer).split(" ", 2)[2]
    yield from (f"WRONG {case.code.hex()} {said} {word}" for word in wrong_words(case, answer))
    yield f"WRONG {case.code.hex()}90 {said}"
    stores = (line(c, a) for c, a in together if c.form.name == "MOV" and bytes(c.area) != a[12])
    faults = (line(c, a) for c, a in together if a[9] != NO_VECTOR)
    for text in (next(stores), next(faults)):
        yield f"WRONG {text.split(' ', 1)[1].split('>')[0]}>"


def stored(each, seed):
    """The lines of the gate's cases."""
    dice = random.Random(seed)
    cases = [case_of(dice, form, False) for form in FORMS for _ in range(each)]
    reaching = [form for form in FORMS if form.place == "memory"]
    cases += [case_of(dice, dice.choice(reaching), False, shape) for shape in PLAIN + SCALED]
    cases += [case_of(dice, form, False, locked=True) for form in FORMS if takes_lock_alike(form)]
    with tempfile.TemporaryDirectory() as folder:
        found = answers(built_processor(folder), cases)
    return [*map(line, cases, found), *wrong_lines(cases, found)]


def main():
    given = sys.argv[1:]
    if given[:1] == ["--stored"]:
        numbers = [int(word) for word in given[1:]]
        print("\n".join(stored(*numbers, *[8, 386][len(numbers) :])))
        return 0
    count = int(given[0]) if given else 100_000
    seed = int(given[1]) if len(given) > 1 else 386
    return 1 if compare(count, seed, given[2:]) else 0


if __name__ == "__main__":
    sys.exit(main())
