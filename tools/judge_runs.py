#!/usr/bin/env python3
"""Judges reports of runs by the image and the report alone: each read gives what was written last, no locked group is split, each cycle
is by a processor that runs and within its group of four bytes, there is one line for each processor, and no two processors end in one
task. Where they fight for tasks the verdict has to be clean.

usage: judge_runs.py PROGRAM RUNS [WORD..]

It calls PROGRAM so many times, on images whose two to eight processors fight: for one lock, under which they count; for one task, by CALL
and back by IRET; and for all tasks that there are, one more than processors, by JMP from one to the next. In a WORD `{n}` is the number of
the run; with no WORD each run draws its order from that number, and `--order=threads` runs them in threads. The first faults of each
report are printed, with how many were told by their kind of image, and the exit status is 1 where there is one.
"""
import re
import subprocess
import sys
from collections import Counter

from check_program import image, tss

CYCLE = re.compile(r"c ([0-7]) ([mp]) ([rw]) ([+.]) ([a-z]+) (\d\d) ([0-9a-f]{8}) ([0-9a-f]) ([0-9a-f]{8})")
MEMORY, PORTS = 16384, 65536
FIGHT = bytes.fromhex(
    "b801000000"  # again: MOV EAX, 1
    "870500200000"  # XCHG [2000h], EAX
    "85c0"  # TEST EAX, EAX
    "75f1"  # JNZ again
    "ff0504200000"  # INC dword [2004h]
    "c7050020000000000000"  # MOV dword [2000h], 0
    "ebdf"  # JMP again
)


ONE_TASK = 0x58  # the task that nobody starts in
TO = (0x9A).to_bytes(1, "little"), (0xEA).to_bytes(1, "little")  # CALL, JMP


def far(opcode, selector):
    """A far CALL or JMP, of seven bytes, to a task."""
    return opcode + bytes(4) + selector.to_bytes(2, "little")


def fight_for_tasks(cpus, code_of):
    """An image whose processors start in tasks of their own, 18h and up, each at the code for its selector; there is one task more. The
    handler of #GP leaves out the seven bytes of the transfer that found its task busy."""
    tasks = [*range(0x18, 0x18 + 8 * cpus, 8), ONE_TASK]
    wide = lambda access: bytes.fromhex("ffff000000") + bytes([access]) + bytes.fromhex("cf00")
    table = bytearray(8) + wide(0x9A) + wide(0x92) + bytes(0x60 - 0x18)
    more = [(0x2068, bytes.fromhex("00480800008e0000")), (0x4800, bytes.fromhex("8344240407" "83c404" "cf"))]  # ADD [ESP+4], 7; ADD ESP, 4; IRET
    for k, selector in enumerate(tasks):
        table[selector : selector + 8] = tss(0x3000 + 0x80 * k)
        fields = {0x20: 0x4000 + 0x80 * k, 0x24: 2, 0x38: 0x6000 + 0x100 * k, 0x4C: 8, 0x50: 0x10, 0x54: 0x10}
        state = b"".join(fields.get(at, 0).to_bytes(4, "little") for at in range(0, 104, 4))
        more += [(0x3000 + 0x80 * k, state), (0x4000 + 0x80 * k, code_of(selector, tasks))]
    data = bytearray(image(bytes(table), cpus=cpus, memory=MEMORY * 2, gdt=(0x1000, len(table) - 1), idt=(0x2000, 0x6F), tasks=(1 << cpus) - 1, more=sorted(more)))
    for cpu in range(cpus):
        data[32 + 4 * cpu : 36 + 4 * cpu] = tasks[cpu].to_bytes(4, "little")
    return bytes(data)


def by_call(selector, _tasks):
    """CALL to the one task, for ever; the one task is left by IRET, and begins again when it is called again."""
    return bytes.fromhex("cf" "ebfd") if selector == ONE_TASK else far(TO[0], ONE_TASK) + bytes.fromhex("ebf7")


def by_jump(selector, tasks):
    """JMP to each other task, one after another, for ever."""
    jumps = b"".join(far(TO[1], task) for task in tasks if task != selector)
    return jumps + bytes([0xEB, 256 - len(jumps) - 2])


FIGHTS = {
    "a lock": lambda cpus: image(FIGHT, cpus=cpus, memory=MEMORY),
    "a task": lambda cpus: fight_for_tasks(cpus, by_call),
    "all tasks": lambda cpus: fight_for_tasks(cpus, by_jump),
}


def first_bytes(data):
    """The memory that an image of no plan begins with."""
    memory, at = bytearray(int.from_bytes(data[8:12], "little")), 64
    for _ in range(int.from_bytes(data[28:32], "little")):
        addr, length = (int.from_bytes(data[at + k : at + k + 4], "little") for k in (0, 4))
        memory[addr : addr + length] = data[at + 8 : at + 8 + length]
        at += 8 + length
    return memory


def judge_cycle(line, before, spaces, cpus):
    """What is wrong with a cycle, behind the one before it, over these bytes of memory and ports, to which it is applied."""
    found = CYCLE.fullmatch(line)
    if not found:
        return ["no cycle"]
    cpu, space, way, joined, _, _, addr, enables, value = found.groups()
    addr, enables, value = int(addr, 16), int(enables, 16), int(value, 16)
    data, absent = spaces[space]
    wrong = []
    if int(cpu) >= cpus:
        wrong.append("a processor that doesn't run")
    if addr % 4 or not enables:
        wrong.append("no group of four bytes")
    if joined == "+" and before != cpu:
        wrong.append("a locked group is split")
    for k in range(4):
        byte = value >> 8 * k & 255
        inside = addr + k < len(data)
        if not enables >> k & 1:
            stands = 0
        elif way == "w":
            stands = byte
            if inside:
                data[addr + k] = byte
        else:
            stands = data[addr + k] if inside else absent
        if byte != stands:
            wrong.append(f"byte {k} is {byte:02x}, and {stands:02x} stands there")
    return wrong


def judge(data, cpus, text):
    """The faults of a report, each with its line's number, and how many cycles it has."""
    spaces = {"m": (first_bytes(data), 0xFF), "p": (bytearray(PORTS), 0)}
    lines = text.splitlines()
    wrong, before, cycles = [], None, 0
    for number, line in enumerate(lines, 1):
        if line.startswith("c "):
            wrong += [f"line {number}: {fault}: {line}" for fault in judge_cycle(line, before, spaces, cpus)]
            before, cycles = line.split()[1], cycles + 1
    ends = [line.split() for line in lines if line.startswith("p ")]
    if [words[1] for words in ends] != [str(cpu) for cpu in range(cpus)]:
        wrong.append("not one line for each processor")
    held = [words[words.index("tr") + 1] for words in ends if "tr" in words]
    held = [task for task in held if task != "0000"]
    if len(set(held)) != len(held):
        wrong.append(f"two processors in one task: {held}")
    return wrong, cycles


def main():
    program, runs = sys.argv[1], int(sys.argv[2])
    words = sys.argv[3:] or ["--order=seed", "--seed={n}"]
    faults, told = 0, Counter()
    for n in range(runs):
        cpus, kind = 2 + n % 7, list(FIGHTS)[n // 7 % 3]
        data = FIGHTS[kind](cpus)
        call = [program, "run", "--steps=40", *(word.replace("{n}", str(n)) for word in words)]
        ended = subprocess.run(call, input=data, capture_output=True, timeout=120)
        text = ended.stdout.decode()
        wrong, made = judge(data, cpus, text)
        if ended.returncode:
            wrong.insert(0, f"status {ended.returncode} {ended.stderr.decode()!r}")
        elif kind != "a lock" and text.splitlines()[-1] != "clean":
            wrong.append(text.splitlines()[-1])
        for fault in wrong[:3]:
            print(f"run {n}, {cpus} fight for {kind}: {fault}")
        faults += len(wrong)
        told.update({"cycles": made, "claims": sum(text.count(f" {role} ") for role in ("claimjmp", "claimcall")), "pushes": text.count(" push "), f"fights for {kind}": 1})
    print(f"{runs} runs, {dict(told)}, {faults} faults")
    sys.exit(faults > 0)


if __name__ == "__main__":
    main()
