#!/usr/bin/env python3
"""Measures a built m386 beside other programs on one machine, in one run: lines of cycles a second.

usage: beside.py PROGRAM [--repeat N] [--out FILE]

Beside it run `plain.c`, a plain C program that makes the same runs and has to write the same reports, with its lines gathered
and with a write for each as m386 has them, and `hooks.c`, Unicorn with C hooks that write such a line for each access, where Debian's
libunicorn-dev is installed. Then it runs steps of 3 cycles, of 9 and of 17, which `plain.c` doesn't know. Each program is run
in turn, N times (5); a figure is of the least processor time (user and system) of a run, with that of an empty run taken off. The
reports go to FILE (the null device). On a machine that is shared the ratios alone mean something.
"""
import argparse
import os
import struct
import subprocess
import sys
import tempfile

HERE = os.path.dirname(os.path.abspath(__file__))
STEPS = 65_536
INSTRUCTIONS = 1_500_000  # of Unicorn: 2.5 lines each
MEMORY = 0x1_0000
CODE = 0x1000

RUNS = {  # the code of each processor, and how many there are
    "exchanges": ("870500800000 ebf8", 1),  # XCHG [8000h], EAX; JMP
    "exchanges, 2 processors": ("870500800000 ebf8", 2),
    "moves": ("a100800000 a304800000 ebf4", 1),  # MOV EAX, [8000h]; MOV [8004h], EAX; JMP
}
LONG = {  # each with a jump back to its begin, at 1000h, and the cycles of most of its steps
    "steps of 3 cycles": ("a100800000" * 40, 3),  # MOV EAX, [8000h]
    "steps of 9 cycles": ("bc00800000" + "60" * 40, 9),  # MOV ESP, 8000h, and PUSHA
    "steps of 17 cycles": ("bc02800000" + "60" * 40, 17),  # the same with each word in two aligned groups
    "turns of REP MOVSD": ("bf00800000 be00900000 b900010000 f3a5" * 4, 3),
}


def image(cpus, code):
    code = bytes.fromhex(code)
    starts = [CODE + 0x100 * cpu for cpu in range(cpus)]
    head = b"M386" + struct.pack("<HBBIIHHIII", 1, cpus, 0, MEMORY, 0, 0, 0, 0, 0, cpus)
    head += struct.pack("<8I", *starts, *[0] * (8 - cpus))
    return head + b"".join(struct.pack("<II", at, len(code)) + code for at in starts)


def looped(code):
    code = bytes.fromhex(code)
    return (code + b"\xe9" + struct.pack("<i", -len(code) - 5)).hex()


def report(command, data, by_line=False):
    env = {"BY_LINE": "1"} if by_line else {}
    return subprocess.run(command, input=data, env=env, stdout=subprocess.PIPE, check=True).stdout


def seconds(command, data, out, by_line=False):
    """The processor time of a call, of the program and of the system for it."""
    env = {"BY_LINE": "1"} if by_line else {}
    with open(out, "wb") as sink, tempfile.TemporaryFile() as source:
        source.write(data)
        source.seek(0)
        call = subprocess.Popen(command, stdin=source, env=env, stdout=sink)
        _, status, used = os.wait4(call.pid, 0)
        call.returncode = os.waitstatus_to_exitcode(status)
    if call.returncode:
        sys.exit(f"{command}: status {call.returncode}")
    return used.ru_utime + used.ru_stime


def words(program, steps):
    return [program, "run", "--order=round", f"--steps={steps}"]


def rates(tasks, repeat, out):
    """Lines a second of each task: of a name, the call with work, that without, the image, whether by lines, and the count of lines."""
    best = {}
    for _ in range(repeat):
        for name, full, empty, data, by_line, _ in tasks:
            for kind, command in (("full", full), ("empty", empty)):
                took = seconds(command, data, out, by_line)
                best[name, kind] = min(took, best.get((name, kind), took))
    return {name: lines / (best[name, "full"] - best[name, "empty"]) for name, *_, lines in tasks}


def compiled(folder, name, *libraries):
    path = os.path.join(folder, name)
    done = subprocess.run(["gcc", "-O2", "-o", path, f"{HERE}/{name}.c", *libraries], stderr=subprocess.DEVNULL)
    return path if done.returncode == 0 else None


def main():
    parser = argparse.ArgumentParser()
    parser.add_argument("program")
    parser.add_argument("--repeat", type=int, default=5)
    parser.add_argument("--out", default=os.devnull)
    given = parser.parse_args()
    program = os.path.abspath(given.program)
    with tempfile.TemporaryDirectory() as folder:
        plain, hooks = compiled(folder, "plain"), compiled(folder, "hooks", "-lunicorn")
        tasks = []
        for name, (code, cpus) in RUNS.items():
            data = image(cpus, code)
            mine = report(words(program, STEPS), data)
            if plain and report(words(plain, STEPS), data) != mine:
                sys.exit(f"{name}: the plain program writes another report")
            for who, path, by_line in (("m386", program, False), ("plain C, gathered", plain, False), ("plain C, by lines", plain, True)):
                if path:
                    tasks.append(((who, name), words(path, STEPS), words(path, 0), data, by_line, mine.count(b"\nc ")))
        for name, (code, most) in LONG.items():
            data = image(1, looped(code))
            lines = report(words(program, STEPS), data).count(b"\nc ")
            if not 0.9 * most < lines / STEPS < 1.1 * most:
                sys.exit(f"{name}: {lines / STEPS:.2f} cycles a step")
            tasks.append((("m386", name), words(program, STEPS), words(program, 0), data, False, lines))
        if hooks:
            tasks.append((("Unicorn, C hooks", "exchanges"), [hooks, str(INSTRUCTIONS)], [hooks, "30"], b"", False, INSTRUCTIONS * 5 // 2))
        found = rates(tasks, given.repeat, given.out)
    print(f"{os.cpu_count()} processors, load {os.getloadavg()[0]:.2f}")
    for (who, name), rate in found.items():
        print(f"{who:18} {name:32} {rate:12,.0f} lines/s {1e9 / rate:6.0f} ns a line  {found['m386', name] / rate:5.2f}")


if __name__ == "__main__":
    main()
