#!/usr/bin/env python3
"""Refuses each allocation of a run in threads in turn, and says how often which answer came.

usage: refused_memory.py PROGRAM

It preloads tools/refuse_memory.c (needs gcc and glibc) on calls that run images in threads, whose three processors exchange under the lock that
XCHG takes, so that memory is refused between the two cycles of a group too, or fight for one task. Each call has to end: with the status 1,
its line and no output; or whole, where the memory was a thread's own, whose work the caller then does. Any other answer is printed, and
ends this script with status 1.
"""
import os
import subprocess
import sys
import tempfile
from collections import Counter

from check_program import image
from judge_runs import by_call, fight_for_tasks, judge

EXCHANGE = bytes.fromhex("870500200000" "ebf8")  # XCHG [2000h], EAX; JMP to it
CPUS = 3
IMAGES = {"a lock": image(EXCHANGE, cpus=CPUS), "a task": fight_for_tasks(CPUS, by_call)}
REPEATS = 20  # the threads come in another order each time, so that the record of cycles grows at another place of a group
WORDS = ["run", "--order=threads", "--steps=400"]


def call(program, library, data, number):
    """What a call answers whose allocation of this number is refused: the status, out and err."""
    ended = subprocess.run([program, *WORDS], env={"LD_PRELOAD": library, "REFUSE": str(number)}, input=data, capture_output=True, timeout=120)
    return ended.returncode, ended.stdout.decode(), ended.stderr.decode()


def answer(data, status, out, err):
    """The kind of an answer, if it is one that may come."""
    if (status, out, err) == (1, "", "m386: out of memory\n"):
        return "out of memory"
    if (status, err) == (0, "") and judge(data, CPUS, out)[0] == []:
        return "whole"
    return None


def main():
    program, wrong = os.path.abspath(sys.argv[1]), 0
    with tempfile.TemporaryDirectory() as folder:
        library = f"{folder}/refuse.so"
        subprocess.run(["gcc", "-O1", "-shared", "-fPIC", "-o", library, f"{os.path.dirname(os.path.abspath(__file__))}/refuse_memory.c"], check=True)
        for name, data in IMAGES.items():
            count, seen = int(call(program, library, data, 0)[2].split()[0]), Counter()
            for number in [*range(1, count + 1)] * REPEATS:
                status, out, err = call(program, library, data, number)
                kind = answer(data, status, out, err)
                seen[kind] += 1
                if kind is None:
                    wrong += 1
                    print(f"{name}, allocation {number}: status {status}, {len(out)} bytes, {err[-200:]!r}")
            print(f"{name}: {count} allocations, each {REPEATS} times: {dict(seen)}")
    sys.exit(wrong > 0)


if __name__ == "__main__":
    main()
