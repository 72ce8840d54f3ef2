#!/usr/bin/env python3
"""Measures runs of a built m386: cycles a second, report bytes a second, and peak memory per cycle.

usage: run.py PROGRAM

It builds nothing. Three kinds of runs are measured: one processor on a long straight row of MOV EAX, number and
MOV [address], EAX; one processor that goes round in a mix of ordinary instructions; and two processors, in the order round, that
exchange EAX with one place in memory for ever (XCHG, JMP).
For each count of steps of a processor it prints the best of three runs with the report written to a file, and how many cycles
a second the best of three makes whose report goes to the null device.
"""
import os
import struct
import sys
import tempfile
import time

MEMORY = 0x100_0000
CODE = 0x1000
DATA = 0x80_0000
COUNTS = [0, 500, 4_096, 16_384, 65_536]


def image(cpus, code):
    header = b"M386" + struct.pack("<HBBIIHHIII", 1, cpus, 0, MEMORY, 0, 0, 0, 0, 0, 1)
    starts = struct.pack("<I", CODE) * cpus + bytes(32 - 4 * cpus)
    return header + starts + struct.pack("<II", CODE, len(code)) + bytes(code)


def straight():
    code = bytearray()
    for i in range(max(COUNTS) // 2):
        code += b"\xb8" + struct.pack("<I", i) + b"\xa3" + struct.pack("<I", DATA + 4 * i)
    return image(1, code + b"\xf4")


def mix():
    """Moves, arithmetic, shifts, bits, a product and a quotient, on registers and memory by several addressing forms, and a jump back."""
    body = bytes.fromhex(
        "bb00008000"  # MOV EBX, 800000h
        "8b03"  # MOV EAX, [EBX]
        "83c007"  # ADD EAX, 7
        "894304"  # MOV [EBX+4], EAX
        "0fb64b05"  # MOVZX ECX, byte [EBX+5]
        "83e10f"  # AND ECX, 15
        "8b148b"  # MOV EDX, [EBX+ECX*4]
        "31c2"  # XOR EDX, EAX
        "d3e2"  # SHL EDX, CL
        "8d740a10"  # LEA ESI, [EDX+ECX+16]
        "01733c"  # ADD [EBX+60], ESI
        "663b7340"  # CMP SI, [EBX+64]
        "0f94c1"  # SETE CL
        "0fa3c8"  # BT EAX, ECX
        "83d200"  # ADC EDX, 0
        "0fafc1"  # IMUL EAX, ECX
        "31d2"  # XOR EDX, EDX
        "bf03000000"  # MOV EDI, 3
        "f7f7"  # DIV EDI
        "fe4348"  # INC byte [EBX+72]
        "f03103"  # LOCK XOR [EBX], EAX
        "8703"  # XCHG [EBX], EAX
    )
    return image(1, body + b"\xe9" + struct.pack("<i", -(len(body) + 5)))


def exchanges():
    return image(2, b"\x87\x05" + struct.pack("<I", DATA) + b"\xeb\xf8")


def run(program, data, steps, keeps):
    """A run, with its report in a file or on the null device."""
    with tempfile.TemporaryFile() as source, tempfile.TemporaryFile() as kept, open(os.devnull, "r+b") as null:
        out = kept if keeps else null
        source.write(data)
        source.seek(0)
        begun = time.monotonic()
        child = os.fork()
        if child == 0:
            os.dup2(source.fileno(), 0)
            os.dup2(out.fileno(), 1)
            os.execv(program, [program, "run", "--order=round", f"--steps={steps}"])
        _, status, usage = os.wait4(child, 0)
        seconds = time.monotonic() - begun
        if status != 0:
            sys.exit(f"the program ended with status {status}")
        size = kept.seek(0, os.SEEK_END)
        kept.seek(0)
        cycles = sum(1 for line in kept if line.startswith(b"c "))
    return seconds, usage.ru_utime, cycles, size, usage.ru_maxrss * 1024


def measure(program, name, cpus, data):
    print(name)
    print(
        "steps     cycles    seconds  user     steps/s    cycles/s   cycles/s to null  report bytes/s  "
        "memory/cycle beyond the empty run"
    )
    empty = None
    for steps in COUNTS:
        seconds, user, cycles, size, memory = min(run(program, data, steps, True) for _ in range(3))
        alone = min(run(program, data, steps, False) for _ in range(3))[0]
        if empty is None:
            empty = memory
            print(f"{steps:<9} {cycles:<9} {seconds:<8.3f} {user:<8.3f} peak memory of the empty run: {memory} bytes")
            continue
        print(
            f"{steps:<9} {cycles:<9} {seconds:<8.3f} {user:<8.3f} {cpus * steps / seconds:<10.0f} {cycles / seconds:<10.0f} "
            f"{cycles / alone:<17.0f} {size / seconds:<15.0f} {(memory - empty) / cycles:.1f}"
        )


def main():
    program = os.path.abspath(sys.argv[1])
    measure(program, "one processor, straight code", 1, straight())
    measure(program, "one processor, a mix of ordinary instructions", 1, mix())
    measure(program, "two processors, exchanges in a loop", 2, exchanges())


main()
