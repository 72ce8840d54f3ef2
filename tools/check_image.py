#!/usr/bin/env python3
"""Checks tools/image.py: images that it has to make, byte for byte, and what it has to refuse, each by its name and with nothing written.

ELF files are made here byte by byte, with one segment and one symbol. Where pyelftools isn't there, their lines are left out, and that is said.
"""

import os
import struct
import subprocess
import sys
import tempfile

HERE = os.path.dirname(os.path.abspath(__file__))
TOOL = os.path.join(HERE, "image.py")
FIRST = bytes.fromhex("b878563412a300200000f4")
LEAST = ["--memory", "16384", "--bare", "0=0x1000"]


def elf(machine=3, kind=2, code=FIRST, at=0x1000, memsz=None, symbols=(("start", 0x1000),)):
    """An ELF file with one segment and some symbols."""
    names = b"\0" + b"".join(name.encode() + b"\0" for name, _ in symbols)
    table = bytes(16) + b"".join(struct.pack("<IIIBBH", names.index(name.encode() + b"\0"), value, 0, 0x10, 0, 0xFFF1) for name, value in symbols)
    sections = b"\0.symtab\0.strtab\0.shstrtab\0"
    code_at, table_at = 52 + 32, 52 + 32 + len(code)
    names_at, sections_at = table_at + len(table), table_at + len(table) + len(names)
    heads_at = sections_at + len(sections)
    head = b"\x7fELF\1\1\1" + bytes(9) + struct.pack("<HHIIIIIHHHHHH", kind, machine, 1, at, 52, heads_at, 0, 52, 32, 1, 40, 4, 3)
    segment = struct.pack("<8I", 1, code_at, at, at, len(code), len(code) if memsz is None else memsz, 7, 1)
    heads = bytes(40) + struct.pack("<10I", 1, 2, 0, 0, table_at, len(table), 2, 1, 4, 16)
    heads += struct.pack("<10I", 9, 3, 0, 0, names_at, len(names), 0, 0, 1, 0) + struct.pack("<10I", 17, 3, 0, 0, sections_at, len(sections), 0, 0, 1, 0)
    return head + segment + code + table + names + sections + heads


def image(sections, cpus=1, flags=0, memory=16384, gdt=(0, 0), idt=(0, 0), plan=(), words=(0x1000,)):
    """The image file, field by field."""
    head = struct.pack("<4sHBBIIHHIII", b"M386", 1, cpus, flags, memory, *gdt, idt[1], idt[0], len(plan), len(sections))
    head += struct.pack("<8I", *words, *[0] * (8 - len(words))) + b"".join(struct.pack("<IBBH", *it, 0) for it in plan)
    return head + b"".join(struct.pack("<II", at, len(data)) + data for at, data in sections)


FILES = {"code": FIRST, "empty": b"", "elf": elf(), "arm": elf(machine=40), "shared": elf(kind=3), "big": elf(memsz=0x4000), "other": elf(symbols=(("start", 7),), at=0x2000)}

MADE = [
    ("a flat binary", [*LEAST, "--at", "0x1000", "code"], image([(0x1000, FIRST)])),
    ("two, in rising order", [*LEAST, "--at", "0x2000", "code", "--at", "0x1000", "code"], image([(0x1000, FIRST), (0x2000, FIRST)])),
    ("one that ends where memory ends", [*LEAST, "--at", "16373", "code"], image([(16373, FIRST)])),
    ("an empty file, which is no section", [*LEAST, "--at", "0x1000", "empty"], image([])),
    ("tables", [*LEAST, "--gdt", "0x1800:0x17", "--idt", "0x1900:0x7ff"], image([], gdt=(0x1800, 0x17), idt=(0x1900, 0x7FF))),
    ("a task", ["--memory", "4096", "--bare", "0=0", "--task", "1=0x18"], image([], cpus=2, flags=2, memory=4096, words=(0, 0x18))),
    ("a plan, in rising order", [*LEAST, "--plan", "0:9:33", "--plan", "0:3:32"], image([], plan=[(3, 0, 32), (9, 0, 33)])),
    ("sums of numbers", ["--memory", "16384", "--bare", "0=0x1002-2", "--gdt", "0x10+0x20:1"], image([], gdt=(0x30, 1))),
]

MADE_OF_ELF = [
    ("an ELF file", ["--memory", "16384", "--bare", "0=start", "--elf", "elf"], image([(0x1000, FIRST)])),
    ("its entry", ["--memory", "16384", "--bare", "0=entry", "--gdt", "start+8:start-0xff0", "--elf", "elf"], image([(0x1000, FIRST)], gdt=(0x1008, 0x10))),
]

REFUSED = [
    ("Memory", [*LEAST, "--at", "16374", "code"]),
    ("Overlap", [*LEAST, "--at", "0x1000", "code", "--at", "0x100a", "code"]),
    ("Range", ["--memory", "4095", "--bare", "0=0"]),
    ("Range", ["--memory", "5000", "--bare", "0=0"]),
    ("Range", ["--memory", "16781312", "--bare", "0=0"]),
    ("Range", ["--memory", "4096", "--bare", "0=0x100000000"]),
    ("Range", ["--memory", "4096", "--task", "0=0x10000"]),
    ("Range", ["--memory", "4096", "--bare", "8=0"]),
    ("Range", [*LEAST, "--gdt", "0:0x10000"]),
    ("Range", [*LEAST, "--plan", "0:1:256"]),
    ("Range", [*LEAST, "--plan", "1:1:32"]),
    ("Range", [*LEAST, "--at", "0-1", "code"]),
    ("Start", ["--memory", "4096"]),
    ("Start", ["--memory", "4096", "--bare", "1=0"]),
    ("Start", ["--memory", "4096", "--bare", "0=0", "--task", "0=8"]),
    ("Plan", [*LEAST, "--plan", "0:1:32", "--plan", "0:1:33"]),
    ("Plan", [*LEAST, "--plan", "0:1"]),
    ("Name", ["--memory", "4096", "--bare", "0=start"]),
    ("Name", ["--memory", "4096", "--bare", "0=08x"]),
    ("File", [*LEAST, "--at", "0", "nowhere"]),
]

REFUSED_OF_ELF = [
    ("Elf", [*LEAST, "--elf", "code"]),
    ("Elf", [*LEAST, "--elf", "arm"]),
    ("Elf", [*LEAST, "--elf", "shared"]),
    ("Memory", [*LEAST, "--elf", "big"]),
    ("Overlap", [*LEAST, "--elf", "elf", "--at", "0x1005", "code"]),
    ("Name", ["--memory", "16384", "--bare", "0=start", "--elf", "elf", "--elf", "other"]),
    ("Name", ["--memory", "16384", "--bare", "0=begin", "--elf", "elf"]),
]


def main():
    try:
        import elftools  # noqa: F401

        has_elf = True
    except ImportError:
        has_elf = False
    made, refused = MADE + MADE_OF_ELF * has_elf, REFUSED + REFUSED_OF_ELF * has_elf
    wrong = 0
    with tempfile.TemporaryDirectory() as folder:
        for name, data in FILES.items():
            with open(os.path.join(folder, name), "wb") as file:
                file.write(data)
        call = lambda words: subprocess.run([sys.executable, TOOL, *words], cwd=folder, capture_output=True, timeout=60)
        for what, words, wanted in made:
            ended = call(words)
            if ended.returncode or ended.stdout != wanted:
                wrong += 1
                print(f"WRONG: {what}: status {ended.returncode}, {len(ended.stdout)} bytes for {len(wanted)}; {ended.stderr.decode().strip()}")
        for name, words in refused:
            ended = call(words)
            if ended.returncode != 2 or ended.stdout or not ended.stderr.startswith(f"image.py: {name}: ".encode()):
                wrong += 1
                print(f"WRONG: {name} is wanted of {words}: status {ended.returncode}, {len(ended.stdout)} bytes; {ended.stderr.decode().strip()}")
    print(f"image.py: {len(made)} images and {len(refused)} refusals, {wrong} wrong" + ("" if has_elf else "; ELF files left out, since pyelftools isn't there"))
    sys.exit(1 if wrong else 0)


if __name__ == "__main__":
    main()
