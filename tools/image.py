#!/usr/bin/env python3
"""Makes an image for m386 out of what is there already: flat binaries, each at an address, and ELF files for the 386.

    tools/image.py --memory 65536 --gdt 0x1000:0x27 --bare 0=0x2000 --at 0x1000 gdt.bin --at 0x2000 code.bin > kernel.img
    tools/image.py --memory 65536 --elf kernel.elf --gdt gdt:gdt_end-gdt-1 --bare 0=start --task 1=0x18 > kernel.img

    --memory N            bytes of memory: 4,096 to 16,777,216, a multiple of 4,096
    --bare P=EIP          processor P begins at EIP, in flat segments at level 0
    --task P=SELECTOR     processor P begins in the task whose TSS the selector names
    --gdt BASE:LIMIT      what GDTR begins with; 0:0 where it isn't said
    --idt BASE:LIMIT      what IDTR begins with; 0:0 where it isn't said
    --plan P:STEP:VECTOR  the interrupt VECTOR is asked for before step STEP of processor P
    --at ADDRESS FILE     the bytes of a file, from an address on
    --elf FILE            the segments that an ELF file has loaded, at their physical addresses

The processors are numbered from 0 with none left out. A number is decimal, or hexadecimal behind 0x. Where a number stands for an address, a
limit or a selector, it may also be a symbol of one of the ELF files, and sums and differences of these. Such files are read by pyelftools (the package
python3-pyelftools of Debian), which flat binaries don't need. What doesn't fit is refused by name with status 2, and nothing is written.
"""

import argparse
import re
import sys

LEAST_MEMORY, MOST_MEMORY, PAGE = 4096, 16_777_216, 4096
MOST_STEPS, MOST_PROCESSORS = 65_536, 8
WORD = 2**32


class Refused(Exception):
    """What was asked for can't be an image. The first word names why."""


def number_of(text):
    """A number's value, or None where the text is none."""
    if re.fullmatch(r"[0-9]+", text):
        return int(text)
    return int(text, 16) if re.fullmatch(r"0[xX][0-9a-fA-F]+", text) else None


def value_of(text, symbols):
    """The value of numbers and symbols with + and - between them."""
    total = 0
    for sign, word in re.findall(r"([+-]|^)([^+-]*)", text):
        number = number_of(word)
        if number is None and word not in symbols:
            raise Refused(f"Name: {word or text!r} is no number and no symbol of an ELF file")
        total += (-1 if sign == "-" else 1) * (symbols[word] if number is None else number)
    return total


def in_range(what, value, least, most):
    if not least <= value <= most:
        raise Refused(f"Range: {what} is {value}, and may be {least} to {most}")
    return value


class Piece:
    """Bytes at an address, with zeros behind them up to a length."""

    def __init__(self, name, address, data, length=None):
        self.name, self.address, self.data = name, address, data
        self.end = address + (len(data) if length is None else length)


def read(name):
    try:
        with open(name, "rb") as file:
            return file.read()
    except OSError as why:
        raise Refused(f"File: {name}: {why.strerror}") from None


def elf_pieces(name, symbols):
    """The segments that an ELF file has loaded. Its symbols are added to those known."""
    try:
        from elftools.common.exceptions import ELFError
        from elftools.elf.elffile import ELFFile
    except ImportError:
        raise Refused("Elf: pyelftools isn't there (python3-pyelftools of Debian), and ELF files are read by it") from None
    import io

    try:
        file = ELFFile(io.BytesIO(read(name)))
        head, segments = file.header, list(file.iter_segments())
        found = {s.name: s["st_value"] for table in file.iter_sections() if table.name == ".symtab" for s in table.iter_symbols() if s.name and s["st_shndx"] != "SHN_UNDEF"}
        loaded = [(s["p_paddr"], s.data(), s["p_memsz"]) for s in segments if s["p_type"] == "PT_LOAD" and s["p_memsz"]]
    except (ELFError, ValueError, KeyError, UnicodeDecodeError) as why:
        raise Refused(f"Elf: {name} can't be read: {why or type(why).__name__}") from None
    if (file.elfclass, head["e_machine"], file.little_endian) != (32, "EM_386", True):
        raise Refused(f"Elf: {name} isn't for the 386")
    if head["e_type"] != "ET_EXEC" or any(s["p_type"] in ("PT_INTERP", "PT_DYNAMIC") for s in segments):
        raise Refused(f"Elf: {name} isn't linked to fixed addresses")
    for symbol, value in found.items():
        if symbols.setdefault(symbol, value) != value and symbol not in symbols.doubtful:
            symbols.doubtful.add(symbol)
    symbols.setdefault("entry", head["e_entry"])
    return [Piece(name, *it) for it in loaded]


class Symbols(dict):
    """Symbols by their names. One that stands for two values may not be asked for."""

    def __init__(self):
        super().__init__()
        self.doubtful = set()

    def __getitem__(self, name):
        if name in self.doubtful:
            raise Refused(f"Name: {name} stands for two values")
        return super().__getitem__(name)


def sections(pieces, memory):
    """The pieces as sections, which rise and share no byte."""
    rising = sorted(pieces, key=lambda it: (it.address, it.end))
    for before, it in zip(rising, rising[1:]):
        if before.end > it.address and it.end > it.address:
            raise Refused(f"Overlap: {before.name} up to {before.end:#x} and {it.name} from {it.address:#x} on")
    for it in rising:
        if it.end > memory:
            raise Refused(f"Memory: {it.name} ends at {it.end:#x}, and memory at {memory:#x}")
    return [it for it in rising if it.data]


def starts(bare, task, symbols):
    """The processors in their order, each with whether it begins in a task and its start word."""
    found = {}
    for words, is_task in ((bare, False), (task, True)):
        for words_of_one in words:
            cpu, _, value = words_of_one.partition("=")
            at = in_range("a processor", value_of(cpu, {}), 0, MOST_PROCESSORS - 1)
            if at in found:
                raise Refused(f"Start: processor {at} begins twice")
            what = f"the selector of processor {at}" if is_task else f"EIP of processor {at}"
            found[at] = is_task, in_range(what, value_of(value, symbols), 0, 0xFFFF if is_task else WORD - 1)
    if sorted(found) != list(range(len(found))) or not found:
        missing = next(at for at in range(MOST_PROCESSORS + 1) if at not in found)
        raise Refused(f"Start: processor {missing} has no start" + (", and a later one has" if found else ""))
    return [found[at] for at in range(len(found))]


def table(what, text, symbols):
    base, _, limit = text.partition(":")
    return in_range(f"the base of the {what}", value_of(base, symbols), 0, WORD - 1), in_range(f"the limit of the {what}", value_of(limit, symbols), 0, 0xFFFF)


def plan(entries, cpus):
    """The entries by processor and step, of which no two are of one."""
    found = {}
    for entry in entries:
        word = entry.split(":")
        if len(word) != 3:
            raise Refused(f"Plan: {entry} isn't P:STEP:VECTOR")
        cpu, step, vector = (value_of(it, {}) for it in word)
        in_range("a vector", vector, 0, 255)
        in_range("a step of the plan", step, 0, WORD - 1)
        in_range("a processor of the plan", cpu, 0, cpus - 1)
        if (cpu, step) in found:
            raise Refused(f"Plan: two entries for step {step} of processor {cpu}")
        found[cpu, step] = vector
    return [(step, cpu, vector) for (cpu, step), vector in sorted(found.items())]


def image(words):
    """The bytes of the image that the words ask for."""
    symbols = Symbols()
    pieces = [it for name in words.elf for it in elf_pieces(name, symbols)]
    pieces += [Piece(name, in_range(f"the address of {name}", value_of(at, symbols), 0, WORD - 1), read(name)) for at, name in words.at]
    memory = in_range("memory", value_of(words.memory, {}), LEAST_MEMORY, MOST_MEMORY)
    if memory % PAGE:
        raise Refused(f"Range: memory is {memory}, and has to be a multiple of {PAGE}")
    begin = starts(words.bare, words.task, symbols)
    parts, asked = sections(pieces, memory), plan(words.plan, len(begin))
    (gdt, gdt_limit), (idt, idt_limit) = table("GDT", words.gdt, symbols), table("IDT", words.idt, symbols)
    le = lambda value, size: value.to_bytes(size, "little")
    head = b"M386" + le(1, 2) + bytes([len(begin), sum(is_task << at for at, (is_task, _) in enumerate(begin))])
    head += le(memory, 4) + le(gdt, 4) + le(gdt_limit, 2) + le(idt_limit, 2) + le(idt, 4) + le(len(asked), 4) + le(len(parts), 4)
    head += b"".join(le(value, 4) for _, value in begin) + bytes(4 * (MOST_PROCESSORS - len(begin)))
    head += b"".join(le(step, 4) + bytes([cpu, vector, 0, 0]) for step, cpu, vector in asked)
    return head + b"".join(le(it.address, 4) + le(len(it.data), 4) + it.data for it in parts)


def main():
    words = argparse.ArgumentParser(description="Makes an image for m386 out of flat binaries and ELF files.", allow_abbrev=False)
    words.add_argument("--memory", required=True, metavar="N")
    words.add_argument("--gdt", default="0:0", metavar="BASE:LIMIT")
    words.add_argument("--idt", default="0:0", metavar="BASE:LIMIT")
    for name, shown in (("bare", "P=EIP"), ("task", "P=SELECTOR"), ("plan", "P:STEP:VECTOR"), ("elf", "FILE")):
        words.add_argument(f"--{name}", action="append", default=[], metavar=shown)
    words.add_argument("--at", action="append", default=[], nargs=2, metavar=("ADDRESS", "FILE"))
    try:
        made = image(words.parse_args())
    except Refused as why:
        print(f"image.py: {why}", file=sys.stderr)
        sys.exit(2)
    sys.stdout.buffer.write(made)


if __name__ == "__main__":
    main()
