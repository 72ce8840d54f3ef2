#!/usr/bin/env python3
"""Why the rules of the verdict are there: for each of six of them an image whose run breaks this rule alone, and in which two processors then stand in one task.

usage: check_rules.py PROGRAM

Processor 1 starts in the task 0020 and stays there. Processor 0 comes to the same TSS, by what the rule forbids. That no other rule fails is found here by the rules' words in
docs/MACHINE.md, from the image and the report alone, and not from the verdict; without what the rule forbids (`harmless`) the same run is clean and each
processor stays in a task of its own. Of rules 1, 2 and 5 no such image is known (docs/DECISIONS.md, "Exclusion").
"""
import sys

from check_program import HALT, Checks, cycles, ends, image, tss

GDT = 0x1800
STAY = bytes([0xEB, 0xFE])  # JMP to itself
NESTED = 0x4000


def le(value, size=4):
    return value.to_bytes(size, "little")


def jmp(selector):
    return b"\xea" + le(0) + le(selector, 2)


def call(selector):
    return b"\x9a" + le(0) + le(selector, 2)


def store(place, value):
    """MOV of a byte to memory."""
    return b"\xc6\x05" + le(place) + bytes([value])


def fields(eip, link=0, esp=0x3F00):
    """The bytes of a TSS whose task runs in flat segments."""
    at = {0: link, 0x20: eip, 0x24: 2, 0x38: esp, 0x48: 0x10, 0x4C: 8, 0x50: 0x10, 0x54: 0x10}
    return b"".join(le(at.get(k, 0)) for k in range(0, 104, 4))


def flat(access):
    return le(0xFFFF, 2) + le(0, 3) + bytes([access, 0xCF, 0])


def table(*tasks):
    """A GDT: null, code, data, and the descriptors of task state segments at these addresses."""
    return bytes(8) + flat(0x9B) + flat(0x93) + b"".join(map(tss, tasks))


def two_tasks(code, bases=(0x3000, 0x3080, 0x3100, 0x3180), links=(0, 0, 0, 0), codes=(), more=()):
    """An image of two processors, in 0018 and 0020. Processor 0 begins with this code, and the tasks behind the second with `codes`."""
    gdt = table(*bases)
    begins = [0x1000, 0x1100, 0x1200, 0x1300]
    places = {base: fields(eip, link) for base, eip, link in reversed(list(zip(bases, begins, links)))}
    parts = [(0x1100, STAY), *zip(begins[2:], codes), (GDT, gdt), *places.items(), *more]
    made = bytearray(image(code, cpus=2, gdt=(GDT, len(gdt) - 1), more=sorted(parts), tasks=3))
    made[32:40] = le(0x18) + le(0x20)
    return bytes(made)


# The field EIP of this TSS is the upper half of the descriptor 0028, by which processor 1 starts.
OVERLAID = GDT + 0x28 + 4 - 0x20


def rule_3():
    """A TSS and the GDT share bytes. Processor 0 begins at 8900h or 8B00h, by the busy bit of processor 1's task, and its far JMP ends at 8900h, whose save makes
    that task available."""
    gdt = table(OVERLAID, 0x3080, 0x3100)
    parts = [(GDT, gdt), (OVERLAID + 0x24, fields(0)[0x24:]), (0x3080, fields(0x1200)), (0x3100, fields(0x1100)), (0x1100, STAY), (0x1200, jmp(0x28)),
             (0x88F9, jmp(0x20)), (0x8900, b"\xeb\xf7"), (0x8B00, b"\xe9" + le((0x88F9 - 0x8B05) % 2**32))]
    made = bytearray(image(HALT, cpus=2, memory=0x10000, gdt=(GDT, len(gdt) - 1), more=sorted(parts), tasks=3))
    made[32:40] = le(0x18) + le(0x28)
    return bytes(made)


BUSY_BYTE = GDT + 0x20 + 5
OTHER_TABLE = le(0x2F, 2) + le(0x2800)

RULES = {
    # each with its image, and the same without what the rule forbids
    3: (rule_3(), None),
    4: (two_tasks(HALT, bases=(0x3080, 0x3080)), two_tasks(HALT)),
    6: (two_tasks(b"\x0f\x01\x15" + le(0x2700) + jmp(0x20), more=[(0x2700, OTHER_TABLE), (0x2800, table(0x3000, 0x3080))]), two_tasks(b"\x0f\x01\x05" + le(0x2700) + jmp(0x20))),
    7: (two_tasks(store(BUSY_BYTE, 0x89) + jmp(0x20)), two_tasks(store(0x2700, 0x89) + jmp(0x20))),
    8: (two_tasks(b"\x68" + le(NESTED | 2) + b"\x9d\xcf", links=(0x20, 0, 0, 0)), two_tasks(b"\x68" + le(2) + b"\x9d" + jmp(0x20), links=(0x20, 0, 0, 0))),
    9: (two_tasks(call(0x28), codes=[b"\xb8" + le(0x30) + b"\x0f\x00\xd8\xcf"], links=(0, 0, 0, 0x20)), two_tasks(call(0x28), codes=[b"\xb8" + le(0x30) + b"\xcf"], links=(0, 0, 0, 0x20))),
}


def named(data):
    """Of an image: its memory's first bytes, its GDT's place and limit, and the bases of its task state segments."""
    memory = bytearray(int.from_bytes(data[8:12], "little"))
    at = 64 + 8 * int.from_bytes(data[24:28], "little")
    while at < len(data):
        address, size = int.from_bytes(data[at : at + 4], "little"), int.from_bytes(data[at + 4 : at + 8], "little")
        memory[address : address + size] = data[at + 8 : at + 8 + size]
        at += 8 + size
    base, limit = int.from_bytes(data[12:16], "little"), int.from_bytes(data[16:18], "little")
    bases = {}
    for selector in range(8, limit + 1 - 7, 8):
        d = memory[base + selector : base + selector + 8]
        if d[5] & 0x1D == 9 and d[5] & 0x80:
            bases[selector] = int.from_bytes(d[2:5], "little") | d[7] << 24, d[5]
    return memory, base, limit, bases


def broken_at_first(memory, table_bytes, segments, accesses):
    """The rules that an image breaks before its first cycle."""
    end = len(memory)
    found = {1} if max(table_bytes) >= end else set()
    found |= {2 for s in segments if max(s) >= end} | {3 for s in segments if s & table_bytes} | {5 for access in accesses if access & 2}
    return found | {4 for k, s in enumerate(segments) for t in segments[:k] if s & t}


def broken(data, lines):
    """The rules that an image and its report break, by their words. A task is known by the selector of its descriptor."""
    memory, base, limit, tasks = named(data)
    table_bytes, segments = set(range(base, base + limit + 1)), [set(range(b, b + 104)) for b, _ in tasks.values()]
    found = broken_at_first(memory, table_bytes, segments, [access for _, access in tasks.values()])
    guarded = table_bytes.union(*segments)
    held, live = {}, set()
    names = {base + selector + 5: selector for selector in tasks}
    for line in cycles(lines):
        cpu, space, write, role, address, enables, value = line[1], line[2], line[3] == "w", line[5], int(line[7], 16), int(line[8], 16), int(line[9], 16)
        touched = {address + k for k in range(4) if enables >> k & 1}
        if role == "lgdt":
            found.add(6)
        if write and space == "m" and role in ("data", "push", "ldtacc") and touched & guarded:
            found.add(7)
        if role == "flags" and value & NESTED and held.get(cpu) not in live:
            found.add(8)
        if write and role == "claimltr" and held.get(cpu) in live:
            found.add(9)
        if write and role.startswith("claim") and touched & names.keys():
            held[cpu] = names[(touched & names.keys()).pop()]
            live.discard(held[cpu])
        if role == "link":
            live.add(held.get(cpu))
    return found


def main():
    checks = Checks(sys.argv[1])
    for rule, (data, harmless) in RULES.items():
        lines = checks.run(["--steps=8"], data)
        bases = named(data)[3]
        stand = [bases[int(it[it.index("tr") + 1], 16)][0] for it in ends(lines)]
        checks.want(lines[-1].startswith(f"unclean rule {rule}"), f"rule {rule} is wanted, and it was {lines[-1]}")
        checks.want(broken(data, lines) == {rule}, f"rule {rule} alone is wanted, and broken were {broken(data, lines)}")
        checks.want(len(stand) == 2 and stand[0] == stand[1], f"rule {rule}: both processors stand in one task, and they stood in {stand}: {[it[:12] for it in ends(lines)]}")
        if harmless is None:
            continue
        lines = checks.run(["--steps=8"], harmless)
        trs = [it[it.index("tr") + 1] for it in ends(lines)]
        checks.want(lines[-1] == "clean" and trs[0] != trs[1] and not broken(harmless, lines), f"without what rule {rule} forbids: {lines[-1]}, {trs}")
    print(f"rules: {checks.made} checks, {checks.wrong} wrong")
    sys.exit(1 if checks.wrong else 0)


if __name__ == "__main__":
    main()
