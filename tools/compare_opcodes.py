#!/usr/bin/env python3
"""Compares the opcode table with an assembler and a disassembler: nasm and objdump, of the packages nasm and binutils.

usage: tools/compare_opcodes.py            in the repository's top folder

Each row of crates/m386_opmap/src/rows.rt is written as assembler text, with operands of 8, 16 and 32 bits where it has
them, and nasm's bytes must be an opcode and a /n of that row, and have the row's length; where a row has memory, nasm must
take LOCK before it exactly where the row does. Then every opcode with every /n
is disassembled, and objdump's operation and length must be the row's, or objdump must know none where no row is. The
lists below are the differences that are choices of this project; any other is printed, and the exit status is 1.
"""
import re
import subprocess
import sys
import tempfile

TABLE = "crates/m386_opmap/src/rows.rt"
ROW = re.compile(r"^\s+(0x[0-9a-f]+)(?: \.\.= (0x[0-9a-f]+))?(?: / (\d)(?: \.\.= (\d))?)? (\w+) (\w+) \(([^)]*)\)( lock)?;")
REGISTERS = {
    8: "al cl dl bl ah ch dh bh".split(),
    16: "ax cx dx bx sp bp si di".split(),
    32: "eax ecx edx ebx esp ebp esi edi".split(),
}
SIZE_WORD = {8: "byte", 16: "word", 32: "dword"}
NUMBER = {8: 0x12, 16: 0x1234, 32: 0x12345678}
SEGMENTS = ["es", "cs", "ss", "ds", "fs", "gs"]
MODRM = {"E", "M", "R", "G", "S"}
PREFIXES = {0x26, 0x2E, 0x36, 0x3E, 0x64, 0x65, 0x66, 0xF0, 0xF2, 0xF3}

# Opcodes of the 80386 that are left out, each as an opcode's number.
LEFT_OUT = {
    0x27: "DAA", 0x2F: "DAS", 0x37: "AAA", 0x3F: "AAS", 0xD4: "AAM", 0xD5: "AAD",
    0x6C: "INSB", 0x6D: "INSD", 0x6E: "OUTSB", 0x6F: "OUTSD", 0xC8: "ENTER", 0x67: "address size",
    0x0F21: "MOV from a debug register", 0x0F23: "MOV to a debug register",
    0x0F24: "MOV from a test register", 0x0F26: "MOV to a test register",
}
# Bytes with no row that objdump knows for another reason: processors that came later, or names that no manual has.
ALIASES = {
    0x82: "a second code of 80h", 0xD6: "SALC, in no manual", 0xF1: "INT1, in no manual",
}
LATER_GROUPS = {
    (0x8F, n): "XOP, of a later processor" for n in range(1, 8)
}
LATER_GROUPS.update({(0xC6, 7): "XABORT", (0xC7, 7): "XBEGIN"})
# Segment registers that no processor has, and CS, which can't be loaded: refused at the ModRM byte.
NO_SEGMENT = {(0x8C, 6), (0x8C, 7), (0x8E, 1), (0x8E, 6), (0x8E, 7)}
GROUP_ALIASES = {
    **{(o, 6): "a second code of SHL" for o in (0xC0, 0xC1, 0xD0, 0xD1, 0xD2, 0xD3)},
    (0xF6, 1): "a second code of TEST", (0xF7, 1): "a second code of TEST",
}
CONTROL_MEMORY = {0xF20, 0xF22}
CONTROL = {(0x0F20, n) for n in range(1, 8)} | {(0x0F22, n) for n in range(1, 8)}
# How objdump and nasm name what the table names otherwise.
NAMES = {
    "Cwde": {"cwde", "cbw"}, "Cdq": {"cdq", "cwd"}, "Callf": {"call"}, "Jmpf": {"jmp"}, "Wait": {"fwait", "wait"},
    "Loopnz": {"loopne"}, "Loopz": {"loope"}, "Pusha": {"pusha", "pushaw"}, "Popa": {"popa", "popaw"},
    "Pushf": {"pushf", "pushfw"}, "Popf": {"popf", "popfw"}, "Iret": {"iret", "iretw"}, "Retf": {"retf", "retfw"},
    "Ret": {"ret", "retw"}, "Leave": {"leave", "leavew"}, "Movzx8": {"movzx"}, "Movzx16": {"movzx"},
    "Movsx8": {"movsx"}, "Movsx16": {"movsx"}, "Mov": {"mov", "movabs"}, "Nop": {"nop"}, "Jecxz": {"jecxz"},
    "Lgdt": {"lgdtd", "lgdtw"}, "Sgdt": {"sgdtd", "sgdtw"}, "Lidt": {"lidtd", "lidtw"}, "Sidt": {"sidtd", "sidtw"},
    "Call": {"call", "callw"}, "Jmp": {"jmp", "jmpw"}, "Push": {"push", "pushw"}, "Pop": {"pop", "popw"},
}
STRINGS = {"Movs", "Cmps", "Stos", "Lods", "Scas"}


class Row:
    def __init__(self, match):
        first, last, middle, end, self.name, self.size, operands, lock = match.groups()
        self.first = int(first, 16)
        self.last = int(last, 16) if last else self.first
        self.middle = (int(middle), int(end or middle)) if middle else (0, 7)
        self.operands = operands.split()
        self.lock = bool(lock)

    def has_modrm(self):
        return any(o in MODRM for o in self.operands)

    def widths(self):
        return {"Byte": [8], "Word": [16], "Double": [32], "Either": [32, 16]}[self.size]

    def tail(self, width):
        size = width // 8
        lengths = {"I": size, "Ib": 1, "Iw": 2, "SignedByte": 1, "Jb": 1, "J": size, "O": 4, "A": size + 2}
        return sum(lengths.get(o, 0) for o in self.operands)

    def covers(self, opcode, middle):
        return self.first <= opcode <= self.last and self.middle[0] <= middle <= self.middle[1]


def rows():
    with open(TABLE) as text:
        found = [Row(m) for m in map(ROW.match, text) if m]
    with open(TABLE) as text:
        count = int(re.search(r"ROWS: \[Row; (\d+)\]", text.read()).group(1))
    if len(found) != count:
        sys.exit(f"{TABLE}: {len(found)} of {count} rows were understood")
    return found


def operand_text(row, operand, width, opcode):
    """The text of an operand, and what it is: a pair of a kind and its numbers."""
    data = {"Movzx8": 8, "Movsx8": 8, "Movzx16": 16, "Movsx16": 16, "Lar": 16, "Lsl": 16}.get(row.name, width)
    number = NUMBER[width]
    segment = min(row.middle[1], 3)
    memory = ("m", 5, 0x12)
    if operand == "E":
        if row.name in ("Call", "Jmp", "Push", "Pop"):
            return f"{SIZE_WORD[width]} [ebp+0x12]", memory
        return f"{SIZE_WORD[data]} [ebp+0x12]", memory
    if operand == "M":
        far = "far " if row.name in ("Callf", "Jmpf") else ""
        return (f"{far}{SIZE_WORD[width]} [ebp+0x12]" if far else "[ebp+0x12]"), memory
    fixed = {
        "R": ("ebx", ("r", 3)), "G": (REGISTERS[width][1], ("r", 1)), "S": (SEGMENTS[segment], ("s", segment)),
        "Low": (REGISTERS[width][opcode % 8], ("r", opcode % 8)),
        "I": (hex(number), ("i", number)), "Ib": ("0x5", ("i", 5)), "Iw": ("0x1234", ("i", 0x1234)),
        "SignedByte": ("byte -2", ("i", 2**width - 2)), "Jb": ("short $-6", ("j", -6)), "J": ("near $+0x123", ("j", 0x123)),
        "O": ("[0x12345678]", ("d", 0x12345678)), "A": (f"{SIZE_WORD[width]} 0x9abc:{hex(number)}", ("f", 0x9ABC, number)),
        "X": ("", ("m", 6, 0)), "Table": ("", ("m", 3, 0)),
        "Eax": (REGISTERS[width][0], ("r", 0)), "Cl": ("cl", ("r", 1)), "Dx": ("dx", ("r", 2)), "One": ("1", ("i", 1)),
        "Cr0": ("cr0", ("c",)),
    }
    if operand in fixed:
        return fixed[operand]
    return operand.lower(), ("s", SEGMENTS.index(operand.lower()))


def mnemonic(row, width):
    words = {
        "Cwde": {32: "cwde", 16: "cbw"}, "Cdq": {32: "cdq", 16: "cwd"}, "Pusha": {32: "pushad", 16: "pushaw"},
        "Popa": {32: "popad", 16: "popaw"}, "Pushf": {32: "pushfd", 16: "pushfw"}, "Popf": {32: "popfd", 16: "popfw"},
        "Iret": {32: "iretd", 16: "iretw"}, "Ret": {32: "ret", 16: "o16 ret"}, "Retf": {32: "retf", 16: "o16 retf"},
        "Leave": {32: "leave", 16: "o16 leave"}, "Callf": {32: "call", 16: "call"}, "Jmpf": {32: "jmp", 16: "jmp"},
        "Xlat": {8: "xlatb"},
    }
    if row.name in words:
        return words[row.name][width]
    if row.name in STRINGS:
        return row.name.lower() + {8: "b", 16: "w", 32: "d"}[width]
    plain = re.sub(r"(8|16)$", "", row.name.lower()) if row.name.startswith("Mov") else row.name.lower()
    if width == 16 and row.size == "Either" and not ({"E", "G", "Eax", "Low", "J", "A", "M"} & set(row.operands)):
        return "o16 " + plain
    if width == 16 and row.name in ("Sgdt", "Sidt", "Lgdt", "Lidt"):
        return "o16 " + plain
    return plain


def line(row, width, opcode):
    """A line of assembler text for a row, and the operands that it names."""
    parts = [operand_text(row, o, width, opcode) for o in row.operands]
    words = [text for text, _ in parts if text]
    if row.operands == ["J"] and width == 16:
        words = ["near word $+0x123"]
    if row.name == "Push" and row.operands == ["I"]:
        words = [f"strict {SIZE_WORD[width]} {words[0]}"]
    if row.name in ("Loopnz", "Loopz", "Loop", "Jecxz"):
        words = ["$-6"]
    if row.name in ("Movzx16", "Movsx16") and width == 16:
        return f"o16 {row.name[:5].lower()} ecx, {words[1]}", [kind for _, kind in parts]
    return f"{mnemonic(row, width)} {', '.join(words)}".strip(), [kind for _, kind in parts]


def assembled(lines):
    """nasm's bytes of each line."""
    with tempfile.TemporaryDirectory() as folder:
        source, listing = folder + "/rows.asm", folder + "/rows.lst"
        with open(source, "w") as text:
            text.write("bits 32\n" + "".join(f"l{i}: {t}\n" for i, t in enumerate(lines)))
        run = subprocess.run(["nasm", "-w-all", "-O1", "-f", "bin", "-o", folder + "/rows.bin", "-l", listing, source], capture_output=True, text=True)
        if run.returncode:
            sys.exit(run.stderr)
        found = {}
        for entry in open(listing):
            m = re.match(r"\s*(\d+) [0-9A-F]{8} ([0-9A-F()\[\]]+)(-?)", entry)
            if m:
                found.setdefault(int(m.group(1)), []).append(re.sub(r"[()\[\]]", "", m.group(2)))
        return [bytes.fromhex("".join(found[i + 2])) for i in range(len(lines))]


def opcode_of(data):
    """Number of the opcode, and the place behind it."""
    at = 0
    while data[at] in PREFIXES:
        at += 1
    return (0xF00 + data[at + 1], at + 2) if data[at] == 0x0F else (data[at], at + 1)


def modrm_length(data, at):
    """How many bytes ModRM, SIB and displacement have."""
    mode, rm = data[at] >> 6, data[at] & 7
    if mode == 3:
        return 1
    base = data[at + 1] & 7 if rm == 4 else rm
    return 1 + (rm == 4) + (1 if mode == 1 else 4 if mode == 2 or base == 5 else 0)


def cases(table):
    """Each row at each of its widths: the row, width, text, bytes and operands."""
    wanted = [(row, width, *line(row, width, row.last)) for row in table if row.name != "Esc" for width in row.widths()]
    return [(row, width, text, data, args) for (row, width, text, args), data in zip(wanted, assembled([w[2] for w in wanted]))]


def against_nasm(table):
    wrong = 0
    for row, width, text, data, _ in cases(table):
        opcode, at = opcode_of(data)
        middle = data[at] >> 3 & 7 if row.has_modrm() else 0
        length = at + (modrm_length(data, at) if row.has_modrm() else 0) + row.tail(width)
        narrow = 0x66 in data[: at - 1]
        if not row.covers(opcode, middle) or length != len(data) or (row.size == "Either" and narrow != (width == 16)):
            print(f"nasm: {text}: {data.hex()} isn't of the row {row.first:x} {row.name} {row.operands}")
            wrong += 1
    return wrong


def against_locks(table):
    """nasm warns exactly where LOCK isn't allowed, but for BT with memory, which takes it here."""
    rows = [r for r in table if {"E", "M"} & set(r.operands)]
    lines = [line(r, r.widths()[0], r.last)[0] for r in rows]
    with tempfile.TemporaryDirectory() as folder:
        source = folder + "/locks.asm"
        with open(source, "w") as text:
            text.write("bits 32\n" + "".join(f"lock {t}\n" for t in lines))
        run = subprocess.run(["nasm", "-w-all", "-w+lock", "-f", "bin", "-o", folder + "/locks.bin", source], capture_output=True, text=True)
    warned = {int(n) for n in re.findall(r":(\d+): warning: instruction is not lockable", run.stderr)}
    wrong = 0
    for i, (row, text) in enumerate(zip(rows, lines)):
        if row.lock != (i + 2 not in warned) and row.name != "Bt":
            print(f"nasm: lock {text}: the table says {row.lock}")
            wrong += 1
    return wrong


def disassembled(strings, apart=16):
    """objdump's mnemonic and length for each string of bytes, which are laid so many bytes apart, with NOPs between them."""
    with tempfile.TemporaryDirectory() as folder:
        name = folder + "/all.bin"
        with open(name, "wb") as image:
            for s in strings:
                image.write(s + b"\x90" * (apart - len(s)))
        run = subprocess.run(["objdump", "-D", "-z", "-w", "-b", "binary", "-m", "i386", "-M", "intel", name], capture_output=True, text=True, check=True)
    found = {}
    for entry in run.stdout.splitlines():
        m = re.match(r"\s*([0-9a-f]+):\t([0-9a-f ]+?)\s*\t(.*)$", entry)
        if m:
            found[int(m.group(1), 16)] = (m.group(3).split(), len(m.group(2).split()))
    return [found.get(apart * i, (["(bad)"], 1)) for i in range(len(strings))]


def expected_names(row):
    if row.name in STRINGS:
        return {row.name.lower()}
    return NAMES.get(row.name, {row.name.lower()})


def left_out(table, opcode, middle, register):
    """Why objdump may know an opcode with a /n that no row takes here, by memory or register; None where it may not."""
    row = next((r for r in table if r.covers(opcode, middle)), None)
    if opcode in CONTROL_MEMORY and not register:
        return "MOV with a control register that names memory, where processors ignore mod"
    if row is None:
        known = [LEFT_OUT.get(opcode), ALIASES.get(opcode), GROUP_ALIASES.get((opcode, middle)), LATER_GROUPS.get((opcode, middle))]
        if any(known):
            return next(filter(None, known))
        if (opcode, middle) in CONTROL:
            return "MOV with CR2, CR3 and control registers of no processor"
        if (opcode, middle) in NO_SEGMENT:
            return "segment registers 6 and 7, and CS, which can't be loaded"
    elif register and opcode in (0x62, 0xC4, 0xC5):
        return "the vector prefixes of later processors"
    if opcode >= 0xF00 and not any(r.first <= opcode <= r.last for r in table):
        return "opcodes of later processors"
    if opcode == 0xF01 and (middle in (5, 7) or register) or opcode == 0xF00 and middle >= 6:
        return "opcodes of later processors"
    return None


def difference(table, opcode, middle, register, words, length):
    """What is wrong with objdump's answer for an opcode and /n, None where it is the table's or a choice."""
    word = next((w for w in words if w not in ("lock", "rep", "repz", "repnz", "data16")), "(bad)")
    row = next((r for r in table if r.covers(opcode, middle)), None)
    alone = row and ("M" in row.operands and register or "R" in row.operands and not register)
    if row and not alone:
        if row.name in ("Esc", "Wait"):
            return None if word.startswith("f") or word == "(bad)" else f"objdump has {word}"  # of the coprocessor
        head = 1 if opcode < 0x100 else 2
        wanted = head + (modrm_length(bytes([middle << 3 | (0xC1 if register else 0x41), 0x12]), 0) if row.has_modrm() else 0) + row.tail({"Byte": 8, "Word": 16}.get(row.size, 32))
        if word not in expected_names(row) or length != wanted:
            return f"the table has {row.name} of {wanted} bytes, objdump {word} of {length}"
        return None
    if word == "(bad)" or left_out(table, opcode, middle, register):
        return None
    return f"no row, objdump has {word}"


def against_objdump(table):
    wanted = []
    for opcode in [o for o in range(0x100) if o not in PREFIXES and o != 0x0F] + list(range(0xF00, 0x1000)):
        for middle in range(8):
            for register in (False, True):
                head = bytes([opcode]) if opcode < 0x100 else bytes([0x0F, opcode - 0xF00])
                modrm = middle << 3 | (0xC1 if register else 0x41)
                wanted.append((opcode, middle, register, head + bytes([modrm, 0x12, 0x11, 0x22, 0x33, 0x44, 0x55, 0x66])))
    wrong = 0
    for (opcode, middle, register, data), (words, length) in zip(wanted, disassembled([w[3] for w in wanted])):
        fault = difference(table, opcode, middle, register, words, length)
        if fault:
            print(f"objdump: {opcode:04x} /{middle} {'register' if register else 'memory'}: {fault}")
            wrong += 1
    return wrong


def main():
    table = rows()
    wrong = against_nasm(table) + against_locks(table) + against_objdump(table)
    print(f"{len(table)} rows compared, {wrong} differences that are no choice")
    return 1 if wrong else 0


if __name__ == "__main__":
    sys.exit(main())
