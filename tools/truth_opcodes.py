"""Cases of decoding for crates/m386_truth, as objdump and nasm of the packages binutils and nasm see them.

The bytes are a sweep and no list of the table's: every opcode with every middle bits of a ModRM byte that names memory or a
register, without prefixes, with 66h, with LOCK, and, where an operation is known, with each segment prefix and both repeats;
every ModRM byte and every SIB byte; and some strings of prefixes and fronts of instructions. objdump says which operation it
is, how long, and with what operands; nasm says whether LOCK may stand before it. What the project chooses otherwise is named
below, by docs/DECISIONS.md, and nothing else may differ.
"""
import os
import re
import subprocess
import tempfile

PREFIX = {0x26: 0, 0x2E: 1, 0x36: 2, 0x3E: 3, 0x64: 4, 0x65: 5}  # segments: ES, CS, SS, DS, FS, GS
NARROW, LOCK, REPEATS = 0x66, 0xF0, {0xF2: "f2", 0xF3: "f3"}
PREFIXES = {*PREFIX, NARROW, LOCK, *REPEATS}
ESCAPE = 0x0F
TAIL = bytes.fromhex("12b1d2837465565768798a9b")
APART = 32
REGISTERS = {8: "al cl dl bl ah ch dh bh".split(), 16: "ax cx dx bx sp bp si di".split(), 32: "eax ecx edx ebx esp ebp esi edi".split()}
NUMBERS = {name: (width, i) for width, names in REGISTERS.items() for i, name in enumerate(names)}
SEGMENTS = "es cs ss ds fs gs".split()
SIZES = {"BYTE": 8, "WORD": 16, "DWORD": 32, "FWORD": 48, "QWORD": 64}
WORDS = {"lock", "rep", "repz", "repnz", "data16", "addr16", "bnd", "notrack", "xacquire", "xrelease", *SEGMENTS}

# "The opcodes of the machine": opcodes of the 80386 that are left out, and 67h.
LEFT_OUT = {0x27, 0x2F, 0x37, 0x3F, 0xD4, 0xD5, 0x6C, 0x6D, 0x6E, 0x6F, 0xC8, 0x67, 0x0F21, 0x0F23, 0x0F24, 0x0F26}
# The same: second codes and codes in no manual.
ALIASES = {0x82, 0xD6, 0xF1}
GROUP_ALIASES = {(o, 6) for o in (0xC0, 0xC1, 0xD0, 0xD1, 0xD2, 0xD3)} | {(0xF6, 1), (0xF7, 1)}
# The opcodes behind 0Fh that the 80386 has, by the manual's map (PRM appendix A). All others came later.
ESCAPED = {0x00, 0x01, 0x02, 0x03, 0x06, 0x20, 0x22, *range(0x80, 0xA0), 0xA0, 0xA1, 0xA3, 0xA4, 0xA5, 0xA8, 0xA9, 0xAB, 0xAC, 0xAD,
           0xAF, 0xB2, 0xB3, 0xB4, 0xB5, 0xB6, 0xB7, 0xBA, 0xBB, 0xBC, 0xBD, 0xBE, 0xBF}
LATER = {(0x8F, n) for n in range(1, 8)} | {(0xC6, 7), (0xC7, 7), (0x0F01, 5), (0x0F01, 7), (0x0F00, 6), (0x0F00, 7)}
LATER |= {(0xC6, n) for n in range(1, 7)} | {(0xC7, n) for n in range(1, 7)}
# CS, which can't be loaded, and segment registers that no processor has; control registers but CR0.
NO_SEGMENT = {(0x8C, 6), (0x8C, 7), (0x8E, 1), (0x8E, 6), (0x8E, 7)}
CONTROL = {(o, n) for o in (0x0F20, 0x0F22) for n in range(1, 8)}
# Opcodes that take memory alone (the register forms belong to later processors), and MOV with CR0, which takes a register.
MEMORY_ALONE = {0x62, 0xC4, 0xC5}
# "Prefixes": F2h and F3h have no effect but before these.
SCANS = {0x0FBC, 0x0FBD}  # with F2h and F3h operations of later processors, TZCNT and LZCNT
STRINGS = {"movs": "Movs", "cmps": "Cmps", "stos": "Stos", "lods": "Lods", "scas": "Scas"}
NAMES = {
    "cbw": "Cwde", "cwde": "Cwde", "cwd": "Cdq", "cdq": "Cdq", "fwait": "Wait", "loopne": "Loopnz", "loope": "Loopz", "xlat": "Xlat",
    "pusha": "Pusha", "pushaw": "Pusha", "popa": "Popa", "popaw": "Popa", "pushfw": "Pushf", "popfw": "Popf", "iretw": "Iret",
    "retw": "Ret", "retfw": "Retf", "leavew": "Leave", "callw": "Call", "jmpw": "Jmp", "pushw": "Push", "popw": "Pop",
    "lgdtd": "Lgdt", "lgdtw": "Lgdt", "sgdtd": "Sgdt", "sgdtw": "Sgdt", "lidtd": "Lidt", "lidtw": "Lidt", "sidtd": "Sidt", "sidtw": "Sidt",
    "int3": "Int3", **STRINGS,
}
# "The operands of an operation": widths that aren't those of an operand.
WORD_WIDE = {"Arpl", "Sldt", "Str", "Lldt", "Ltr", "Verr", "Verw", "Smsw", "Lmsw"}
PLAIN = {"Nop", "Hlt", "Clc", "Stc", "Cli", "Sti", "Cld", "Std", "Cmc", "Int", "Int3", "Into", "Wait", "Sahf", "Lahf", "Clts", "Esc"}
# Where the width is that of 66h alone.
BY_PREFIX = {"Push", "Pop", "Pusha", "Popa", "Pushf", "Popf", "Iret", "Ret", "Retf", "Leave", "Call", "Jmp", "Callf", "Jmpf", "Bound", "Les",
             "Lds", "Lss", "Lfs", "Lgs", "Sgdt", "Sidt", "Lgdt", "Lidt", "Cwde", "Cdq", "Loop", "Loopnz", "Loopz", "Jecxz", "Lea"}
NO_SIZES = {"bound", "les", "lds", "lss", "lfs", "lgs", "lea"}  # whose memory has no size in nasm's text
TAKE_LOCK = {"bt"}  # LOCK on BT is a choice of this project, which nasm doesn't have


def objdump(strings):
    """objdump's words and length for each string of bytes."""
    with tempfile.TemporaryDirectory() as folder:
        name = folder + "/all.bin"
        with open(name, "wb") as image:
            for s in strings:
                image.write(s + b"\x90" * (APART - len(s)))
        run = subprocess.run(["objdump", "-D", "-z", "-w", "-b", "binary", "-m", "i386", "-M", "intel", name], capture_output=True, text=True, check=True)
    found = {}
    for entry in run.stdout.splitlines():
        m = re.match(r"\s*([0-9a-f]+):\t([0-9a-f ]+?)\s*\t(.*)$", entry)
        if m:
            found[int(m.group(1), 16)] = (m.group(3).split("#")[0].split(), len(m.group(2).split()))
    return [found.get(APART * i, (["(bad)"], 1)) for i in range(len(strings))]


def nasm_faults(texts):
    """The errors and the warnings on LOCK that nasm has for LOCK before some lines of its text: the numbers of the lines."""
    with tempfile.TemporaryDirectory() as folder:
        source = folder + "/locks.asm"
        with open(source, "w") as text:
            text.write("bits 32\n" + "".join(f"lock {t}\n" for t in texts))
        run = subprocess.run(["nasm", "-w-all", "-w+lock", "-f", "bin", "-o", folder + "/locks.bin", source], capture_output=True, text=True)
    number = lambda kind: {int(n) - 2 for n in re.findall(rf":(\d+): {kind}", run.stderr)}
    return number("error"), number("warning: instruction is not lockable")


def lockable(texts):
    """Which of some lines of nasm's text LOCK may stand before: those that nasm takes with no warning. It gives no warnings
    where there is an error, so the lines in which it has one, MOV with CR0, are left out of a second call."""
    errors, _ = nasm_faults(texts)
    assert all(texts[i].startswith("mov ") for i in errors), [texts[i] for i in errors]
    more, unfit = nasm_faults(["hlt" if i in errors else t for i, t in enumerate(texts)])
    assert not more, [texts[i] for i in more]
    return [i not in unfit for i in range(len(texts))]


def source_of(word, texts, width):
    """The line of nasm's text for an operation of objdump's."""
    if word in STRINGS:
        return word + {8: "b", 16: "w", 32: "d"}[width]
    if word in ("lgdtd", "lidtd", "sgdtd", "sidtd"):
        word = word[:-1]
    if word == "xlat":
        return "xlatb"
    if word in NO_SIZES:
        texts = [re.sub("[A-Z]+ PTR ", "", t) for t in texts]
    return f"{word} {','.join(t.replace('FWORD PTR', 'far').replace(' PTR', '') for t in texts)}"


class Parts:
    """The prefixes, the opcode's number and what a ModRM byte behind it would say."""

    def __init__(self, data):
        at = next((i for i, b in enumerate(data) if b not in PREFIXES), len(data))
        self.prefixes, rest = data[:at], data[at:] + bytes(4)
        self.opcode = 0xF00 + rest[1] if rest[0] == ESCAPE else rest[0]
        self.behind = at + (2 if rest[0] == ESCAPE else 1)
        modrm = rest[2] if rest[0] == ESCAPE else rest[1]
        self.middle, self.register = modrm >> 3 & 7, modrm >= 0xC0
        self.narrow, self.lock = NARROW in self.prefixes, LOCK in self.prefixes
        self.segment = next((PREFIX[b] for b in reversed(self.prefixes) if b in PREFIX), None)
        self.repeat = next((REPEATS[b] for b in reversed(self.prefixes) if b in REPEATS), "")


def is_refused(parts):
    """Whether the project refuses by choice what objdump may know."""
    key = (parts.opcode, parts.middle)
    if parts.opcode in LEFT_OUT | ALIASES or key in GROUP_ALIASES | LATER | NO_SEGMENT | CONTROL:
        return True
    if parts.opcode >= 0xF00 and parts.opcode - 0xF00 not in ESCAPED:
        return True
    if parts.opcode in (0x0F20, 0x0F22):
        return not parts.register
    if parts.opcode == 0x0F01 and parts.register:
        return parts.middle < 4
    return parts.opcode in MEMORY_ALONE and parts.register


def mem(parts, base, index, scale, disp):
    some = lambda n: "None" if n is None else f"Some({n})"
    return f"Mem(Addr {{ seg: {some(parts.segment)}, base: {some(base)}, index: {some(index)}, scale: {scale}, disp: {disp} }})"


def address(parts, text):
    """The operand of memory in brackets. EIZ is no index."""
    base, index, scale, disp = None, None, 1, 0
    for sign, part in re.findall(r"([+-]?)([^+-]+)", text):
        register, _, factor = part.partition("*")
        if register == "eiz":
            continue
        if factor:
            index, scale = NUMBERS[register][1], int(factor)
        elif register in NUMBERS:
            base = NUMBERS[register][1]
        else:
            disp = int(sign + part, 16) % 2**32
    return mem(parts, base, index, scale, disp)


class Operand:
    """An operand of objdump's text: its kind, its width where it has one, and its text as the program writes it."""

    def __init__(self, parts, text):
        sized = re.match(r"^([A-Z]+) PTR ", text)
        self.width = SIZES.get(sized.group(1)) if sized else None
        text = re.sub(r"^[A-Z]+ PTR ", "", text)
        memory = re.fullmatch(r"(?:([c-gs]s):)?\[(.*)\]", text) or re.fullmatch(r"([c-gs]s):(0x[0-9a-f]+)", text)
        far = re.fullmatch(r"0x([0-9a-f]+):0x([0-9a-f]+)", text)
        self.kind, self.number, self.text = "", None, text
        if text in NUMBERS:
            self.kind = "Reg"
            self.width, self.number = NUMBERS[text]
            self.text = f"Reg({self.number})"
        elif text in SEGMENTS:
            self.kind, self.text = "Seg", f"Seg({SEGMENTS.index(text)})"
        elif memory:
            shown = memory.group(1)
            assert shown is None or parts.segment in (None, SEGMENTS.index(shown)) or shown == "es", text
            self.kind, self.text = "Mem", address(parts, memory.group(2))
        elif far:
            self.kind, self.text = "Far", f"Far {{ selector: {int(far.group(1), 16)}, offset: {int(far.group(2), 16)} }}"
        elif text == "cr0":
            self.kind, self.text = "Cr0", "Cr0"
        elif re.fullmatch(r"(0x)?[0-9a-f]+", text):
            self.kind, self.number = "Imm", int(text, 16)


def name_of(word, operands, parts):
    if word in ("movzx", "movsx"):
        return word.capitalize() + str(operands[1].width)
    if parts.opcode in (0x9A, 0xEA) or word in ("call", "jmp", "callw", "jmpw") and operands and operands[0].kind == "Mem" and parts.opcode == 0xFF and parts.middle in (3, 5):
        return "Callf" if word.startswith("call") else "Jmpf"
    return NAMES.get(word, word.capitalize())


def width_of(name, operands, parts):
    if name in WORD_WIDE or any(o.kind == "Seg" for o in operands) and name == "Mov":
        return 16
    if name in PLAIN or any(o.kind == "Cr0" for o in operands):
        return 32
    if name == "Xlat":
        return 8
    if name in BY_PREFIX or name[0] == "J":
        return 16 if parts.narrow else 32
    if name == "Out":
        return operands[1].width
    return operands[0].width or operands[1].width


def wanted_operands(word, name, width, operands, parts, end):
    """The operands as the project has them."""
    if name in STRINGS.values():
        source = "esi" if name in ("Movs", "Cmps", "Lods") else None
        return [mem(parts, NUMBERS["esi"][1], None, 1, 0)] if source else []
    if name == "Xlat":
        return [mem(parts, NUMBERS["ebx"][1], None, 1, 0)]
    if name == "Xchg" and operands[0].kind == "Reg" and (operands[1].kind == "Mem" or 0x86 <= parts.opcode <= 0x87) and not 0x90 < parts.opcode < 0x98:
        operands = operands if operands[0].kind == "Mem" or parts.register else operands[::-1]
    if name == "Xchg" and 0x90 < parts.opcode < 0x98 and operands[0].number != 0:
        operands = operands[::-1]
    if name == "Test" and operands[0].kind == "Reg" and operands[1].kind == "Mem":
        operands = operands[::-1]
    texts = []
    for o in operands:
        jumps = name[0] == "J" or name in ("Call", "Loop", "Loopnz", "Loopz")
        if o.kind == "Imm" and jumps:
            size = 2**16 if parts.narrow else 2**32
            away = (o.number - end) % size
            texts.append(f"Rel({(away - size if away >= size // 2 else away) % 2**32})")
        elif o.kind == "Imm":
            counted = name in ("Ret", "Retf", "Int", "In", "Out") or parts.opcode in (0xC0, 0xC1, 0x0FA4, 0x0FAC, 0x0FBA)
            texts.append(f"Imm({o.number if counted else o.number % 2**width})")
        else:
            texts.append(o.text)
    return texts


def shown(parts, words, length, place):
    """objdump's operation as the program writes it, and its text for nasm; None where it knows none."""
    rest = list(words)
    while rest and rest[0].split(",")[0] in WORDS:
        rest = rest[1:]
    if not rest or "(bad)" in words:
        return None
    word = rest[0].split(",")[0]
    if word == "nop" or parts.opcode == 0x90:
        return "Nop W32 []", "nop"  # 90h is NOP, with 66h too, where objdump has XCHG, and with F3h, where it has PAUSE
    texts = [t for t in " ".join(rest[1:]).split(",") if t]
    operands = [Operand(parts, t) for t in texts]
    if word.startswith("f") and word != "fwait":
        return None
    name = name_of(word, operands, parts)
    width = width_of(name, operands, parts)
    if parts.opcode in (0xD0, 0xD1) and len(operands) == 1:
        operands.append(Operand(parts, "1"))  # objdump leaves the count 1 out
    source = source_of(word, texts, width)
    texts = wanted_operands(word, name, width, operands, parts, place + length)
    return f"{name} W{width} [{', '.join(texts)}]", source


def swept():
    """The strings without prefixes: every opcode, with every middle bits, for memory and for a register."""
    heads = [bytes([o]) for o in range(256) if o not in PREFIXES and o != ESCAPE] + [bytes([ESCAPE, o]) for o in range(256)]
    for head in heads:
        for middle in range(8):
            for modrm in (0x45, 0xC0 + (middle * 5 + 3) % 8):
                yield head + bytes([modrm | middle << 3]) + TAIL


def forms():
    """Every ModRM byte, and behind those that want one every SIB byte."""
    for head in (b"\x8b", b"\x66\x8b", b"\x8a", b"\x0f\xb7"):
        for modrm in range(256):
            yield head + bytes([modrm]) + TAIL
    for modrm in (0x1C, 0x5C, 0x9C):
        for sib in range(256):
            yield bytes([0x8B, modrm, sib]) + TAIL
    for low in range(8):
        for head in (0xB0, 0xB8, 0x40, 0x48, 0x50, 0x58, 0x90):
            yield bytes([head + low]) + TAIL


ODD = [
    "6666b81234", "6666b8123456", "3e26a112345678", "263ea112345678", "2e64a012345678", "64652ea312345678", "f2f3a4", "f3f2a4", "f3f2a7", "f266a5",
    "66f3a5", "f36626a5", "f0f0ff00", "66f0ff00", "f066ff00", "f066ffc0", "26f0ff00", "f0902b", "f3f0ff00", "66660fb6c1", "2e2e74fe", "f390", "6690", "f290",
]


def cases():
    """Each case as the bytes that are decoded and the wanted answer."""
    sweep = list(dict.fromkeys(swept()))
    plain = list(dict.fromkeys([*sweep, *forms()]))
    bare = answers(plain)
    known = [s for s, (n, a) in zip(plain, bare) if not a.startswith("#")]
    rows = first_of_each_row(known, bare, plain)
    narrow = [b"\x66" + s for s in sweep]
    locked = [b"\xf0" + s for s in sweep]
    others = [bytes([p]) + s for p in [*PREFIX, *REPEATS] for s in rows]
    odd = [bytes.fromhex(t) + TAIL for t in ODD]
    found = {}
    for strings in (plain, narrow, locked):
        swept_answers = answers(strings)
        for data, answer in cut_where_refused(strings, swept_answers):
            found.setdefault(data, answer)
    for strings in (others, odd):
        for data, (length, answer) in zip(strings, answers(strings)):
            found.setdefault(data[:length], answer)
    return [*found.items(), *fronts(rows), *lengths()]


def cut_where_refused(strings, found):
    """"Where bytes are refused": at the opcode's last byte where no middle bits make an operation of it, else at the ModRM byte.
    So each refused string ends there, and where some middle bits do, the bytes up to the opcode want more."""
    heads = [s[: Parts(s).behind] for s in strings]
    known = {}
    for head, (length, answer) in zip(heads, found):
        if not answer.startswith("#"):
            known[head] = min(length, known.get(head, length))
    for head, least in known.items():
        if least > len(head):
            yield head, "more"
    for data, head, (length, answer) in zip(strings, heads, found):
        yield data[: len(head) + (head in known) if answer.startswith("#") else length], answer


def first_of_each_row(known, bare, plain):
    """One string for each operation with each form of operands and each opcode."""
    answer = dict(zip(plain, bare))
    seen = {}
    for s in known:
        text = answer[s][1]
        seen.setdefault((Parts(s).opcode, re.sub(r"\(\d+\)", "", text.split("[")[0].split(" ", 1)[1]), "Mem" in text), s)
    return list(seen.values())


def fronts(rows):
    """Each front of each tenth operation wants more."""
    for data, (length, answer) in list(zip(rows, answers(rows)))[::10]:
        for n in range(length):
            yield data[:n], "more"


def lengths():
    """"What the decoder answers": at most 15 bytes; a byte that is refused at place 15 is #UD, and a longer one #GP."""
    add, mov = bytes.fromhex("05785634" "12"), bytes.fromhex("b878563412")
    yield b"\x26" * 10 + add, "15 Add W32 [Reg(0), Imm(305419896)]"
    yield b"\x26" * 11 + add, "#13"
    yield b"\x66" * 12 + mov[:3], "15 Mov W16 [Reg(0), Imm(22136)]"
    yield b"\x66" * 13 + mov[:3], "#13"
    yield b"\x3e" * 14 + b"\xf4", "15 Hlt W32 []"
    yield b"\x3e" * 15, "#13"
    yield b"\x3e" * 15 + b"\xf4", "#13"
    yield b"\x3e" * 14 + b"\xd6", "#6"
    yield b"\x3e" * 15 + b"\xd6", "#13"
    yield b"\x3e" * 13 + b"\x0f\x05", "#6"
    yield b"\x3e" * 14 + b"\x0f\x05", "#13"
    yield b"\xf0" * 14 + b"\x38", "#6"
    yield b"", "more"


def answers(strings):
    """For each string how many of its bytes the question needs, and the wanted answer."""
    all_parts = [Parts(s) for s in strings]
    asked = [s[: APART - 8] if p.opcode not in SCANS else bytes(b for b in s[: p.behind - 2] if b not in REPEATS) + s[p.behind - 2 :] for s, p in zip(strings, all_parts)]
    seen = [(words, length + len(s[: APART - 8]) - len(a)) for s, a, (words, length) in zip(strings, asked, objdump(asked))]
    operations = [None if is_refused(p) else shown(p, words, length, APART * i) for i, (p, (words, length)) in enumerate(zip(all_parts, seen))]
    locks = [i for i, p in enumerate(all_parts) if p.lock and operations[i]]
    fit = dict(zip(locks, lockable([operations[i][1] for i in locks])))
    return [one_answer(strings[i], p, seen[i], operations[i], fit.get(i)) for i, p in enumerate(all_parts)]


def one_answer(data, parts, seen, operation, fits):
    if 0xD8 <= parts.opcode <= 0xDF and parts.opcode < 0xF00:
        # All of the coprocessor's instructions are one operation of one byte.
        return (parts.behind, "#6") if parts.lock else (parts.behind, f"{parts.behind} Esc W32 []")
    if parts.opcode == 0x9B:
        return (parts.behind, "#6") if parts.lock else (parts.behind, f"{parts.behind} Wait W32 []")
    if operation is None:
        return min(len(data), parts.behind + 2), "#6"
    text, source = operation
    if parts.lock:
        takes = fits or source.split()[0] in TAKE_LOCK
        if not takes or "Mem" not in text:
            return min(len(data), seen[1]), "#6"
        text += " lock"
    if parts.repeat and text.split()[0] in STRINGS.values():
        text += " " + parts.repeat
    return seen[1], f"{seen[1]} {text}"
