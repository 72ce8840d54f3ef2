#!/usr/bin/env python3
"""Compares the assembler with nasm, for random lines of each form of operands.

usage: tools/compare_assembler.py [--lines N] [--seed N] COMMAND..      in the repository's top folder

COMMAND is a program that reads a text of the assembler and writes the image, as `crates/m386/out/m386 asm`. Each line is laid out at a
place of its own. The same line in nasm's syntax, with the same numbers, is laid out at the same place. Where its bytes are others, ndisasm must
show the same operation for both (`plain` says what is the same), and one of the rules in RULES must say why they are others: how many
lines each rule explains is printed. A line that none explains, or that nasm refuses, is printed too, and then the exit status is 1.
"""
import argparse
import random
import re
import struct
import subprocess
import sys
import tempfile

R32 = "eax ecx edx ebx esp ebp esi edi".split()
R16 = "ax cx dx bx sp bp si di".split()
R8 = "al cl dl bl ah ch dh bh".split()
SEGMENTS = "es cs ss ds fs gs".split()
CONDITIONS = "o no b ae e ne be a s ns p np l ge le g".split()
EIGHT = "add or adc sbb and sub xor cmp".split()
SHIFTS = "rol ror rcl rcr shl shr sar".split()
SIZES = {8: "byte", 16: "word", 32: "dword"}
STEP = 32
PREFIXES = bytes.fromhex("262e363e646566f0f2f3")


class Lines:
    """Random lines: of each the text, and nasm's."""

    def __init__(self, seed):
        self.random = random.Random(seed)

    def register(self, width):
        return self.random.choice({8: R8, 16: R16, 32: R32}[width])

    def number(self, width):
        edges = [0, 1, 127, 128, 255, 2 ** (width - 1) - 1, 2 ** width - 1, -1, -128, -(2 ** (width - 1))]
        edges = [n for n in edges if -(2 ** (width - 1)) <= n < 2 ** width]
        return self.random.choice(edges + [self.random.randrange(2 ** width)])

    def text(self, number):
        return self.random.choice([str(number), ("-" if number < 0 else "") + hex(abs(number))])

    def memory(self):
        pick = self.random.choice
        parts = []
        if pick([True, False]):
            parts.append(pick(R32))
        if pick([True, False]):
            parts.append(pick([r for r in R32 if r != "esp"]) + "*" + pick("1248"))
        inner = "+".join(parts)
        if not parts or pick([True, False]):
            number = self.number(32)
            sign = "+" if parts and (number >= 0 or pick([True, False])) else ""
            inner += sign + self.text(number)
        segment = pick(["", "", "", pick(SEGMENTS) + ":"])
        return f"[{segment}{inner}]"

    def place(self, width, beside=False):
        """A register, or memory with its word where no register beside it has its width."""
        if self.random.choice([True, False]):
            return self.register(width)
        return ("" if beside else SIZES[width] + " ") + self.memory()

    def operation(self, place):
        """A line that begins at this place."""
        pick = self.random.choice
        width = pick([8, 16, 32])
        wide = pick([16, 32])
        forms = {
            "eight": lambda: f"{pick(EIGHT)} {self.place(width)}, {self.text(self.number(width))}",
            "eight_to": lambda: f"{pick(EIGHT + ['mov', 'test', 'xchg'])} {self.place(width, True)}, {self.register(width)}",
            "eight_from": lambda: f"{pick(EIGHT + ['mov'])} {self.register(width)}, {self.place(width, True)}",
            "lock": lambda: f"lock {pick(EIGHT[:7])} {SIZES[width]} {self.memory()}, {self.text(self.number(width))}",
            "lock_one": lambda: f"lock {pick(['inc', 'dec', 'not', 'neg'])} {SIZES[width]} {self.memory()}",
            "one": lambda: f"{pick('inc dec not neg mul imul div idiv'.split())} {self.place(width)}",
            "move": lambda: f"mov {self.place(width)}, {self.text(self.number(width))}",
            "test": lambda: f"test {self.place(width)}, {self.text(self.number(width))}",
            "shift": lambda: f"{pick(SHIFTS)} {self.place(width)}, {pick(['cl', self.text(self.random.randrange(256)), '1'])}",
            "double": lambda: f"{pick(['shld', 'shrd'])} {self.place(wide, True)}, {self.register(wide)}, {pick(['cl', str(self.random.randrange(256))])}",
            "bits": lambda: f"{pick('bt bts btr btc'.split())} {self.place(wide, True)}, {self.register(wide)}",
            "bits_by": lambda: f"{pick('bt bts btr btc'.split())} {self.place(wide)}, {self.random.randrange(256)}",
            "scan": lambda: f"{pick(['bsf', 'bsr', 'imul'])} {self.register(wide)}, {self.place(wide, True)}",
            "product": lambda: f"imul {self.register(wide)}, {self.place(wide, True)}, {self.text(self.number(wide))}",
            "extend": lambda: f"{pick(['movzx', 'movsx'])} {self.register(wide)}, {self.place(8)}",
            "extend_word": lambda: f"{pick(['movzx', 'movsx'])} {self.register(32)}, {self.place(16)}",
            "rights": lambda: f"{pick(['lar', 'lsl'])} {pick([self.register(32) + ', ' + self.place(16), self.register(16) + ', ' + self.place(16, True)])}",
            "lea": lambda: f"lea {self.register(wide)}, {self.memory()}",
            "far": lambda: f"{pick('les lds lss lfs lgs'.split())} {self.register(wide)}, {self.memory()}",
            "bound": lambda: f"bound {self.register(wide)}, {self.memory()}",
            "push": lambda: f"push {pick([self.place(wide), self.text(self.number(32)), pick(SEGMENTS)])}",
            "pop": lambda: f"pop {pick([self.place(wide), pick(['es', 'ss', 'ds', 'fs', 'gs'])])}",
            "set": lambda: f"set{pick(CONDITIONS)} {self.place(8)}",
            "segment_to": lambda: f"mov {pick([self.register(16), self.memory()])}, {pick(SEGMENTS)}",
            "segment_from": lambda: f"mov {pick(['es', 'ss', 'ds', 'fs', 'gs'])}, {pick([self.register(16), self.memory()])}",
            "task": lambda: f"{pick('lldt ltr verr verw lmsw'.split())} {self.place(16)}",
            "stored": lambda: f"{pick('sldt str smsw'.split())} {pick([self.register(16), 'word ' + self.memory()])}",
            "table": lambda: f"{pick('sgdt sidt lgdt lidt'.split())} {self.memory()}",
            "arpl": lambda: f"arpl {self.place(16, True)}, {self.register(16)}",
            "control": lambda: pick([f"mov {self.register(32)}, cr0", f"mov cr0, {self.register(32)}"]),
            "jump": lambda: f"{pick(['jmp', 'call'] + ['j' + c for c in CONDITIONS])} {self.text(self.random.randrange(2 ** 24))}",
            "near": lambda: f"{pick('loop loopz loopnz jecxz jmp je'.split())} {self.text(max(0, place + 2 + self.random.randrange(-128, 128)))}",
            "indirect": lambda: f"{pick(['jmp', 'call'])} {self.place(wide)}",
            "indirect_far": lambda: f"{pick(['jmp', 'call'])} far {self.memory()}",
            "direct_far": lambda: f"{pick(['jmp', 'call'])} {self.random.randrange(65536)}:{self.text(self.random.randrange(2 ** 32))}",
            "back": lambda: f"{pick(['ret', 'retf'])}{pick(['', ' ' + self.text(self.random.randrange(65536))])}",
            "event": lambda: f"int {self.random.randrange(256)}",
            "port": lambda: pick([f"in {pick(['al', 'ax', 'eax'])}, {pick(['dx', str(self.random.randrange(256))])}",
                                  f"out {pick(['dx', str(self.random.randrange(256))])}, {pick(['al', 'ax', 'eax'])}"]),
            "string": lambda: f"{pick(['', 'rep ', 'repz ', 'repnz '])}{pick('movs cmps stos lods scas'.split())}{pick('bwd')}",
            "alone": lambda: pick("cwde cdq xlat pusha popa pushf popf leave iret int3 into clc stc cmc cld std cli sti sahf lahf clts hlt nop wait".split()),
        }
        return forms[pick(list(forms))]()


def in_nasm(line):
    """The same line in nasm's syntax."""
    line = re.sub(r"^(repz|repnz|rep) ", lambda m: {"rep": "rep ", "repz": "repe ", "repnz": "repne "}[m.group(1)], line)
    line = re.sub(r"\bdword (\[)", r"dword \1", line)
    words = {"pusha": "pushad", "popa": "popad", "pushf": "pushfd", "popf": "popfd", "iret": "iretd", "xlat": "xlatb"}
    if line in words:
        return words[line]
    # nasm would write an index by two as a base and an index, and takes 66h before what stores a segment register in a register.
    line = line.replace("[", "[nosplit ")
    line = re.sub(r"^(mov|sldt|str|smsw) ([abcd]x|[sb]p|[sd]i)(?=$|, [c-gs]s$)", r"\1 e\2", line)
    line = re.sub(r"^(jmp|call) far \[", r"\1 dword far [", line)
    # nasm has a short jump to a label alone, and the first line's is 0.
    line = re.sub(r"^(jmp|call|j\w+|loop\w*) (0x[0-9a-f]+|\d+)$", r"\1 s0+\2", line)
    line = re.sub(r"^(jmp|call) (\d+):(\w+)$", r"\1 dword \2:\3", line)
    return line


def program_bytes(command, lines):
    """The bytes of each line, as the image's sections have them."""
    text = [".memory 16777216", ".cpus 1"]
    for number, line in enumerate(lines):
        text += [f".org {number * STEP}", line]
    done = subprocess.run(command, input="\n".join(text).encode(), capture_output=True)
    image = done.stdout
    if image[:4] != b"M386":
        sys.exit(f"the program wrote no image: {done.stderr.decode().strip()}")
    plan, count = struct.unpack_from("<II", image, 24)
    place, found = 64 + 8 * plan, []
    for _ in range(count):
        _, length = struct.unpack_from("<II", image, place)
        found.append(image[place + 8:place + 8 + length])
        place += 8 + length
    return found


def nasm_bytes(lines):
    """The bytes of each line, as nasm has them; None where it refuses the line."""
    with tempfile.TemporaryDirectory() as folder:
        source, out = folder + "/lines.asm", folder + "/lines.bin"
        refused = set()
        for _ in range(20):
            with open(source, "w") as text:
                text.write("bits 32\norg 0\n")
                for number, line in enumerate(lines):
                    own = "nop" if number in refused else in_nasm(line)
                    text.write(f"s{number}: {own}\ne{number}: times {STEP}-(e{number}-s{number}) db 0\n")
                for number in range(len(lines)):
                    text.write(f"db e{number}-s{number}\n")
            done = subprocess.run(["nasm", "-w-all", "-f", "bin", "-o", out, source], capture_output=True, text=True)
            if done.returncode == 0:
                break
            wrong = {(int(n) - 3) // 2 for n in re.findall(r":(\d+): error", done.stderr)}
            if not wrong - refused:
                sys.exit(done.stderr[:2000])
            refused |= wrong
        with open(out, "rb") as file:
            code = file.read()
    lengths = code[len(lines) * STEP:]
    return [None if n in refused else code[n * STEP:n * STEP + lengths[n]] for n in range(len(lines))]


def shown(pairs):
    """What ndisasm shows of bytes at their places, all of an operation in one line."""
    code = bytearray(b"\x90" * (STEP * (max(n for n, _ in pairs) + 1)))
    for number, own in pairs:
        code[number * STEP:number * STEP + len(own)] = own
    with tempfile.NamedTemporaryFile() as file:
        file.write(code)
        file.flush()
        done = subprocess.run(["ndisasm", "-b", "32", file.name], capture_output=True, text=True)
    texts = {}
    for line in done.stdout.splitlines():
        match = re.match(r"([0-9A-F]{8})  [0-9A-F]+ +(.*)", line)
        if match:
            texts[int(match.group(1), 16)] = match.group(2)
    return {number: texts.get(number * STEP, "nothing") for number, _ in pairs}


def plain(text):
    """An operation without what two spellings of it are shown with: the word of a short immediate or distance, the sign of a short
    one of 16 bits, a displacement of 0, and the order of XCHG's and TEST's operands."""
    match = re.match(r"(\w+ ax),(?:byte )?([+-]?0x[0-9a-f]+)$", text)
    if match:
        text = f"{match.group(1)},{int(match.group(2), 16) & 0xffff:#x}"
    text = re.sub(r"\b(byte|short|near|dword|word) (?=[+-]?0x)", "", text)
    text = re.sub(r"([+-])(byte|dword) ", r"\1", text)
    text = re.sub(r"\+0x0\]", "]", text)
    text = re.sub(r"(?<=,)\+0x", "0x", text)
    match = re.match(r"(xchg|test) (.*),(.*)$", text)
    if match:
        text = match.group(1) + " " + ",".join(sorted(match.groups()[1:]))
    return text


def split(code):
    """The prefixes of an operation, and its other bytes."""
    count = next(n for n in range(len(code) + 1) if code[n:n + 1] not in PREFIXES or n == len(code))
    return code[:count], code[count:]


def is_nop(line, ours, theirs):
    return line == "xchg eax, eax" and theirs == b"\x90"


def is_written_order(line, ours, theirs):
    """The first register is that of ModRM's field for registers or memory, and nasm's first one is that of the other field. With EAX or AX as the second nasm has one byte."""
    (before, mine), (first, other) = split(ours), split(theirs)
    if not re.match(r"xchg \w+, \w+$", line) or before != first or mine[0] not in (0x86, 0x87):
        return False
    if len(other) == 1:
        return bool(re.search(r", e?ax$", line))
    return mine[0] == other[0] and mine[1] == 0xC0 | (other[1] & 7) << 3 | (other[1] >> 3 & 7)


def is_rising(line, ours, theirs):
    (mine, rest), (other, same) = split(ours), split(theirs)
    return rest == same and mine == bytes(sorted(other))


def is_own_opcode(line, ours, theirs):
    """AX has an opcode with an immediate of 16 bits, which is as long as ModRM and an immediate of 8 bits."""
    return bool(re.match(r"\w+ ax, ", line)) and len(ours) == len(theirs) and split(theirs)[1][0] == 0x83 and ours < theirs


def is_less(line, ours, theirs):
    return len(ours) == len(theirs) and ours < theirs


def is_shorter(line, ours, theirs):
    return len(ours) < len(theirs)


# Why bytes of the same operation are others, each with its test; the first counts.
RULES = [
    ("90h is NOP, and no XCHG", is_nop),
    ("XCHG has its operands as they are written", is_written_order),
    ("prefixes rise", is_rising),
    ("an opcode of AX alone, before 83h, is less and as long", is_own_opcode),
    ("of other equally long bytes the least", is_less),
    ("nasm's bytes aren't the shortest", is_shorter),
]


def rule_of(line, ours, theirs, mine, other):
    """Which rule explains a line's bytes, if one does. NOP is shown as another operation than the XCHG that nasm takes it for."""
    if plain(mine) != plain(other) and not is_nop(line, ours, theirs):
        return None
    return next((words for words, test in RULES if test(line, ours, theirs)), None)


def differences(lines, ours, theirs):
    """Of each line with other bytes than nasm's its number, the rule that explains it, and what is shown of both."""
    unlike = [n for n in range(len(lines)) if theirs[n] is not None and ours[n] != theirs[n]]
    if not unlike:
        return []
    mine, other = shown([(n, ours[n]) for n in unlike]), shown([(n, theirs[n]) for n in unlike])
    return [(n, rule_of(lines[n], ours[n], theirs[n], mine[n], other[n]), mine[n], other[n]) for n in unlike]


def form(line):
    """A line without its numbers, and with kinds in place of registers and memory."""
    line = re.sub(r"\[.*\]", "[m]", line)
    line = re.sub(r"-?\b(0x[0-9a-f]+|\d+)\b", "n", line)
    for kind, registers in (("r32", R32), ("r16", R16), ("r8", [r for r in R8 if r != "cl"]), ("s", SEGMENTS)):
        line = re.sub(rf"\b({'|'.join(registers)})\b", kind, line)
    return line


def mnemonic(line):
    """The word behind those that stand before a mnemonic."""
    return re.sub(r"^(lock|rep|repz|repnz) ", "", line).split(" ")[0]


def main():
    words = argparse.ArgumentParser()
    words.add_argument("--lines", type=int, default=100_000)
    words.add_argument("--seed", type=int, default=1)
    words.add_argument("command", nargs=argparse.REMAINDER)
    args = words.parse_args()
    source = Lines(args.seed)
    lines = [source.operation(STEP * number) for number in range(args.lines)]
    ours, theirs = program_bytes(args.command, lines), nasm_bytes(lines)
    refused = [lines[n] for n in range(len(lines)) if theirs[n] is None]
    same = sum(a == b for a, b in zip(ours, theirs))
    unlike = differences(lines, ours, theirs)
    wrong = [row for row in unlike if row[1] is None]
    print(f"{len(set(map(form, lines)))} forms of {len(set(map(mnemonic, lines)))} mnemonics")
    print(f"{len(lines)} lines: {same} with the same bytes, {len(refused)} that nasm refuses, {len(unlike)} with others, {len(wrong)} of them unexplained")
    for words, _ in RULES:
        own = [n for n, rule, _, _ in unlike if rule == words]
        longer = sum(len(ours[n]) > len(theirs[n]) for n in own)
        example = f", as {lines[own[0]]}: {ours[own[0]].hex()}, nasm: {theirs[own[0]].hex()}" if own else ""
        print(f"{len(own):6} ({longer} longer than nasm's): {words}{example}")
    for line in sorted(set(refused))[:20]:
        print("nasm refuses:", line)
    for number, _, mine, other in wrong[:40]:
        print(f"unexplained: {lines[number]}: {ours[number].hex()} ({mine}), nasm: {theirs[number].hex()} ({other})")
    sys.exit(1 if wrong or refused else 0)


if __name__ == "__main__":
    main()
