#!/usr/bin/env python3
"""Checks the built program as a whole: each status with its line, the limits and one beyond each, which of two causes is told,
the orders, whole reports byte for byte (tools/reports.txt), and runs of ample size, which have to be Done. `.ci/run` calls it behind `rt ci`, on each way the
program was built.

usage: check_program.py PROGRAM

What is wanted is written out here, or worked out from the rules that docs/MACHINE.md and README.md state, by other means than
the program's. Each answer that isn't the wanted one is printed, and the exit status is 1.
"""
import os
import subprocess
import sys

USAGE = {k: f"m386: usage fault {k} {name}\n" for k, name in enumerate(["Command", "Line", "Value", "Cpus", "Budget"], 1)}
IMAGE = {
    n: f"m386: image fault {n} {name}\n"
    for n, name in enumerate(
        ["ShortHeader", "Magic", "Version", "MemorySize", "Processors", "Flags", "Truncated", "PlanOrder", "Section", "Trailing"], 1
    )
}
MOST_BYTES = 20_971_520
MOST_MEMORY = 16_777_216
HALT = bytes([0xF4])
LOOP = bytes([0xEB, 0xFE])  # JMP to itself: a step of one cycle
FIRST = bytes.fromhex("b878563412a300200000f4")
ROUND = ["run", "--order=round"]


def image(code=FIRST, cpus=1, memory=16384, gdt=(0, 0), idt=(0, 0), more=(), plan=(), tasks=0):
    """An image whose processors all begin at 1000h, where the code stands, with further sections, a plan of (step, processor, vector) and the flags of those that start in a task."""
    sections = [(0x1000, code), *more]
    head = b"M386" + (1).to_bytes(2, "little") + bytes([cpus, tasks]) + memory.to_bytes(4, "little")
    head += gdt[0].to_bytes(4, "little") + gdt[1].to_bytes(2, "little") + idt[1].to_bytes(2, "little") + idt[0].to_bytes(4, "little")
    head += len(plan).to_bytes(4, "little") + len(sections).to_bytes(4, "little") + (0x1000).to_bytes(4, "little") * cpus + bytes(4 * (8 - cpus))
    head += b"".join(step.to_bytes(4, "little") + bytes([cpu, vector, 0xEE, 0xEE]) for step, cpu, vector in plan)
    return head + b"".join(at.to_bytes(4, "little") + len(data).to_bytes(4, "little") + data for at, data in sections)


def empty(memory):
    """An image of so much memory, with no section, whose processor begins at 0."""
    data = bytearray(image(memory=memory)[:64])
    data[28:36] = bytes(8)
    return bytes(data)


class Checks:
    """The calls of the program, and those that went wrong."""

    def __init__(self, program):
        self.program = os.path.abspath(program)
        self.made, self.wrong = 0, 0

    def want(self, holds, what):
        self.made += 1
        if not holds:
            self.wrong += 1
            print(f"WRONG: {what}"[:400])

    def call_for_bytes(self, words, data, status, line=""):
        """The output of a call, which has to end so, with this line on err, and with no output but at status 0."""
        ended = subprocess.run([self.program, *words], input=data, capture_output=True, timeout=120)
        out, err = ended.stdout, ended.stderr.decode()
        good = ended.returncode == status and err == line and bool(out) == (status == 0)
        shown = [w[:40] for w in words]
        self.want(good, f"{shown} on {len(data)} bytes: {status} {line!r} is wanted, and it was {ended.returncode} {err!r} with {len(out)} bytes written")
        return out

    def call(self, words, data, status, line=""):
        """The same, of an output that is text."""
        return self.call_for_bytes(words, data, status, line).decode()

    def run(self, words, data):
        """The lines of the report of a call that has to be Done."""
        return self.call([*ROUND, *words], data, 0).splitlines()


def cycles(lines):
    return [line.split() for line in lines if line.startswith("c ")]


def ends(lines):
    return [line.split() for line in lines if line.startswith("p ")]


def runs():
    """The runs of reports.txt: their names, images and words, and the reports that are wanted."""
    with open(os.path.join(os.path.dirname(os.path.abspath(__file__)), "reports.txt"), encoding="utf-8") as text:
        lines = text.read().splitlines()
    others = next(line for line in lines if line.startswith("#  "))[3:]
    for at, name in enumerate(lines):
        if name.startswith(("#", " ")):
            continue
        numbers, plan, sections, words, report = {}, [], [], [], []
        for line in lines[at + 1 :]:
            if not line.startswith(" "):
                break
            word, rest = line[1:].split(" ", 1) if " " in line[1:] else (line[1:], "")
            if word == "image":
                numbers = dict(part.split("=") for part in rest.split())
            elif word == "plan":
                fields = [int(field, 16) for field in rest.split()]
                plan = [tuple(fields[i : i + 3]) for i in range(0, len(fields), 3)]
            elif word == "at":
                address, data = rest.split(" ", 1)
                sections.append((int(address, 16), bytes.fromhex(data)))
            elif word == "words":
                words = rest.split()
            else:
                report.append(line[1:].replace("OTHERS", others) + "\n")
        gdt, idt = (tuple(int(n, 16) for n in numbers.get(table, "0:0").split(":")) for table in ("gdt", "idt"))
        (first, code), more = sections[0], sections[1:]
        assert first == 0x1000 and report, name
        yield name, image(code, int(numbers.get("cpus", "1")), gdt=gdt, idt=idt, more=more, plan=plan), words, "".join(report)


def reports(checks):
    """Each run of reports.txt writes its report."""
    made = 0
    for name, data, words, report in runs():
        made += 1
        checks.want(checks.call(["run", *words], data, 0) == report, f"the report of: {name}")
    checks.want(made == 19, f"19 runs are wanted, and there are {made}")


def statuses(checks):
    """Each status of a call, and its line."""
    one = image()
    for words, kind in [
        ([], 1), ([""], 1), (["Run"], 1), (["RUN"], 1), (["run "], 1), (["Asm"], 1), (["--order=round"], 1), (["--steps=3", "run"], 1),
        (["run", "run"], 2), ([*ROUND, ""], 2), ([*ROUND, "--", "3"], 2), ([*ROUND, "--frob=1"], 2), ([*ROUND, "run"], 2), ([*ROUND, "--steps"], 2), ([*ROUND, "--steps", "-1"], 2), ([*ROUND, "--steps", "--cpus=1"], 2), (["run", "--help"], 2), (["run", "-h"], 2),
        ([*ROUND, "-steps=3"], 2), (["run", "--steps=x", "--frob=1"], 2), (["run", "--order=seed", "--seed=1", "--seed=1"], 2), (["run", "--steps=x", "--order=round"], 3), ([*ROUND, "--Steps=3"], 2), ([*ROUND, "--order=round"], 2), ([*ROUND, "--cpus=1", "--cpus=1"], 2),
        ([*ROUND, "--seed=1", "--seed=1"], 2), ([*ROUND, "--steps=1", "--steps=1"], 2),
        (["run", "--seed=x"], 3), (["run", "--steps=x"], 3), (["run", "--order=thread"], 3), (["run", "--order=Threads"], 3), (["run", "--order="], 3), (["run", "--order=Round"], 3), (["run", "--order=rounds"], 3),
        (["run", "--order=seeds"], 3), (["run", "--order=list"], 3), ([*ROUND, "--steps="], 3), ([*ROUND, "--steps=x"], 3), ([*ROUND, "--steps=-1"], 3),
        ([*ROUND, "--steps=+1"], 3), ([*ROUND, "--steps=1 "], 3), ([*ROUND, "--steps= 1"], 3), ([*ROUND, "--steps=0x1"], 3), ([*ROUND, "--steps=1."], 3),
        ([*ROUND, "--cpus="], 3), ([*ROUND, "--cpus=0"], 3), ([*ROUND, "--seed="], 3), ([*ROUND, "--seed=x"], 3), ([*ROUND, "--steps=/"], 3), ([*ROUND, "--steps=:"], 3),
        ([*ROUND, "--cpus=2"], 4), ([*ROUND, "--cpus=8"], 4), (["run", "--cpus=2"], 4), (["run", "--order=threads", "--cpus=2"], 4),
    ]:
        checks.call(words, one, 2, USAGE[kind])
    for words, kind in [(["asm", "asm"], 2), (["asm", "--steps=3"], 2), (["asm", "--help"], 2), (["Soak"], 1), (["soak", "--steps=3"], 2), (["soak", "--seed"], 2), (["soak", "--seed=1", "--seed=1"], 2), (["soak", "--seed="], 3), (["soak", "--seed=x"], 3)]:
        checks.call(words, b"", 2, USAGE[kind])
    for words in [[b"\xff"], [b"run", b"--order=\xc3\x28"], [b"run", b"--order=round", b"--steps=\xed\xa0\x80"]]:
        checks.call(words, one, 11, "m386: words unreadable\n")
    edge(checks, one, 3, "m386: read fault\n", source=os.path.dirname(checks.program))
    edge(checks, one, 4, "m386: write fault\n", sink="/dev/full")


def spellings(checks):
    """A value is attached or a word of its own, and a last `--` asks for nothing."""
    one = image()
    wanted = checks.call([*ROUND, "--steps=3"], one, 0)
    for words in [["--steps", "3"], ["--steps=3", "--"], ["--steps", "003", "--cpus", "1", "--seed", "7"]]:
        checks.want(checks.call([*ROUND, *words], one, 0) == wanted, f"{words} ask for the same run")
    checks.want(checks.call(["run", "--steps", "3", "--order", "round"], one, 0) == wanted, "an order in a word of its own")
    checks.want(checks.call(["soak", "--seed", "3"], b"", 0) == checks.call(["soak", "--seed=3", "--"], b"", 0), "a seed in a word of its own")


def edge(checks, data, status, line, source=None, sink=None, words=(*ROUND, "--steps=3")):
    """A call whose input or output fails."""
    given = os.open(source, os.O_RDONLY) if source else subprocess.PIPE
    with open(sink or os.devnull, "wb") as out:
        ended = subprocess.run([checks.program, *words], stdin=given if source else None, input=None if source else data, stdout=out, stderr=subprocess.PIPE, timeout=120)
    if source:
        os.close(given)
    checks.want((ended.returncode, ended.stderr.decode()) == (status, line), f"a failing edge: {status} is wanted, and it was {ended.returncode} {ended.stderr!r}")


def limits(checks):
    """The greatest number of each kind is taken, and one more refused."""
    one, eight = image(), image(HALT, cpus=8)
    for words in [["--steps=0"], ["--steps=1"], ["--steps=65536"], ["--cpus=1"], ["--steps=00000000000000065536"], ["--seed=0"], ["--seed=18446744073709551615"]]:
        checks.run(words, one)
    for word in ["--steps=65537", "--steps=000000000000000000003", "--steps=4294967299", "--steps=18446744073709551619", "--seed=18446744073709551616",
                 "--seed=99999999999999999999", "--seed=100000000000000000000", "--cpus=9", "--cpus=257", "--steps=" + "9" * 50_000]:
        checks.call([*ROUND, word], one, 2, USAGE[3])
    for words in [["--cpus=8", "--steps=32768"], ["--steps=32768"], ["--cpus=4", "--steps=65536"], ["--cpus=5", "--steps=52428"], ["--cpus=7", "--steps=37449"]]:
        checks.run(words, eight)
    for words in [["--cpus=8", "--steps=32769"], ["--steps=32769"], ["--cpus=5", "--steps=65536"], ["--cpus=5", "--steps=52429"], ["--cpus=7", "--steps=37450"], ["--steps=65536"]]:
        checks.call([*ROUND, *words], eight, 2, USAGE[5])
    checks.call(["run", "--steps=65536"], eight, 2, USAGE[5])
    checks.want(ends(checks.run([], image(LOOP)))[0][4] == "1000", "1,000 steps where no word bounds them")
    checks.want([len(ends(checks.run(["--steps=1", *words], eight))) for words in ([], ["--cpus=3"])] == [8, 3], "all processors, and the first three")
    for memory, taken in [(0, False), (4095, False), (4096, True), (4097, False), (8192, True), (MOST_MEMORY, True), (MOST_MEMORY + 4096, False), (2**32 - 4096, False)]:
        checks.call([*ROUND, "--steps=0"], empty(memory), *((0,) if taken else (5, IMAGE[4])))
    for cpus, taken in [(0, False), (1, True), (8, True)]:
        checks.call([*ROUND, "--steps=1"], image(HALT, cpus=cpus), *((0,) if taken else (5, IMAGE[5])))
    for cpus, tasks, taken in [(1, 1, True), (1, 2, False), (2, 3, True), (2, 4, False), (7, 0x7F, True), (7, 0x80, False), (8, 0xFF, True)]:
        checks.call([*ROUND, "--steps=1"], image(HALT, cpus=cpus, tasks=tasks), *((0,) if taken else (5, IMAGE[6])))
    nine = bytearray(eight)
    nine[6] = 9
    checks.call([*ROUND, "--steps=1"], bytes(nine), 5, IMAGE[5])
    checks.call(ROUND, bytes(MOST_BYTES), 5, IMAGE[2])
    checks.call(ROUND, bytes(MOST_BYTES + 1), 7, "m386: input too long\n")


def causes(checks):
    """Where two causes stand together, which is told."""
    one, bad = image(), image()[:-1]
    for words, data, kind in [(["Run", "--frob"], one, 1), (["run", "--steps=x", "--frob"], one, 2), (["run", "--steps=x"], bad, 3), ([], b"", 1),
                              (["run", "--order=seed", "--order=x"], b"", 2), ([*ROUND, "--steps=65537", "--cpus=2"], one, 3), ([*ROUND, "--cpus=8", "--steps=65536"], one, 4)]:
        checks.call(words, data, 2, USAGE[kind])
    checks.call([*ROUND, "--cpus=8", "--steps=65536"], bad, 5, IMAGE[7])
    checks.call([*ROUND, "--cpus=2"], b"", 5, IMAGE[1])
    checks.call(["Run"], bytes(MOST_BYTES + 1), 2, USAGE[1])
    for data, fault in [(one[:63], 1), (bad, 7), (one + b"\0", 10)]:
        checks.call([*ROUND, "--steps=3"], data, 5, IMAGE[fault])


def drawn(seed, count, made):
    """The processors that the written rule draws, none of which is ever passed over."""
    for _ in range(made):
        seed = (seed * 6364136223846793005 + 1442695040888963407) % 2**64
        yield (seed >> 33) % count


def orders(checks):
    """Who makes each cycle, where no processor finishes: in turn, or as the seed draws."""
    for cpus in (1, 2, 3, 8):
        lines = cycles(checks.run(["--steps=50"], image(LOOP, cpus=cpus)))
        checks.want([int(c[1]) for c in lines] == [i % cpus for i in range(50 * cpus)], f"{cpus} processors in turn")
    for word, seed in [([], 1), (["--seed=1"], 1), (["--seed=0"], 0), (["--seed=2"], 2), (["--seed=18446744073709551615"], 2**64 - 1)]:
        for cpus in (2, 3, 8):
            lines = cycles(checks.call(["run", "--order=seed", "--steps=500", *word], image(LOOP, cpus=cpus), 0).splitlines())
            front = [int(c[1]) for c in lines[:400]]
            checks.want(front == list(drawn(seed, cpus, 400)), f"{cpus} processors drawn by seed {seed}")


def first_drawn(checks):
    """Of two processors the first number drawn names 0 from seed 1, the seed where none is given, and 1 from seed 3."""
    for words, begin in [(["--order=seed", "--steps=1"], ["cpus 2", "c 0 "]), (["--seed=3", "--order=seed", "--steps=1"], ["cpus 2", "c 1 "]),
                         (["--cpus=1", "--order=seed", "--steps=1"], ["cpus 1", "c 0 "])]:
        lines = checks.call(["run", *words], image(LOOP, cpus=2), 0).splitlines()
        checks.want(lines[1].endswith(begin[0]) and lines[2].startswith(begin[1]), f"{words}: {lines[1:3]}")


def threads(checks):
    """Processors in threads, which is what no order means: each makes its cycles, whoever comes first, and one alone makes the run that it makes in turn."""
    for words in (["run"], ["run", "--order=threads"], ["run", "--seed=3"]):
        one = checks.call([*words, "--steps=3"], image(), 0)
        checks.want(one == checks.call([*ROUND, "--steps=3"], image(), 0), f"one processor alone: {words}")
        for cpus in (2, 3, 8):
            lines = checks.call([*words, "--steps=50"], image(LOOP, cpus=cpus), 0).splitlines()
            made = sorted(int(c[1]) for c in cycles(lines))
            checks.want(made == sorted(list(range(cpus)) * 50) and lines[-1] == "clean", f"{cpus} processors by {words}")
    # Each adds to one byte under LOCK, four times: no group is split, so nothing is lost.
    lines = checks.call(["run", "--steps=4"], image(bytes.fromhex("f0fe0500200000" * 4), cpus=8), 0).splitlines()
    checks.want([c[-1] for c in cycles(lines) if c[5] == "data" and c[3] == "w"] == [f"{n:08x}" for n in range(1, 33)], "32 additions under LOCK")


def schedulers(number):
    """The source text of the image that is made from a number."""
    cpus, workers = 2 + number % 3, 1 + number // 3 % 4
    tasks = range(cpus + workers)
    lines = [".memory 65536", f".cpus {cpus}", f".gdt 0x1000 {8 * (3 + len(tasks)) - 1}", ".idt 0x2000 0x107"]
    lines += [f".task {p} {24 + 8 * p}" for p in range(cpus)]
    lines += [f".plan {p} {50 * k} 32" for p in range(cpus) for k in range(1, 11)]
    lines += [".org 0x1000", ".desc 0 0 0 0", ".desc 0 0xfffff 0x9a 0xc", ".desc 0 0xfffff 0x92 0xc"]
    lines += [f".desc {0x3000 + 0x80 * task} 0x67 0x89 0" for task in tasks]
    lines += [".org 0x2068", ".gate 8 0x5000 0x8f 0", ".org 0x2100", ".gate 8 0x5100 0x8e 0"]
    for task in tasks:
        begin = 0x4000 + 0x100 * task if task < cpus else 0x4800 + 0x100 * (task - cpus)
        lines += [f".org {0x3000 + 0x80 * task}", f".tss eip={begin} efl=0x202 esp={0x9000 + 0x400 * task} cs=8 ss=0x10 ds=0x10"]
    for p in range(cpus):
        lines += [f".org {0x4000 + 0x100 * p}", f"s{p}: lock inc dword [0x8000]", *[f"call {24 + 8 * (cpus + i)}:0" for i in range(workers)], f"jmp s{p}"]
    for i in range(workers):
        lines += [f".org {0x4800 + 0x100 * i}", f"w{i}: lock inc dword [{0x8004 + 4 * i}]", "iret", f"jmp w{i}"]
    lines += [".org 0x5000", "add esp, 4", "add dword [esp], 7", "iret", ".org 0x5100", "iret"]
    return "\n".join(lines).encode()


def soaks(checks):
    """The line of a soak: what it counts is counted in the report of the same run, of an image that `asm` makes of the text; and the input isn't read."""
    for number in (*range(12), 2**64 - 1):
        line = checks.call(["soak", f"--seed={number}"], b"", 0)
        made = checks.call_for_bytes(["asm"], schedulers(number), 0)
        report = checks.call(["run", "--order=seed", f"--seed={number}", "--steps=1000"], made, 0).splitlines()
        claims = [c for c in cycles(report) if c[5].startswith("claim")]
        tasks = [t for t in report if t.startswith("t ")]
        wanted = f"soak {number} cpus {2 + number % 3} tasks {len(tasks)} cycles {len(cycles(report))} claims {len(claims)} {report[-1]}\n"
        checks.want(line == wanted and claims and tasks, f"the line of the soak {number}: {line!r} for {wanted!r}")
        checks.want(checks.call(["run", "--steps", "2000"], made, 0).splitlines()[-1] == "clean", f"a clean run in threads of the image {number}")
    checks.want(checks.call(["soak"], b"", 0) == checks.call(["soak", "--seed=1"], b"", 0), "no seed is the seed 1")
    edge(checks, b"", 4, "m386: write fault\n", sink="/dev/full", words=["soak"])
    edge(checks, b"", 0, "", source=os.path.dirname(checks.program), words=["soak"])


KINDS = ["Ascii", "Token", "Number", "Mnemonic", "Operands", "UnknownName", "NameTwice", "Directive", "Arguments", "HeaderTwice", "HeaderMissing", "Range", "Overlap", "PlanOrder"]
HEADERS = ".memory 16384\n.cpus 1\n"
FIRST_TEXT = HEADERS + ".bare 0 begin ; no task\n.org 0x1000\nbegin: mov eax, 0x12345678\n\tmov [0x2000], eax\n\thlt\n"


def texts(checks):
    """The image of a source text, one text for each kind of fault, and what the edges and the length of the input do to `asm`."""
    for text in (FIRST_TEXT, FIRST_TEXT[:-1]):
        checks.want(checks.call_for_bytes(["asm"], text.encode(), 0) == image(), "the image of a text")
    checks.want(checks.call_for_bytes(["asm", "--"], FIRST_TEXT.encode(), 0) == image(), "the same behind a last --")
    faults = [
        "hlt \x7f", "mov eax, #1", "mov eax, 08", "frob", "mov eax", "mov eax, x", "x = 1\nx = 1", ".frob 1", ".byte", ".cpus 1", None, ".byte 256", ".org 16\n.org 15", ".plan 0 5 33\n.plan 0 5 33",
    ]
    for number, (kind, lines) in enumerate(zip(KINDS, faults), 1):
        text = ".memory 16384\n" if lines is None else HEADERS + lines
        line = 2 if lines is None else text.count("\n") + 1
        checks.call(["asm"], text.encode(), 6, f"m386: line {line}: fault {number} {kind}\n")
    checks.call(["asm"], b"", 6, "m386: line 1: fault 11 HeaderMissing\n")
    checks.call(["asm"], FIRST_TEXT.encode() + bytes(MOST_BYTES + 1 - len(FIRST_TEXT)), 7, "m386: input too long\n")
    checks.call(["asm"], FIRST_TEXT.encode() + b";" * (MOST_BYTES - len(FIRST_TEXT) - 1) + b"\x7f", 6, "m386: line 8: fault 1 Ascii\n")
    edge(checks, None, 3, "m386: read fault\n", source=os.path.dirname(checks.program), words=["asm"])
    edge(checks, FIRST_TEXT.encode(), 4, "m386: write fault\n", sink="/dev/full", words=["asm"])


def ample(checks):
    """Runs of ample size are Done, and whole."""
    checks.want(len(cycles(checks.run(["--steps=10000"], image(LOOP)))) == 10_000, "10,000 cycles")
    checks.want(ends(checks.run(["--steps=65536"], image(LOOP)))[0][4] == "65536", "65,536 steps")
    checks.want(len(cycles(checks.run(["--steps=32768"], image(LOOP, cpus=8)))) == 262_144, "262,144 cycles of eight processors")
    last = MOST_MEMORY - 4
    store = bytes.fromhex("b878563412a3") + last.to_bytes(4, "little") + b"\xa1" + last.to_bytes(4, "little")
    lines = checks.run(["--steps=3"], image(store, memory=MOST_MEMORY))
    checks.want(cycles(lines)[-1] == f"c 0 m r . data 00 {last:08x} f 12345678".split(), "the last doubleword of 16 MB")
    checks.want(lines[1] == "memory 01000000 cpus 1", "16 MB")
    whole = image(LOOP, memory=MOST_MEMORY, more=[(0x2000, bytes(MOST_MEMORY - 0x2000 - 1) + b"\x77")])
    checks.want(ends(checks.run(["--steps=2"], whole))[0][4] == "2", "a section of nearly 16 MB")
    load = b"\xa1\x02\x20\x00\x00\xa1\x00\x30\x00\x00"
    three = image(load, more=[(0x2000, bytes.fromhex("0000a1b2c3d4")), (0x3000, bytes.fromhex("11223344"))])
    seen = [c[-1] for c in cycles(checks.run(["--steps=2"], three)) if c[5] == "data"]
    checks.want(seen == ["b2a10000", "0000d4c3", "44332211"], f"three sections: {seen}")
    many = image(LOOP, more=[(0x2000 + 2 * i, bytes([i % 256])) for i in range(4096)])
    checks.want(ends(checks.run(["--steps=2"], many))[0][4] == "2", "4,097 sections")


# MOV ESP, 2000h; STI; HLT; HLT, an IRET as the handler of vector 20h, flat code and data, and the interrupt gate: examples/timer.img.
TIMER = {
    "code": bytes.fromhex("bc00200000fbf4f4"),
    "gdt": (0x1800, 0x17),
    "idt": (0x1900, 0x107),
    "more": [(0x1100, b"\xcf"), (0x1808, bytes.fromhex("ffff0000009acf00ffff00000092cf00")), (0x1A00, bytes.fromhex("00110800008e0000"))],
}


def plans(checks):
    """Which plans are an image's, and what a planned interrupt does."""
    for entries, cpus, taken in [
        ([(0, 0, 0)], 1, True), ([(2**32 - 1, 0, 255)], 1, True), ([(0, 1, 32)], 1, False), ([(0, 255, 32)], 8, False), ([(0, 7, 32)], 8, True),
        ([(1, 0, 32), (2, 0, 32)], 1, True), ([(1, 0, 32), (1, 0, 33)], 1, False), ([(2, 0, 32), (1, 0, 32)], 1, False),
        ([(9, 0, 32), (0, 1, 32)], 2, True), ([(0, 1, 32), (9, 0, 32)], 2, False), ([(i, 0, i % 256) for i in range(5_000)], 1, True),
    ]:
        checks.call([*ROUND, "--steps=0"], image(HALT, cpus=cpus, plan=entries), *((0,) if taken else (5, IMAGE[8])))
    disordered = image(HALT, plan=[(1, 0, 32), (1, 0, 32)], more=[(0x900, b"")])
    checks.call([*ROUND, "--steps=0"], disordered, 5, IMAGE[8])
    checks.call([*ROUND, "--steps=0"], disordered[:-1], 5, IMAGE[7])
    with open(os.path.join(os.path.dirname(os.path.abspath(__file__)), "..", "examples", "timer.img"), "rb") as example:
        data = example.read()
    made = bytearray(image(plan=[(3, 0, 32)], **TIMER))
    made[70:72] = bytes(2)
    checks.want(data == bytes(made), "examples/timer.img is what its text says")
    lines = checks.run(["--steps=6"], data)
    roles = [c[5] for c in cycles(lines)]
    checks.want(roles == ["fetch"] * 4 + ["idt", "idt", "gdt", "gdt", "gdtacc", "push", "push", "push", "fetch", "pop", "pop", "flags", "gdt", "gdt", "fetch"], f"a planned interrupt: {roles}")
    checks.want(ends(lines)[0][2:8] == ["halted", "steps", "6", "eip", "00001008", "efl"], "and the halted processor that it woke")
    # Before step 3 IF is clear, or the shadow of STI stands: an earlier request waits, and is taken behind HLT. A later one finds the processor halted there.
    for step in (0, 1, 2, 3, 9):
        pushed = [c[9] for c in cycles(checks.run(["--steps=12"], image(plan=[(step, 0, 32)], **TIMER))) if c[5] == "push"]
        checks.want(pushed == ["00000202", "00000008", "00001007"], f"an entry of step {step}: {pushed}")
    two = [c[9] for c in cycles(checks.run(["--steps=20"], image(plan=[(0, 0, 32), (1, 0, 32)], **TIMER))) if c[5] == "push"]
    checks.want(two == ["00000202", "00000008", "00001007"] * 2, f"of two entries that are due the second waits until the first's handler has returned: {two}")


def tss(base, access=0x89):
    """The descriptor of a TSS with the limit 67h."""
    return bytes([0x67, 0, *base.to_bytes(3, "little"), access, 0, base >> 24])


def three_tasks(first, second=HALT, cpus=1, third=None, stack=0x10, trap=0):
    """An image of the tasks 18h, 20h and 28h, whose code stands at 4000h, 4100h and 4180h. Processor 0 starts in the first, and one more in the second, whose
    SS is `stack` and whose T bit is `trap`. The descriptor of the third may be another. IRET at 4200h is the handler of vector 20h. Vector 8 leads to the second task, and the
    gate of vector 13 isn't present."""
    wide = lambda access: bytes.fromhex("ffff000000") + bytes([access]) + bytes.fromhex("cf00")
    table = bytes(8) + wide(0x9A) + wide(0x92) + tss(0x3000) + tss(0x3080) + (third or tss(0x3100)) + wide(0xF2) + wide(0xFA)

    def state(eip, esp, ss=0x10, trap=0):
        fields = {0x20: eip, 0x24: 2, 0x38: esp, 0x4C: 8, 0x50: ss, 0x54: 0x10, 0x64: trap}
        return b"".join(fields.get(at, 0).to_bytes(4, "little") for at in range(0, 104, 4))

    data = bytearray(image(table, cpus=cpus, memory=65536, gdt=(0x1000, 0x3F), idt=(0x2000, 0x107), tasks=(1 << cpus) - 1, more=[
        (0x2040, bytes.fromhex("0000200000850000")), (0x2068, bytes.fromhex("00420800000e0000")), (0x2100, bytes.fromhex("00420800008e0000")), (0x3000, state(0x4000, 0x5000)), (0x3080, state(0x4100, 0x6000, stack, trap)), (0x3100, state(0x4180, 0x7000)),
        (0x4000, first), (0x4100, second), (0x4180, HALT), (0x4200, bytes([0xCF])),
    ]))
    for cpu in range(cpus):
        data[32 + 4 * cpu:36 + 4 * cpu] = (0x18 + 8 * cpu).to_bytes(4, "little")
    return bytes(data)


def words(line):
    """The words of a processor's line by the names before them."""
    return dict(zip(line[5:], line[6:]))


def switches(checks):
    """Each way into a task switch, and where it fails: what is read and written, in which task the fault is, and who holds what."""
    jump, call = (lambda task: bytes([0xEA, 0, 0, 0, 0, task, 0])), (lambda task: bytes([0x9A, 0, 0, 0, 0, task, 0]))

    def of(steps, data, order="round", seed=None):
        lines = checks.call(["run", f"--order={order}", f"--steps={steps}", *([f"--seed={seed}"] if seed is not None else [])], data, 0).splitlines()
        return lines, cycles(lines), [words(line) for line in ends(lines)]

    def fault(what, processor, eip, tr, code):
        at = {"eip": processor["eip"], "tr": processor["tr"], "pending": processor["pending"]}
        checks.want(at == {"eip": eip, "tr": tr, "pending": code[:2]} and processor.get(code[:2], code[3:]) == code[3:], f"{what}: {at} {code}")

    lines, made, p = of(2, three_tasks(jump(0x28), third=bytes([0x66]) + tss(0x3100)[1:]))
    checks.want([" ".join(c[3:]) for c in made[-6:]] == [
        "r . fetch 00 00004000 f 000000ea", "r . fetch 00 00004004 f 00002800", "r . gdt 00 00001028 f 31000066", "r + gdt 00 0000102c f 00008900",
        "r . tss 00 00001028 f 31000066", "r + tss 00 0000102c f 00008900"] and lines[-1] == "clean", f"a limit below 103: {made[-6:]}")
    fault("a limit below 103", p[0], "00004000", "0018", "0a 0028")
    lines, made, p = of(2, three_tasks(jump(0x20), cpus=2))
    checks.want(["r", "+", "tss", "00", "00001024", "f", "00008b00"] in [c[3:] for c in made if c[1] == "0"] and p[1]["tr"] == "0020", "a task that is busy elsewhere")
    fault("a task that is busy elsewhere", p[0], "00004000", "0018", "0d 0020")
    lines, made, p = of(2, three_tasks(jump(0x20), stack=0x30))
    checks.want([" ".join(c[3:]) for c in made[-2:]] == ["r . gdt 00 00001030 f 0000ffff", "r + gdt 00 00001034 f 00cff200"], f"a stack of another level: {made[-2:]}")
    fault("a stack of another level", p[0], "00004100", "0020", "0a 0030")
    lines, made, p = of(2, three_tasks(call(0x18)))
    own = made[[c[5] for c in made].index("fetch"):]
    checks.want("w" not in [c[3] for c in own] and [c[5] for c in own[-2:]] == ["tss", "tss"], f"the task itself: no write behind its start: {own}")
    fault("the task itself", p[0], "00004000", "0018", "0d 0018")
    lines, made, p = of(5, three_tasks(call(0x20) + HALT, second=bytes.fromhex("cd20cf")))
    both = [c[5] for c in made if c[7:] == ["00005ffc", "f", "00004002"]]
    checks.want(both == ["push", "flags"] and (p[0]["eip"], p[0]["tr"], lines[-1]) == ("00004007", "0018", "clean"), f"a nested task and an interrupt gate: {both} {p}")
    lines, made, p = of(4, three_tasks(bytes.fromhex("cd40")))
    seen = [" ".join(c[3:]) for c in made if c[5] in ("link", "push") or c[5:7] == ["save", "08"]]
    checks.want(seen == ["w . save 08 00003020 f 00004000", "w . link 00 00003080 3 00000018", "w . push 00 00005ffc f 00000000"] and lines[-1] == "clean", f"a double fault through a task gate: {seen}")
    at = [p[0][name] for name in ("eip", "esp", "tr", "pending")]
    checks.want(at == ["00004100", "00005ffc", "0020", "none"], f"a double fault through a task gate ends in the second task: {at}")
    for trap, pending in ((1, "01"), (0xFFFE, "none")):
        lines, made, p = of(2, three_tasks(jump(0x20), trap=trap))
        at = [p[0][name] for name in ("eip", "tr", "pending")]
        checks.want(at == ["00004100", "0020", pending] and p[0].get(pending, "-") == "-" and lines[-1] == "clean", f"the field of the T bit is {trap}: {at}")
    # Two processors want the third task, in any order: one claims it, and the other finds it busy.
    for order, seed in [("round", None), *(("seed", seed) for seed in range(1, 9))]:
        lines, made, p = of(2, three_tasks(jump(0x28), second=jump(0x28), cpus=2), order, seed)
        came = [cpu for cpu in (0, 1) if p[cpu]["tr"] == "0028"]
        checks.want(len(came) == 1 and len([c for c in made if c[5] == "claimjmp"]) == 1 and lines[-1] == "clean", f"one claimant by {order} {seed}: {p}")
        for cpu in {0, 1} - set(came):
            fault(f"the other claimant by {order} {seed}", p[cpu], ("00004000", "00004100")[cpu], ("0018", "0020")[cpu], "0d 0028")


def task(eip, esp=0x3000, cs=8, ss=0x10):
    """The 104 bytes of a TSS whose task begins at an offset, with DS and ES as SS."""
    fields = {0x20: eip, 0x24: 2, 0x38: esp, 0x48: ss, 0x4C: cs, 0x50: ss, 0x54: ss}
    return b"".join(fields.get(at, 0).to_bytes(4, "little") for at in range(0, 104, 4))


# CALL 0020h:0 and HLT at 1000h, IRET at 1100h; code and data of 4 GiB at 0008h and 0010h, tasks at 0018h and 0020h. Processor 0 starts in the first.
CALLER = bytes.fromhex("9a000000002000f4")
TASKS = dict(gdt=(0x1800, 0x27), tasks=1, more=[
    (0x1100, bytes([0xCF])), (0x1808, bytes.fromhex("ffff0000009bcf00ffff00000093cf00") + tss(0x1900) + tss(0x1980)), (0x1900, task(0x1000)), (0x1980, task(0x1100)),
])
ENTERED = ["load"] * 18 + ["gdt"] * 8  # fields 8 to 25, and the descriptors of CS, SS, DS and ES, which are marked accessed


def starting(word, more=TASKS["more"], **others):
    """The image of TASKS, whose processor starts by this start word."""
    data = bytearray(image(CALLER, **{**TASKS, "more": more, **others}))
    data[32:36] = word.to_bytes(4, "little")
    return bytes(data)


def starts(checks):
    """A processor that starts in a task, calls another and comes back; and starts that fail."""
    with open(os.path.join(os.path.dirname(os.path.abspath(__file__)), "..", "examples", "tasks.img"), "rb") as example:
        data = example.read()
    checks.want(data == starting(0x18), "examples/tasks.img is what its text says")
    lines = checks.run(["--steps=4"], data)
    made = cycles(lines)
    wanted = ["tss", "tss", "claimstart", *ENTERED, "fetch", "fetch", "gdt", "gdt", "tss", "tss", "claimcall", *["save"] * 16, "link", *ENTERED]
    wanted += ["fetch", "back", "tss", "tss", *["save"] * 16, "relret", "relret", *ENTERED, "fetch"]
    checks.want([c[5] for c in made] == wanted, f"a start, a call and a return: {[c[5] for c in made]}")
    by = lambda role, part="00": [(c[3], c[7], c[9]) for c in made if c[5] == role and c[6] == part]
    checks.want(by("claimstart") == [("w", "0000181c", "00008b00")], "the start claims its task")
    checks.want(by("claimcall") == [("w", "00001824", "00008b00")], "CALL claims the other")
    checks.want(by("save", "08") == [("w", "00001920", "00001007"), ("w", "000019a0", "00001101")], "EIP is saved behind the instruction")
    checks.want(by("save", "09") == [("w", "00001924", "00000002"), ("w", "000019a4", "00000002")], "IRET saves NT clear")
    checks.want(by("link") == [("w", "00001980", "00000018")] and by("back") == [("r", "00001980", "00000018")], "the link leads back")
    checks.want(by("relret") == [("r", "00001824", "00008b00"), ("w", "00001824", "00008900")], "IRET frees its task")
    checks.want(by("load", "08") == [("r", "00001920", "00001000"), ("r", "000019a0", "00001100"), ("r", "00001920", "00001007")], "EIP is loaded")
    checks.want(ends(lines)[0][2:8] == ["halted", "steps", "4", "eip", "00001008", "efl"] and lines[-1] == "clean", f"the end of both tasks: {lines[-2:]}")
    checks.want(checks.run(["--steps=4"], starting(0xFFFF0018)) == lines, "the high half of a selector is ignored")
    # A start whose row of 2 to 7 fails ends in shutdown, behind what it read; one whose row of 8 to 19 fails has its fault pending in the task.
    busy = [(at, data.replace(tss(0x1900), tss(0x1900, 0x8B))) for at, data in TASKS["more"]]
    absent = [(at, data.replace(tss(0x1900), tss(0x1900, 0x09))) for at, data in TASKS["more"]]
    short = [(at, data.replace(tss(0x1900), b"\x66" + tss(0x1900)[1:])) for at, data in TASKS["more"]]
    for what, data, roles in [("null", starting(0), []), ("in the LDT", starting(0x1C), []), ("outside the GDT", starting(0x28), []), ("code", starting(8), ["tss", "tss"]),
                              ("busy", starting(0x18, busy), ["tss", "tss"]), ("absent", starting(0x18, absent), ["tss", "tss"]), ("a byte short", starting(0x18, short), ["tss", "tss"])]:
        lines = checks.run(["--steps=4"], data)
        checks.want([c[5] for c in cycles(lines)] == roles and ends(lines)[0][2:5] == ["shutdown", "steps", "1"], f"a start in a task that is {what}: {lines[2:]}")
    for what, tss_bytes, more, code in [("SS of another level", task(0x1000, ss=0x11), ["gdt"] * 4, ["0a", "0010"]), ("CS null", task(0x1000, cs=0), [], ["0a", "0000"])]:
        lines = checks.run(["--steps=1"], starting(0x18, [(at, tss_bytes if at == 0x1900 else data) for at, data in TASKS["more"]]))
        checks.want([c[5] for c in cycles(lines)] == ["tss", "tss", "claimstart", *["load"] * 18, *more], f"a start with {what}: {[c[5] for c in cycles(lines)]}")
        checks.want(ends(lines)[0][-2:] == code and ends(lines)[0][2] == "running", f"a start with {what}: {ends(lines)}")


def verdicts(checks):
    """The last line, by the limit of the GDT and where it lies, by its tasks, and by what the program does."""
    for gdt, idt, line in [((0, 0), (0, 0), "clean"), ((0, 14), (0, 0xFFFF), "clean"), ((0, 15), (0, 0), "clean"), ((0x3FF1, 14), (0, 0), "clean"),
                           ((0x3FF2, 14), (0, 0), "unclean rule 1"), ((0x2003, 0), (0, 0), "unclean rule 7 at 4"), ((0x2004, 0), (0x2000, 3), "clean")]:
        lines = checks.run(["--steps=3"], image(gdt=gdt, idt=idt))
        checks.want(lines[-1] == line, f"GDT {gdt}, IDT {idt}: {line} is wanted, and it was {lines[-1]}")
    # Two TSSs by the descriptors 0008 and 0010 of a GDT at 1800h. The program stores four bytes at 2000h by its fifth cycle.
    for one, other, line in [
        (tss(0x3000), tss(0x3068), "clean"), (tss(0x3000), tss(0x3000), "unclean rule 4"), (tss(0x3067), tss(0x3000), "unclean rule 4"),
        (tss(0x3000), tss(0x3F99), "unclean rule 2"), (tss(0x3000), tss(0x3F98), "clean"), (tss(0x1799), tss(0x3000), "unclean rule 3"),
        (tss(0x1798), tss(0x3000), "clean"), (tss(0x3000), tss(0x3100, 0x8B), "unclean rule 5"), (tss(0x3000), tss(0x3000, 0x0B), "clean"),
        (tss(0x3000), tss(0x2003), "unclean rule 7 at 4"), (tss(0x1F99), tss(0x3000), "unclean rule 7 at 4"), (tss(0x1F98), tss(0x2004), "clean"),
    ]:
        lines = checks.run(["--steps=3"], image(gdt=(0x1800, 0x17), more=[(0x1808, one + other)]))
        checks.want(lines[-1] == line, f"TSSs {one.hex()} and {other.hex()}: {line} is wanted, and it was {lines[-1]}")
    # LGDT [2000h] reads its six bytes by the third cycle. POPF takes 4002h from the stack by the seventh.
    for code, line in [("0f011500200000f4", "unclean rule 6 at 2"), ("bc0020000068024000009d", "unclean rule 8 at 6")]:
        lines = checks.run(["--steps=3"], image(bytes.fromhex(code)))
        checks.want(lines[-1] == line, f"{code}: {line} is wanted, and it was {lines[-1]}")


def main():
    checks = Checks(sys.argv[1])
    for part in (statuses, spellings, reports, limits, causes, orders, first_drawn, threads, texts, soaks, ample, plans, switches, starts, verdicts):
        part(checks)
    print(f"{sys.argv[1]}: {checks.made} checks of the program, {checks.wrong} wrong")
    return 1 if checks.wrong else 0


if __name__ == "__main__":
    sys.exit(main())
