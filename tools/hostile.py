#!/usr/bin/env python3
"""Runs the program on broken images, broken source texts and odd words, and prints which status came how often.

usage: hostile.py PROGRAM IMAGE [CHANGES [SEED]]

PROGRAM is the built program, IMAGE an image with one section that it runs, CHANGES how many random changes of the image
and of the source texts in examples/ are tried (3000).
Every answer has to be one that the table of statuses names: its number, its text on err, and nothing on out but at
status 0, where a whole report, image or line stands there, and at 4, where a front of it does. Any other answer is printed, and ends
this script with status 1.
"""
import glob
import os
import random
import re
import subprocess
import sys
from collections import Counter

REPORT = re.compile(
    rb"m386 report 1\nmemory [0-9a-f]{8} cpus \d\n(c [0-7] [^\n]*\n)*(p [0-7] [^\n]*\n)+(t [^\n]*\n)*(clean|unclean [^\n]*)\n\Z"
)
SOAK = re.compile(rb"soak \d+ cpus [2-4] tasks [3-8] cycles \d+ claims \d+ (clean|unclean rule \d+( at \d+)?)\n\Z")
MADE = re.compile(rb"M386\x01\x00.*", re.S)
FAULTY = re.compile(
    rb"m386: line \d+: fault (1 Ascii|2 Token|3 Number|4 Mnemonic|5 Operands|6 UnknownName|7 NameTwice|8 Directive|9 Arguments|10 HeaderTwice|11 HeaderMissing|12 Range|13 Overlap|14 PlanOrder)\n"
)
USAGE = [b"1 Command", b"2 Line", b"3 Value", b"4 Cpus", b"5 Budget"]
IMAGE = [
    b"1 ShortHeader", b"2 Magic", b"3 Version", b"4 MemorySize", b"5 Processors",
    b"6 Flags", b"7 Truncated", b"8 PlanOrder", b"9 Section", b"10 Trailing",
]
TEXTS = {
    0: [b""],
    1: [b"m386: out of memory\n"],
    2: [b"m386: usage fault " + name + b"\n" for name in USAGE],
    3: [b"m386: read fault\n"],
    4: [b"m386: write fault\n"],
    5: [b"m386: image fault " + name + b"\n" for name in IMAGE],
    7: [b"m386: input too long\n"],
    11: [b"m386: words unreadable\n"],
}
RUN = ["run", "--order=round", "--steps=3"]
MOST = 20_971_520


class Folder:
    """A folder as an input, each read of which fails."""

    def __init__(self, path):
        self.handle = os.open(path, os.O_RDONLY)

    def __enter__(self):
        return self.handle

    def __exit__(self, *_):
        os.close(self.handle)


class Tries:
    """Calls of the program, counted by group, status and text."""

    def __init__(self, program):
        self.program = program
        self.seen = Counter()
        self.bad = []

    def call(self, group, words, data):
        """A call whose input, output and err are pipes that serve."""
        ended = subprocess.run([self.program, *words], input=data, capture_output=True, timeout=120)
        status, out, err = ended.returncode, ended.stdout, ended.stderr
        named = bool(FAULTY.fullmatch(err)) if status == 6 else err in TEXTS.get(status, [])
        form = {"soak": SOAK, "asm": MADE}.get(words[0] if words else "", REPORT)
        shape = bool(form.fullmatch(out)) if status == 0 else out == b""
        self.count(group, status, err, named and shape, words, out)

    def call_over(self, group, wanted, path, out=subprocess.PIPE, err=subprocess.PIPE):
        """A call that runs the image over these files, and has to end with the wanted status."""
        with Folder(path) if os.path.isdir(path) else open(path, "rb") as source:
            ended = subprocess.run([self.program, *RUN], stdin=source, stdout=out, stderr=err, timeout=120)
        text = TEXTS[wanted][0] if ended.stderr is not None else None
        named = ended.returncode == wanted and ended.stderr == text
        shape = wanted == 0 or not ended.stdout
        self.count(group, ended.returncode, ended.stderr or b"", named and shape, RUN, ended.stdout or b"")

    def count(self, group, status, err, good, words, out):
        self.seen[(group, status, err.decode(errors="replace").strip())] += 1
        if not good:
            self.bad.append((group, [w[:60] for w in words], status, out[:200], err[:200]))


def changed(image, chance):
    """A copy of the image with one to eight bytes replaced, put in or left out."""
    data = bytearray(image)
    for _ in range(chance.randint(1, 8)):
        place = chance.randrange(len(data) + 1)
        how = chance.randrange(4)
        if how == 0:
            data.insert(place, chance.randrange(256))
        elif how == 1 and place < len(data):
            del data[place]
        elif place < len(data):
            data[place] = chance.choice([0, 1, 0x7F, 0x80, 0xFF, chance.randrange(256)])
    return bytes(data)


def code_changed(image, chance):
    """A copy of the image whose code, the last eleven bytes, is random or begins with the jumps and moves known today."""
    code = bytes(chance.choice([0xA1, 0xA3, 0xB8, 0xE9, 0xEB, 0xF4, chance.randrange(256)]) for _ in range(11))
    return image[:-11] + code


def text_changed(text, chance):
    """A copy of the text with one to four pieces replaced, put in, left out or moved: bytes, words and whole lines."""
    for _ in range(chance.randint(1, 4)):
        lines = text.split(b"\n")
        place = chance.randrange(len(lines))
        how = chance.randrange(5)
        if how == 0:
            lines[place] = changed(lines[place], chance)
        elif how == 1:
            lines.insert(chance.randrange(len(lines) + 1), lines[place])
        elif how == 2:
            del lines[place]
        else:
            words = re.split(rb"([ ,:+*\[\]=]+)", lines[place])
            others = re.split(rb"([ ,:+*\[\]=]+)", chance.choice(lines))
            words[chance.randrange(len(words))] = chance.choice([*others, b"", b"-", b"0x", b"4294967296", b"4294967295", b"256", b"x", b"far", b"lock", b".org", b"\t"])
            lines[place] = b"".join(words)
        text = b"\n".join(lines) or b"\n"
    return text


def try_texts(tries, count, chance):
    """Source texts: those of the examples, and what they are where they end early or are changed."""
    here = os.path.dirname(os.path.dirname(os.path.abspath(__file__)))
    texts = []
    for name in sorted(glob.glob(os.path.join(here, "examples", "**", "*.asm"), recursive=True)):
        with open(name, "rb") as file:
            texts.append(file.read())
    for text in texts:
        tries.call("a text", ["asm"], text)
        tries.call("a text truncated", ["asm"], text[: chance.randrange(len(text))])
    for _ in range(count):
        tries.call("a text changed at random", ["asm"], text_changed(chance.choice(texts), chance))
    for data in [b"", b"\n", b"\0", b"\xff", b";" * MOST, b"\n" * 1_000_000, b"x" * 1_000_000, b"," * 1_000_000, b"[" * 1_000_000, b"x:" * 500_000, bytes(MOST + 1), chance.randbytes(4096)]:
        tries.call("no text", ["asm"], data)


def words_to_try():
    """Words in a wrong order, twice, empty, very long, near the limits, and bytes that are no text."""
    long = "x" * 100_000
    return [
        [], [""], [" "], ["Run"], ["RUN"], ["run "], ["runs"], ["ru"], ["asm"], ["soak"], ["--help"], ["-h"],
        ["run"], ["run", ""], ["run", "run"], ["--steps=3", "run"], ["--order=round", "--steps=3"],
        ["--order=round", "run", "--steps=3"], ["run", "--steps=3", "--order=round"], ["run", "--order=round"],
        ["run", "--order=round", "--order=round"], ["run", "--order=round", "--order=seed"],
        ["run", "--steps=3", "--order=round", "--steps=3"], ["run", "--steps=3"], ["run", "--order="],
        ["run", "--order=Round"], ["run", "--order=round "], ["run", "--order=threads"], ["run", "--order=seed"],
        ["run", "--order"], ["run", "--order", "round"], ["run", "--steps"], ["run", "--steps", "3"],
        ["run", "--order=round", "--steps="], ["run", "--order=round", "--steps"],
        ["run", "--order=round", "--steps=x"], ["run", "--order=round", "--steps=-1"],
        ["run", "--order=round", "--steps=+1"], ["run", "--order=round", "--steps= 1"],
        ["run", "--order=round", "--steps=1 "], ["run", "--order=round", "--steps=0x1"],
        ["run", "--order=round", "--steps=1.0"], ["run", "--order=round", "--steps=1e3"],
        ["run", "--order=round", "--steps=0"], ["run", "--order=round", "--steps=00000000000000000003"],
        ["run", "--order=round", "--steps=000000000000000000003"], ["run", "--order=round", "--steps=65536"],
        ["run", "--order=round", "--steps=65537"], ["run", "--order=round", "--steps=4294967296"],
        ["run", "--order=round", "--steps=4294967299"], ["run", "--order=round", "--steps=18446744073709551616"],
        ["run", "--order=round", "--steps=18446744073709551619"],
        ["run", "--order=round", "--steps=99999999999999999999"], ["run", "--order=round", "--steps=" + "9" * 100_000],
        ["run", "--order=round", "--steps=" + "0" * 100_000 + "3"], ["run", "--order=round", "--steps=٣"],
        ["run", "--order=round", "--", "--steps=3"], ["run", "--order=round", "-steps=3"],
        ["run", "--order=round", "--steps==3"], ["run", "--order=round", "--STEPS=3"],
        ["run", "--order=round", "--cpus=1"], ["run", "--order=round", "--seed=1"], ["run", "--order=round", "--cpus=0"],
        ["run", "--order=round", "--cpus=2"], ["run", "--order=round", "--cpus=8"], ["run", "--order=round", "--cpus=9"],
        ["run", "--order=round", "--cpus="], ["run", "--cpus=1", "--cpus=1", "--order=round"], ["run", "--cpus", "1"],
        ["run", "--order=seed", "--seed=0"], ["run", "--order=seed", "--seed=18446744073709551615"],
        ["run", "--order=seed", "--seed=18446744073709551616"], ["run", "--order=seed", "--seed="],
        ["run", "--order=round", "--seed=x"], ["run", "--seed=1", "--seed=2", "--order=seed"],
        ["run", "--order=round", "--steps=x", "--frob"], [long], ["run", long], ["run", "--order=" + long],
        ["run", "--order=round", "--steps=" + long], ["run"] + ["--steps=3"] * 1000, ["run"] + [""] * 1000, ["run"] + ["--steps=" + long] * 12,
        ["ü"], ["run", "--order=ründ"],
        ["run", "--order", "round", "--steps", "3", "--cpus", "1", "--seed", "1"], ["run", "--order", "round", "--steps", "-1"], ["run", "--order", "round", "--"], ["run", "--order", "--", "round"],
        ["run", "--order=round", "--steps", ""], ["run", "--order=round", "--steps", "-"], ["run", "-"], ["run", "--help"], ["run", "-h"], ["run", "--version"], ["run", "--order", long], ["run"] + ["--steps", "3"] * 1000,
        ["asm", ""], ["asm", "asm"], ["asm", "--"], ["asm", "--steps=3"], ["asm", "--help"], ["Asm"], ["asm "], ["asm", long], ["asm"] + [""] * 1000,
        ["soak", ""], ["soak", "soak"], ["soak", "--seed=3"], ["soak", "--seed=0"], ["soak", "--seed=18446744073709551615"], ["soak", "--seed=18446744073709551616"],
        ["soak", "--seed="], ["soak", "--seed=-1"], ["soak", "--seed"], ["soak", "--seed", "3"], ["soak", "--seed=1", "--seed=1"], ["soak", "--steps=3"],
        ["soak", "--order=seed"], ["soak", "--seed=3", ""], ["soak", "--"], ["Soak"], ["soak "], ["--seed=3", "soak"], ["soak", "--seed=" + long], ["soak"] + ["--seed=3"] * 1000,
    ]


def bytes_to_try():
    """Words that are no text, in place of a command, an option and a value."""
    return [[b"\xff"], [b"run", b"\xff\xfe"], [b"run", b"--order=\xc3\x28"], [b"run", b"--steps=\xed\xa0\x80"], [b"\xf8" * 1000]]


def try_edges(tries, path):
    """Calls whose input, output or err fails."""
    empty = os.devnull
    with open("/dev/full", "wb") as full:
        tries.call_over("input is a folder", 3, os.path.dirname(os.path.abspath(path)))
        tries.call_over("output is full", 4, path, out=full)
        tries.call_over("output and err are full", 4, path, out=full, err=full)
        tries.call_over("err is full", 5, empty, err=full)
        tries.call_over("err is full, nothing to tell", 0, path, err=full)
    end, broken = os.pipe()
    os.close(end)
    tries.call_over("output's reader is gone", 4, path, out=broken)
    tries.call_over("err's reader is gone", 5, empty, err=broken)
    os.close(broken)


def main():
    program, path = sys.argv[1], sys.argv[2]
    count = int(sys.argv[3]) if len(sys.argv) > 3 else 3000
    chance = random.Random(int(sys.argv[4]) if len(sys.argv) > 4 else 1)
    with open(path, "rb") as file:
        image = file.read()
    tries = Tries(os.path.abspath(program))
    tries.call("the image", RUN, image)
    for length in range(len(image)):
        tries.call("truncated", RUN, image[:length])
    for place in range(len(image)):
        for bit in range(8):
            data = bytearray(image)
            data[place] ^= 1 << bit
            tries.call("one bit turned", RUN, bytes(data))
    for _ in range(count):
        tries.call("changed at random", RUN, changed(image, chance))
        tries.call("other code", ["run", "--order=round", "--steps=50"], code_changed(image, chance))
    for more in (1, 1000, MOST - len(image), MOST - len(image) + 1, MOST):
        tries.call("longer", RUN, image + bytes(more))
    for size in (0, 1, 63, 64, 4096, 1_000_000):
        tries.call("no image", RUN, chance.randbytes(size))
    try_texts(tries, count, chance)
    for words in words_to_try():
        tries.call("words", words, image)
        tries.call("words, no input", words, b"")
    for words in bytes_to_try():
        tries.call("words that are no text", words, image)
    try_edges(tries, path)
    for (group, status, text), times in sorted(tries.seen.items()):
        print(f"{group:28} {status:4} {times:6}  {text}")
    for bad in tries.bad:
        print("NOT NAMED", *bad)
    return 1 if tries.bad else 0


if __name__ == "__main__":
    sys.exit(main())
