#!/usr/bin/env python3
"""Runs every example with the built program, and compares what its page quotes: tools/check_examples.py PROGRAM

A page is a file *.md somewhere in examples/. Its fenced blocks that name a file are compared, by the words behind the three backticks:

    report FILE WORDS     the block's lines stand in the report of `m386 run WORDS` on the file, one behind the other. A line of three dots stands for any number of lines that
                          aren't quoted. A file *.img is an image; any other is assembled by `m386 asm` first.
    KIND FILE             the block is the whole of the file beside the page (but for empty lines at its ends), of whatever kind: asm, c ..

Its commands, the lines of four blanks that begin with `m386` or with `python3` and tools/timeline.py, are run too, one after another in the page's folder, but what they make is
kept apart. Where a file of that name lies beside the page, a picture perhaps, it has to be the same. A `run` names an order that gives the same report each time, the page
quotes of each such report, and each report that it quotes is that of one of its commands. A page's links to files lead to files.

Prints how many pages, blocks, lines, commands and pictures were compared, and each that differs; then the exit status is 1. It is 1 too where no line was compared, and where a
file *.asm, *.img or *.svg in examples/ stands in no block and is made by no command.
"""

import functools
import os
import re
import subprocess
import sys

HERE = os.path.dirname(os.path.dirname(os.path.abspath(__file__)))
EXAMPLES = os.path.join(HERE, "examples")
FENCE = re.compile(r"^```(\S+) +(\S+)(.*)\n((?:.*\n)*?)```$", re.M)
COMMAND = re.compile(r"^ {4}(m386|python3 \S*tools/timeline\.py) (.+)$", re.M)
SHAPE = re.compile(r"(.*?)(?: < (\S+))?(?: > (\S+))?")
LINK = re.compile(r"\]\(([^)#:\s]+)(?:#[^)]*)?\)")
SKIPPED = "..."
SAME_EACH_TIME = {"--order=round", "--order=seed"}


class Differs(Exception):
    """A block isn't what the program writes, or what its file holds."""


@functools.lru_cache(maxsize=None)
def called(words, data):
    """What a call writes; the same call is made once."""
    ended = subprocess.run(words, input=data, capture_output=True, timeout=120)
    if ended.returncode:
        raise Differs(f"{' '.join(words[1:])} ended with {ended.returncode}: {ended.stderr.decode().strip()}")
    return ended.stdout


def read(path):
    with open(path, "rb") as file:
        return file.read()


def found_in_order(quoted, lines):
    """Raises Differs where the quoted lines don't stand in the report, one behind the other but at lines of three dots."""
    at = 0
    for run in re.split(rf"(?m)^ *{re.escape(SKIPPED)} *$\n?", quoted):
        wanted = [line.strip() for line in run.splitlines() if line.strip()]
        place = next((k for k in range(at, len(lines) - len(wanted) + 1) if lines[k : k + len(wanted)] == wanted), None)
        if place is None:
            missing = next((line for line in wanted if line not in lines[at:]), wanted[0])
            raise Differs(f"from line {at + 1} of the report on these lines don't stand together; the first that isn't there: {missing}")
        at = place + len(wanted)


class Page:
    """One page: what stood in its blocks, and what its commands made."""

    def __init__(self, program, path):
        self.program, self.path, self.folder = program, path, os.path.dirname(path)
        self.made, self.source, self.runs, self.quoted = {}, {}, set(), set()
        self.shown, self.wrong = set(), 0
        self.blocks = self.lines = self.commands = self.pictures = 0

    def attempt(self, what, call, *words):
        try:
            call(*words)
        except Differs as why:
            self.wrong += 1
            print(f"WRONG: {os.path.relpath(self.path, HERE)}, {what}: {why}")

    def beside(self, name):
        """What a file beside the page holds, or None."""
        path = os.path.join(self.folder, name)
        return read(path) if os.path.isfile(path) else None

    def compare(self):
        text = read(self.path).decode()
        for name, words in COMMAND.findall(text):
            self.commands += 1
            self.attempt(f"command {words}", self.carry_out, name, words)
        for kind, name, words, block in FENCE.findall(text):
            self.blocks += 1
            self.shown.add(os.path.normpath(os.path.join(self.folder, name)))
            self.attempt(f"block of {name}", self.compare_block, kind, name, words.split(), block)
        for name, *words in sorted(self.runs - self.quoted):
            self.wrong += 1
            print(f"WRONG: {os.path.relpath(self.path, HERE)}: it quotes nothing of run {' '.join(words)} on {name}")
        for link in LINK.findall(text):
            if not os.path.exists(os.path.join(self.folder, link)):
                self.wrong += 1
                print(f"WRONG: {os.path.relpath(self.path, HERE)}: its link {link} leads nowhere")

    def carry_out(self, name, words):
        """Runs one command, and compares the file that it makes with what lies beside the page."""
        words, given, made = SHAPE.fullmatch(words).groups()
        words = words.split()
        if name == "m386":
            call = (self.program, *words)
        else:
            given, call = words.pop(), (sys.executable, os.path.join(HERE, "tools", "timeline.py"), *words, "/dev/stdin")
        data = self.made.get(given, self.beside(given)) if given else b""
        if data is None:
            raise Differs(f"there is no file {given}")
        if name == "m386" and words[0] == "run":
            if not SAME_EACH_TIME & set(words):
                raise Differs("its order doesn't give the same report each time")
            self.runs.add((self.source.get(given, given), *words[1:]))
        out = called(call, data)
        if made:
            self.keep(made, given, out)

    def keep(self, made, given, out):
        self.made[made], self.source[made] = out, self.source.get(given, given)
        self.shown.add(os.path.normpath(os.path.join(self.folder, made)))
        if self.beside(made) not in ({out} if made.endswith(".svg") else {out, None}):
            raise Differs(f"it makes another {made} than lies beside the page")
        self.pictures += made.endswith(".svg")

    def compare_block(self, kind, name, words, block):
        held = self.beside(name)
        if held is None:
            raise Differs(f"there is no file {name}")
        if kind != "report":
            if block.strip("\n") != held.decode().strip("\n"):
                raise Differs(f"the page's text isn't that of {name}")
            self.lines += len(block.splitlines())
            return
        if (name, *words) not in self.runs:
            raise Differs(f"no command of the page is run {' '.join(words)} on it")
        self.quoted.add((name, *words))
        image = held if name.endswith(".img") else called((self.program, "asm"), held)
        found_in_order(block, called((self.program, "run", *words), image).decode().splitlines())
        self.lines += sum(line.strip() not in ("", SKIPPED) for line in block.splitlines())


def main():
    program, pages, wrong = os.path.abspath(sys.argv[1]), [], 0
    for folder, folders, names in os.walk(EXAMPLES):
        folders.sort()
        for name in sorted(names):
            if name.endswith(".md"):
                pages.append(Page(program, os.path.join(folder, name)))
                pages[-1].compare()
    shown = set().union(*(page.shown for page in pages))
    for folder, _, names in os.walk(EXAMPLES):
        for name in names:
            if name.endswith((".asm", ".img", ".svg")) and os.path.join(folder, name) not in shown:
                wrong += 1
                print(f"WRONG: {os.path.relpath(os.path.join(folder, name), HERE)} stands in no block")
    total = {it: sum(getattr(page, it) for page in pages) for it in ("wrong", "blocks", "lines", "commands", "pictures")}
    wrong += total["wrong"]
    print(
        f"examples: {len(pages)} pages, {total['blocks']} blocks, {total['lines']} lines compared, "
        f"{total['commands']} commands run, {total['pictures']} pictures the same, {wrong} wrong"
    )
    sys.exit(1 if wrong or not total["lines"] else 0)


if __name__ == "__main__":
    main()
