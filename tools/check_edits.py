#!/usr/bin/env python3
"""Checks, without proving anything, that each must-fail edit applies: one that doesn't tries nothing, and rt ci passes it by.

usage: tools/check_edits.py            in the repository's top folder

An edit is a file crates/NAME/must-fail/X.edit with lines `file: PATH`, and pairs `old: TEXT` and `new: TEXT` behind them. Each
old text has to stand exactly once in its file, as the pairs before have left it, and the edit has to change something. Each
that doesn't apply is printed, and the exit status is 1.
"""
import glob
import os
import sys


def fault_of(path):
    """Why an edit doesn't apply, None where it does."""
    folder = os.path.dirname(os.path.dirname(path))
    texts, name, old, pairs = {}, None, None, 0
    with open(path, encoding="utf-8") as edit:
        lines = edit.read().split("\n")
    for line in lines:
        if line.startswith("file: "):
            name, old = line[len("file: "):].strip(), None
            place = os.path.join(folder, name)
            if not os.path.isfile(place):
                return f"there is no file {name}"
            if name not in texts:
                with open(place, encoding="utf-8") as file:
                    texts[name] = file.read()
        elif line.startswith("old: "):
            old = line[len("old: "):]
        elif line.startswith("new:"):
            if name is None or not old:
                return "a new text stands behind no file or no old text"
            new = line[len("new:"):].removeprefix(" ")
            count = texts[name].count(old)
            if count != 1:
                return f"an old text stands {count} times in {name}: {old}"
            if old == new:
                return f"it changes nothing: {old}"
            texts[name] = texts[name].replace(old, new)
            old, pairs = None, pairs + 1
    return None if pairs else "it has no pair of an old and a new text"


def main():
    edits = sorted(glob.glob("crates/*/must-fail/*.edit"))
    faults = [(path, fault_of(path)) for path in edits]
    wrong = [(path, fault) for path, fault in faults if fault]
    for path, fault in wrong:
        print(f"{path} doesn't apply: {fault}")
    print(f"{len(edits)} must-fail edits, {len(wrong)} that don't apply")
    return 1 if wrong or not edits else 0


if __name__ == "__main__":
    sys.exit(main())
