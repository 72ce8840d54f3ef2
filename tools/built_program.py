"""Builds a Rattle program that uses crates of this repository, in a scratch repository of its own."""
import os
import shutil
import subprocess
import sys

HERE = os.path.dirname(os.path.dirname(os.path.abspath(__file__)))


def dependencies():
    """What each crate of crates.txt uses."""
    with open(f"{HERE}/crates.txt") as text:
        lines = [line.split("#")[0].split(":") for line in text if ":" in line]
    return {line[0].split()[0]: line[1].split() for line in lines}


def below(crates, known):
    """The crates of this repository among these and all that they use, lowest first."""
    found = []
    for crate in crates:
        if crate in known:
            found += [c for c in below(known[crate], known) + [crate] if c not in found]
    return found


def built(folder, name, source, uses, proofs=()):
    """The path of a program NAME, proved and built in the folder from the text of its main.rt; `uses` names its crates, and `proofs` are
    the paths in its proofs/, with their texts."""
    known = dependencies()
    wanted = below(uses, known)
    for crate in wanted:
        for part in ("src", "specs", "proofs"):
            if os.path.isdir(f"{HERE}/crates/{crate}/{part}"):
                shutil.copytree(f"{HERE}/crates/{crate}/{part}", f"{folder}/crates/{crate}/{part}")
    for path, content in [("src/main.rt", source), ("specs/Lib.antt", ""), *((f"proofs/{path}", content) for path, content in dict(proofs).items())]:
        os.makedirs(os.path.dirname(f"{folder}/crates/{name}/{path}"), exist_ok=True)
        with open(f"{folder}/crates/{name}/{path}", "w", encoding="utf-8") as text:
            text.write(content)
    shutil.copy(f"{HERE}/HANDLES", folder)
    with open(f"{folder}/crates.txt", "w") as text:
        text.writelines(f"{c}: {' '.join(known[c])}\n" for c in wanted)
        text.write(f"{name}: {' '.join(uses)}\n")
    run = subprocess.run(["rt", "run"], cwd=f"{folder}/crates/{name}", stdin=subprocess.DEVNULL, capture_output=True, text=True)
    if run.returncode:
        sys.exit(run.stdout + run.stderr)
    return f"{folder}/crates/{name}/out/{name}"
