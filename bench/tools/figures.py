#!/usr/bin/env python3
"""Prints the figures by which the tree is kept small: python3 bench/tools/figures.py [COMMIT ..]

For the files that git tracks, or for each COMMIT: crates; lines of src/, specs/ and proofs/; premises
a function (`requires` in src/), over all crates and over those that are no tests and no plain
computation; proof lines over 100 and over 150 letters; the longest file; edits; and how many proof
lines there are for a line of src/. With the program `duplicates` on the machine also how many pairs of
places share twelve lines or more, of crates that are no tests and no plain computation. What the gate
takes stands in docs/work/GATE.md."""
import os
import re
import shutil
import subprocess
import sys
import tempfile

BESIDE = re.compile(r"^(try_|reference)")


def files(commit):
    """The path and the text of each source file of a crate."""
    names = subprocess.run(
        ["git", "ls-tree", "-r", "--name-only", commit, "crates"],
        capture_output=True, text=True, check=True).stdout.split("\n")
    wanted = [n for n in names if re.search(r"\.(rt|antt|edit)$", n)]
    asked = "".join(f"{commit}:{n}\n" for n in wanted).encode()
    out = subprocess.run(["git", "cat-file", "--batch"], input=asked, capture_output=True,
                         check=True).stdout
    at = 0
    for name in wanted:
        end = out.index(b"\n", at)
        size = int(out[at:end].split()[2])
        yield name, out[end + 1:end + 1 + size].decode()
        at = end + 1 + size + 1


def repeated(sources):
    """How many pairs of places share twelve lines or more: to the letter, and by shape alone."""
    with tempfile.TemporaryDirectory() as folder:
        for name, text in sources:
            # endings that the program takes for code
            path = os.path.join(folder, re.sub(r"\.antt$", "_antt.py", re.sub(r"\.rt$", ".rs", name)))
            os.makedirs(os.path.dirname(path), exist_ok=True)
            with open(path, "w", encoding="utf8") as file:
                file.write(text)
        said = subprocess.run(
            ["duplicates", "--repo", folder, "--min-lines", "12", "--most", "1", "--seconds", "300"],
            capture_output=True, text=True, check=True).stdout
    pairs, shape = re.match(r"(\d+) pairs? ", said), re.search(r"(\d+) by shape alone", said)
    if "incomplete" in said or not pairs:
        return "not counted: " + said.split("\n")[0]
    alike = int(shape[1]) if shape else 0
    return f"{int(pairs[1]) - alike} to the letter, {alike} by shape"


def figures(commit):
    lines = {"src": 0, "specs": 0, "proofs": 0}
    functions = {True: 0, False: 0}
    premises = {True: 0, False: 0}
    long = {100: 0, 150: 0}
    crates, edits, most = set(), 0, ("", 0)
    sources = []
    for name, text in files(commit):
        _, crate, room = name.split("/")[:3]
        if name.endswith(".edit"):
            edits += 1
            continue
        if room not in lines:
            continue
        crates.add(crate)
        if not BESIDE.match(crate):
            sources.append((name, text))
        rows = text.split("\n")[:-1]
        lines[room] += len(rows)
        if len(rows) > most[1]:
            most = (name, len(rows))
        if room == "src":
            product = not BESIDE.match(crate)
            functions[product] += len(re.findall(r"^\s*(?:pub(?:\([a-z]+\))? )?(?:const )?fn ", text, re.M))
            premises[product] += len(re.findall(r"^\s*requires\b", text, re.M))
        if room == "proofs":
            for limit in long:
                long[limit] += sum(len(row) > limit for row in rows)
    every = sum(premises.values()) / sum(functions.values())
    product = premises[True] / functions[True]
    print(f"{commit}: {len(crates)} crates, {edits} edits")
    print(f"  lines: src {lines['src']:,}, specs {lines['specs']:,}, proofs {lines['proofs']:,}")
    print(f"  premises a function: {every:.2f}, in product crates {product:.2f}")
    print(f"  proof lines over 100 letters: {long[100]}, over 150: {long[150]}")
    print(f"  proof lines for a line of src/: {lines['proofs'] / lines['src']:.2f}")
    if shutil.which("duplicates"):
        print(f"  pairs of places with twelve like lines: {repeated(sources)}")
    print(f"  longest file: {most[0]}, {most[1]} lines")


if __name__ == "__main__":
    for one in sys.argv[1:] or ["HEAD"]:
        figures(one)
