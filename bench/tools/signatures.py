#!/usr/bin/env python3
"""Compares docs/proof/SIGNATURES.md with the source.

    python3 bench/tools/signatures.py

Each row of the page is a public call or type of a crate: its name, how it is declared, and the file
where it stands. The declaration has to stand there, up to white space, comments, attributes and
ghost fields, in an `impl` or a `trait` of its type if it has one, and what stands at the top of a
crate has to be handed out by its src/lib.rt. A line says what is missing or differs; the status is
then 1.
"""

import pathlib
import re
import sys

TOP = pathlib.Path(__file__).resolve().parent.parent.parent
PAGE = TOP / "docs" / "proof" / "SIGNATURES.md"
ROW = re.compile(r"\| `([^`]+)` \| `([^`]+)` \| (\S+) \|")


def bare(text):
    """Source without comments, attributes and ghost lines."""
    lines = [re.sub(r"//.*", "", line) for line in text.split("\n")]
    lines = [line for line in lines if not re.match(r"\s*(#\[|ghost )", line)]
    return "\n".join(lines)


def plain(text):
    """A declaration with one way to write white space and commas."""
    text = re.sub(r"\bpub(\([a-z]+\))? ", "", " ".join(text.split()))
    text = re.sub(r",? ?([)}])", r" \1", text)
    text = re.sub(r"([({]) ?", r"\1 ", text)
    return " ".join(text.split())


def owner_of(head):
    """The type of an `impl`, or the name of a `trait`."""
    trait = re.match(r"(?:pub )?trait (\w+)", head)
    if trait:
        return trait.group(1)
    head = re.sub(r"^impl(<(?:[^<>]|<[^<>]*>)*>)? ", "", head)
    return re.match(r"\w+", head.split(" for ")[-1].strip()).group(0)


def call_end(text):
    """Where the declaration of a call ends: at its clauses, body or semicolon."""
    return re.search(r"\n\s*(requires|ensures)\b|\s*\{|;", text).start()


def calls(source):
    """Each call that may be used from outside: its owner or None, its name, its declaration."""
    owner, has_all = None, False
    for found in re.finditer(r"^(?:((?:pub )?trait |impl\b)|( *)(pub )?fn (\w+))", source, re.M):
        rest = source[found.start():]
        if found.group(1):
            head = " ".join(rest[: rest.index("{")].split())
            owner = owner_of(head)
            has_all = "trait " in head or " for " in head
        elif not found.group(2):
            if found.group(3):
                yield None, found.group(4), plain(rest[: call_end(rest)])
        elif has_all or found.group(3):
            yield owner, found.group(4), plain(rest[: call_end(rest)])


def types(source):
    """Each type and alias: its name and its declaration."""
    for found in re.finditer(r"^pub ((struct|enum|type) (\w+)[^{;]*)([{;])", source, re.M):
        text = found.group(1)
        if found.group(4) == "{":
            text += source[found.end(1):source.index("\n}", found.end(1)) + 2]
        yield None, found.group(3), plain(text)


def handed_on(source):
    """What a crate hands on of another: its name, and where it is from."""
    for found in re.finditer(r"^pub use (\w+)::(?:\{([^}]*)\}|(\w+));", source, re.M):
        for name in (found.group(2) or found.group(3)).split(","):
            if name.strip():
                yield None, name.strip(), f"use {found.group(1)}::{name.strip()}"


def is_handed_out(crate, name):
    """Whether others can name what stands at the top of a crate."""
    source = bare((TOP / "crates" / crate / "src" / "lib.rt").read_text())
    return re.search(rf"^pub (use [^;]*|fn |struct |enum |trait )\b{name}\b", source, re.M)


def fault(crate, name, declared, file):
    """What is wrong with a row, or None."""
    path = TOP / "crates" / crate / file
    if not path.is_file():
        return "no such file"
    source = bare(path.read_text())
    owner, _, call = name.rpartition("::")
    there = [*calls(source), *types(source), *handed_on(source)]
    same = [text for of, what, text in there if what == call and (of or "") == owner]
    if not same:
        return f"{name} is not there"
    if plain(declared) not in same:
        return f"{name} is {' or '.join(same)}"
    if not is_handed_out(crate, owner or call):
        return f"src/lib.rt does not hand out {owner or call}"
    return None


def main():
    crate, rows, faults = None, 0, 0
    for line in PAGE.read_text().split("\n"):
        if line.startswith("## "):
            crate = line.strip("# `")
        row = ROW.fullmatch(line)
        if not row:
            continue
        rows += 1
        wrong = fault(crate, *row.groups())
        if wrong:
            faults += 1
            print(f"signatures: {crate}/{row.group(3)}: {wrong}")
    print(f"signatures: {rows - faults} of {rows} stand as docs/proof/SIGNATURES.md has them")
    return 1 if faults or not rows else 0


if __name__ == "__main__":
    sys.exit(main())
