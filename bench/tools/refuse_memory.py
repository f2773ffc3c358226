#!/usr/bin/env python3
"""Refuses each allocation of each word in turn, and looks at what becomes of it.

    python3 bench/tools/refuse_memory.py [--most N] [NAME.WORDS ..]
    python3 bench/tools/refuse_memory.py [--most N] --halving

A row is an input with its answer, NAME.txt and NAME.WORDS.out in crates/try_faults/data/short;
without names all rows are taken. The program `try_faults` gives a row to the workbench over a
source and a sink that never fail, after so many allocations of its own. With `--halving` the
program is `try_random`, and its one row a call of a node of a halving plan. The program is run
by `rt try --fail-alloc N --cases`, which refuses its Nth allocation and needs no proof: once for
each of 0 to N - 1 allocations before, so that each allocation of the row is refused in one run, if
it has fewer than about N - 10.

Each run has to end with status 10 and no byte taken, or, if the allocation that is refused is
none of the row's, as it does if nothing is refused. The status is 1 if one ends otherwise.
"""

import argparse
import pathlib
import re
import shutil
import subprocess
import sys
import tempfile

TOP = pathlib.Path(__file__).resolve().parents[2]
CRATE = TOP / "crates" / "try_faults"
HALVING = TOP / "crates" / "try_random"
ROWS = CRATE / "data" / "short"
HALVING_ROW = "one_packet.halvinglab"
REFUSED = "10 0"


def put_case(folder, row, spent):
    """Puts a run of a row after so many allocations into a folder."""
    case = folder / f"{row}.{spent}"
    arguments = ["spend", str(spent)]
    if row == HALVING_ROW:
        case.write_bytes(b"")
    else:
        name, words = row.split(".")
        shutil.copyfile(ROWS / f"{name}.txt", case)
        arguments += words.split("_")
    case.with_name(case.name + ".args").write_text("".join(word + "\n" for word in arguments))


def answers(crate, rows, counts, flags):
    """What each row answers after each count of allocations: its status and how many bytes."""
    with tempfile.TemporaryDirectory() as name:
        for row in rows:
            for spent in counts:
                put_case(pathlib.Path(name), row, spent)
        command = ["rt", "try", "--steps", "1", *flags, "--cases", name]
        done = subprocess.run(command, cwd=crate, stdout=subprocess.PIPE, stderr=subprocess.STDOUT)
    text = done.stdout.decode(errors="replace")
    found = dict(re.findall(r"^== (\S+)\n(\d+ \d+)$", text, re.MULTILINE))
    for row in rows:
        for spent in counts:
            if f"{row}.{spent}" not in found:
                print(f"{row} has no answer after {spent} allocations")
    return {row: [found.get(f"{row}.{spent}") for spent in counts] for row in rows}, text


def report(row, plain, refused):
    """Prints what became of a row. Whether all is as it has to be."""
    others = [answer for answer in refused if answer not in (REFUSED, plain)]
    count = refused.count(REFUSED)
    first = refused.index(REFUSED) if count else 0
    status, taken = plain.split()
    print(f"{row}: {count} allocations, each refused is status 10 and nothing taken;", end=" ")
    print(f"none refused is status {status} and {taken} bytes")
    if refused[first : first + count] != [REFUSED] * count:
        print(f"{row}: some that were refused changed nothing")
    if refused[-1] != plain:
        print(f"{row}: not all were tried, take a larger --most")
    for answer in sorted(set(map(str, others))):
        print(f"{row}: DIFFERENT: {answer}")
    return not others and refused[-1] == plain


def main():
    parser = argparse.ArgumentParser(description=__doc__.splitlines()[0])
    parser.add_argument("--most", type=int, default=60)
    parser.add_argument("--halving", action="store_true")
    parser.add_argument("rows", nargs="*")
    given = parser.parse_args()
    rows = given.rows or sorted(out.name.removesuffix(".out") for out in ROWS.glob("*.out"))
    crate = CRATE
    if given.halving:
        crate, rows = HALVING, [HALVING_ROW]
    plain, _ = answers(crate, rows, [0], [])
    counts = range(given.most - 1, -1, -1)
    refused, text = answers(crate, rows, counts, ["--fail-alloc", str(given.most)])
    (pathlib.Path(tempfile.gettempdir()) / "refuse_memory.log").write_text(text)
    same = [report(row, plain[row][0], refused[row]) for row in rows]
    return 0 if all(same) else 1


if __name__ == "__main__":
    sys.exit(main())
