#!/usr/bin/env python3
"""Compares what is stored of halving plans with what the plain scripts of this folder answer.

    python3 bench/tools/halving_stored.py

The stored run of `halvinglab`; the sweep of crates/sweep/data, each of its keys played; the
vectors; and the scripts of examples/halving and examples/layers, each of which has to lock within
its bound in its last era. Nothing is written. The status is 1 if something differs.
"""

import pathlib
import sys

from on_the_counter import answer
from scripts import is_locked, lines_of, play, read_input
from vectors import read_vectors

TOP = pathlib.Path(__file__).resolve().parent.parent.parent
CRATES, EXAMPLES = TOP / "crates", TOP / "examples"
VECTORS = CRATES / "try_examples" / "data" / "vectors" / "halving_steps.txt"
KEYS = 40


def written(lines):
    return "".join(f"{line}\n" for line in lines)


def run_of_halvinglab():
    folder = CRATES / "halvinglab"
    wanted = written(answer("run", (folder / "stdin").read_text()))
    return (folder / "stdout").read_text() == wanted


def first_locked(script):
    """Of each era the first locked configuration, if it has one."""
    found = {}
    for c, config in enumerate(play(script)):
        era = script.era(c)
        if is_locked(script.plan, config, era.faulty):
            found.setdefault(era.first, c)
    return [found.get(era.first) for era in script.eras]


def sweep_of(text, count):
    """What `sweep 0 COUNT` writes of a script on a halving plan."""
    plan, _, script = read_input(text, lambda between: [])
    found = {}
    for number in range(count):
        script.key = number.to_bytes(8, "big") + bytes(24)
        for place, locked in enumerate(first_locked(script)):
            at = script.rounds + 1 if locked is None else locked
            runs, seed = found.get((place, at), (0, number))
            found[place, at] = runs + 1, seed
    yield f"bound {plan.bound}"
    for (place, at), (runs, seed) in sorted(found.items()):
        locked = "none" if at > script.rounds else at
        yield f"era {script.eras[place].first} locked {locked} runs {runs} seed {seed}"


def sweep():
    folder = CRATES / "sweep" / "data"
    wanted = written(sweep_of((folder / "halving.txt").read_text(), KEYS))
    return (folder / "halving.out").read_text() == wanted


def are_vectors():
    vectors = read_vectors(lines_of(VECTORS.read_text()))
    return len(vectors) > 0 and all(vector.stepped() == vector.new for vector in vectors)


def locks_of(path):
    """Whether the last era of a script locks within its bound, if it goes on so long."""
    word = path.name.split("_")[0] if path.parent.name == "layers" else "run"
    lines = list(answer(word, path.read_text()))
    bound, locked = int(lines[0].split()[1]), lines[-1].split()
    first = int(locked[1]) if locked[0] == "era" else 0
    print(f"{path.parent.name}/{path.name}: bound {bound}, {lines[-1]}")
    return locked[-1] != "none" and int(locked[-1]) <= first + bound


def main():
    looks = [("halvinglab's run", run_of_halvinglab), ("sweep", sweep), ("vectors", are_vectors)]
    for folder in ["halving", "layers"]:
        for path in sorted((EXAMPLES / folder).glob("*.txt")):
            looks.append((path.name, lambda path=path: locks_of(path)))
    wrong = [name for name, look in looks if not look()]
    for name in wrong:
        print(f"{name}: not what it has to be")
    print(f"{len(looks) - len(wrong)} of {len(looks)} are as they have to be")
    return 1 if wrong else 0


if __name__ == "__main__":
    sys.exit(main())
