#!/usr/bin/env python3
"""Draws scripts on halving plans, and compares what a program writes of each with what
`on_the_counter.py` writes.

    gcc -O2 -o halving_run bench/c/halving_run.c
    python3 bench/tools/halving_draws.py FIRST COUNT ./halving_run
    python3 bench/tools/halving_draws.py FIRST COUNT crates/halvinglab/out/halvinglab run

    python3 bench/tools/halving_draws.py write FIRST COUNT FOLDER
    python3 bench/tools/halving_draws.py read FOLDER crates/halvinglab/out/halvinglab run

Each number from FIRST on is a script: a plan of 1 to 22 nodes, starts, up to four eras, groups, and
lies of each kind. Printed is how many were compared; the first one that differs is printed, and the
status is 1. `write` puts the inputs and the answers into a folder, as `drawn_runs.py` does, from
which `read` takes them.
"""

import pathlib
import random
import subprocess
import sys

from on_the_counter import answer
from halving_counter import Plan

PLANS = [(1, 0), (4, 1), (5, 1), (7, 2), (8, 2), (10, 3), (13, 4), (16, 5), (22, 7)]
MODULI = [2, 3, 10, 1000, 1 << 40]
DIGITS = "0123456789abcdef"


class Draw:
    """One script, by its number."""

    def __init__(self, number):
        self.random = random.Random(number)
        self.nodes, self.faults = self.random.choice(PLANS)
        modulus = self.random.choice(MODULI)
        self.head = ["halving 1", f"group {self.nodes} {self.faults} {modulus}", "end"]
        self.plan = Plan(self.head)
        self.rounds = self.random.choice([30, 60, 120]) if self.nodes < 16 else 30
        self.liars, self.names = set(), ["all"]

    def digits(self, count):
        return "".join(self.random.choice(self.random.choice([DIGITS, "0f"])) for _ in range(count))

    def state(self, v):
        return self.digits(2 * self.plan.bytes(v))

    def faulty(self):
        count = self.random.choice([self.random.randint(0, self.faults), self.faults])
        ids = sorted(self.random.sample(range(self.nodes), count))
        self.liars |= set(ids)
        return " ".join(["faulty", *map(str, ids)])

    def starts(self, share):
        return [f"start node {v} {self.state(v)}" for v in range(self.nodes)
                if self.random.random() < share]

    def groups(self):
        for name in ["few", "most"][: self.random.randint(0, 2)]:
            ids = self.random.sample(range(self.nodes), self.random.randint(1, self.nodes))
            self.names.append(name)
            yield " ".join(["group", name, *map(str, sorted(ids))])

    def lie(self):
        draw, last = self.random, self.nodes - 1
        u, p = draw.choice(sorted(self.liars)), draw.randint(0, last)
        first = draw.randint(0, self.rounds)
        who = draw.choice([f"{p} {draw.randint(p, last)}", *self.names])
        what = draw.choice(["noise", f"copy {draw.randint(0, last)}", f"hex {self.state(u)}",
                            f"shift {draw.choice([0, 1, 5, draw.randint(0, 10**12)])}"])
        return f"lie {first} {draw.randint(first, self.rounds + 5)} {u} to {who} {what}"

    def text(self):
        version = self.random.choice([1, 2])
        lines = [*self.head, f"script {version}", self.faulty(), f"seed {self.digits(64)}"]
        lines += [f"start {self.random.choice(['zero', 'noise'])}", *self.starts(0.3)]
        eras = self.random.sample(range(1, self.rounds), self.random.randint(0, 3))
        for first in sorted(eras) if version == 2 else []:
            lines += [f"era {first} {self.faulty()}", *self.starts(0.2)]
        lines += self.groups()
        if self.liars:
            lines += [self.lie() for _ in range(self.random.randint(0, 25))]
        lines += [f"rounds {self.rounds}", f"show 0 {self.rounds}", "end"]
        return "".join(line + "\n" for line in lines)


def written(text):
    """What is to be written of a script."""
    return "".join(line + "\n" for line in answer("run", text))


def drawn(first, count):
    """Scripts, each with what is to be written of it."""
    for number in range(first, first + count):
        text = Draw(number).text()
        yield text, written(text)


def write(first, count, folder):
    folder.mkdir(parents=True, exist_ok=True)
    for number, (text, wanted) in zip(range(first, first + count), drawn(first, count)):
        (folder / f"{number:05}").write_text(text)
        (folder / f"{number:05}.stdout").write_text(wanted)


def kept(folder):
    for path in sorted(folder.glob("*.stdout")):
        yield path.with_suffix("").read_text(), path.read_text()


def compare(scripts, program):
    count = 0
    for text, wanted in scripts:
        said = subprocess.run(program, input=text.encode(), stdout=subprocess.PIPE).stdout.decode()
        if said != wanted:
            print(text, end="")
            return 1
        count += 1
    print(f"{count} scripts compared, none answered otherwise")
    return 0


def main(words):
    if words[0] == "write":
        return write(int(words[1]), int(words[2]), pathlib.Path(words[3]))
    if words[0] == "read":
        return compare(kept(pathlib.Path(words[1])), words[2:])
    return compare(drawn(int(words[0]), int(words[1])), words[2:])


if __name__ == "__main__":
    sys.exit(main(sys.argv[1:]))
