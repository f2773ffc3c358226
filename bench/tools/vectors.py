"""Steps of one node as vectors: from a run certificate, and drawn ones.

    python3 vectors.py steps [V ..] < CERTIFICATE          vectors of all nodes, or of some
    python3 vectors.py packets V [FROM] < CERTIFICATE      what `counterlab node` is to read
    python3 vectors.py cells V [FROM] < CERTIFICATE        and what it is to write
    python3 vectors.py draw                                the vectors of crates/try_examples/data/
    python3 vectors.py draw halving                         and those of halving plans
    python3 vectors.py check < VECTORS                     whether each step is that of counter.py,
                                                           or of halving_counter.py
    python3 vectors.py cases FOLDER < VECTORS              of each vector such an input and answer

CERTIFICATE is what `counterlab record` writes. The states after its starts are counted here, by
counter.py, and each row has to be what they show. `packets` and `cells` begin in configuration
FROM, or 0, and go on as long as node V is correct and is put into no state. docs/VECTORS.md says
what a vector is. This is no part of the proved program.
"""

import os
import random
import sys

import halving_counter
import halving_vectors
from counter import Plan, nodes_of, shown
from scripts import lines_of


def digits(data):
    return data.hex() or "-"


def data_of(word):
    return b"" if word == "-" else bytes.fromhex(word)


class Vector:
    """A step of node v, from its own state and the cells that it hears, all in bytes."""

    def __init__(self, plan, v, own, cells, new=None):
        self.plan, self.v, self.own, self.cells, self.new = plan, v, own, cells, new

    def stepped(self):
        heard = [self.plan.read(u, cell) for u, cell in enumerate(self.cells)]
        heard[self.v] = self.plan.read(self.v, self.own)
        return self.plan.write(self.v, self.plan.step(self.v, heard))

    def lines(self):
        yield f"node {self.v} state {digits(self.own)}"
        yield " ".join(["cells", *(digits(cell) for cell in self.cells)])
        yield f"next {digits(self.new)}"


# Certificates.


class Round:
    """A round: its number, the states in which it begins, the lies in it, and who is faulty."""

    def __init__(self, t, config, lies, faulty):
        self.t, self.config, self.lies, self.faulty = t, config, lies, faulty

    def vector(self, plan, v):
        cells = [
            self.lies[u, v] if u in self.faulty else self.config[u] for u in range(plan.nodes)
        ]
        vector = Vector(plan, v, self.config[v], cells)
        vector.new = vector.stepped()
        return vector


def plan_of(lines):
    """The plan of a certificate's first lines, as the text of a plan."""
    version = 2 if lines[0] == "run 3" else 1
    front = [line for line in lines if line.split()[0] in ("base", "level")]
    return Plan([f"plan {version}", *front, "end"])


def expect_row(plan, config, words):
    t, *shows = words
    for v, state in config.items():
        if shows[v] != str(shown(plan.depth, plan.read(v, state))):
            sys.exit(f"row {t} is not what its run shows")


def read_certificate(lines):
    """The plan of a certificate, its rounds, and which nodes are put into states after each."""
    plan, rounds, hits = plan_of(lines), [], []
    config, lies, faulty, started = {}, {}, [], {}
    for key, *words in (line.split() for line in lines):
        if key == "faulty":
            faulty = next_faulty = [int(word) for word in words]
        elif key == "era":
            next_faulty = [int(word) for word in words[1:]]
        elif key == "start":
            started[int(words[0])] = bytes.fromhex(words[1])
        elif key == "lie":
            lies[int(words[0]), int(words[1])] = bytes.fromhex(words[2])
        elif key == "row":
            if words[0] != "0":
                rounds.append(Round(len(rounds), config, lies, faulty))
                correct = [v for v in range(plan.nodes) if v not in next_faulty]
                config = {v: rounds[-1].vector(plan, v).new for v in correct if v not in started}
                hits.append(set(started) | set(next_faulty))
            config = dict(sorted({**config, **started}.items()))
            expect_row(plan, config, words)
            lies, faulty, started = {}, next_faulty, {}
    return plan, rounds, hits


def stretch(plan, rounds, hits, v, first):
    """The steps of node v from a configuration on, as long as it goes on from each."""
    for at in rounds[first:]:
        if v in at.faulty:
            return
        yield at.vector(plan, v)
        if v in hits[at.t]:
            return


def cell(data):
    return len(data).to_bytes(2, "big") + data


def packet(vector):
    return b"".join(cell(data) for data in vector.cells)


def header(vector):
    lines = [*vector.plan.lines, "node 1", f"id {vector.v}", f"state {digits(vector.own)}", "end"]
    return "".join(f"{line}\n" for line in lines).encode()


def first_cell(vector):
    """The cell of the own state, which is written anew."""
    return cell(vector.plan.write(vector.v, vector.plan.read(vector.v, vector.own)))


# Vectors as a text.


def write_vectors(vectors):
    plan = None
    print("vectors 1")
    for vector in vectors:
        if vector.plan is not plan:
            plan = vector.plan
            print(*plan.lines, sep="\n")
        print(*vector.lines(), sep="\n")


def read_vectors(lines):
    front, vectors = [], []
    for line in lines[1:]:
        key, *words = line.split()
        if key in ("plan", "base", "level", "halving", "group", "end"):
            front = [line] if key in ("plan", "halving") else front + [line]
            if key == "end":
                plan = halving_counter.plan_of(front)
        elif key == "node":
            vectors.append(Vector(plan, int(words[0]), data_of(words[2]), []))
        elif key == "cells":
            vectors[-1].cells = [data_of(word) for word in words]
        elif key == "next":
            vectors[-1].new = data_of(words[0])
    return vectors


# Drawn vectors.

PLANS = [
    (8, "plan 1;base 5;end"),
    (48, "plan 1;base 2304;level 4 1 10;end"),
    (48, "plan 2;base 576;level 3 1 10 spare 1;end"),
    (32, "plan 2;base 93312;level 5 2 10 spare 2;end"),
    (24, "plan 2;base 1099511627328;level 3 1 1099511627776 spare 1;end"),
    (48, "plan 1;base 2304;level 4 1 960;level 3 3 10;end"),
    (64, "plan 2;base 576;level 3 1 960 spare 1;level 3 3 10 spare 1;end"),
    (48, "plan 2;base 384;level 3 0 576 spare 0;level 3 1 960 spare 1;level 3 3 7 spare 1;end"),
    (48, "plan 2;base 576;level 3 1 960 spare 1;level 3 3 1728 spare 1;level 3 7 5 spare 1;end"),
]


class Draws:
    """Numbers that are the same each time."""

    def __init__(self, seed):
        self.source = random.Random(seed)

    def below(self, count):
        return int(self.source.random() * count)

    def one_of(self, choices):
        return choices[self.below(len(choices))]

    def shuffled(self, items):
        left = list(items)
        return [left.pop(self.below(len(left))) for _ in items]

    def data(self, size):
        return bytes(self.below(256) for _ in range(size))


def drawn_value(draws, modulus):
    return draws.one_of([None, 0, modulus - 1, draws.below(modulus), draws.below(modulus)])


def drawn_group(draws, level):
    """Registers of a group. As many have one value, and as many of the others a second one, as is
    just enough for a majority or for a mark, or one less."""
    size, borne = nodes_of(level), level.faults
    first, second = drawn_value(draws, level.modulus), drawn_value(draws, level.modulus)
    many = draws.one_of([size, size - borne, size - borne - 1, borne + 1, borne])
    more = many + draws.one_of([borne, borne + 1, size])
    values = [first] * many + [second] * (more - many)
    values = (values + [drawn_value(draws, level.modulus) for _ in range(size)])[:size]
    marks = draws.one_of([0, 1, 2])
    return [
        (value, marks == 1 or (marks == 2 and draws.below(2) == 1))
        for value in draws.shuffled(values)
    ]


def drawn_states(draws, plan):
    """States of all nodes, in bytes."""
    common = draws.one_of([plan.base - 1, draws.below(plan.base), draws.below(plan.base)])
    numbers = [draws.one_of([common, common, draws.below(plan.base)]) for _ in range(plan.nodes)]
    columns = []
    for place, level in enumerate(plan.levels):
        groups = {}
        column = []
        for v in range(plan.nodes):
            at = place_in(plan, place, v)
            if at is None:
                column.append((0, False))
            else:
                group, inside = at
                if group not in groups:
                    groups[group] = drawn_group(draws, level)
                column.append(groups[group][inside])
        columns.append(column)
    return [
        plan.write(v, plan.zero()._replace(number=numbers[v], registers=[c[v] for c in columns]))
        for v in range(plan.nodes)
    ]


def place_in(plan, place, v):
    """The first node of the group of a level that has node v, and v's place in it."""
    first = 0
    for level in reversed(plan.levels[place + 1 :]):
        block = (v - first) // level.below
        if block >= level.blocks:
            return None
        first += block * level.below
    return first, v - first


def drawn_cell(draws, size, data):
    """A cell as it comes: mostly as it is, sometimes any bytes, or of another length, or none."""
    fate = draws.below(24)
    if fate == 0:
        return draws.data(draws.one_of([0, size - 1, size + 1]))
    if fate == 1:
        return draws.data(size)
    if fate == 2:
        return data[:-1] + bytes([data[-1] | draws.below(256)])
    return data


def drawn_vector(draws, plan, v, states):
    own = draws.data(len(states[v])) if draws.below(16) == 0 else states[v]
    cells = [drawn_cell(draws, plan.bytes(u), states[u]) for u in range(plan.nodes)]
    cells[v] = draws.one_of([own, b"", draws.data(len(own))])
    vector = Vector(plan, v, own, cells)
    vector.new = vector.stepped()
    return vector


def drawn_vectors():
    draws = Draws(1)
    for count, text in PLANS:
        plan = Plan(text.split(";"))
        for _ in range(count):
            v = draws.below(plan.nodes)
            yield drawn_vector(draws, plan, v, drawn_states(draws, plan))


def drawn_halving_vectors():
    draws = Draws(2)
    for count, text in halving_vectors.PLANS:
        plan = halving_counter.Plan(text.split(";"))
        for _ in range(count):
            v = draws.below(plan.nodes)
            yield drawn_vector(draws, plan, v, halving_vectors.drawn_states(draws, plan))


def check(vectors):
    wrong = [place for place, vector in enumerate(vectors) if vector.stepped() != vector.new]
    print(f"{len(vectors)} vectors, {len(wrong)} wrong:", *wrong)
    return 1 if wrong else 0


def write_cases(folder, vectors):
    os.makedirs(folder, exist_ok=True)
    for place, vector in enumerate(vectors):
        path = os.path.join(folder, f"{place:03}")
        with open(path, "wb") as out:
            out.write(header(vector) + packet(vector))
        with open(path + ".stdout", "wb") as out:
            out.write(first_cell(vector) + cell(vector.new))


def of_certificate(word, words):
    plan, rounds, hits = read_certificate(sys.stdin.read().splitlines())
    if word == "steps":
        nodes = [int(v) for v in words] or range(plan.nodes)
        write_vectors(at.vector(plan, v) for at in rounds for v in nodes if v not in at.faulty)
        return
    v, first = int(words[0]), int(words[1]) if len(words) > 1 else 0
    steps = list(stretch(plan, rounds, hits, v, first))
    if not steps:
        sys.exit(f"node {v} makes no step from configuration {first}")
    if word == "packets":
        sys.stdout.buffer.write(header(steps[0]) + b"".join(packet(one) for one in steps))
    else:
        cells = b"".join(cell(one.new) for one in steps)
        sys.stdout.buffer.write(first_cell(steps[0]) + cells)


def main():
    word, *words = sys.argv[1:]
    if word == "draw":
        write_vectors(drawn_halving_vectors() if words == ["halving"] else drawn_vectors())
    elif word == "check":
        sys.exit(check(read_vectors(lines_of(sys.stdin.read()))))
    elif word == "cases":
        write_cases(words[0], read_vectors(lines_of(sys.stdin.read())))
    else:
        of_certificate(word, words)


if __name__ == "__main__":
    main()
