"""Draws inputs of a word, and writes beside each what on_the_counter.py answers to it.

    python3 bench/tools/drawn_runs.py WORD COUNT FOLDER [SEED]
    python3 bench/tools/drawn_runs.py halving WORD COUNT FOLDER [SEED]

WORD is run, slots, consensus, fire or log. FOLDER gets COUNT files NAME, each an input that
`counterlab` accepts, or by `halving` one of `halvinglab`, and NAME.stdout. The boosting plans have one
to three levels, some with spare nodes, the halving plans one to sixteen nodes; the scripts have up to
three eras, and lies of every kind. They are the same each time.
"""

import os
import sys

from on_the_counter import answer
from halving_counter import plan_of
from vectors import Draws

# levels as blocks, faults and spares, from the lowest up; each tenth plan has three of them
SHAPES = [
    [(3, 1, 1)],
    [(3, 0, 1), (3, 1, 0)],
    [(4, 1, 0)],
    [(3, 1, 9)],
    [(3, 1, 1), (3, 2, 2)],
    [(3, 0, 0)],
    [(4, 1, 3)],
    [(3, 1, 1), (3, 3, 1)],
    [(3, 1, 2)],
]
# the nodes and faults of halving plans
GROUPS = [(4, 1), (7, 2), (5, 1), (10, 3), (4, 1), (13, 4), (1, 0), (8, 2), (16, 5), (6, 1)]
LARGE = [
    [(3, 0, 0), (3, 1, 0), (3, 2, 0)],
    [(3, 0, 0), (3, 1, 1), (3, 3, 1)],
]


def shape_at(place):
    if place % 10 == 9:
        return LARGE[place // 10 % len(LARGE)]
    return SHAPES[place % 10]


def span(blocks, faults):
    return 3 * (faults + 2) * (2 * ((blocks + 1) // 2)) ** blocks


def slot_of(word, faults):
    """How long a slot is."""
    return 3 * (faults + 1) + (1 if word == "log" else 0)


def drawn_modulus(draws, word, nodes, faults):
    """A multiple of what the word asks for."""
    return slot_of(word, faults) * (nodes if word == "log" else 1) * (1 + draws.below(3))


def drawn_halving(draws, group, word):
    """A halving plan of so many nodes and faults."""
    nodes, faults = group
    modulus = drawn_modulus(draws, word, nodes, faults)
    return plan_of(["halving 1", f"group {nodes} {faults} {modulus}", "end"])


def drawn_plan(draws, shape, word):
    """A plan of a shape."""
    nodes = 1
    for blocks, faults, spares in shape:
        nodes = nodes * blocks + spares
    modulus = drawn_modulus(draws, word, nodes, faults)
    moduli = [span(blocks, faults) for blocks, faults, _ in shape] + [modulus]
    lines = ["plan 2", f"base {moduli[0] * (1 + draws.below(2))}"]
    for (blocks, faults, spares), count in zip(shape, moduli[1:]):
        lines.append(f"level {blocks} {faults} {count} spare {spares}")
    return plan_of([*lines, "end"])


def ids(draws, nodes, count):
    return sorted(draws.shuffled(range(nodes))[:count])


def faulty_ids(draws, plan):
    """As many faulty nodes as are borne, or none; half of the time among the first kings."""
    count = draws.one_of([plan.faults, plan.faults, plan.faults, 0])
    return ids(draws, draws.one_of([plan.nodes, plan.faults + 1]), count)


def words(numbers):
    return "".join(f" {number}" for number in numbers)


def input_lines(draws, plan, word, rounds):
    """The part between plan and script, and the values of the layer's registers."""
    if word == "consensus":
        values = draws.one_of([2, 3, 5, 65536])
        inputs = drawn_inputs(draws, plan, values)
        return ["agree 1", f"values {values}", f"inputs{words(inputs)}", "end"], [values]
    if word == "fire":
        return ["fire 1", *request_lines(draws, plan, rounds), "end"], [2]
    if word == "log":
        values = draws.one_of([2, 5, 1000, 65536])
        lines = ["log 1", f"values {values}", f"keep {1 + draws.below(4)}"]
        for v in range(plan.nodes):
            own = [draws.below(values) for _ in range(1 + draws.below(3))]
            lines.append(f"commands {v}{words(own)}")
        return [*lines, "end"], [values, values]
    if word == "slots":
        lines = []
        for first in range(0, plan.modulus, 2):
            if draws.below(4) > 0:
                last = first + draws.below(min(2, plan.modulus - first))
                lines.append(f"slot {draws.below(plan.nodes)} {first} {last}")
        return ["slots 1", *draws.shuffled(lines)[:256], "end"], []
    return [], []


def many(draws, plan):
    """How many nodes do alike: all, as many as are just enough for a mark, or one less, or few."""
    n, f = plan.nodes, plan.faults
    return draws.one_of([n, n - f, n - f - 1, max(0, n - 2 * f), f + 1])


def drawn_inputs(draws, plan, values):
    """Inputs of which so many are one, and the others one of two."""
    one, *others = [draws.below(values) for _ in range(3)]
    count = many(draws, plan)
    inputs = [one] * count + [draws.one_of(others) for _ in range(plan.nodes - count)]
    return draws.shuffled(inputs)


def request_lines(draws, plan, rounds):
    """Requests: one stretch of rounds after the other, in which so many nodes request."""
    lines, first = [], max(0, rounds - 60)
    while first < rounds and len(lines) + plan.nodes <= 256:
        last = first + draws.below(9)
        count = draws.one_of([0, many(draws, plan)])
        lines += [f"request {v} {first} {last}" for v in ids(draws, plan.nodes, count)]
        first = last + 1
    return lines


def state_of(draws, plan, v):
    return draws.data(plan.bytes(v)).hex()


def start_lines(draws, plan):
    some = ids(draws, plan.nodes, draws.below(3))
    return [f"start node {v} {state_of(draws, plan, v)}" for v in some]


def what(draws, plan, u):
    return draws.one_of([
        "noise",
        f"copy {draws.below(plan.nodes)}",
        f"copy {draws.below(plan.nodes)}",
        f"hex {state_of(draws, plan, u)}",
        f"shift {draws.below(7)}",
    ])


def lie_lines(draws, plan, liars, groups, rounds):
    """Lies of each liar to some groups and stretches, and to all others over all rounds."""
    lines = []
    for u in liars:
        for _ in range(draws.below(4)):
            first = draws.below(rounds)
            p = draws.below(plan.nodes)
            who = draws.one_of([f"{p} {p + draws.below(plan.nodes - p)}", *groups])
            lines.append(f"lie {first} {rounds} {u} to {who} {what(draws, plan, u)}")
        if draws.below(3) > 0:
            lines.append(f"lie 0 {rounds} {u} to all {what(draws, plan, u)}")
    return lines


def drawn_times(draws, plan, word):
    """Where eras begin, and how many rounds there are: some slots past the bound of the last era,
    and with a small bound of each. Those of a log come to all owners, where these are few."""
    some = 3 + draws.below(3)
    if word == "log" and plan.nodes < 20:
        some += plan.nodes
    length = plan.bound + some * slot_of(word, plan.faults)
    firsts = [0]
    for _ in range(draws.below(3)):
        firsts.append(firsts[-1] + (length if plan.bound < 600 else 1 + draws.below(40)))
    return firsts, firsts[-1] + length


def script_lines(draws, plan, firsts, rounds):
    """A script for a plan that has the layer's registers after its own."""
    faulty = [faulty_ids(draws, plan) for _ in firsts]
    lines = ["script 2", f"faulty{words(faulty[0])}", f"seed {draws.data(32).hex()}"]
    lines += [f"start {draws.one_of(['zero', 'noise', 'noise'])}", *start_lines(draws, plan)]
    for first, some in zip(firsts[1:], faulty[1:]):
        lines += [f"era {first} faulty{words(some)}", *start_lines(draws, plan)]
    groups = ["left", "right"]
    for group in groups:
        lines.append(f"group {group}{words(ids(draws, plan.nodes, 1 + draws.below(plan.nodes)))}")
    liars = sorted({u for some in faulty for u in some})
    lines += lie_lines(draws, plan, liars, groups, rounds)[:256]
    return [*lines, f"rounds {rounds}", f"show {draws.below(3)} {rounds}", "end"]


def drawn_input(draws, word, plan):
    firsts, rounds = drawn_times(draws, plan, word)
    between, values = input_lines(draws, plan, word, rounds)
    script = script_lines(draws, plan_of(plan.lines, values), firsts, rounds)
    return "".join(f"{line}\n" for line in [*plan.lines, *between, *script])


def main():
    given = sys.argv[1:]
    is_halving = given[0] == "halving"
    word, count, folder, *seeds = given[1:] if is_halving else given
    seed = seeds[0] if seeds else "1"
    os.makedirs(folder, exist_ok=True)
    for place in range(int(count)):
        draws = Draws(f"{word} {seed} {place}")
        if is_halving:
            plan = drawn_halving(draws, GROUPS[place % len(GROUPS)], word)
        else:
            plan = drawn_plan(draws, shape_at(place), word)
        text = drawn_input(draws, word, plan)
        path = os.path.join(folder, f"{word}{place:03}")
        with open(path, "w") as out:
            out.write(text)
        with open(path + ".stdout", "w") as out:
            out.writelines(f"{line}\n" for line in answer(word, text))


if __name__ == "__main__":
    main()
