"""Thirteen nodes of a halving plan that step by the library, of which four lie.

    COUNTERLAB_SO=libcounterlab_c.so python3 thirteen_nodes.py [SEEDS]

The correct nodes begin in random states. In each round each liar sends each correct node something
else: bytes of any length, or the state of some node. For each of so many seeds, or ten, it prints
from which round on the correct nodes count, which the plan's bound tells beforehand, and it ends
with 1 if that was later. It plays 300 rounds.
"""

import random
import sys

import counterlab

PLAN = b"halving 1\ngroup 13 4 10\nend\n"
ROUNDS = 300


def lie(draw, size, states):
    """What a liar sends: any bytes as long as its states, or of any length, or another's state."""
    fate = draw.randrange(3)
    if fate == 0:
        return draw.randbytes(draw.randrange(200))
    return draw.randbytes(size) if fate == 1 else draw.choice(states)


def packet(draw, states, liars):
    cells = [
        lie(draw, len(state), states) if u in liars else state for u, state in enumerate(states)
    ]
    return b"".join(map(counterlab.cell, cells))


def counts_from(rows, modulus):
    """The first row from which on each has one number, which grows by one."""
    first = len(rows) - 1
    while first > 0:
        old, new = set(rows[first - 1]), set(rows[first])
        if len(old) > 1 or new != {(old.pop() + 1) % modulus}:
            break
        first -= 1
    return first


def play(seed):
    draw = random.Random(seed)
    numbers = counterlab.plan(PLAN)
    states = [draw.randbytes(counterlab.state_bytes(PLAN, v)) for v in range(numbers.nodes)]
    liars = draw.sample(range(numbers.nodes), numbers.faults)
    correct = [v for v in range(numbers.nodes) if v not in liars]
    rows = []
    for _ in range(ROUNDS):
        rows.append([counterlab.output(PLAN, v, states[v]) for v in correct])
        new = list(states)
        for v in correct:
            new[v] = counterlab.step(PLAN, v, states[v], packet(draw, states, liars))[0]
        states = new
    first = counts_from(rows, numbers.modulus)
    print(f"seed {seed} liars {sorted(liars)}: they count from round {first} of {numbers.bound}")
    return first <= numbers.bound


def main():
    seeds = int(sys.argv[1]) if len(sys.argv) > 1 else 10
    sys.exit(0 if all([play(seed) for seed in range(seeds)]) else 1)


main()
