#!/usr/bin/env python3
"""How late a halving plan locks under noise: the starts are noise, and what the faulty nodes say.

    python3 bench/tools/halving_sweeps.py crates/sweep/out/sweep NODES FAULTS KEYS

The program may also be that of bench/c/halving_run.c, which is not proved, and writes the same.
Each set of FAULTS nodes is faulty in turn, and each time the script is played up to T with the keys
of the numbers 0 to KEYS - 1. Printed are how many runs that were, the latest first locked
configuration of all, the least set that has it, and the least number of its keys.
"""

import itertools
import subprocess
import sys

from halving_counter import bound_of


def script(nodes, faults, liars):
    bound = bound_of(faults)
    ids = " ".join(map(str, liars))
    lies = [f"lie 0 {bound} {u} to all noise" for u in liars]
    lines = ["halving 1", f"group {nodes} {faults} 10", "end", "script 1", f"faulty {ids}",
             "start noise", *lies, f"rounds {bound}", "show 0 0", "end"]
    return "".join(line + "\n" for line in lines)


def latest(program, text, keys):
    """The latest first locked configuration of many keys, and the least number that has it."""
    called = subprocess.run([program, "0", str(keys)], input=text.encode(), stdout=subprocess.PIPE,
                            check=True)
    words = called.stdout.decode().split("\n")[-2].split()
    assert words[3] != "none", text
    return int(words[3]), int(words[7])


def main(program, nodes, faults, keys):
    found = []
    for liars in itertools.combinations(range(nodes), faults):
        locked, number = latest(program, script(nodes, faults, liars), keys)
        found.append((-locked, liars, number))
    locked, liars, number = min(found)
    print(f"nodes {nodes} faults {faults} bound {bound_of(faults)} runs {len(found) * keys} "
          f"latest {-locked} liars {' '.join(map(str, liars))} key {number}")


if __name__ == "__main__":
    main(sys.argv[1], *map(int, sys.argv[2:]))
