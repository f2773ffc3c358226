#!/usr/bin/env python3
"""Traces a script over a halving plan, and writes what `trace` is to write of it.

    python3 bench/tools/halving_traces.py FROM TO [NODE ..] < PLAN_AND_SCRIPT

It is written from docs/TRACE.md and docs/HALVING.md by the other scripts of this folder, and shares
no code with the proved program. Inputs and words are taken as accepted ones.
"""

import sys

from halving_counter import (
    Plan, follows_left, instruction_of, is_backed, level_state, right_share_of
)
from scripts import Script, parts_of, play

KINDS = ("keep", "mark", "king")


def number_or_none(number):
    return "none" if number is None else str(number)


def mark_word(group, own, config, faulty):
    value, mark = own
    if not mark:
        return "unmarked"
    correct = [v for v in range(group.first, group.first + group.nodes) if v not in faulty]
    kings = [config[v].registers[group.register] for v in correct]
    return "locked" if value is not None and all(r == (value, True) for r in kings) else "marked"


def side_of(group, above):
    """Which group it is, by the one above it."""
    if above is None:
        return "whole"
    return "left" if group.first == above.first else "right"


def held_words(group, own, faulty):
    liars = sum(group.first <= v < group.first + group.nodes for v in faulty)
    yield "sound" if liars <= group.faults else "unsound"
    yield f"seen {own.seen}"
    yield "trusted" if own.trusted else "untrusted"
    yield "share left" if own.seen >= right_share_of(group) else "share right"


def heard_words(group, own, heard):
    levels = [level_state(group, heard[group.first + i]) for i in range(group.nodes)]
    backed = is_backed(group, own, levels)
    yield f"saw {sum(level.seen == own.seen for level in levels)}"
    yield "backed" if backed else "unbacked"
    yield "follows left" if follows_left(group, own, backed) else "follows right"
    instruction, king = instruction_of(group, own, backed, heard)
    yield f"instruction {instruction} {KINDS[instruction % 3]} king {group.first + king}"
    values = [level.register[0] for level in levels]
    yield f"same {values.count(own.register[0])}"
    often = [a for a in set(values) if a is not None and values.count(a) > group.faults]
    yield f"least {number_or_none(min(often, default=None))}"


def lines_of_node(script, t, v, config):
    plan, faulty = script.plan, script.era(t).faulty
    front = f"at {t} node {v}{' faulty' if v in faulty else ''}"
    number = config[v].number if plan.fields(v)[0] > 1 else None
    yield f"{front} number {number_or_none(number)} output {plan.shown(config[v])}"
    above = None
    for group in plan.groups(v):
        if group.faults == 0:
            return
        own = level_state(group, config[v])
        last = group.first + group.nodes - 1
        front_of_group = f"{front} {side_of(group, above)} {group.first} {last}"
        words = [f"{front_of_group} value {number_or_none(own.register[0])}"]
        words.append(mark_word(group, own.register, config, faulty))
        words += held_words(group, own, faulty)
        if t < script.rounds:
            words += heard_words(group, own, script.heard(t, v, config))
        yield " ".join(words)
        above = group


def main():
    plan, script = parts_of(sys.stdin.read())
    script = Script(Plan(plan), script)
    first, last, *nodes = map(int, sys.argv[1:])
    for t, config in enumerate(play(script)):
        if first <= t <= last:
            for v in sorted(set(nodes)) or range(script.plan.nodes):
                print("\n".join(lines_of_node(script, t, v, config)))


if __name__ == "__main__":
    main()
