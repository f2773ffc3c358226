#!/usr/bin/env python3
"""Draws which nodes of a plan stand where: blocks, leaders, kings and spares.

    python3 bench/tools/groups.py crates/try_examples/data/plans/spares_of_two_levels.txt \\
        > docs/pictures/thirteen_nodes.svg

Each group is a box; its blocks stand in it from the left, those that lead in blue, and its spares
after them in grey. In the corner of a box stands what its level counts by and how many faults it
tolerates, and under it who its kings are, in the order in which they have their turns. A script
over counter.py.
"""

import sys

from counter import Plan, leaders_of, nodes_of
from halves import head, text

CELL, PAD, LABEL = 44, 7, 32
LEADS, FOLLOWS, SPARE = "#cfe3f5", "#ffffff", "#e4e4e4"


def group_width(levels):
    """The width of a group of the highest of these levels."""
    if not levels:
        return CELL
    level = levels[-1]
    return level.blocks * (group_width(levels[:-1]) + PAD) + level.spares * CELL + PAD


def node(x, y, v, colour, remark):
    middle = x + CELL / 2
    return (
        f'<circle cx="{middle}" cy="{y + 15}" r="13" fill="{colour}" stroke="#333"/>\n'
        + text(middle, y + 19, 12, v, 'text-anchor="middle"')
        + text(middle, y + 41, 10, remark, 'text-anchor="middle"')
    )


def draw(plan, levels, first, x, y, height, colour):
    """The group of the highest of these levels whose first node this is."""
    if not levels:
        return node(x, y + height - 46, first, FOLLOWS, "")
    level, below = levels[-1], levels[:-1]
    out = f'<rect x="{x}" y="{y}" width="{group_width(levels)}" height="{height}" ' \
          f'fill="{colour}" stroke="#666" rx="4"/>\n'
    faults = "1 fault" if level.faults == 1 else f"{level.faults} faults"
    kings = " ".join(str(first + it) for it in range(level.faults + 2))
    out += text(x + PAD, y + 13, 10.5, f"modulo {level.modulus}, {faults}")
    out += text(x + PAD, y + 27, 10.5, f"kings {kings}")
    at = x + PAD
    for i in range(level.blocks):
        leads = i < leaders_of(level)
        if below:
            out += draw(plan, below, first + i * level.below, at, y + LABEL, height - LABEL - PAD,
                        LEADS if leads else FOLLOWS)
        else:
            out += node(at, y + height - PAD - 46, first + i, LEADS if leads else FOLLOWS,
                        "leads" if leads else "")
        at += group_width(below) + PAD
    for v in range(first + level.blocks * level.below, first + nodes_of(level)):
        out += node(at, y + height - PAD - 46, v, SPARE, "spare")
        at += CELL
    return out


def picture(plan):
    height = plan.depth * (LABEL + PAD) + 50
    w, h = group_width(plan.levels) + 2 * PAD, height + 2 * PAD
    title = f"a plan of {plan.nodes} nodes that tolerates {plan.faults} faults"
    return head(w, h, title) + draw(plan, plan.levels, 0, PAD, PAD, height, FOLLOWS) + "</svg>\n"


def main():
    if len(sys.argv) != 2:
        sys.exit(__doc__)
    with open(sys.argv[1]) as file:
        lines = [line for line in file.read().splitlines() if line and not line.startswith("#")]
    print(picture(Plan(lines)), end="")


if __name__ == "__main__":
    main()
