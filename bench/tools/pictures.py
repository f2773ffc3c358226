#!/usr/bin/env python3
"""Draws what the pages say of T, and of what is proved.

    python3 bench/tools/pictures.py eras > docs/pictures/eras.svg           two eras, and T rounds into each
    python3 bench/tools/pictures.py layers > docs/pictures/layers.svg       what stands on what, and how it is known
    python3 bench/tools/pictures.py bounds > docs/pictures/bounds.svg       nodes against T, for each F

The last one has the plans of the tables of docs/CHOOSE.md and docs/BOOSTING.md, which `choose` writes:
of halving the one for each F, of boosting the front for each F up to 7.
"""

import math
import pathlib
import re
import sys

from halves import head, text

DOCS = pathlib.Path(__file__).resolve().parent.parent.parent / "docs"
PAGES = (DOCS / "CHOOSE.md").read_text() + (DOCS / "BOOSTING.md").read_text()
MIDDLE = 'text-anchor="middle"'
END = 'text-anchor="end"'
SETTLES, COUNTS, LINE = "#f6d9c6", "#cfe8cf", "#333"


def line(x, y, to_x, to_y, colour=LINE, more=""):
    return f'<line x1="{x}" y1="{y}" x2="{to_x}" y2="{to_y}" stroke="{colour}" {more}/>\n'


def box(x, y, w, h, colour):
    return f'<rect x="{x}" y="{y}" width="{w}" height="{h}" fill="{colour}" stroke="{LINE}"/>\n'


# ---- eras

TOP, HEIGHT, LEFT = 66, 40, 20
# what happens where, and what is known after it, up to where
ERAS = [
    (LEFT, 250, 430, "start", "any states"),
    (430, 660, 860, "disturbance", "others are faulty, or nodes are hit"),
]


def era(first, bound, end, what, remark):
    """An era from one place to another, with the configuration T rounds into it."""
    middle = (first + bound) / 2
    return (
        box(first, TOP, bound - first, HEIGHT, SETTLES)
        + box(bound, TOP, end - bound, HEIGHT, COUNTS)
        + text(middle, TOP + 17, 12, "nothing is promised yet;", MIDDLE)
        + text(middle, TOP + 32, 12, "they may count sooner", MIDDLE)
        + text((bound + end) / 2, TOP + 25, 12, "all correct nodes count", MIDDLE)
        + line(first, TOP - 20, first, TOP + HEIGHT + 26)
        + text(first + 4, TOP - 24, 13, what, 'font-weight="bold"')
        + text(first + 4, TOP - 8, 11, remark)
        + line(bound, TOP + HEIGHT, bound, TOP + HEIGHT + 26)
        + line(first, TOP + HEIGHT + 16, bound, TOP + HEIGHT + 16)
        + text(middle, TOP + HEIGHT + 32, 13, "T rounds", MIDDLE)
    )


def eras():
    out = head(890, 150, "two eras: T rounds into each all correct nodes count")
    out += "".join(era(*it) for it in ERAS)
    arrow = f'<path d="M868 {TOP + 14} l10 6 l-10 6 z" fill="{LINE}"/>\n'
    return out + line(860, TOP + 20, 870, TOP + 20) + arrow + "</svg>\n"


# ---- layers

PROVED, TESTED, TRUSTED = "#cfe8cf", "#f6d9c6", "#e6e6e6"
# from what its user sees down to the machine: what it is, its parts, and how it is known
LAYERS = [
    ("What you mean by a counter", "do the definitions say it?", "trusted: read them", TRUSTED),
    ("The edges", "arguments, exit codes, output; header and link", "tested", TESTED),
    ("Pictures, and states in words", "draw, states", "proved in part, tested", TESTED),
    ("What is answered", "counterlab, halvinglab, choose, trace, sweep, library", "proved", PROVED),
    ("Why it counts", "every accepted plan, any start, any lies", "proved", PROVED),
    ("Rattle", "its logic, compilers, library and crates", "trusted", TRUSTED),
    ("Below", "C library, system, machine", "trusted", TRUSTED),
]
LAYER, WIDE = 34, 720


def layers():
    out = head(WIDE + 2 * LEFT, LAYER * len(LAYERS) + 20, "what is proved, tested and trusted")
    for i, (what, parts, known, colour) in enumerate(LAYERS):
        y = 10 + LAYER * i
        out += box(LEFT, y, WIDE, LAYER, colour)
        out += text(LEFT + 10, y + 22, 13, what, 'font-weight="bold"')
        out += text(LEFT + 240, y + 22, 12, parts)
        out += text(LEFT + WIDE - 10, y + 22, 12, known, END)
    return out + "</svg>\n"


# ---- nodes against bounds

WIDTH, TALL, AXIS = 560, 420, 78
LEAST_NODES, MOST_NODES, LEAST_BOUND, MOST_BOUND = 3, 300, 5, 1e11
COLOURS = ["#1f77b4", "#ff7f0e", "#2ca02c", "#d62728", "#9467bd", "#8c564b", "#e377c2"]


def rows(of):
    """Faults, nodes and bound of each row of the pages' tables whose plan begins so."""
    found = re.findall(rf"^\| (\d+) \| `{of} [^|]*\| (\d+) \| ([\d,]+) \|", PAGES, re.M)
    return [(int(f), int(n), int(t.replace(",", ""))) for f, n, t in found]


def at(nodes, bound):
    """Where a plan stands: both scales are logarithmic."""
    x = math.log(nodes / LEAST_NODES) / math.log(MOST_NODES / LEAST_NODES)
    y = math.log(bound / LEAST_BOUND) / math.log(MOST_BOUND / LEAST_BOUND)
    return round(AXIS + x * WIDTH, 1), round(30 + (1 - y) * TALL, 1)


def path(plans, colour, more=""):
    places = " ".join(f"{x},{y}" for x, y in (at(n, t) for _, n, t in plans))
    return f'<polyline points="{places}" fill="none" stroke="{colour}" {more}/>\n'


def dot(plan, colour, kind):
    faults, nodes, bound = plan
    x, y = at(nodes, bound)
    name = f"<title>{kind}, F {faults}: {nodes} nodes, T {bound:,}</title>"
    return f'<circle cx="{x}" cy="{y}" r="4" fill="{colour}">{name}</circle>\n'


def scales():
    out = ""
    for nodes in (4, 7, 10, 13, 20, 36, 61, 118, 256):
        x, y = at(nodes, LEAST_BOUND)
        out += line(x, 30, x, y, "#ddd") + text(x, y + 16, 11, nodes, MIDDLE)
    for power in range(1, 11):
        x, y = at(LEAST_NODES, 10**power)
        name = f'10<tspan dy="-4" font-size="8">{power}</tspan>'
        out += line(x, y, x + WIDTH, y, "#ddd") + text(x - 6, y + 4, 11, name, END)
    x, y = at(LEAST_NODES, LEAST_BOUND)
    out += text(x + WIDTH / 2, y + 36, 13, "nodes", MIDDLE) + text(x - 60, 22, 13, "T, in rounds")
    return out


def bounds():
    out = head(AXIS + WIDTH + 150, TALL + 80, "nodes against T, of both constructions") + scales()
    halving = rows("halving 1;group")
    out += path(halving, LINE)
    for plan in halving:
        out += dot(plan, LINE, "halving")
        x, y = at(*plan[1:])
        out += text(x, y + 18, 10, f"F {plan[0]}", MIDDLE)
    boosting = rows("plan 2;base")
    for faults, colour in enumerate(COLOURS, 1):
        front = [plan for plan in boosting if plan[0] == faults]
        out += path(front, colour, 'stroke-dasharray="4 3"')
        out += "".join(dot(plan, colour, "boosting") for plan in front)
    x, y = AXIS + WIDTH + 16, 44
    out += text(x, y, 12, "boosting, dashed:")
    for faults, colour in enumerate(COLOURS, 1):
        y += 18
        out += f'<circle cx="{x + 5}" cy="{y - 4}" r="4" fill="{colour}"/>\n'
        out += text(x + 16, y, 12, f"F {faults}")
    y += 28
    out += text(x, y, 12, "halving: black,") + text(x, y + 16, 12, "a plan for each F")
    return out + "</svg>\n"


PICTURES = {"eras": eras, "layers": layers, "bounds": bounds}


def main():
    if len(sys.argv) != 2 or sys.argv[1] not in PICTURES:
        sys.exit(__doc__)
    sys.stdout.write(PICTURES[sys.argv[1]]())


if __name__ == "__main__":
    main()
