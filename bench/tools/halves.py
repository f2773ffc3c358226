#!/usr/bin/env python3
"""Draws halving plans, and writes their numbers.

    python3 bench/tools/halves.py tree 4 > tree.svg        the halves, for 4 faults
    python3 bench/tools/halves.py shares 1 > shares.svg    two periods of the left half, for 1 fault
    python3 bench/tools/halves.py numbers                  nodes, T and bytes of some plans

Written from docs/HALVING.md alone, in plain Python; nothing here is proved.
"""

import sys

from counter import width

PERIOD_COLOURS = {"left": "#cfe3f5", "right": "#fbe3c8", "all": "#ffffff"}
FULL_COLOURS = {"left": "#5b9bd5", "right": "#ed9b40"}
FONT = 'font-family="sans-serif"'
CELL, PAD, LABEL = 46, 6, 18


def halves_of(faults):
    """How many faults the left and the right half tolerate."""
    left = 5 * faults // 13
    return left, faults - 1 - left


def left_share(faults):
    """R_0: three rounds for each of the left half's kings."""
    return 3 * (halves_of(faults)[0] + 1)


def right_period(faults):
    """R_1: three rounds for each of the right half's kings."""
    return 3 * (halves_of(faults)[1] + 1)


def right_share(faults):
    """K."""
    return right_period(faults) + 2


def left_period(faults):
    """P."""
    return right_share(faults) + left_share(faults)


def bound(faults):
    if faults == 0:
        return 0
    left, right = halves_of(faults)
    phases = (left + 1) // (right + 1) + 2
    by_right = bound(right) + phases * right_period(faults) + 2
    return max(bound(left) + 2 * left_period(faults), by_right)


def bits(faults, modulus, place):
    """How many bits the state of the node at a place has, in a group of 3F + 1."""
    if faults == 0:
        return width(modulus)
    left, right = halves_of(faults)
    # a field takes the bits of its values and of infinity, and one for its mark
    own = sum(width(it + 1) + 1 for it in (modulus, left_period(faults)))
    if place < 3 * left + 1:
        return own + bits(left, left_period(faults), place)
    if place < 3 * left + 1 + 3 * right + 1:
        return own + bits(right, right_period(faults), place - 3 * left - 1)
    return own


def numbers():
    for faults in [*range(1, 9), 10, 39, 85]:
        nodes = 3 * faults + 1
        most = max(bits(faults, 10, v) for v in range(nodes))
        print(f"faults {faults} nodes {nodes} bound {bound(faults)} bytes {-(-most // 8)}")


# ---- the tree


def head(w, h, title):
    size = f'viewBox="0 0 {w} {h}" width="{w}" height="{h}"'
    return f'<svg xmlns="http://www.w3.org/2000/svg" {size}>\n<title>{title}</title>\n'


class Group:
    """A node, or a left and a right half and two spares, from the node `first` on."""

    def __init__(self, first, faults, modulus, side):
        self.first, self.faults, self.modulus, self.side = first, faults, modulus, side
        self.nodes = 3 * faults + 1
        self.halves = []
        if faults > 0:
            left, right = halves_of(faults)
            at = first + 3 * left + 1
            self.halves = [
                Group(first, left, left_period(faults), "left"),
                Group(at, right, right_period(faults), "right"),
            ]
        self.height = 1 + max((half.height for half in self.halves), default=-1)

    def width(self):
        if not self.halves:
            return CELL
        return 4 * PAD + sum(half.width() for half in self.halves) + 2 * CELL

    def name(self):
        what = "all" if self.side == "all" else f"{self.side} half"
        faults = "1 fault" if self.faults == 1 else f"{self.faults} faults"
        return f"{what}: {faults}, modulo {self.modulus}"


def text(x, y, size, what, more=""):
    return f'<text x="{x}" y="{y}" font-size="{size}" {FONT} {more}>{what}</text>\n'


def node(x, y, v, below, colour):
    middle = x + CELL // 2
    return (
        f'<circle cx="{middle}" cy="{y + 16}" r="13" fill="{colour}" stroke="#333"/>\n'
        + text(middle, y + 20, 12, v, 'text-anchor="middle"')
        + text(middle, y + 42, 10, below, 'text-anchor="middle"')
    )


def draw_group(group, x, y, height):
    """The group with its upper left corner there, in a picture of so many pixels below it."""
    colour = PERIOD_COLOURS[group.side]
    if not group.halves:
        return node(x, y + height - 52, group.first, f"mod {group.modulus}", colour)
    out = f'<rect x="{x}" y="{y}" width="{group.width()}" height="{height}" fill="{colour}" ' \
          f'stroke="#666" rx="4"/>\n' + text(x + PAD, y + 13, 10.5, group.name())
    at = x + PAD
    for half in group.halves:
        out += draw_group(half, at, y + LABEL, height - LABEL - PAD)
        at += half.width() + PAD
    spare = group.first + sum(half.nodes for half in group.halves)
    for v in (spare, spare + 1):
        out += node(at, y + height - PAD - 52, v, "spare", "#e4e4e4")
        at += CELL
    return out


def tree(faults):
    group = Group(0, faults, "C", "all")
    height = group.height * (LABEL + PAD) + 56
    w, h = group.width() + 2 * PAD, height + 2 * PAD
    title = f"the halves of {group.nodes} nodes that tolerate {faults} faults"
    return head(w, h, title) + draw_group(group, PAD, PAD, height) + "</svg>\n"


# ---- the shares


KINDS = ["keep", "mark", "king"]


def cell(x, y, size, colour, what, edge="#999"):
    return (
        f'<rect x="{x}" y="{y}" width="{size}" height="{size}" fill="{colour}" stroke="{edge}"/>\n'
        + text(x + size / 2, y + size - 8, 10, what, 'text-anchor="middle"')
    )


def share_at(faults, t):
    """What a node does in round t that trusts the left half: what it saw, what the right half
    shows, which half it follows, and the instruction's number."""
    saw, right = t % left_period(faults), (t + 1) % right_period(faults)
    if saw >= right_share(faults):
        return saw, right, "left", saw - right_share(faults)
    return saw, right, "right", right


def shares(faults):
    size, side, top, rounds = 30, 190, 34, 2 * left_period(faults)
    names = ["seen of the left half", "the right half shows", "follows", "instruction",
             "the king is node"]
    w, h = side + rounds * size + 8, top + len(names) * size + 44
    out = head(w, h, f"two periods of the left half, for {faults} faults")
    share = f"K = {right_share(faults)}, R_0 = {left_share(faults)}, R_1 = {right_period(faults)}"
    period = f"of P = {left_period(faults)} rounds"
    out += text(8, 20, 13, f"Two periods of the left half, {period}; {share}")
    for i, name in enumerate(names):
        out += text(8, top + (i + 1) * size - 9, 12, name)
    for t in range(rounds):
        saw, right, half, instruction = share_at(faults, t)
        light, x = PERIOD_COLOURS[half], side + t * size
        king = instruction // 3 + (3 * halves_of(faults)[0] + 1 if half == "right" else 0)
        row = [(PERIOD_COLOURS["left"], saw), (PERIOD_COLOURS["right"], right),
               (FULL_COLOURS[half], half), (light, KINDS[instruction % 3]), (light, king)]
        for i, (colour, what) in enumerate(row):
            out += cell(x, top + i * size, size, colour, what)
    y = top + len(names) * size
    out += text(8, y + 18, 11, "A node that trusts the left half, and what it saw is backed. Blue: "
                "the left half and its share; orange: the right half's.")
    out += text(8, y + 34, 11, "Each share of the right half holds a whole phase of each of its "
                "kings, wherever it stands in its period.")
    return out + "</svg>\n"


def main():
    words = sys.argv[1:]
    if words == ["numbers"]:
        numbers()
    elif len(words) == 2 and words[0] in ("tree", "shares") and words[1].isdecimal():
        print({"tree": tree, "shares": shares}[words[0]](int(words[1])), end="")
    else:
        sys.exit(__doc__)


if __name__ == "__main__":
    main()
