#!/usr/bin/env python3
"""The numbers of halving plans, worked out node by node: from which round on the nodes count, what
their states take, and the table that `halvinglab plan` writes.

  halving_numbers.py table N F C     the table of the plan `group N F C`
  halving_numbers.py compare BINARY  compares the tables that the built `halvinglab` writes with
                                     these, and the lines of its refusals, for some 300 plans; it
                                     stops at the first that differs

Of F faults the left half tolerates F_0 = 5 F / 13 and the right half F_1 = F - 1 - F_0 (whole
numbers). The first 3 F_0 + 1 nodes are the left half, the next 3 F_1 + 1 the right half, and all
further nodes are spares.
"""

import subprocess
import sys


def split(faults):
    left = 5 * faults // 13
    return left, faults - 1 - left


def right_period(faults):
    return 3 * (split(faults)[1] + 1)


def left_period(faults):
    """The right half's share of it, which is two rounds longer than that half's period, and three
    rounds for each of the left half's kings."""
    return right_period(faults) + 2 + 3 * (split(faults)[0] + 1)


BOUNDS = [0]
HEIGHTS = [0]
for f in range(1, 86):
    left, right = split(f)
    by_left = BOUNDS[left] + 2 * left_period(f)
    by_right = BOUNDS[right] + ((left + 1) // (right + 1) + 2) * right_period(f) + 2
    BOUNDS.append(max(by_left, by_right))
    HEIGHTS.append(1 + max(HEIGHTS[left], HEIGHTS[right]))


def width(values):
    """The bits of a number below `values`."""
    return (values - 1).bit_length()


def groups_of(node, nodes, faults, modulus):
    """The groups that a node is in, from the whole down: first node, nodes, faults, modulus. Where
    it is a spare of the last one there is no group of it alone."""
    first, found = 0, []
    while True:
        found.append((first, nodes, faults, modulus))
        if faults == 0:
            return found
        left, right = split(faults)
        middle = first + 3 * left + 1
        if node < middle:
            nodes, modulus, faults = 3 * left + 1, left_period(faults), left
        elif node < middle + 3 * right + 1:
            first, nodes = middle, 3 * right + 1
            modulus, faults = right_period(faults), right
        else:
            return found


def node_bits(node, nodes, faults, modulus):
    """The bits of a node's state: at each level two registers, each a value below its modulus or
    infinite, and a mark; and below all a number."""
    bits = 0
    for _, _, f, c in groups_of(node, nodes, faults, modulus):
        if f == 0:
            bits += width(c)
        else:
            bits += sum(width(m + 1) + 1 for m in (c, left_period(f)))
    return bits


def output_place(node, nodes, faults, modulus):
    """In how many bits the output of a node stands, and after how many: before the register of the
    whole stands the number of a node that is alone in its lowest group."""
    _, _, lowest, base = groups_of(node, nodes, faults, modulus)[-1]
    if faults == 0:
        return 0, width(modulus)
    return width(base) if lowest == 0 else 0, width(modulus + 1)


def bits_of(nodes, faults, modulus):
    return max(node_bits(node, nodes, faults, modulus) for node in range(nodes))


def bytes_of(nodes, faults, modulus):
    return -(-bits_of(nodes, faults, modulus) // 8)


def table_of(nodes, faults, modulus):
    bits = bits_of(nodes, faults, modulus)
    lines = ['table halving 1', f'plan nodes {nodes} faults {faults} modulus {modulus}',
             f'bound {BOUNDS[faults]} levels {HEIGHTS[faults]} bits {bits} bytes {-(-bits // 8)}']
    # A group stands before those in it, and before those that begin after it.
    groups = {group for node in range(nodes) for group in groups_of(node, nodes, faults, modulus)}
    for first, n, f, c in sorted(groups, key=lambda group: (group[0], -group[1])):
        line = f'group {first} nodes {n} faults {f} modulus {c}'
        if f > 0:
            spares = n - sum(3 * half + 1 for half in split(f))
            kings = [half + 1 for half in split(f)]
            right = right_period(f)
            line += f' share {right + 2} left {3 * kings[0]} right {right}'
            line += f' kings {kings[0]} {kings[1]} spares {spares}'
        lines.append(line)
    for node in range(nodes):
        size = -(-node_bits(node, nodes, faults, modulus) // 8)
        start, length = output_place(node, nodes, faults, modulus)
        lines.append(f'node {node} bytes {size} output {start} {length}')
    return '\n'.join(lines + ['end']) + '\n'


def said(binary, text):
    ran = subprocess.run([binary, 'plan'], input=text.encode(), stdout=subprocess.PIPE)
    return ran.returncode, ran.stdout.decode()


def compare(binary):
    plans = [(1, 0, c) for c in (2, 1000, 1 << 40)]
    plans += [(3 * f + 1, f, c) for f in range(1, 86) for c in (2, 10, 1 << 40)]
    plans += [(n, f, 1000) for f in (1, 4, 10, 39) for n in (3 * f + 2, 200, 256)]
    for n, f, c in plans:
        text = f'halving 1\ngroup {n} {f} {c}\nend\n'
        assert said(binary, text) == (0, table_of(n, f, c)), (n, f, c)
    refused = [('halving 2\n', 1, 'form'), ('', 1, 'form'), ('halving 1\ngroup 4 1\n', 2, 'form'),
               ('halving 1\ngroup 257 1 10\nend\n', 2, 'limit'),
               ('halving 1\ngroup 4 1 1099511627777\nend\n', 2, 'limit'),
               ('halving 1\ngroup 4 1 1\nend\n', 2, 'modulus'),
               ('halving 1\n\n# four\ngroup 3 1 10\nend\n', 4, 'quorum'),
               ('halving 1\ngroup 2 0 10\nend\n', 2, 'single'),
               ('halving 1\ngroup 4 1 10\n', 3, 'form'),
               ('halving 1\ngroup 4 1 10\nend\nend\n', 4, 'form')]
    for text, line, premise in refused:
        want = f'refused halving line {line} premise {premise}\n'
        assert said(binary, text) == (1, want), (text, want)
    print(f'{len(plans)} tables and {len(refused)} refusals are as worked out')


def main(words):
    if words[:1] == ['table'] and len(words) == 4:
        print(table_of(*map(int, words[1:])), end='')
    elif words[:1] == ['compare'] and len(words) == 2:
        compare(words[1])
    else:
        sys.exit(__doc__)


if __name__ == '__main__':
    main(sys.argv[1:])
