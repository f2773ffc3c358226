#!/usr/bin/env python3
"""The fronts of nodes and bound that `choose` writes, by a plain search of another kind.

It goes forward over exact pairs of nodes and faults. From each pair that some levels reach, in
rising order of nodes, it tries every level that may stand on it: every number of blocks, of faults
and of spare nodes. Least bounds over "at most so many nodes" and "at least so many faults" are
taken only at the end. `choose` goes the other way: it never looks at exact pairs, and at no spare
nodes but the fewest. Of the front of both constructions it compares all those pairs and every halving
plan of F faults or more.

  fronts.py rows [MOST]       a line `F N T` for each line of the front of each F from 0 to 40
  fronts.py check MOST < LIST
                              LIST has lines `F C FILE`: tests that FILE is what
                              `choose boosting F C MOST` writes, line by line, and that each plan in
                              it is accepted and has the numbers of its line
  fronts.py both MOST < LIST  the same of what `choose F C MOST` writes
  fronts.py numbers < PLAN    the table that `plan` answers to a plan text of version 2
  fronts.py table BINARY [F]  the table of boosting plans of docs/BOOSTING.md for 1 to F faults (7),
                              from what the built `choose boosting` writes at modulus 10
  fronts.py halving BINARY     the table of both constructions there, from what the built `choose`
                              writes at modulus 10
  fronts.py within BINARY     tests that the built `choose within N T 10` tolerates the most faults,
                              at each bound of a halving plan and just below it, for some N
  fronts.py none BINARY       tests what the built `choose` says on standard error if there is no
                              plan, for some N and each F
  fronts.py times BINARY      how long the built `choose boosting` takes, for the five slowest F from
                              0 to 85: the least of nine runs each

It takes a few seconds and no package. `fronts.sh` runs it against the built program.
"""

import subprocess
import sys
import time

import halving_numbers

LARGEST = 1 << 40


def leaders(blocks):
    return (blocks + 1) // 2


def span(blocks, faults):
    return 3 * (faults + 2) * (2 * leaders(blocks)) ** blocks


def width(values):
    """The bits of a number below `values`."""
    bits = 0
    while (1 << bits) < values:
        bits += 1
    return bits


ALL = ((k, f) for k in range(3, 17) for f in range(86))
SPANS = {(k, f): span(k, f) for k, f in ALL if span(k, f) <= LARGEST}


def least_bounds(most):
    """rows[n][f]: the least sum of spans of levels with just n nodes that bear just f faults."""
    rows = [dict() for _ in range(most + 1)]
    rows[1][0] = 0
    for n in range(1, most + 1):
        for below, bound in sorted(rows[n].items()):
            for k in range(3, 17):
                if k * n > most:
                    break
                for f in range(min(86, (below + 1) * leaders(k))):
                    if (k, f) not in SPANS:
                        continue
                    total = bound + SPANS[k, f]
                    for size in range(max(k * n, 3 * f + 1), most + 1):
                        if total < rows[size].get(f, total + 1):
                            rows[size][f] = total
    return rows


def front(rows, faults):
    """The pairs of nodes and bound that no other pair is at most in both."""
    found = []
    for n, row in rows.items() if isinstance(rows, dict) else enumerate(rows):
        bounds = [bound for f, bound in row.items() if f >= faults]
        if bounds and (not found or min(bounds) < found[-1][1]):
            found.append((n, min(bounds)))
    return found


def table_of(lines):
    """The table of a plan of version 2 with these lines. It fails if the plan is refused."""
    assert lines[0] == 'plan 2' and lines[-1] == 'end', lines
    word, base = lines[1].split(' ')
    base = int(base)
    assert word == 'base' and 2 <= base <= LARGEST, lines
    nodes, faults, modulus, bound, bits = 1, 0, base, 0, width(base)
    table = ['table 2', f'base {base}']
    for index, line in enumerate(lines[2:-1], 1):
        word, k, f, c, spare, s = line.split(' ')
        k, f, c, s = int(k), int(f), int(c), int(s)
        size, m = k * nodes + s, leaders(k)
        assert (word, spare) == ('level', 'spare'), line
        assert 3 <= k <= 16 and f <= 85 and 2 <= c <= LARGEST and size <= 256, line
        assert size > 3 * f, line
        assert f < (faults + 1) * m, line
        assert modulus % span(k, f) == 0, line
        nodes, faults, modulus = size, f, c
        bound, bits = bound + span(k, f), bits + width(c + 1) + 1
        table.append(f'level {index} blocks {k} leaders {m} nodes {nodes} faults {f} '
                     f'beat {3 * (f + 2)} span {span(k, f)} modulus {c} bound {bound} bits {bits} '
                     f'spare {s}')
    table.append(f'plan nodes {nodes} faults {faults} modulus {modulus} bound {bound} '
                 f'bits {bits} bytes {-(-bits // 8)}')
    return table + ['end']


def check(rows, faults, modulus, text):
    """Fails if the text is not the front of these rows, in plans that have its numbers."""
    want = front(rows, faults)
    lines = text.splitlines(keepends=True)
    if not want:
        assert lines == ['none\n'], lines
    else:
        assert len(lines) == len(want), (faults, modulus, lines, want)
        for line, (nodes, bound) in zip(lines, want):
            numbers, plan = line.split(' plan ')
            words = table_of(('plan ' + plan).rstrip('\n').split(';'))[-2].split(' ')
            had = dict(zip(words[1::2], map(int, words[2::2])))
            levels = plan.count('level')
            assert (had['nodes'], had['bound']) == (nodes, bound), (faults, line, nodes, bound)
            assert had['faults'] >= faults and had['modulus'] == modulus, (faults, modulus, line)
            size = had['bytes']
            assert numbers == f'nodes {nodes} bound {bound} bytes {size} levels {levels}', line
    return len(want)


def front_of_both(rows, faults, most):
    """The pairs of nodes and bound of both constructions that no other pair is at most in both, each
    with whether a halving plan alone has it."""
    pairs = {(n, bound): False for n, row in enumerate(rows)
             for f, bound in row.items() if f >= faults}
    for f in range(faults, 86):
        for n in range(3 * f + 1, most + 1) if f else [1]:
            pairs.setdefault((n, halving_numbers.BOUNDS[f]), True)
    found = []
    for (n, bound), halving in sorted(pairs.items()):
        if n <= most and (not found or bound < found[-1][1]):
            found.append((n, bound, halving))
    return found


def check_both(rows, faults, modulus, most, text):
    """Fails if the text is not the front of both constructions, in plans that have its numbers."""
    want = front_of_both(rows, faults, most)
    lines = text.splitlines(keepends=True)
    if not want:
        assert lines == ['none\n'], lines
    else:
        assert len(lines) == len(want), (faults, modulus, lines, want)
        for line, (nodes, bound, halving) in zip(lines, want):
            if halving:
                words = line.split(' halving ')[1].split(';')[1].split(' ')
                n, f, c = map(int, words[1:])
                assert (n, c) == (nodes, modulus) and f >= faults, (faults, modulus, line)
                assert halving_numbers.BOUNDS[f] == bound and 3 * f < n <= most, (faults, line)
                size, levels = halving_numbers.bytes_of(n, f, c), halving_numbers.HEIGHTS[f]
                assert line == (f'nodes {n} bound {bound} bytes {size} levels {levels} '
                                f'halving 1;group {n} {f} {c};end\n'), line
            else:
                check({nodes: rows[nodes]}, faults, modulus, line)
    return len(want)


def time_of(rounds):
    """How long rounds of one millisecond take."""
    seconds = rounds / 1000
    units = (('s', 1, 120), ('min', 60, 120), ('h', 3600, 48), ('days', 86400, 730))
    for unit, size, upto in units:
        if seconds < upto * size:
            value = seconds / size
            return f'{value:.1f} {unit}' if value < 100 or unit == 's' else f'{value:.0f} {unit}'
    return f'{seconds / 86400 / 365.25:.1f} years'


def print_table(binary, most_faults):
    print('| F | plan | nodes N | bound T | bytes | T at 1 ms | a run comes to T |')
    print('|---|---|---|---|---|---|---|')
    for faults in range(1, most_faults + 1):
        said = subprocess.run([binary, 'boosting', str(faults), '10'], stdout=subprocess.PIPE,
                              check=True)
        for line in said.stdout.decode().splitlines():
            words = line.split(' ', 8)
            nodes, bound, size, plan = int(words[1]), int(words[3]), int(words[5]), words[8]
            run = 'yes' if bound <= 1000000 else 'no'
            took = time_of(bound)
            print(f'| {faults} | `{plan}` | {nodes} | {bound:,} | {size} | {took} | {run} |')


def print_halving(binary):
    print('| F | plan | nodes N | bound T | bytes | T at 1 ms | boosting, as few nodes | least T |')
    print('|---|---|---|---|---|---|---|---|')
    for faults in (1, 2, 3, 4, 5, 6, 7, 10, 20, 39, 85):
        said = subprocess.run([binary, str(faults), '10'], stdout=subprocess.PIPE, check=True)
        words = said.stdout.decode().rstrip('\n').split(' ', 8)
        nodes, bound, size, plan = int(words[1]), int(words[3]), int(words[5]), words[8]
        others = subprocess.run([binary, 'boosting', str(faults), '10'], stdout=subprocess.PIPE,
                                check=True).stdout.decode().splitlines()
        few = least = 'none'
        if others != ['none']:
            rows = [[int(word) for word in line.split(' ')[1:4:2]] for line in others]
            few = f'{rows[0][1]:,}' if rows[0][0] == nodes else 'none'
            least = f'{rows[-1][1]:,} (N {rows[-1][0]})'
        print(f'| {faults} | `{plan}` | {nodes} | {bound:,} | {size} | {time_of(bound)} '
              f'| {few} | {least} |')


SOME_NODES = (1, 2, 3, 4, 6, 7, 9, 10, 12, 13, 14, 20, 36, 100, 255, 256)


def pairs_of(rows):
    """Faults, nodes and least bound of plans: of boosting, of halving, and of both."""
    boosting = [(f, n, bound) for n, row in enumerate(rows) for f, bound in row.items()]
    halving = [(f, 3 * f + 1, halving_numbers.BOUNDS[f]) for f in range(86)]
    return boosting, halving, boosting + halving


def told(binary, *words):
    said = subprocess.run([binary, *map(str, words)], capture_output=True, check=True)
    return said.stdout.decode(), said.stderr.decode()


def check_within(binary):
    """`within` writes the line of the front of the most faults that fit."""
    pairs, tried = pairs_of(least_bounds(256))[2], 0
    bounds = sorted({b - less for b in halving_numbers.BOUNDS[:86] for less in (0, 1) if b >= less})
    for nodes in SOME_NODES:
        for bound in [*bounds, 10**15 - 1]:
            most = max(f for f, n, t in pairs if n <= nodes and t <= bound)
            found = told(binary, 'within', nodes, bound, 10)
            assert found == told(binary, most, 10, nodes), (nodes, bound, most, found)
            tried += 1
    print(f'{tried} limits are tolerated as searched')


def check_none(binary):
    boosting, _, both = pairs_of(least_bounds(256))
    tried = 0
    for words, pairs in ((['boosting'], boosting), ([], both)):
        for nodes in SOME_NODES:
            for faults in range(86):
                fewest = min((n for f, n, _ in pairs if f >= faults), default=None)
                most = max(f for f, n, _ in pairs if n <= nodes)
                found = told(binary, *words, faults, 10, nodes)
                if fewest is not None and fewest <= nodes:
                    assert found[0] != 'none\n' and found[1] == '', (words, faults, nodes, found)
                    continue
                need = (f'takes MOST_NODES of at least {fewest}' if fewest else
                        'is more than any boosting plan of at most 256 nodes tolerates')
                line = (f'none: FAULTS {faults} {need}; MOST_NODES {nodes} allows FAULTS of at most '
                        f'{most}\n')
                assert found == ('none\n', line), (words, faults, nodes, found)
                tried += 1
    print(f'{tried} wants without a plan are told as searched')


def print_times(binary):
    times = []
    for faults in range(86):
        runs = []
        for _ in range(9):
            begin = time.perf_counter()
            subprocess.run([binary, 'boosting', str(faults), '10'], stdout=subprocess.DEVNULL,
                           check=True)
            runs.append(time.perf_counter() - begin)
        times.append((min(runs), faults))
    for seconds, faults in sorted(times, reverse=True)[:5]:
        print(f'{faults} faults: {seconds * 1000:.1f} ms')


def main(words):
    if words[:1] == ['rows'] and len(words) <= 2:
        rows = least_bounds(int(words[1]) if len(words) > 1 else 256)
        for faults in range(41):
            for nodes, bound in front(rows, faults):
                print(faults, nodes, bound)
    elif words[:1] == ['check'] and len(words) == 2:
        rows = least_bounds(int(words[1]))
        fronts = lines = 0
        for entry in sys.stdin.read().splitlines():
            faults, modulus, file = entry.split(' ', 2)
            with open(file) as said:
                lines += check(rows, int(faults), int(modulus), said.read())
            fronts += 1
        print(f'{fronts} fronts with at most {words[1]} nodes are as searched, {lines} lines')
    elif words[:1] == ['both'] and len(words) == 2:
        most = int(words[1])
        rows = least_bounds(most)
        fronts = lines = 0
        for entry in sys.stdin.read().splitlines():
            faults, modulus, file = entry.split(' ', 2)
            with open(file) as said:
                lines += check_both(rows, int(faults), int(modulus), most, said.read())
            fronts += 1
        print(f'{fronts} fronts of both with at most {most} nodes are as searched, {lines} lines')
    elif words == ['numbers']:
        print('\n'.join(table_of(sys.stdin.read().rstrip('\n').split('\n'))))
    elif words[:1] == ['table'] and 2 <= len(words) <= 3:
        print_table(words[1], int(words[2]) if len(words) > 2 else 7)
    elif words[:1] == ['halving'] and len(words) == 2:
        print_halving(words[1])
    elif words[:1] == ['within'] and len(words) == 2:
        check_within(words[1])
    elif words[:1] == ['none'] and len(words) == 2:
        check_none(words[1])
    elif words[:1] == ['times'] and len(words) == 2:
        print_times(words[1])
    else:
        sys.exit(__doc__)


if __name__ == '__main__':
    main(sys.argv[1:])
