"""Draws single steps of halving plans, for vectors.py. It is no part of the proved program.

As many nodes have one value, and saw one number of the left half, as is just enough, or one less;
what was seen is often 0, near the beginning of the left half's share or the end of its period, and
the left half often shows the number after it, by just enough of its nodes or one less.
"""

from halving_counter import (
    LevelState,
    halves_of,
    left_period_of,
    registers,
    right_period_of,
    right_share_of,
)

PLANS = [
    (8, "halving 1;group 1 0 5;end"),
    (64, "halving 1;group 4 1 10;end"),
    (32, "halving 1;group 6 1 1099511627776;end"),
    (72, "halving 1;group 7 2 10;end"),
    (96, "halving 1;group 13 4 1000;end"),
    (48, "halving 1;group 32 10 7;end"),
]


def drawn_value(draws, modulus):
    return draws.one_of([None, 0, modulus - 1, 0, draws.below(modulus)])


def spread(draws, group, many, first, second, other):
    """So many nodes have a first number, and about as many a second one as may be faulty."""
    size, faults = group.nodes, group.faults
    more = many + draws.one_of([faults, faults + 1, size])
    numbers = [first] * many + [second] * (more - many)
    return draws.shuffled((numbers + [other() for _ in range(size)])[:size])


def drawn_values(draws, group, wanted):
    """The values of a group's registers, of which a half often shows the number that is wanted."""
    size, faults, modulus = group.nodes, group.faults, group.modulus
    first, second = drawn_value(draws, modulus), drawn_value(draws, modulus)
    many = draws.one_of([size, size - faults, size - faults - 1, faults + 1, faults])
    if wanted is not None and draws.below(4) > 0:
        first, many = wanted, draws.one_of([size, size // 2 + 1, size // 2])
    return spread(draws, group, many, first, second, lambda: drawn_value(draws, modulus))


def drawn_clock(draws, group):
    """What was seen of the left half."""
    period, share = left_period_of(group), right_share_of(group)
    return draws.one_of([0, 0, share - 1, share, share, period - 1, draws.below(period),
                         share + draws.below(period - share)])


def drawn_seen(draws, group, clock):
    """What each node of a group saw: so many one number as back it, or one less."""
    size, faults, period = group.nodes, group.faults, left_period_of(group)
    many = draws.one_of([size, size, size - faults, size - faults, size - faults - 1])
    near = draws.one_of([None, 0, (clock + 1) % period, (clock - 1) % period])
    return spread(draws, group, many, clock, near, lambda: drawn_value(draws, period))


def drawn_levels(draws, group, wanted, clock):
    """What each node of a group holds of its level, by place."""
    values, seen = drawn_values(draws, group, wanted), drawn_seen(draws, group, clock)
    return [
        LevelState((values[i], draws.below(2) == 1), seen[i], draws.below(4) > 0)
        for i in range(group.nodes)
    ]


def fill(draws, group, wanted, numbers, levels):
    """Draws the numbers and the registers of a group's nodes, those of its halves too."""
    if group.faults == 0:
        number = draws.one_of([0, group.modulus - 1, draws.below(group.modulus)])
        numbers[group.first] = number if wanted is None or draws.below(4) == 0 else wanted
        return
    clock = drawn_clock(draws, group)
    for i, level in enumerate(drawn_levels(draws, group, wanted, clock)):
        levels[group.first + i] += registers(level)
    left, right = halves_of(group)
    shows = draws.one_of([clock + 1, clock + 1, clock + 1, clock, 0]) % left_period_of(group)
    fill(draws, left, shows, numbers, levels)
    fill(draws, right, draws.below(right_period_of(group)), numbers, levels)


def drawn_states(draws, plan):
    """States of all nodes, in bytes."""
    numbers, levels = [0] * plan.nodes, [[] for _ in range(plan.nodes)]
    fill(draws, plan.whole, None, numbers, levels)
    return [plan.write(v, plan.filled(numbers[v], levels[v])) for v in range(plan.nodes)]
