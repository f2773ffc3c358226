"""A counter by its definitions: plans, states as bytes, and the step of a node.

The other scripts of this folder use it. It counts each number anew, so it is slow; it is written
from docs/FORMATS.md and docs/proof/DEFINITIONS.md, shares no code with the proved program and is no
part of it. Inputs are taken as accepted ones.

A register is a pair of a value and a mark, and the value None is infinite.
"""

from collections import namedtuple
from functools import lru_cache

ZERO = (0, False)

State = namedtuple("State", "number registers")

Level = namedtuple("Level", "blocks faults modulus spares below")  # below: the nodes of a block


def nodes_of(level):
    return level.blocks * level.below + level.spares


def beat_of(level):
    return 3 * (level.faults + 2)


def leaders_of(level):
    return (level.blocks + 1) // 2


def width(count):
    """How many bits hold the numbers below a count."""
    return (count - 1).bit_length()


class Plan:
    """A plan from the lines of its text; after it the values of each register of a layer."""

    def __init__(self, lines, behind=()):
        self.lines = lines
        self.levels = []
        self.nodes, self.faults, self.bound = 1, 0, 0
        for key, *numbers in (line.split() for line in lines):
            if key == "base":
                self.base = self.modulus = int(numbers[0])
            if key == "level":
                self.put_level(*(int(number) for number in numbers if number != "spare"))
        self.depth = len(self.levels)
        self.top = self.depth - 1 if self.depth else None
        self.moduli = [level.modulus for level in self.levels] + list(behind)
        self.lows = [self.low(v) for v in range(self.nodes)]

    def put_level(self, blocks, faults, modulus, spares=0):
        level = Level(blocks, faults, modulus, spares, self.nodes)
        self.levels.append(level)
        self.nodes, self.faults, self.modulus = nodes_of(level), faults, modulus
        self.bound += beat_of(level) * (2 * leaders_of(level)) ** blocks

    def low(self, v):
        """From which level on a node takes part: 0, or that of which it is a spare."""
        for number in range(self.depth, 0, -1):
            level = self.levels[number - 1]
            if v >= level.blocks * level.below:
                return number
            v %= level.below
        return 0

    def has(self, v):
        """Whether node v has a number, and whether it has each of the registers."""
        low = self.lows[v]
        return low == 0, [low <= i + 1 for i in range(len(self.moduli))]

    def bytes(self, v):
        """How many bytes a state of node v takes."""
        number, registers = self.has(v)
        bits = width(self.base) if number else 0
        for modulus, is_there in zip(self.moduli, registers):
            bits += width(modulus + 1) + 1 if is_there else 0
        return (bits + 7) // 8

    def zero(self):
        return State(0, [ZERO] * len(self.moduli))

    def read(self, v, data):
        """The state of node v that bytes stand for."""
        if len(data) != self.bytes(v):
            return self.zero()
        bits = "".join(f"{byte:08b}" for byte in data)

        def take(count):
            nonlocal bits
            front, bits = bits[:count], bits[count:]
            return int(front, 2) if front else 0

        has_number, has_registers = self.has(v)
        number = take(width(self.base)) if has_number else 0
        registers = []
        for modulus, is_there in zip(self.moduli, has_registers):
            register = ZERO
            if is_there:
                value = take(width(modulus + 1))
                register = (value if value < modulus else None, take(1) == 1)
            registers.append(register)
        return State(number if number < self.base else 0, registers)

    def write(self, v, state):
        """The bytes of a state of node v."""
        has_number, has_registers = self.has(v)
        bits = f"{state.number:0{width(self.base)}b}" if has_number else ""
        for modulus, is_there, register in zip(self.moduli, has_registers, state.registers):
            if is_there:
                value, mark = register
                value = modulus if value is None else value
                bits += f"{value:0{width(modulus + 1)}b}{int(mark)}"
        size = self.bytes(v)
        return int(bits.ljust(8 * size, "0"), 2).to_bytes(size, "big")

    def fitted(self, v, state):
        """Of a state what node v has."""
        has_number, has_registers = self.has(v)
        kept = [r if h else ZERO for r, h in zip(state.registers, has_registers)]
        return State(state.number if has_number else 0, kept)

    def shifted(self, v, state, later):
        """A state of node v so many numbers later."""
        has_number, has_registers = self.has(v)
        number = (state.number + later) % self.base if has_number else 0
        registers = []
        for register, modulus, is_there in zip(state.registers, self.moduli, has_registers):
            value, mark = register
            if is_there and value is not None:
                value = (value + later) % modulus
            registers.append((value, mark))
        return State(number, registers)

    def shown(self, state):
        return shown(self.depth, state)

    def step(self, v, heard):
        return step(self, v, heard)


def shown(depth, state):
    """What a state shows over so many levels."""
    return state.registers[depth - 1][0] or 0 if depth else state.number


def majority(numbers):
    for number in set(numbers):
        if 2 * numbers.count(number) > len(numbers):
            return number
    return 0


@lru_cache(maxsize=256)
def beat_heard(level, outputs):
    """The beat that a group hears, by what the nodes of its blocks show."""
    def of_block(i):
        return outputs[i * level.below : (i + 1) * level.below]

    def pointer(i, output):
        return output // (beat_of(level) * (2 * leaders_of(level)) ** i) % leaders_of(level)

    votes = [majority([pointer(i, o) for o in of_block(i)]) for i in range(level.blocks)]
    return majority([o % beat_of(level) for o in of_block(majority(votes))])


def instructed(nodes, faults, turn, own, values):
    """The register of a node that takes a turn of the phase king, without increment."""
    value, mark = own
    many = values.count(value) >= nodes - faults
    if turn % 3 == 0:
        return value if many else None, mark
    if turn % 3 == 1:
        often = [a for a in set(values) if a is not None and values.count(a) > faults]
        return min(often, default=None), many
    if value is None or not mark:
        value = values[turn // 3] or 0
    return value, True


def step_in(plan, depth, v, group):
    """The new state of the node at place v of a group of the highest of so many levels."""
    if depth == 0:
        return State((group[v].number + 1) % plan.base, [])
    level = plan.levels[depth - 1]
    if v < level.blocks * level.below:
        first = v // level.below * level.below
        new = step_in(plan, depth - 1, v % level.below, group[first : first + level.below])
    else:
        new = State(0, [ZERO] * (depth - 1))
    outputs = tuple(shown(depth - 1, state) for state in group[: level.blocks * level.below])
    values = [state.registers[depth - 1][0] for state in group]
    turn = beat_heard(level, outputs)
    own = group[v].registers[depth - 1]
    value, mark = instructed(nodes_of(level), level.faults, turn, own, values)
    value = None if value is None else (value + 1) % level.modulus
    return State(new.number, new.registers + [(value, mark)])


def step(plan, v, heard):
    """The new state of node v from the states that it hears of all nodes, its own among them."""
    return step_in(plan, plan.depth, v, heard)
