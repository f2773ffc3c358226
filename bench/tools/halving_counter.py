"""The halving counter by its definitions: plans, states as bytes, and the step of a node.

The other scripts of this folder use it, as they use counter.py for the boosting counter: a plan of
either has the same calls. It counts each number anew, so it is slow; it shares no code with the
proved program and is no part of it. Inputs are taken as accepted ones.

A register is a pair of a value and a mark, and the value None is infinite.
"""

from collections import namedtuple

import counter
from counter import ZERO, State, width

REGISTERS = 2  # of a level: the phase king's, and what was seen, with the bit trusted as its mark

Group = namedtuple("Group", "first nodes faults modulus register")

LevelState = namedtuple("LevelState", "register seen trusted")


def faults_of(faults):
    """How many faults the left half and the right half tolerate."""
    left = 5 * faults // 13
    return left, faults - 1 - left


def right_period_of(group):
    """The instructions of the right half's kings, three each, and what it counts by."""
    return 3 * (faults_of(group.faults)[1] + 1)


def right_share_of(group):
    """How much of the left half's period is the right half's share."""
    return right_period_of(group) + 2


def left_period_of(group):
    """The right half's share, and three rounds for each of the left half's kings."""
    return right_share_of(group) + 3 * (faults_of(group.faults)[0] + 1)


def halves_of(group):
    """The left half and the right half of a group that tolerates a fault."""
    left_faults, right_faults = faults_of(group.faults)
    first, register = group.first, group.register + REGISTERS
    left = Group(first, 3 * left_faults + 1, left_faults, left_period_of(group), register)
    first += left.nodes
    return left, Group(first, 3 * right_faults + 1, right_faults, right_period_of(group), register)


def bound_of(faults):
    if faults == 0:
        return 0
    group = Group(0, 3 * faults + 1, faults, 0, 0)
    left, right = faults_of(faults)
    phases = (left + 1) // (right + 1) + 2
    return max(
        bound_of(left) + 2 * left_period_of(group),
        bound_of(right) + phases * right_period_of(group) + 2,
    )


def height_of(faults):
    return 0 if faults == 0 else 1 + max(height_of(half) for half in faults_of(faults))


def is_in(group, v):
    return group.first <= v < group.first + group.nodes


def shown(group, state):
    if group.faults == 0:
        return state.number
    return state.registers[group.register][0] or 0


def shown_by(half, heard):
    """What more than half of the nodes of a half show, 0 if they show no one number."""
    outputs = [shown(half, heard[half.first + i]) for i in range(half.nodes)]
    often = [output for output in set(outputs) if 2 * outputs.count(output) > half.nodes]
    return often[0] % half.modulus if often else 0


def level_state(group, state):
    """What a state holds of a group's level."""
    register, (seen, trusted) = state.registers[group.register :][:REGISTERS]
    return LevelState(register, seen or 0, trusted)


def registers(level):
    """The registers that hold a level's state."""
    return [level.register, (level.seen, level.trusted)]


def obeyed(group, own, values, kind, king):
    """The phase king's register after an instruction of a kind, of a king with this value."""
    quorum = group.nodes - group.faults
    value, mark = own
    same = values.count(value)
    if kind == 0:
        value = value if same >= quorum else None
    elif kind == 1:
        often = [a for a in set(values) if a is not None and values.count(a) > group.faults]
        value, mark = min(often, default=None), same >= quorum
    else:
        if value is None or not mark:
            value = king or 0
        mark = True
    return (None if value is None else (value % group.modulus + 1) % group.modulus, mark)


def is_backed(group, own, levels):
    return sum(level.seen == own.seen for level in levels) >= group.nodes - group.faults


def follows_left(group, own, backed):
    """Whether a node follows the left half, which it trusts, in that half's share."""
    return backed and own.trusted and own.seen >= right_share_of(group)


def instruction_of(group, own, backed, heard):
    """The number of the instruction that a node obeys, and the place of its king in the group."""
    left, right = halves_of(group)
    if follows_left(group, own, backed):
        instruction = own.seen - right_share_of(group)
        return instruction, instruction // 3
    instruction = shown_by(right, heard)
    return instruction, left.nodes + instruction // 3


def level_after(group, v, heard):
    """What node v holds of a group's level after a round, from the states that it hears."""
    own = level_state(group, heard[v])
    levels = [level_state(group, heard[group.first + i]) for i in range(group.nodes)]
    values = [level.register[0] for level in levels]
    backed = is_backed(group, own, levels)
    instruction, king = instruction_of(group, own, backed, heard)
    seen = shown_by(halves_of(group)[0], heard)
    return LevelState(
        obeyed(group, own.register, values, instruction % 3, values[king]),
        seen,
        backed and seen == own.seen + 1 and (own.trusted or own.seen == 0),
    )


class Plan:
    """A plan from the lines of its text, `halving 1`, `group N F C` and `end`; after it the values
    of each register of a layer."""

    def __init__(self, lines, behind=()):
        self.lines, self.behind = lines, list(behind)
        numbers = next(line for line in lines if line.startswith("group")).split()[1:]
        self.nodes, self.faults, self.modulus = map(int, numbers)
        self.bound = bound_of(self.faults)
        self.depth = REGISTERS * height_of(self.faults)
        self.whole = Group(0, self.nodes, self.faults, self.modulus, 0)
        self.top = 0 if self.faults > 0 else None

    def groups(self, v):
        """The groups of node v, from the whole down."""
        group = self.whole
        while group is not None:
            yield group
            halves = halves_of(group) if group.faults > 0 else ()
            group = next((half for half in halves if is_in(half, v)), None)

    def fields(self, v):
        """The modulus of the number of node v, 1 if it lacks it, and those of all registers, 0 of
        one that it lacks."""
        base, moduli = 1, []
        for group in self.groups(v):
            if group.faults == 0:
                base = group.modulus
            else:
                moduli += [group.modulus, left_period_of(group)]
        return base, moduli + [0] * (self.depth - len(moduli)) + self.behind

    def bits(self, v):
        base, moduli = self.fields(v)
        return width(base) + sum(width(modulus + 1) + 1 for modulus in moduli if modulus > 0)

    def bytes(self, v):
        """How many bytes a state of node v takes."""
        return (self.bits(v) + 7) // 8

    def zero(self):
        return State(0, [ZERO] * (self.depth + len(self.behind)))

    def filled(self, number, registers):
        """A state of these registers of the plan, and none of a layer."""
        return State(number, registers + [ZERO] * (self.depth - len(registers)))

    def read(self, v, data):
        """The state of node v that bytes stand for."""
        if len(data) != self.bytes(v):
            return self.zero()
        bits = "".join(f"{byte:08b}" for byte in data)

        def take(count):
            nonlocal bits
            front, bits = bits[:count], bits[count:]
            return int(front, 2) if front else 0

        base, moduli = self.fields(v)
        number = take(width(base))
        registers = []
        for modulus in moduli:
            register = ZERO
            if modulus > 0:
                value = take(width(modulus + 1))
                register = (value if value < modulus else None, take(1) == 1)
            registers.append(register)
        return State(number if number < base else 0, registers)

    def write(self, v, state):
        """The bytes of a state of node v."""
        base, moduli = self.fields(v)
        bits = f"{state.number:0{width(base)}b}" if width(base) > 0 else ""
        for modulus, (value, mark) in zip(moduli, state.registers):
            value = modulus if value is None else value
            bits += f"{value:0{width(modulus + 1)}b}{int(mark)}" if modulus > 0 else ""
        size = self.bytes(v)
        return int(bits.ljust(8 * size, "0"), 2).to_bytes(size, "big")

    def fitted(self, v, state):
        """Of a state what node v has: 0 for a number that is too large, infinity for a value."""
        base, moduli = self.fields(v)
        said = []
        for modulus, (value, mark) in zip(moduli, state.registers):
            value = value if value is not None and value < modulus else None
            said.append((value, mark) if modulus > 0 else ZERO)
        return State(state.number if state.number < base else 0, said)

    def shifted(self, v, state, later):
        """A state of node v so many numbers later."""
        base, moduli = self.fields(v)
        said = []
        for modulus, (value, mark) in zip(moduli, state.registers):
            if modulus > 0 and value is not None:
                value = (value + later) % modulus
            said.append((value, mark) if modulus > 0 else ZERO)
        return State((state.number + later) % base, said)

    def shown(self, state):
        return shown(self.whole, state)

    def step(self, v, heard):
        """The state of node v after a round, from the states that it hears of all nodes."""
        new = []
        for group in self.groups(v):
            if group.faults == 0:
                return self.filled((heard[v].number % group.modulus + 1) % group.modulus, new)
            new += registers(level_after(group, v, heard))
        return self.filled(0, new)


def plan_of(lines, behind=()):
    """The plan of a text, of either construction; after it the values of a layer's registers."""
    is_halving = lines[0].split()[0] == "halving"
    return Plan(lines, behind) if is_halving else counter.Plan(lines, behind)
