#!/usr/bin/env python3
"""Plays a script over a plan of either construction, and writes what is to be written of it: of the
counter alone, or with consensus, firing or a log on it, by docs/ON_THE_COUNTER.md.

    python3 bench/tools/on_the_counter.py WORD < INPUT

WORD is run, slots, consensus, fire or log. INPUT is what `counterlab WORD` reads, or of a halving plan
`halvinglab WORD`, and what is written is what that writes for an accepted input. It is written from
the documents by the other scripts of this folder, shares no code with the proved programs, and is no
part of them.
"""

import sys

from counter import instructed
from scripts import NoLayer, is_locked, lock_lines, play, read_input


def numbers(line):
    return [int(word) for word in line.split()[1:]]


class Agreement:
    """A register of agreement, the first one after those of a plan."""

    def __init__(self, plan):
        self.plan, self.length = plan, 3 * (plan.faults + 1)

    def turn(self, x, v, heard):
        """The register of node v after turn x of a slot."""
        place = self.plan.depth
        values = [state.registers[place][0] for state in heard]
        own = heard[v].registers[place]
        return instructed(self.plan.nodes, self.plan.faults, x, own, values)


class Slots(Agreement):
    """Slots of which each decides on inputs that are loaded in the round before it."""

    def __init__(self, plan):
        super().__init__(plan)
        self.kept = [0] * plan.nodes

    def step(self, t, v, heard):
        x = self.plan.shown(heard[v]) % self.length
        register = self.turn(x, v, heard)
        if x < self.length - 1:
            self.kept[v] = self.between(v)
            return [register]
        self.kept[v] = register[0]
        return [(self.input(t, v), False)]


class Consensus(Slots):
    """A node keeps its decision."""

    def __init__(self, plan, lines):
        super().__init__(plan)
        self.inputs = numbers(lines[2])

    def input(self, _t, v):
        return self.inputs[v]

    def between(self, v):
        return self.kept[v]

    def front(self, begin, _output):
        return f"slot {begin}"

    def word(self, v):
        return str(self.kept[v])


class Firing(Slots):
    """A node keeps whether it fires, 1 or 0."""

    def __init__(self, plan, lines):
        super().__init__(plan)
        self.requests = [numbers(line) for line in lines[1:-1]]

    def input(self, t, v):
        return int(any(u == v and a <= t <= b for u, a, b in self.requests))

    def between(self, _v):
        return 0

    def front(self, begin, _output):
        return f"fire {begin}"

    def word(self, v):
        return "1" if self.kept[v] == 1 else "."


class Log(Agreement):
    """A register of agreement and one of the command; a node keeps its log."""

    def __init__(self, plan, lines):
        super().__init__(plan)
        self.length += 1
        self.keep = numbers(lines[2])[0]
        self.commands = [numbers(line)[1:] for line in lines[3:-1]]
        self.kept = [[] for _ in range(plan.nodes)]

    def owner(self, output):
        return output // self.length % self.plan.nodes

    def command(self, v, output):
        own = self.commands[v]
        return own[output // (self.plan.nodes * self.length) % len(own)]

    def step(self, t, v, heard):
        output = self.plan.shown(heard[v])
        p = output % self.length
        if p == 0:
            value, _mark = heard[self.owner(output)].registers[self.plan.depth + 1]
            agreement = (value or 0, False)
        else:
            agreement = self.turn(p - 1, v, heard)
        if p == self.length - 1:
            entry = (output - p, agreement[0])
            self.kept[v] = ([entry] + self.kept[v])[: self.keep]
        command = self.command(v, (output + 1) % self.plan.modulus)
        return [agreement, (command, False)]

    def front(self, begin, output):
        return f"entry {begin} owner {self.owner(output)}"

    def word(self, v):
        return str(self.kept[v][0][1] if self.kept[v] else 0)


class Rows(NoLayer):
    """No layer; a line of each configuration that is shown."""

    length = 0

    def __init__(self, plan, lines):
        self.plan = plan


class Holds(Rows):
    """A slot table: whether a node holds at its output."""

    def __init__(self, plan, lines):
        super().__init__(plan, lines)
        self.lines = [numbers(line) for line in lines[1:-1]]

    def holds(self, v, output):
        return any(u == v and a <= output <= b for u, a, b in self.lines)


LAYERS = {"run": (Rows, 0), "slots": (Holds, 0), "consensus": (Consensus, 1), "fire": (Firing, 1),
          "log": (Log, 2)}


def line_of(front, faulty, words):
    return " ".join([front] + ["*" if v in faulty else word for v, word in enumerate(words)])


def slot_line(script, layer, outputs, c):
    """The line of the slot that ends in configuration c, if one does that counts."""
    t, era = c - layer.length, script.era(c)
    if t not in script.shown or t <= era.first + script.plan.bound:
        return None
    correct = min(v for v in range(script.plan.nodes) if v not in era.faulty)
    output = outputs[t][correct]
    if output % layer.length != 0:
        return None
    words = [layer.word(v) for v in range(script.plan.nodes)]
    return line_of(layer.front(t, output), era.faulty, words)


def row_line(script, layer, outputs, c):
    if c not in script.shown:
        return None
    faulty, words = script.era(c).faulty, outputs[c]
    if isinstance(layer, Holds):
        words = ["1" if layer.holds(v, output) else "." for v, output in enumerate(words)]
        return line_of(f"hold {c}", faulty, words)
    return line_of(f"row {c}", faulty, [str(output) for output in words])


def answer(word, text):
    """The lines that are written of an input."""
    kind, registers = LAYERS[word]

    def values(between):
        """The values of each register of the layer, by the part between plan and script."""
        values = 2 if word == "fire" or not registers else numbers(between[0][1])[0]
        return [values] * registers

    plan, between, script = read_input(text, values)
    layer = kind(plan, between[0] if between else [])
    line = slot_line if layer.length else row_line
    yield f"bound {plan.bound}"
    outputs, locked = [], {}
    for c, config in enumerate(play(script, layer)):
        outputs.append([plan.shown(state) for state in config])
        era = script.era(c)
        if is_locked(plan, config, era.faulty):
            locked.setdefault(era.first, c)
        written = line(script, layer, outputs, c)
        if written is not None:
            yield written
    yield from lock_lines(script, locked)


def main():
    for line in answer(sys.argv[1], sys.stdin.read()):
        print(line)


if __name__ == "__main__":
    main()
