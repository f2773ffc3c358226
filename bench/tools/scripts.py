"""Plays a script by docs/FORMATS.md: starts, lies, eras and noise.

The other scripts of this folder use it. It is no part of the proved program; inputs are taken as
accepted ones.
"""

import struct

from counter import State
from halving_counter import plan_of


def lines_of(text):
    """The lines of a text that are not skipped."""
    return [line for line in text.split("\n") if line and line[0] != "#"]


def parts_of(text):
    """The parts of a text, each the list of its lines through `end`."""
    parts = [[]]
    for line in lines_of(text):
        parts[-1].append(line)
        if line == "end":
            parts.append([])
    return [part for part in parts if part]


def block(key, stream, place):
    """Sixteen words of ChaCha with 8 rounds."""
    mask = 0xFFFFFFFF
    first = [0x61707865, 0x3320646E, 0x79622D32, 0x6B206574, *struct.unpack("<8I", key)]
    first += [place & mask, place >> 32, stream & mask, stream >> 32]
    words = list(first)

    def quarter(a, b, c, d):
        for x, y, z, turn in ((a, b, d, 16), (c, d, b, 12), (a, b, d, 8), (c, d, b, 7)):
            words[x] = (words[x] + words[y]) & mask
            word = words[z] ^ words[x]
            words[z] = (word << turn | word >> (32 - turn)) & mask

    for _ in range(4):
        for i in range(4):
            quarter(i, 4 + i, 8 + i, 12 + i)
        for i in range(4):
            quarter(i, 4 + (i + 1) % 4, 8 + (i + 2) % 4, 12 + (i + 3) % 4)
    return struct.pack("<16I", *((a + b) & mask for a, b in zip(words, first)))


def noise(key, stream, turn, size):
    """State number `turn` of a stream, in bytes."""
    words = (size + 3) // 4
    first, last = 4 * turn * words, 4 * turn * words + size
    data = b"".join(block(key, stream, place) for place in range(first // 64, (last + 63) // 64))
    return data[first % 64 : first % 64 + size]


class Era:
    def __init__(self, first, faulty):
        self.first, self.faulty, self.starts = first, faulty, {}


class Script:
    """A script for a plan, from its lines."""

    def __init__(self, plan, lines):
        self.plan, self.key, self.eras, self.groups, self.lies = plan, bytes(32), [], {}, []
        self.is_versed = lines[0] == "script 2"
        for line in lines[1:-1]:
            self.put(*line.split())

    def put(self, key, *words):
        ids = [int(word) for word in words if word.isdecimal()]
        if key == "faulty":
            self.eras.append(Era(0, ids))
        elif key == "seed":
            self.key = bytes.fromhex(words[0])
        elif key == "start" and words[0] == "node":
            v = int(words[1])
            self.eras[-1].starts[v] = self.plan.read(v, bytes.fromhex(words[2]))
        elif key == "start":
            self.is_noisy = words[0] == "noise"
        elif key == "era":
            self.eras.append(Era(ids[0], ids[1:]))
        elif key == "group":
            self.groups[words[0]] = [int(word) for word in words[1:]]
        elif key == "lie":
            self.put_lie(*words)
        elif key == "rounds":
            self.rounds = ids[0]
        elif key == "show":
            self.shown = range(ids[0], ids[1] + 1)

    def put_lie(self, first, last, u, _to, who, *what):
        hearers = range(self.plan.nodes)
        if who.isdecimal():
            hearers, what = range(int(who), int(what[0]) + 1), what[1:]
        elif who != "all":
            hearers = self.groups[who]
        self.lies.append((range(int(first), int(last) + 1), int(u), hearers, what))

    def era(self, t):
        """The era of configuration t."""
        return [era for era in self.eras if era.first <= t][-1]

    def start(self, v):
        starts = self.eras[0].starts
        if v in starts:
            return starts[v]
        if not self.is_noisy:
            return self.plan.zero()
        return self.plan.read(v, noise(self.key, 65536 + v, 0, self.plan.bytes(v)))

    def told(self, t, u, v, config):
        """What the faulty node u says to node v in round t."""
        for rounds, liar, hearers, what in self.lies:
            if liar == u and t in rounds and v in hearers:
                return self.meant(t, u, v, config, *what)
        return config[u]

    def meant(self, t, u, v, config, kind, word=""):
        plan = self.plan
        if kind == "noise":
            return plan.read(u, noise(self.key, 256 * u + v, t, plan.bytes(u)))
        if kind == "hex":
            return plan.read(u, bytes.fromhex(word))
        if kind == "copy":
            return plan.fitted(u, config[int(word)])
        return plan.shifted(u, config[u], int(word))

    def heard(self, t, v, config):
        """What node v hears of all nodes in round t."""
        faulty = self.era(t).faulty
        return [
            self.told(t, u, v, config) if u in faulty and u != v else config[u]
            for u in range(self.plan.nodes)
        ]


class NoLayer:
    """What a layer is asked for, and what the counter alone answers."""

    def step(self, _t, _v, _heard):
        """The new registers of the layer at node v, which may keep something besides."""
        return []


def play(script, layer=NoLayer()):
    """The configurations of a script, one after the other."""
    plan = script.plan
    config = [script.start(v) for v in range(plan.nodes)]
    yield config
    for t in range(script.rounds):
        new = []
        for v in range(plan.nodes):
            heard = script.heard(t, v, config)
            state = plan.step(v, heard)
            new.append(State(state.number, state.registers + layer.step(t, v, heard)))
        for era in script.eras:
            if era.first == t + 1:
                for v, state in era.starts.items():
                    new[v] = state
        config = new
        yield config


def is_locked(plan, config, faulty):
    """Whether the top registers of all correct nodes are one, finite and marked."""
    if plan.top is None:  # nodes that count alone
        return True
    tops = {config[v].registers[plan.top] for v in range(plan.nodes) if v not in faulty}
    return len(tops) == 1 and all(mark and value is not None for value, mark in tops)


def lock_lines(script, first_locked):
    """The last lines of what is written, from the first locked configuration of each era."""
    for era in script.eras:
        front = f"era {era.first} " if script.is_versed else ""
        yield f"{front}locked {first_locked.get(era.first, 'none')}"


def read_input(text, layer_values):
    """The plan, the parts between, and the script of a text; a function says the values of the
    layer's registers by the parts between."""
    plan, *between, script = parts_of(text)
    plan = plan_of(plan, layer_values(between))
    return plan, between, Script(plan, script)
