"""What a word answers to an input, accepted or not, by docs/FORMATS.md alone.

    python3 bench/tools/plain_answers.py PROGRAM WORD < INPUT

PROGRAM is counterlab or halvinglab. It writes what the program is to write for the word, and ends
with its exit code. It shares no code with the proved programs and is no part of them; near_misses.py
compares the two. Inputs of more than 2^20 bytes, or 1,000,000 packets, are not looked at.
"""

import sys

import halving_numbers
from counter import beat_of, leaders_of, shown
from fronts import SPANS, leaders, span, table_of
from halving_counter import plan_of
from on_the_counter import answer as played
from plain_node import answer as cells_of
from plain_reading import (Levels, Lines, Refused, read_boosting, read_halving, read_node,
                           read_played, read_want)
from scripts import is_locked, lock_lines, play, read_input

# of an accepted input: how many states are heard in its run, or how many nodes are wanted at most
MOST_HEARD = 30000
MOST_WANTED = 100
PLAN_WORDS = ["nodes", "faults", "modulus", "bound", "bits", "bytes"]
LEVEL_WORDS = ["blocks", "leaders", "nodes", "faults", "beat", "span", "modulus", "bound", "bits"]


def text_of(lines):
    return "".join(f"{line}\n" for line in lines).encode()


# Plans and their tables.


def upgraded(lines):
    """The lines of a plan in version 2."""
    has_spares = lines[0] == "plan 2"
    more = "" if has_spares else " spare 0"
    return ["plan 2", *(line + more if line[0] == "l" else line for line in lines[1:])]


def table(lines):
    """The lines of the table of a plan."""
    whole = table_of(upgraded(lines))
    if lines[0] == "plan 2":
        return whole
    return ["table 1", *(line.removesuffix(" spare 0") for line in whole[1:])]


def only_plan(lines):
    plan = read_boosting(lines)
    lines.none()
    return plan


def want_pairs(lines, words):
    """The line has these words, each with a number after it, where a word is a list."""
    wanted = [word for pair in words for word in (pair, None)]
    lines.want(lines.has(*wanted))
    return [lines.number(place) for place in range(1, len(wanted), 2)]


def read_table(lines):
    """Whether a text is a table: its levels are those of a plan, and the other numbers follow."""
    version = lines.begin("table", 2)
    levels = Levels(lines, version, lines.only("base"))
    spare = ["spare"] if version == 2 else []
    index = 0
    lines.take()
    while lines.begins("level"):
        numbers = want_pairs(lines, ["level", *LEVEL_WORDS, *spare])
        _, blocks, _, _, faults, _, _, modulus, _, _, *spares = numbers
        levels.put(lines, blocks, faults, modulus, *(spares or [0]))
        index += 1
        right = table([*levels.lines, "end"])[1 + index]
        lines.want(" ".join(lines.words) == right, "value")
        lines.take()
    lines.want(lines.begins("plan") and len(lines.words) == 13)
    lines.want(lines.words[1::2] == PLAN_WORDS)
    for place in range(2, 13, 2):
        lines.number(place)
    right = table([*levels.lines, "end"])[2 + index]
    lines.want(" ".join(lines.words) == right, "value")
    lines.end()
    lines.none()


# Plans of least bound.


def least_towers(most):
    """The first tower, in the order of FORMATS.md, of each number of nodes and faults: its bound,
    how many levels it has, and these, of blocks and faults."""
    towers = {(1, 0): (0, 0, [])}
    for nodes in range(1, most + 1):
        for below in [key for key in towers if key[0] == nodes]:
            bound, height, levels = towers[below]
            for blocks in range(3, min(16, most // nodes) + 1):
                share = (below[1] + 1) * leaders(blocks)
                for faults in range(min(86, share, (blocks * nodes + 2) // 3)):
                    if (blocks, faults) in SPANS:
                        total = bound + SPANS[blocks, faults]
                        tower = total, height + 1, [*levels, blocks, faults]
                        key = blocks * nodes, faults
                        towers[key] = min(towers.get(key, tower), tower)
    return towers


def found(faults, modulus, most):
    """The lines of the plan of least bound, or none, and of the potentials."""
    towers = least_towers(most)
    best = min(((t[0], key[0], *t[1:]) for key, t in towers.items() if key[1] == faults),
               default=None)
    if best is None:
        yield "none"
    else:
        levels = list(zip(best[3][::2], best[3][1::2]))
        base, *moduli = [*(span(*level) for level in levels), modulus]
        yield from ["plan 1", f"base {base}"]
        for (blocks, own), counts_by in zip(levels, moduli):
            yield f"level {blocks} {own} {counts_by}"
        yield "end"
    for (nodes, own), (bound, *_) in sorted(towers.items()):
        yield f"pot {nodes} {own} {bound}"


# Explanations.


class Windows:
    """What the nodes of a plan showed below the top level, and which are faulty in the last era."""

    def __init__(self, plan, configs, faulty):
        self.top, self.faulty, self.below = plan.levels[-1], set(faulty), plan.depth - 1
        faults = plan.levels[-2].faults if plan.depth > 1 else 0
        self.last = len(configs) - 1
        self.outputs = [[shown(self.below, state) for state in config] for config in configs]
        blocks = [self.block(i) for i in range(self.top.blocks)]
        self.sound = [len(self.faulty & set(block)) <= faults for block in blocks]

    def block(self, i):
        return range(i * self.top.below, (i + 1) * self.top.below)

    def shows(self, at, i, unit, modulus, wanted):
        """Whether the correct nodes of a block show a number that is `wanted`, by a unit."""
        outputs = self.outputs[at]
        return all(outputs[v] // unit % modulus == wanted
                   for v in self.block(i) if v not in self.faulty)

    def points(self, at, leader):
        m = leaders_of(self.top)
        units = [beat_of(self.top) * (2 * m) ** i for i in range(self.top.blocks)]
        return all(self.shows(at, i, unit, m, leader)
                   for i, unit in enumerate(units) if self.sound[i])

    def is_window(self, first, leader, place):
        beat = beat_of(self.top)
        return all(self.shows(first + i, leader, 1, beat, (place + i) % beat)
                   and self.points(first + i, leader) for i in range(beat))

    def phase(self, first, place):
        """The first phase of a correct king, of a window that begins at a place in the beat."""
        beat = beat_of(self.top)
        for i in range(beat - 2):
            king, turn = divmod((place + i) % beat, 3)
            if turn == 0 and king not in self.faulty and first + i + 3 <= self.last:
                return first + i, king
        return None

    def first(self, first):
        """The lines of the first explanation from a configuration on."""
        beat = beat_of(self.top)
        for window in range(first, self.last + 2 - beat):
            for leader in range(leaders_of(self.top)):
                for place in range(beat) if self.sound[leader] else []:
                    if self.is_window(window, leader, place):
                        phase = self.phase(window, place)
                        if phase is not None:
                            return [f"window {window} leader {leader}",
                                    f"phase {phase[0]} king {phase[1]}"]
        return ["explain none"]


def explained(text):
    plan, _, script = read_input(text, lambda _: [])
    configs = list(play(script))
    locked = {}
    for c, config in enumerate(configs):
        era = script.era(c)
        if is_locked(plan, config, era.faulty):
            locked.setdefault(era.first, c)
    last = script.eras[-1]
    yield f"bound {plan.bound}"
    yield from Windows(plan, configs, last.faulty).first(last.first) if plan.levels else [
        "explain base"]
    yield from lock_lines(script, locked)


# Run certificates.


def row_of(plan, t, faulty, config):
    words = ["*" if v in faulty else str(plan.shown(state)) for v, state in enumerate(config)]
    return " ".join([f"row {t}", *words])


def recorded(text):
    """The lines of the certificate of a script's run."""
    plan, _, script = read_input(text, lambda _: [])
    version = 3 if plan.lines[0] == "plan 2" else 2 if script.is_versed else 1
    yield from [f"run {version}", *plan.lines[1:-1]]
    before = set(range(plan.nodes))
    for t, config in enumerate(play(script)):
        era = script.era(t)
        if era.first == t:
            front = "faulty" if t == 0 else f"era {t}"
            yield " ".join([front, *map(str, era.faulty)])
            for v in range(plan.nodes):
                if v not in era.faulty and (v in before or v in era.starts):
                    yield f"start {v} {plan.write(v, config[v]).hex()}"
            before = set(era.faulty)
        yield row_of(plan, t, era.faulty, config)
        for u in era.faulty if t < script.rounds else []:
            for v in range(plan.nodes):
                if v not in era.faulty:
                    yield f"lie {u} {v} {plan.write(u, script.told(t, u, v, config)).hex()}"
    yield "end"


class Certificate:
    """A run certificate that is read, and the run that it states."""

    def __init__(self, lines):
        self.lines, self.differs, self.locked, self.eras = lines, None, None, 0
        lines.part = "run"
        self.version = lines.begin("run", 3)
        levels = Levels(lines, 2 if self.version == 3 else 1, lines.only("base"))
        levels.take(lines)
        self.plan = plan_of([*levels.lines, "end"])
        self.config = [self.plan.zero()] * self.plan.nodes
        lines.want(lines.begins("faulty"))
        self.take_faulty(lines.numbers(1))
        self.starts(range(self.plan.nodes))
        self.rows()

    def take_faulty(self, ids):
        rises = all(a < b for a, b in zip(ids, ids[1:]))
        fits = len(ids) <= self.plan.faults and all(v < self.plan.nodes for v in ids)
        self.lines.want(rises and fits)
        self.faulty = ids

    def starts(self, unknown):
        """Takes the states of correct nodes, of which each unknown one has one, and a line."""
        lines, least = self.lines, 0
        missing = {v for v in unknown if v not in self.faulty}
        lines.take()
        while lines.begins("start"):
            lines.want(lines.has("start", None, None))
            v = lines.number(1)
            lines.want(least <= v < self.plan.nodes and v not in self.faulty)
            lines.want(not any(least <= w < v for w in missing))
            lines.digits(2, self.plan.bytes(v))
            self.config[v] = self.plan.read(v, bytes.fromhex(lines.words[2]))
            least = v + 1
            lines.take()
        lines.want(not any(least <= w for w in missing))

    def row(self, t):
        lines = self.lines
        lines.want(len(lines.words) == self.plan.nodes + 2 and lines.begins("row"))
        lines.want(lines.number(1) == t)
        for v, state in enumerate(self.config):
            if v in self.faulty:
                lines.want(lines.words[v + 2] == "*")
            elif lines.number(v + 2) != self.plan.shown(state) and self.differs is None:
                self.differs = t
        if self.locked is None and is_locked(self.plan, self.config, self.faulty):
            self.locked = t

    def round(self):
        """Takes the lies of a round, and a line, and plays it."""
        lines, plan = self.lines, self.plan
        correct = [v for v in range(plan.nodes) if v not in self.faulty]
        told = {}
        for u in self.faulty:
            for v in correct:
                lines.want(lines.has("lie", str(u), str(v), None))
                lines.digits(3, plan.bytes(u))
                told[u, v] = plan.read(u, bytes.fromhex(lines.words[3]))
                lines.take()
        heard = {v: [told.get((u, v), state) for u, state in enumerate(self.config)]
                 for v in correct}
        self.config = [plan.step(v, heard[v]) if v in heard else plan.zero()
                       for v in range(plan.nodes)]

    def rows(self):
        lines, t = self.lines, 0
        self.row(t)
        lines.take()
        while not lines.has("end"):
            self.round()
            t += 1
            if lines.begins("era"):
                self.eras += 1
                lines.want(self.version > 1 and self.eras <= 16 and lines.number(1) == t)
                unknown, self.locked = self.faulty, None
                self.take_faulty(lines.numbers(2))
                self.starts(unknown)
            self.row(t)
            lines.take()
        lines.none()
        self.count = t + 1


def checked(data):
    """The exit code, and what is written of a text that may be a certificate."""
    lines = Lines(data, strict=True)
    try:
        read = Certificate(lines)
    except Refused as refused:
        raise Refused("certificate", refused.line, "form") from refused
    if read.differs is not None:
        return 5, text_of([f"false row {read.differs}"])
    locked = "none" if read.locked is None else read.locked
    return 0, text_of([f"true rows {read.count} locked {locked}"])


# Words.


def node(lines, is_halving):
    plan = read_halving(lines) if is_halving else read_boosting(lines)
    v, own, rest = read_node(lines, plan)
    packets, packet, at = [], [], 0
    while at + 2 <= len(rest):
        end = at + 2 + int.from_bytes(rest[at : at + 2], "big")
        if end > len(rest):
            break
        packet, at = [*packet, rest[at + 2 : end]], end
        if len(packet) == plan.nodes:
            packets, packet = [*packets, packet], []
    is_cut = at < len(rest) or packet
    return 9 if is_cut else 0, cells_of(plan, v, own, packets)


class TooLong(Exception):
    """An accepted input takes too long here."""


def accepted(program, word, data, is_quick):
    lines, is_halving = Lines(data), program == "halvinglab"
    if word == "check":
        return checked(data)
    if word == "node":
        return node(lines, is_halving)
    if word == "table":
        read_table(Lines(data, strict=True))
        return 0, b"true\n"
    if word == "find":
        want = read_want(lines)
        if is_quick and want[2] > MOST_WANTED:
            raise TooLong
        return 0, text_of(found(*want))
    if word == "plan" and is_halving:
        plan = read_halving(lines)
        lines.none()
        return 0, halving_numbers.table_of(plan.nodes, plan.faults, plan.modulus).encode()
    if word in ("plan", "upgrade"):
        own = only_plan(lines).lines
        return 0, text_of(table(own) if word == "plan" else upgraded(own))
    plan, rounds = read_played(lines, word, is_halving)
    if is_quick and plan.nodes**2 * rounds > MOST_HEARD:
        raise TooLong
    text = data.decode("latin-1")
    words = {"explain": explained, "record": recorded}
    return 0, text_of(words[word](text) if word in words else played(word, text))


def judged(program, word, data, is_quick=False):
    """The exit code, what is written, and how the input is refused, if it is. If it is to be quick,
    accepted inputs may be too long."""
    try:
        return *accepted(program, word, data, is_quick), None
    except Refused as refused:
        return *refused.answer(), refused


if __name__ == "__main__":
    code, written, _ = judged(sys.argv[1], sys.argv[2], sys.stdin.buffer.read())
    sys.stdout.buffer.write(written)
    sys.exit(code)
