"""Reads inputs of the words by docs/FORMATS.md alone, and says which line is refused and why.

The other scripts of this folder take inputs as accepted ones; this one judges them. It shares no
code with the proved programs and is no part of them. near_misses.py compares the two.
"""

import re

from halving_counter import plan_of
from fronts import leaders, span

LARGEST = 2**40
LONGEST = 4096
NUMBER = re.compile("0|[1-9][0-9]{0,14}")
NAME = re.compile("[a-z]{1,16}")
KINDS = {"plan": ("premise", 1), "halving": ("premise", 1), "table": ("cause", 4)}


class Refused(Exception):
    """A line of a part is refused, by a rule."""

    def __init__(self, part, line, rule):
        super().__init__(part, line, rule)
        self.part, self.line, self.rule = part, line, rule

    def answer(self):
        """The exit code, and what is written."""
        if self.part == "certificate":
            return 4, f"refused certificate line {self.line}\n".encode()
        kind, code = KINDS.get(self.part, ("rule", 3))
        return code, f"refused {self.part} line {self.line} {kind} {self.rule}\n".encode()


class Lines:
    """The lines of an input, one of which is taken at a time, for a part. Strictly read, no line is
    skipped, and a newline ends each."""

    def __init__(self, data, strict=False):
        self.data, self.strict, self.at, self.line, self.words = data, strict, 0, 0, []
        self.part = None

    def next(self):
        """Takes the next line that is not skipped, if there is one."""
        while self.at < len(self.data):
            end = self.data.find(b"\n", self.at)
            self.is_ended = end >= 0
            end = end if self.is_ended else len(self.data)
            text, self.at = self.data[self.at : end], end + 1
            self.line += 1
            if not self.strict and len(text) <= LONGEST and text[:1] in (b"", b"#"):
                continue
            self.words = text.decode("latin-1").split(" ")
            self.want(len(text) <= LONGEST and b"\r" not in text and "" not in self.words)
            self.want(self.is_ended or not self.strict)
            return True
        return False

    def want(self, holds, rule="form"):
        if not holds:
            raise Refused(self.part, self.line, rule)

    def take(self):
        if not self.next():
            self.line += 1
            self.want(False)

    def has(self, *words):
        """Whether the line has these words, where None is any."""
        many = len(words) == len(self.words)
        return many and all(w in (None, x) for w, x in zip(words, self.words))

    def begins(self, word):
        return self.words[0] == word

    def number(self, place):
        self.want(place < len(self.words) and NUMBER.fullmatch(self.words[place]))
        return int(self.words[place])

    def numbers(self, first):
        return [self.number(place) for place in range(first, len(self.words))]

    def only(self, word):
        """The number after a word, which are the whole line."""
        self.take()
        self.want(self.has(word, None))
        return self.number(1)

    def digits(self, place, count):
        """The bytes whose digits stand at a place, so many."""
        self.want(re.fullmatch(f"[0-9a-f]{{{2 * count}}}", self.words[place]), "hex")

    def begin(self, part, last=1):
        """Takes the first line of a part, which says its version."""
        self.part = part
        version = self.only(part)
        self.want(1 <= version <= last)
        return version

    def end(self):
        self.take()
        self.want(self.has("end"))

    def none(self):
        self.want(not self.next())


# Plans.


class Levels:
    """The lines of a boosting plan so far."""

    def __init__(self, lines, version, base):
        lines.want(base <= LARGEST, "limit")
        lines.want(base >= 2, "modulus")
        self.version, self.base, self.modulus, self.nodes, self.faults = version, base, base, 1, 0
        self.lines = [f"plan {version}", f"base {base}"]

    def put(self, lines, blocks, faults, modulus, spares):
        nodes = blocks * self.nodes + spares
        fits = blocks <= 16 and faults <= 85 and modulus <= LARGEST and nodes <= 256
        lines.want(fits, "limit")
        lines.want(blocks >= 3, "blocks")
        lines.want(modulus >= 2, "modulus")
        lines.want(nodes > 3 * faults, "quorum")
        lines.want(faults < (self.faults + 1) * leaders(blocks), "share")
        lines.want(self.modulus % span(blocks, faults) == 0, "multiple")
        self.nodes, self.faults, self.modulus = nodes, faults, modulus
        spare = f" spare {spares}" if self.version == 2 else ""
        self.lines.append(f"level {blocks} {faults} {modulus}{spare}")

    def take(self, lines):
        """Takes the lines of levels, and the line after them."""
        lines.take()
        while lines.begins("level"):
            if self.version == 2:
                lines.want(lines.has("level", None, None, None, "spare", None))
                spares = lines.number(5)
            else:
                lines.want(lines.has("level", None, None, None))
                spares = 0
            self.put(lines, *(lines.number(place) for place in (1, 2, 3)), spares)
            lines.take()


def read_boosting(lines):
    version = lines.begin("plan", 2)
    levels = Levels(lines, version, lines.only("base"))
    levels.take(lines)
    lines.want(lines.has("end"))
    return plan_of([*levels.lines, "end"])


def read_halving(lines):
    lines.begin("halving")
    lines.take()
    lines.want(lines.has("group", None, None, None))
    nodes, faults, modulus = lines.numbers(1)
    lines.want(nodes <= 256 and modulus <= LARGEST, "limit")
    lines.want(modulus >= 2, "modulus")
    lines.want(nodes > 3 * faults, "quorum")
    lines.want(faults > 0 or nodes == 1, "single")
    lines.end()
    return plan_of(["halving 1", f"group {nodes} {faults} {modulus}", "end"])


# Parts between a plan and a script. Each says the values of the registers of its layer.


def read_slots(lines, plan):
    lines.begin("slots")
    slots = []
    lines.take()
    while not lines.has("end"):
        lines.want(lines.has("slot", None, None, None))
        node, first, last = lines.numbers(1)
        lines.want(len(slots) < 256, "limit")
        lines.want(node < plan.nodes, "node")
        lines.want(first <= last < plan.modulus, "range")
        lines.want(all(last < a or b < first for a, b in slots), "overlap")
        slots.append((first, last))
        lines.take()
    return []


def slot_of(plan):
    return 3 * (plan.faults + 1)


def read_requests(lines, plan):
    lines.begin("fire")
    lines.want(plan.modulus % slot_of(plan) == 0, "slot")
    count = 0
    lines.take()
    while not lines.has("end"):
        lines.want(lines.has("request", None, None, None))
        node, first, last = lines.numbers(1)
        lines.want(count < 256, "limit")
        lines.want(node < plan.nodes, "node")
        lines.want(first <= last, "range")
        count += 1
        lines.take()
    return [2]


def read_number(lines, word, least, most):
    number = lines.only(word)
    lines.want(number <= most, "limit")
    lines.want(number >= least, "range")
    return number


def read_inputs(lines, plan):
    lines.begin("agree")
    lines.want(plan.modulus % slot_of(plan) == 0, "slot")
    values = read_number(lines, "values", 2, 65536)
    lines.take()
    lines.want(lines.begins("inputs"))
    inputs = lines.numbers(1)
    lines.want(len(inputs) == plan.nodes)
    lines.want(all(each < values for each in inputs), "range")
    lines.end()
    return [values]


def read_log(lines, plan):
    lines.begin("log")
    lines.want(plan.modulus % (plan.nodes * (slot_of(plan) + 1)) == 0, "slot")
    values = read_number(lines, "values", 2, 65536)
    read_number(lines, "keep", 1, 1024)
    for node in range(plan.nodes):
        lines.take()
        lines.want(lines.begins("commands") and len(lines.words) >= 3)
        named, *commands = lines.numbers(1)
        lines.want(len(commands) <= 16, "limit")
        lines.want(named == node, "node")
        lines.want(all(each < values for each in commands), "range")
    lines.end()
    return [values, values]


# Scripts.


class Script:
    """The lines of a script over a plan."""

    def __init__(self, lines, plan):
        self.lines, self.plan, self.liars, self.names, self.last = lines, plan, set(), [], 0

    def ids(self, ids, is_behind=True):
        self.lines.want(all(each < self.plan.nodes for each in ids), "node")
        rises = all(a < b for a, b in zip(ids, ids[1:]))
        self.lines.want(rises and is_behind, "order")

    def faulty(self, ids, is_behind=True):
        self.ids(ids, is_behind)
        self.lines.want(len(ids) <= self.plan.faults, "faults")
        self.liars |= set(ids)

    def key(self):
        if self.lines.begins("seed"):
            self.lines.want(self.lines.has("seed", None))
            self.lines.digits(1, 32)
            self.lines.take()

    def starts(self):
        """Takes the lines of starts, and the line after them."""
        lines, least = self.lines, 0
        lines.take()
        while lines.begins("start"):
            lines.want(lines.has("start", "node", None, None))
            node = lines.number(2)
            lines.want(node < self.plan.nodes, "node")
            lines.want(node >= least, "order")
            lines.digits(3, self.plan.bytes(node))
            least = node + 1
            lines.take()

    def eras(self):
        lines, count = self.lines, 0
        while lines.begins("era"):
            lines.want(len(lines.words) > 2 and lines.words[2] == "faulty")
            first, ids = lines.number(1), lines.numbers(3)
            lines.want(count < 16, "limit")
            self.faulty(ids, first > self.last)
            self.last, count = first, count + 1
            self.starts()

    def groups(self):
        lines = self.lines
        while lines.begins("group"):
            lines.want(len(lines.words) > 2)
            ids, name = lines.numbers(2), lines.words[1]
            lines.want(len(self.names) < 256, "limit")
            self.ids(ids)
            free = name != "all" and name not in self.names
            lines.want(free and NAME.fullmatch(name), "name")
            self.names.append(name)
            lines.take()

    def lie(self):
        """The form of a lie: its numbers, the nodes that it names, and what stands at its end."""
        lines = self.lines
        first, last, sender = (lines.number(place) for place in (1, 2, 3))
        lines.want(len(lines.words) > 5 and lines.words[4] == "to")
        hearers, place, name = [0, 0], 6, lines.words[5]
        if NUMBER.fullmatch(name):
            hearers, place, name = [lines.number(5), lines.number(6)], 7, None
        what = lines.words[place:]
        lines.want(what[:1] == ["noise"] and len(what) == 1 or len(what) == 2
                   and what[0] in ("copy", "shift", "hex"))
        number = lines.number(place + 1) if what[0] in ("copy", "shift") else 0
        return (first, last, sender), hearers, name, what[0], number

    def lies(self):
        lines, count = self.lines, 0
        while lines.begins("lie"):
            (first, last, sender), hearers, name, what, number = self.lie()
            lines.want(count < 256, "limit")
            ids = [sender, *hearers, number if what == "copy" else 0]
            known = all(each < self.plan.nodes for each in ids) and sender in self.liars
            lines.want(known, "node")
            lines.want(first <= last and hearers[0] <= hearers[1], "range")
            if what == "hex":
                lines.digits(-1, self.plan.bytes(sender))
            lines.want(name in ["all", None, *self.names], "name")
            count += 1
            lines.take()

    def rounds(self):
        lines = self.lines
        lines.want(lines.has("rounds", None))
        rounds = lines.number(1)
        lines.want(rounds <= 1000000, "limit")
        lines.want(rounds >= self.last, "range")
        self.played = rounds
        lines.take()
        lines.want(lines.has("show", None, None))
        first, last = lines.numbers(1)
        lines.want(first <= last <= rounds, "range")
        lines.end()
        lines.none()

    def read(self):
        lines = self.lines
        version = lines.begin("script", 2)
        lines.take()
        lines.want(lines.begins("faulty"))
        self.faulty(lines.numbers(1))
        lines.take()
        self.key()
        lines.want(lines.has("start", "noise") or lines.has("start", "zero"))
        self.starts()
        if version == 2:
            self.eras()
        self.groups()
        self.lies()
        self.rounds()


# Other parts.


def read_node(lines, plan):
    """The id of a node and the place of its packets in the input."""
    lines.begin("node")
    node = lines.only("id")
    lines.want(node < plan.nodes, "node")
    lines.take()
    lines.want(lines.has("state", None))
    lines.digits(1, plan.bytes(node))
    start = bytes.fromhex(lines.words[1])
    lines.end()
    return node, start, lines.data[lines.at :]


def read_want(lines):
    lines.begin("find")
    lines.take()
    lines.want(lines.has("want", None, None, None))
    faults, modulus, most = lines.numbers(1)
    lines.want(faults <= 85 and modulus <= LARGEST and most <= 256, "limit")
    lines.want(modulus >= 2 and most >= 1, "range")
    lines.end()
    lines.none()
    return faults, modulus, most


BETWEEN = {"slots": read_slots, "consensus": read_inputs, "fire": read_requests, "log": read_log}


def read_played(lines, word, is_halving):
    """The plan of an input that a word plays, and how many rounds are played."""
    plan = read_halving(lines) if is_halving else read_boosting(lines)
    if word in BETWEEN:
        plan = plan_of(plan.lines, BETWEEN[word](lines, plan))
    script = Script(lines, plan)
    script.read()
    return plan, script.played
