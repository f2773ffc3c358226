#!/usr/bin/env python3
"""Compares the stored runs of `attack`, `states` and `sweep` with a plain computation.

    python3 bench/tools/stored_runs.py

What crates/NAME/stdout has is to be what the plain scripts of this folder make of crates/NAME/stdin
and of the words in crates/NAME/args: each try of a search, drawn and played, each line of states,
and each key of a sweep. It takes half a minute. Nothing is written. The status is 1 if one differs.
"""

import pathlib
import sys
from collections import namedtuple

from halving_counter import plan_of
from halving_stored import sweep_of, written
from scripts import Script, is_locked, lines_of, parts_of, play

TOP = pathlib.Path(__file__).resolve().parent.parent.parent
CRATES = TOP / "crates"
WORD = 2**64
MOST_ROUNDS, MOST_LIES = 1000000, 40

# ---- states


def plan_and_lines(text):
    """The plan at the beginning of a text, as its lines, and the lines behind it that count."""
    lines = lines_of(text)
    end = lines.index("end") + 1
    return lines[:end], lines[end:]


def field(register):
    value, mark = register
    return ("infinite" if value is None else str(value)) + (" marked" if mark else "")


def worded(plan, v, state):
    has_number, has_registers = plan.has(v)
    number = [f"number {state.number}"] if has_number else []
    fields = [field(r) for r, has in zip(state.registers, has_registers) if has]
    registers = [f"registers {', '.join(fields)}"] if fields else []
    return " ".join([f"node {v}", *number, *registers])


def said(plan, v, words):
    """The state that words say."""
    number, _, fields = words.partition("registers ")
    given = iter([it.split() for it in fields.split(", ")] if fields else [])
    registers = []
    for has in plan.has(v)[1]:
        value, *mark = next(given) if has else ["0"]
        registers.append((None if value == "infinite" else int(value), mark == ["marked"]))
    state = plan.zero()
    return state._replace(number=int(number.split()[1]) if number else 0, registers=registers)


def turned(plan, line):
    _, v, rest = line.split(" ", 2)
    v = int(v)
    if rest.startswith(("number ", "registers ")):
        return f"node {v} {plan.write(v, said(plan, v, rest)).hex()}"
    return worded(plan, v, plan.read(v, bytes.fromhex(rest)))


def states_of(text, words):
    plan, lines = plan_and_lines(text)
    values = [int(line.split()[1]) for line in lines if line.startswith("values ")]
    plan = plan_of(plan, values)
    return [turned(plan, line) for line in lines[len(values) :]]


# ---- a search

Lie = namedtuple("Lie", "first last sender start end says")
Attack = namedtuple("Attack", "faulty key starts lies")  # starts: the seed of each node that has one


def mixed(value):
    value = (value ^ value >> 30) * 0xBF58476D1CE4E5B9 % WORD
    value = (value ^ value >> 27) * 0x94D049BB133111EB % WORD
    return value ^ value >> 31


def drawn(seed, place):
    return mixed((seed + (place + 1) * 0x9E3779B97F4A7C15) % WORD)


def below(seed, place, count):
    return drawn(seed, place) % count if count else 0


class Drawing:
    """Candidates for a plan, as they are drawn."""

    def __init__(self, plan):
        self.plan, self.nodes, self.faults = plan, plan.nodes, plan.faults
        self.rounds = min(plan.bound, MOST_ROUNDS)
        self.left = 5 * self.faults // 13
        self.kinds = [self.noise, self.frozen, self.split, self.king, self.shadow,
                      self.ahead, self.astray]

    def others(self, ids):
        return [id for id in range(self.nodes) if id not in ids]

    def chosen(self, seed):
        left = list(range(self.nodes))
        for count in range(self.faults):
            del left[below(seed, count, len(left))]
        return self.others(left)

    def kings_but(self, without):
        """Kings of both halves of a halving plan, without the one at a place."""
        places = [i if i < without else i + 1 for i in range(self.faults)]
        return [place + 2 * self.left if self.left < place else place for place in places]

    def kind_faulty(self, kind, seed):
        left, faults = self.left, self.faults
        if kind == self.king:
            return self.kings_but(below(seed, 0, faults + 1))
        if kind == self.ahead:
            return self.kings_but(left + 1 + below(seed, 0, faults - left))
        if kind == self.astray:
            return self.kings_but(below(seed, 0, left + 1))
        return self.chosen(seed)

    def span(self, seed):
        first = below(seed, 0, self.rounds)
        more = below(seed, 2, 2 ** below(seed, 11, 20)) if below(seed, 1, 2) else 0
        return first, min(first + more, self.rounds - 1)

    def hearers(self, seed):
        one = below(seed, 4, self.nodes)
        which = below(seed, 3, 4)
        if which > 1:
            return 0, self.nodes - 1
        other = below(seed, 5, self.nodes) if which else one
        return min(one, other), max(one, other)

    def says(self, seed):
        which = below(seed, 6, 4)
        if which == 0:
            return "noise", None
        if which == 1:
            return "copy", below(seed, 7, self.nodes)
        return ("drawn", drawn(seed, 7)) if which == 2 else ("shift", shift(seed))

    def lie(self, seed, sender):
        return Lie(*self.span(seed), sender, *self.hearers(seed), self.says(seed))

    def always(self, sender, says, last=None):
        last = self.nodes - 1 if last is None else last
        return Lie(0, self.rounds - 1, sender, 0, last, says)

    def noise(self, sender, middle, by, seed):
        return [self.always(sender, ("noise", None))]

    def frozen(self, sender, middle, by, seed):
        return [self.always(sender, ("drawn", drawn(seed, 0)))]

    def split(self, sender, middle, by, seed):
        lower = self.always(sender, ("drawn", drawn(seed, 0)), middle)
        return [lower, self.always(sender, ("drawn", drawn(seed, 1)))]

    def king(self, sender, middle, by, seed):
        noise = ("noise", None)
        spans = [self.span(drawn(seed, place)) for place in range(3)]
        return [Lie(*span, sender, 0, self.nodes - 1, noise) for span in spans]

    def shadow(self, sender, middle, by, seed):
        return [self.shaded(sender, drawn(seed, place)) for place in range(3)]

    def ahead(self, sender, middle, by, seed):
        """A left half that is ahead for the nodes up to the middle one."""
        with_others = sender <= 3 * self.left or middle < sender
        lower = by if with_others else 0
        upper = 0 if with_others else 3 * self.faults + 5 - by
        return [self.always(sender, ("shift", lower), middle),
                self.always(sender, ("shift", upper))]

    def astray(self, sender, middle, by, seed):
        """A right half that says one state, and noise in some rounds."""
        noise = Lie(*self.span(drawn(seed, 1)), sender, 0, self.nodes - 1, ("noise", None))
        return [noise, self.always(sender, ("drawn", drawn(seed, 0)))]

    def shaded(self, sender, seed):
        says = ("copy", below(seed, 7, self.nodes)) if below(seed, 6, 4) else ("shift", shift(seed))
        return Lie(0, self.rounds - 1, sender, *self.hearers(seed), says)

    def fresh(self, index, seed):
        kind = self.kinds[index % len(self.kinds)]
        faulty = self.kind_faulty(kind, drawn(seed, 1))
        middle, by = below(seed, 2, self.nodes - 1), 1 + below(seed, 4, 3 * self.faults + 4)
        lies = [lie for sender in faulty
                for lie in kind(sender, middle, by, drawn(drawn(seed, 3), sender))]
        return Attack(faulty, drawn(seed, 0), {}, lies)

    def changed(self, seed, attack):
        """An attack with a small change."""
        number = below(seed, 0, 16)
        faulty, key, starts, lies = attack.faulty, attack.key, dict(attack.starts), [*attack.lies]
        if number < 3:
            key = drawn(seed, 1)
        elif number < 6:
            starts[below(seed, 1, self.nodes)] = drawn(seed, 2)
        elif number == 6:
            starts = dict(without(sorted(starts.items()), seed))
        elif number < 9:
            return self.exchanged(seed, attack)
        elif number < 11:
            sender = faulty[below(seed, 1, len(faulty))] if faulty else 0
            lies = [self.lie(drawn(seed, 2), sender), *lies] if len(lies) < MOST_LIES else lies
        elif number == 11:
            lies = without(lies, seed)
        elif lies:
            place = below(seed, 1, len(lies))
            lies[place] = self.varied(drawn(seed, 2), lies[place])
        return Attack(faulty, key, starts, lies)

    def exchanged(self, seed, attack):
        """A correct node takes the place of a faulty one, and says what that said."""
        others = self.others(attack.faulty)
        place = below(seed, 2, self.nodes - len(attack.faulty))
        old, new = attack.faulty[below(seed, 1, len(attack.faulty))], others[place]
        others[place] = old
        lies = [it._replace(sender=new) if it.sender == old else it for it in attack.lies]
        return attack._replace(faulty=self.others(others), lies=lies)

    def varied(self, seed, lie):
        which = below(seed, 12, 3)
        if which == 0:
            first, last = self.span(seed)
            return lie._replace(first=first, last=last)
        if which == 1:
            start, end = self.hearers(seed)
            return lie._replace(start=start, end=end)
        return lie._replace(says=self.says(seed))

    # ---- the script of an attack

    def digits(self, v, seed):
        data = bytes(drawn(seed, place) % 256 for place in range(self.plan.bytes(v)))
        return self.plan.write(v, self.plan.read(v, data)).hex()

    def said(self, sender, kind, number):
        return {"noise": "noise", "copy": f"copy {number}", "shift": f"shift {number}",
                "drawn": f"hex {self.digits(sender, number)}" if kind == "drawn" else ""}[kind]

    def script(self, attack, first=None, last=None):
        first = self.rounds if first is None else first
        last = self.rounds if last is None else last
        yield "script 1"
        yield " ".join(["faulty", *map(str, attack.faulty)])
        yield f"seed {attack.key:016x}{0:048x}"
        yield "start noise"
        for v, seed in sorted(attack.starts.items()):
            yield f"start node {v} {self.digits(v, seed)}"
        for it in attack.lies:
            told = self.said(it.sender, *it.says)
            yield f"lie {it.first} {it.last} {it.sender} to {it.start} {it.end} {told}"
        yield from (f"rounds {self.rounds}", f"show {first} {last}", "end")


def shift(seed):
    return 1 + (below(seed, 7, 1000) if below(seed, 8, 2) else below(seed, 7, 3))


def without(items, seed):
    place = below(seed, 1, len(items))
    return items[:place] + items[place + 1 :]


def first_locked(script):
    """The first locked configuration of era 0, or one behind the last."""
    faulty = script.eras[0].faulty
    for c, config in enumerate(play(script)):
        if is_locked(script.plan, config, faulty):
            return c
    return script.rounds + 1


def attack_of(text, words):
    """The plan, and the script of the try that locks latest, the last one of these, without lies
    that it does not need, and with the configurations to its lock."""
    seed, runs = map(int, words)
    (lines,) = parts_of(text)
    plan = plan_of(lines)
    drawing, fresh = Drawing(plan), min(runs // 16, 1000)
    best, latest = None, -1
    for index in range(runs):
        own = drawn(seed, index)
        attack = (drawing.fresh(index, own) if best is None or index < fresh
                  else drawing.changed(own, best))
        locked = first_locked(Script(plan, list(drawing.script(attack))))
        if locked >= latest:
            best, latest = attack, locked
    # each lie is tried twice, from the last one to the first
    for _ in range(2):
        for place in reversed(range(len(best.lies))):
            leaner = best._replace(lies=best.lies[:place] + best.lies[place + 1 :])
            locked = first_locked(Script(plan, list(drawing.script(leaner))))
            if locked >= latest:
                best, latest = leaner, locked
    lock = min(latest, drawing.rounds)
    return [*lines, *drawing.script(best, max(lock - 1000, 0), min(lock + 3, drawing.rounds))]


# ---- all of them


def swept(text, words):
    first, count = map(int, words)
    assert first == 0
    return sweep_of(text, count)


PLAIN = {"attack": attack_of, "states": states_of, "sweep": swept}


def is_so(name):
    folder = CRATES / name
    words = (folder / "args").read_text().split() if (folder / "args").is_file() else []
    made = written(PLAIN[name]((folder / "stdin").read_text(), words))
    return made == (folder / "stdout").read_text()


def main():
    wrong = [name for name in PLAIN if not is_so(name)]
    for name in wrong:
        print(f"stored runs: that of {name} is another one than the plain computation makes")
    print(f"stored runs: {len(PLAIN) - len(wrong)} of {len(PLAIN)} are what is computed plainly")
    return 1 if wrong else 0


if __name__ == "__main__":
    sys.exit(main())
