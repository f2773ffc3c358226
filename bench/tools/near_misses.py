#!/usr/bin/env python3
"""Draws inputs that are one change away from accepted ones, and compares what the built programs
answer with what plain_answers.py does.

    python3 bench/tools/near_misses.py [SEED]

It draws for each word of crates/counterlab/out/counterlab and crates/halvinglab/out/halvinglab, and
prints how many inputs of each were compared, and of each program how many were refused by each rule
of each part, how many certificates were true and false, and how many runs have an explanation. The
status is 1 if an answer differs, which is printed with its input, or if fewer than 20 are of some
such kind. A program that is not there is told in a line, and not tried. Without SEED
inputs are the same each time. It takes less than a minute.
"""

import collections
import concurrent.futures
import itertools
import os
import pathlib
import subprocess
import sys

from drawn_runs import input_lines, script_lines, span
from halving_counter import plan_of
from plain_answers import TooLong, judged, recorded, table
from vectors import Draws

TOP = pathlib.Path(__file__).resolve().parent.parent.parent
LEAST = 20
# of each word, how many inputs are compared that one rule refuses, or that are answered in one way;
# how many are drawn, and how many at most if the rules of its own part want more
MOST = 40
DRAWN = 400
DRAWN_AT_MOST = 6000

PLAN = "form limit blocks modulus quorum share multiple"
SCRIPT = "form limit node order faults range hex name"
PARTS = {
    "slots": "form limit node range overlap", "agree": "form slot limit range",
    "fire": "form slot limit node range", "log": "form slot limit node range",
    "node": "form node hex",
}
RULES = {
    "counterlab": {"plan": PLAN, "table": f"{PLAN} value", "find": "form limit range",
                   "certificate": "form", "script": SCRIPT, **PARTS,
                   "explain": "window none base", "check": "true false"},
    "halvinglab": {"halving": "form limit modulus quorum single", "script": SCRIPT, **PARTS},
}
WORDS = {
    "counterlab": ["plan", "upgrade", "table", "find", "run", "record", "explain", "slots",
                   "consensus", "fire", "log", "node", "check"],
    "halvinglab": ["plan", "run", "slots", "consensus", "fire", "log", "node"],
}
OWN = {"upgrade": "plan", "run": "script", "record": "script", "consensus": "agree"}
SHAPES = [
    [], [(3, 1, 1)], [(4, 1, 0)], [(3, 1, 9)], [(3, 0, 1), (3, 1, 0)], [(3, 0, 0)], [(4, 1, 0)],
    [(4, 1, 0), (3, 2, 0)], [(3, 0, 8)], [(4, 1, 12)],
]
# of plans alone; they have 243 and 256 nodes
LARGE = [[(3, 0, 0), (3, 1, 0), (3, 3, 0), (3, 7, 0), (3, 15, 0)],
         [(3, 0, 0), (3, 1, 0), (3, 3, 0), (3, 7, 1), (3, 15, 10)]]
# of runs that have an explanation mostly
EXPLAINED = [[(3, 0, 0)], [(3, 1, 1)], [(3, 1, 2)]]
GROUPS = [(4, 1), (5, 1), (7, 2), (1, 0), (8, 2)]
NUMBERS = [0, 1, 2, 3, 16, 17, 85, 86, 255, 256, 257, 1024, 1025, 65536, 65537, 10**6, 10**6 + 1,
           2**40, 2**40 + 1, 10**15 - 1, 10**15]
BEYOND = [17, 86, 257, 1025, 65537, 2**40 + 1]
RULED = [b"base", b"level", b"group", b"want", b"slot", b"values", b"inputs", b"request", b"keep",
         b"commands", b"id"]
BYTES = b" 0\n9a#\r1e\tz-\x00\xff*"
SKIPPED = [b"", b"# a remark", b"#\xff\r  \x00", b"#" * 4096, b"#" * 4097]


# Accepted inputs.


def boosting(draws, shapes):
    shape = draws.one_of(shapes)
    nodes, faults = 1, 0
    for blocks, faults, spares in shape:
        nodes = nodes * blocks + spares
    slots = nodes * (3 * (faults + 1) + 1) * 3 * (faults + 1)
    top = slots * draws.one_of([1, 40, 300])
    moduli = [*(span(blocks, own) for blocks, own, _ in shape), top]
    version = 2 if any(spares for *_, spares in shape) else 1 + draws.below(2)
    yield from [f"plan {version}", f"base {moduli[0] * draws.one_of([1, 1, 2])}"]
    for (blocks, own, spares), counts_by in zip(shape, moduli[1:]):
        yield f"level {blocks} {own} {counts_by}" + (f" spare {spares}" if version == 2 else "")
    yield "end"


def halving(draws):
    nodes, faults = draws.one_of(GROUPS)
    slots = nodes * (3 * (faults + 1) + 1) * 3 * (faults + 1)
    return ["halving 1", f"group {nodes} {faults} {slots * draws.one_of([1, 40, 300])}", "end"]


def packets(draws, plan):
    cells = [draws.data(plan.bytes(u)) for _ in range(draws.below(4)) for u in range(plan.nodes)]
    return b"".join(len(cell).to_bytes(2, "big") + cell for cell in cells)


def between(draws, plan, word, rounds):
    """The part of a word, and the values of its layer."""
    if word != "slots":
        return input_lines(draws, plan_of(plan.lines), word, rounds)
    slots = [f"slot {draws.below(plan.nodes)} {i} {i + draws.below(2)}"
             for i in range(0, min(plan.modulus - 1, 12), 2)]
    return ["slots 1", *draws.shuffled(slots)[: 1 + draws.below(6)], "end"], []


def played(draws, lines, word):
    """The lines of a plan, a part and a script of few rounds."""
    plan, rounds = plan_of(lines), 3 + draws.below(12)
    if word == "explain" and plan.nodes < 6 and draws.below(2):
        rounds = plan.bound + draws.below(100)
    few, values = between(draws, plan, word, rounds)
    firsts = [0, *range(2, 2 + draws.below(3))]
    script = script_lines(draws, plan_of(lines, values), firsts, rounds)
    return [*lines, *few, *script]


def accepted(draws, program, word):
    """The lines of an accepted input of a word, and the bytes after them."""
    shapes = SHAPES
    if word in ("plan", "upgrade", "table") and draws.below(4) == 0:
        shapes = LARGE
    if word == "explain" and draws.below(2):
        shapes = EXPLAINED
    lines = list(boosting(draws, shapes)) if program == "counterlab" else halving(draws)
    if word in ("plan", "upgrade"):
        return lines, b""
    if word == "table":
        return table(lines), b""
    if word == "find":
        want = f"want {draws.below(4)} {2 + draws.below(100)} {1 + draws.below(60)}"
        return ["find 1", want, "end"], b""
    if word == "node":
        plan = plan_of(lines)
        v = draws.below(plan.nodes)
        state = draws.data(plan.bytes(v)).hex()
        return [*lines, "node 1", f"id {v}", f"state {state}", "end"], packets(draws, plan)
    lines = played(draws, lines, word)
    if word == "check":
        lines = list(recorded("".join(f"{line}\n" for line in lines)))
    return lines, b""


# Changes.


def with_lines(draws, lines):
    """A line is left out, doubled, or changes its place with another."""
    i, j = draws.below(len(lines)), draws.below(len(lines))
    kind = draws.below(3)
    if kind == 0:
        return lines[:i] + lines[i + 1 :]
    if kind == 1:
        return lines[:i] + [lines[i]] + lines[i:]
    changed = list(lines)
    changed[i], changed[j] = lines[j], lines[i]
    return changed


def with_words(draws, lines):
    """A word of a line is left out, doubled, or is one of another line."""
    i = draws.below(len(lines))
    words = lines[i].split(b" ")
    j = draws.below(len(words))
    other = draws.one_of(draws.one_of(lines).split(b" "))
    words[j : j + 1] = draws.one_of([[], [words[j]] * 2, [other], [other]])
    return [*lines[:i], b" ".join(words), *lines[i + 1 :]]


def with_number(draws, lines):
    """A number is one more or less, twice as large, or one at some limit."""
    i = draws.one_of([i for i, line in enumerate(lines) if has_number(line)])
    words = lines[i].split(b" ")
    j = draws.one_of([j for j, word in enumerate(words) if word.isdigit()])
    number = int(words[j])
    few = [number + 1, max(0, number - 1), 2 * number]
    words[j] = str(draws.one_of(draws.one_of([few, NUMBERS]))).encode()
    return [*lines[:i], b" ".join(words), *lines[i + 1 :]]


def with_limit(draws, lines):
    """A number that a rule is about is small, or beyond some limit; or other nodes are faulty."""
    places = collections.defaultdict(list)
    for i, line in enumerate(lines):
        words = line.split(b" ")
        places[words[0]] += [(i, j) for j in ruled(words)]
    i, j = draws.one_of(places[draws.one_of(sorted(key for key in places if places[key]))])
    words = lines[i].split(b" ")
    if words[j] == b"faulty":
        words[j + 1 :] = [b"%d" % v for v in range(draws.below(6))]
    else:
        words[j] = str(draws.one_of([*range(8), *BEYOND])).encode()
    return [*lines[:i], b" ".join(words), *lines[i + 1 :]]


def ruled(words):
    """The places of such numbers in a line."""
    if words[0] == b"level" and len(words) > 12:  # of a table
        return [3, 9, 15, *range(21, len(words), 2)]
    if words[0] in RULED:
        return [j for j, word in enumerate(words) if word.isdigit()]
    return [j for j, word in enumerate(words) if word == b"faulty"]


def with_name(draws, lines):
    """The name of a group is another, where it is given or where it is used."""
    keys = {b"group": 1, b"lie": 5}
    named = [i for i, line in enumerate(lines) if line.split(b" ")[0] in keys]
    if not named:
        return with_byte(draws, lines)
    i = draws.one_of(named)
    words = [*lines[i].split(b" "), b"", b"", b"", b"", b""]
    words[keys[words[0]]] = draws.one_of([b"all", b"left", b"right", b"none", b"Left", b"a" * 17])
    return [*lines[:i], b" ".join(words).rstrip(b" "), *lines[i + 1 :]]


def has_number(line):
    return any(word.isdigit() and len(word) < 16 for word in line.split(b" "))


def with_byte(draws, lines):
    """A byte is another, is left out, or is one more."""
    text = b"\n".join(lines)
    i = draws.below(len(text))
    byte = bytes([draws.one_of(BYTES)])
    flipped = bytes([text[i] ^ 1 << draws.below(8)])
    end = draws.one_of([i, i + 1])
    return (text[:i] + draws.one_of([byte, flipped, b""]) + text[end:]).split(b"\n")


def with_end(draws, lines):
    """The text ends in some line, or goes on."""
    i = draws.below(len(lines))
    return draws.one_of([lines[:i], [*lines, draws.one_of(lines)], [*lines, b"x"]])


def crowd(line, count):
    """So many lines like one, each of which might stand after the others."""
    key, *words = line.split(b" ")
    for i in range(count):
        if key == b"group":
            letters = bytes([97 + i // 26, 97 + i % 26])
            yield b" ".join([key, b"x" + letters, *words[1:]])
        elif key == b"era":
            yield b" ".join([key, b"%d" % (i + 1), *words[1:]])
        elif key == b"slot":
            yield b"slot %s %d %d" % (words[0], i, i)
        else:
            yield line


def crowded(draws, lines):
    """Lines of one kind are as many as may be, or one more."""
    keys = [b"group", b"era", b"slot", b"request", b"lie", b"level"]
    keys = [key for key in keys if any(line.startswith(key + b" ") for line in lines)]
    if not keys or lines[0].startswith(b"halving") and keys == [b"group"]:
        return with_number(draws, lines)
    key = draws.one_of(keys)
    i = draws.one_of([i for i, line in enumerate(lines) if line.startswith(key + b" ")])
    others = [line for line in lines[i + 1 :] if line.split(b" ")[0] != key]
    if key in (b"era", b"slot"):
        others = [line for line in others if not line.startswith(b"start node")]
        others = [b"rounds 20" if line.startswith(b"rounds") else line for line in others]
        others = [b"show 0 3" if line.startswith(b"show") else line for line in others]
    front = [line for line in lines[:i] if line.split(b" ")[0] != key]
    count = draws.one_of([16, 17] if key in (b"era", b"level") else [256, 257])
    return [*front, *crowd(lines[i], count), *others]


def listed(draws, lines):
    """The numbers at the end of a line are some more."""
    i = draws.one_of([i for i, line in enumerate(lines) if has_number(line)])
    more = [str(draws.below(9)).encode() for _ in range(draws.one_of([1, 2, 17]))]
    return [*lines[:i], b" ".join([lines[i], *more]), *lines[i + 1 :]]


CHANGES = [with_lines, with_words, with_number, with_byte, with_end, with_name, crowded, crowded,
           listed]


def near(draws, program, word):
    """An input that is near to an accepted one, or at times such a one."""
    lines, rest = accepted(draws, program, word)
    lines = [line.encode() for line in lines]
    if word not in ("table", "check"):
        for _ in range(draws.below(3)):
            skipped = draws.one_of(SKIPPED[:-1] if draws.below(4) else SKIPPED)
            lines.insert(draws.below(len(lines) + 1), skipped)
    if draws.below(16) > 0:
        change = draws.one_of(CHANGES)
        if word != "check" and draws.below(2):
            change = with_limit
        lines = change(draws, lines) or [b""]
    if rest and draws.below(4) == 0:
        rest = rest[: draws.below(len(rest))]
    return b"\n".join(lines) + (b"" if draws.below(24) == 0 else b"\n") + rest


# Comparing.


def kind_of(word, written, refused):
    """By what an input is refused; or how it is answered, of some words."""
    if refused:
        return refused.part, refused.rule
    said = written.split()
    if word == "check":
        return word, said[0].decode()
    if word == "explain":
        return word, said[2].decode() if said[2] == b"window" else said[3].decode()
    return None


def drawn(seed, program, word):
    """Inputs of a word, with what must be answered, and of which kind that is."""
    counts, part = collections.Counter(), OWN.get(word, word)
    part = "halving" if part == "plan" and program == "halvinglab" else part
    rules = RULES[program][part].split()
    for place in range(DRAWN_AT_MOST):
        if place >= DRAWN and all(counts[part, rule] >= LEAST for rule in rules):
            break
        data = near(Draws(f"{seed} {program} {word} {place}"), program, word)
        try:
            code, written, refused = judged(program, word, data, is_quick=True)
        except TooLong:
            continue
        key = kind_of(word, written, refused)
        counts[key] += 1
        if counts[key] <= MOST:
            yield data, (code, written), key


def ended(path, word, data):
    ran = subprocess.run([path, word], input=data, stdout=subprocess.PIPE,
                         stderr=subprocess.DEVNULL)
    return ran.returncode, ran.stdout


def compare(pool, path, seed, word, counts):
    """How many inputs of a word were compared, and how many of them are answered otherwise."""
    cases = list(drawn(seed, path.name, word))
    answers = pool.map(ended, itertools.repeat(path), itertools.repeat(word),
                       [data for data, _, _ in cases])
    wrong = 0
    for (data, wanted, key), said in zip(cases, answers):
        counts[key] += 1
        if said != wanted:
            wrong += 1
            print(f"near misses: {path.name} {word} answers {said}, wanted {wanted}, to {data}")
    return len(cases), wrong


def try_program(pool, path, seed):
    """Whether a program answers as it must, and enough inputs are refused by each rule."""
    counts, is_right = collections.Counter(), True
    for word in WORDS[path.name]:
        tried, wrong = compare(pool, path, seed, word, counts)
        print(f"near misses: {path.name} {word}: {tried - wrong} of {tried} answers agree")
        is_right = is_right and wrong == 0
    for part, rules in RULES[path.name].items():
        counted = [(rule, counts[part, rule]) for rule in rules.split()]
        few = [rule for rule, count in counted if count < LEAST]
        said = ", ".join(f"{count} {rule}" for rule, count in counted)
        print(f"near misses: {path.name} {part}: {said}" + (" TOO FEW" if few else ""))
        is_right = is_right and not few
    unknown = {key for key in counts if key and key[1] not in RULES[path.name].get(key[0], "")}
    return is_right and not unknown


def main():
    seed = sys.argv[1] if len(sys.argv) > 1 else "1"
    is_right = True
    with concurrent.futures.ThreadPoolExecutor(os.cpu_count()) as pool:
        for name in WORDS:
            path = TOP / "crates" / name / "out" / name
            if path.is_file():
                is_right = try_program(pool, path, seed) and is_right
            else:
                print(f"near misses: {name}: not tried, since {path} is not there")
    return 0 if is_right else 1


if __name__ == "__main__":
    sys.exit(main())
