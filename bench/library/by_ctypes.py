"""Cases of a file as steps.c and plans.c read them, by ctypes; then what ctypes alone gets wrong.

It is run by try.py, and fails if an answer is another one.
"""

import ctypes
import sys

import counterlab

ALONE = b"plan 1\nbase 5\nend\n"
MOST_PACKETS = 1000000


def answer(text, node, state, packets):
    """What a call answers: code, detail, value and the bytes of the state."""
    try:
        new, count = counterlab.step(text, node, state, packets)
    except counterlab.CallError as error:
        return error.code, error.detail, error.value, state
    return 0, 0, count, new


def data(word):
    return b"" if word == "-" else bytes.fromhex(word)


def plan_numbers(text):
    """The numbers of a plan, and the bytes of a state of its node 0; none if it is refused."""
    try:
        numbers = counterlab.plan(text)
        found = [numbers.nodes, numbers.faults, numbers.modulus, numbers.bound]
        return [*found, counterlab.state_bytes(text, 0)]
    except counterlab.CallError:
        return []


def is_same(words):
    if len(words) == 6:
        return plan_numbers(data(words[0])) == [int(it) for it in words[1:]]
    plan, node, state, packets, code, detail, value, new = words
    found = answer(data(plan), int(node), data(state), data(packets))
    return found == (int(code), int(detail), int(value), data(new))


def offsets(kind):
    return [getattr(kind, name).offset for name, _ in kind._fields_]


def is_laid_out():
    """Whether the structs have the layout of the archive."""
    sizes = ctypes.sizeof(counterlab.Answer), ctypes.sizeof(counterlab.PlanNumbers)
    found = offsets(counterlab.Answer), offsets(counterlab.PlanNumbers)
    return sizes == (16, 24) and found == ([0, 4, 8], [0, 4, 8, 16])


def refuses_ids():
    """Whether ids that 32 bits don't hold are refused: not the node that is left of them."""
    calls = [
        lambda node: counterlab.state_bytes(ALONE, node),
        lambda node: counterlab.output(ALONE, node, b"\0"),
        lambda node: counterlab.step(ALONE, node, b"\0", b""),
    ]
    for call in calls:
        for node in (-1, -(2**32), 2**32, 2**64):
            try:
                call(node)
            except ValueError:
                continue
            return False
        call(0)
    return True


def main():
    with open(sys.argv[1]) as file:
        rows = [line.split() for line in file]
    same = sum(map(is_same, rows))
    cell = b"\0\0"
    end = answer(ALONE, 0, b"\x80", MOST_PACKETS * cell) == (0, 0, MOST_PACKETS, b"\x80")
    more = answer(ALONE, 0, b"\x80", (MOST_PACKETS + 1) * cell) == (8, 0, 0, b"\x80")
    said = {
        f"{MOST_PACKETS} packets are": (end, "taken"),
        "one more is": (more, "refused"),
        "ids beyond 32 bits are": (refuses_ids(), "refused"),
        "the structs are": (is_laid_out(), "laid out as the archive's"),
    }
    print(f"{same} of {len(rows)} answers are the same", end="")
    for what, (holds, how) in said.items():
        print(f"; {what} {'' if holds else 'NOT '}{how}", end="")
    print()
    return same == len(rows) and all(holds for holds, _ in said.values())


sys.exit(not main())
