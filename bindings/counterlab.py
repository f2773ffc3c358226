"""The proved step of a node, for Python: ctypes over libcounterlab_c.so.

COUNTERLAB_SO names the shared object, else it is looked for beside this file, and where install.sh
puts it. docs/LIBRARY.md says how to link it.
"""

import ctypes
import os
import pathlib


class Answer(ctypes.Structure):
    _fields_ = [("code", ctypes.c_uint32), ("detail", ctypes.c_uint32), ("value", ctypes.c_uint64)]


class PlanNumbers(ctypes.Structure):
    """How many nodes a plan has, how many may be faulty, by what they count, and the bound."""

    _fields_ = [
        ("nodes", ctypes.c_uint32),
        ("faults", ctypes.c_uint32),
        ("modulus", ctypes.c_uint64),
        ("bound", ctypes.c_uint64),
    ]


OK, PLAN, ARGUMENT, TOO_LONG, CUT, NO_MEMORY = 0, 1, 3, 8, 9, 10
NO_NODE, LENGTH = 1, 2  # wrong arguments
FORM, LIMIT, BLOCKS, MODULUS, QUORUM, SHARE, MULTIPLE, SINGLE = range(1, 9)  # premises of a plan

MOST_BYTES = 128  # no state has more
FIRST_LINE = "`plan 1`, `plan 2` or `halving 1`"  # what the first line of a plan may be

_CODES = {
    OK: "answered",
    PLAN: "the plan is refused",
    ARGUMENT: "an argument is wrong",
    TOO_LONG: "there are more than 1,000,000 packets",
    CUT: "the bytes end inside a packet",
    NO_MEMORY: "memory was refused",
}
_DETAILS = {
    (PLAN, FORM): "refused by form: the line is not one that may stand there",
    (PLAN, LIMIT): "refused by limit: a number is too large",
    (PLAN, BLOCKS): "refused by blocks: a level has fewer than three",
    (PLAN, MODULUS): "refused by modulus: it is below 2",
    (PLAN, QUORUM): "refused by quorum: too few nodes for so many faults",
    (PLAN, SHARE): "refused by share: its blocks tolerate too few faults",
    (PLAN, MULTIPLE): "refused by multiple: the modulus below is no multiple of the span",
    (PLAN, SINGLE): "refused by single: no faults, but more than one node",
    (ARGUMENT, NO_NODE): "the plan has no such node",
    (ARGUMENT, LENGTH): "the state has another length than the node's",
}


def told(code, detail):
    """What an answer's code and detail say, in words for a person."""
    return _DETAILS.get((code, detail)) or _CODES.get(code, "no code of this library")


class CallError(Exception):
    """A call was not answered: `code`, `detail` and `value` are the answer's, and the text says it
    in words."""

    def __init__(self, answer):
        self.code, self.detail, self.value = answer.code, answer.detail, answer.value
        text = told(self.code, self.detail)
        if self.code == PLAN:
            text += f" (line {self.value})"
            if (self.detail, self.value) == (FORM, 1):
                text += f": it should be {FIRST_LINE}"
        if self.code == CUT:
            text += f" (packet {self.value}, the cell of node {self.detail})"
        super().__init__(text)


def _shared():
    """The path of the shared object."""
    here = pathlib.Path(__file__).resolve().parent
    named = os.environ.get("COUNTERLAB_SO")
    # install.sh puts this file into PREFIX/share/counterlab/python
    installed = here.parent.parent.parent / "lib" / "libcounterlab.so"
    beside = here / "libcounterlab_c.so"
    return named or str(installed if installed.exists() and not beside.exists() else beside)


def _load():
    library = ctypes.CDLL(_shared())
    text, size, node = ctypes.c_char_p, ctypes.c_size_t, ctypes.c_uint32
    for name, arguments in {
        "counterlab_plan": [text, size, ctypes.POINTER(PlanNumbers)],
        "counterlab_state_bytes": [text, size, node],
        "counterlab_output": [text, size, node, text, size],
        "counterlab_step": [text, size, node, ctypes.c_char_p, size, text, size],
    }.items():
        function = getattr(library, name)
        function.argtypes, function.restype = arguments, Answer
    return library


_library = _load()


def _value(answer):
    if answer.code:
        raise CallError(answer)
    return answer.value


def _id(node):
    """A node's id as a call takes it: ctypes alone would cut it to 32 bits, to the id of another."""
    if not 0 <= node < 2**32:
        raise ValueError(f"{node} is no id: ids are 0 to 2^32 - 1")
    return node


def plan(text):
    """The numbers of a plan."""
    numbers = PlanNumbers()
    _value(_library.counterlab_plan(text, len(text), ctypes.byref(numbers)))
    return numbers


def state_bytes(text, node):
    """How many bytes a state of the node has."""
    return _value(_library.counterlab_state_bytes(text, len(text), _id(node)))


def output(text, node, state):
    """What the node shows in a state."""
    return _value(_library.counterlab_output(text, len(text), _id(node), state, len(state)))


def step(text, node, state, packets):
    """The node's state after the packets, and how many these were."""
    # A copy, which the call may write; never the bytes of `state`, which Python shares.
    room = ctypes.create_string_buffer(state, max(1, len(state)))
    given = room, len(state), packets, len(packets)
    answer = _library.counterlab_step(text, len(text), _id(node), *given)
    return room.raw[: len(state)], _value(answer)


def cell(state):
    """The cell of a state."""
    return len(state).to_bytes(2, "big") + state
