"""What the calls of the library answer, by the plain steps of bench/tools/: counter.py, and of halving
plans halving_counter.py.

The library is tried against it. It shares nothing with the proved code.
"""

import pathlib
import sys

sys.path.insert(0, str(pathlib.Path(__file__).resolve().parent.parent / "tools"))

import counter
import halving_counter

MOST_PACKETS = 1000000


def plan_of(base, rows):
    """The plan of a base modulus and rows `blocks faults modulus spares`, the lowest first."""
    lines = ["level {} {} {} spare {}".format(*row) for row in rows]
    return counter.Plan(["plan 2", f"base {base}", *lines, "end"])


def halving_plan_of(nodes, faults, modulus):
    """The halving plan of these numbers."""
    return halving_counter.Plan(["halving 1", f"group {nodes} {faults} {modulus}", "end"])


def text_of(plan):
    return "".join(line + "\n" for line in plan.lines).encode()


def state_of(number, registers):
    """A state of a number and pairs of a value, None if it is infinite, and a mark."""
    return counter.State(number, registers)


def output(plan, node, state):
    """What `counterlab_output` answers of the bytes of a state."""
    return plan.shown(plan.read(node, state))


def cells(plan, packets):
    """The whole packets of bytes, and after these the node in whose cell they end, or None."""
    found, at = [], 0
    while at < len(packets):
        packet = []
        for node in range(plan.nodes):
            size = int.from_bytes(packets[at : at + 2], "big")
            if at + 2 > len(packets) or at + 2 + size > len(packets):
                return found, node
            packet.append(packets[at + 2 : at + 2 + size])
            at += 2 + size
        found.append(packet)
    return found, None


def answer(plan, node, state, packets):
    """What `counterlab_step` answers: code, detail, value and the bytes of the state."""
    if node >= plan.nodes:
        return 3, 1, 0, state
    if len(state) != plan.bytes(node):
        return 3, 2, 0, state
    found, cut = cells(plan, packets)
    if len(found) > MOST_PACKETS:
        return 8, 0, 0, state
    if cut is not None:
        return 9, cut, len(found), state
    own = plan.read(node, state)
    for packet in found:
        heard = [own if u == node else plan.read(u, data) for u, data in enumerate(packet)]
        own = plan.step(node, heard)
    return 0, 0, len(found), plan.write(node, own)
