"""The loop of a node that makes the proved step. What is behind `network` is yours:

wait_for_tick()       waits for a tick, and never for a message; how many came
receive(u)            the last message that came from node u; b"" if none did, or one of over 128 bytes
send_to(u, message)
act(number)           what the counter is for
"""

import counterlab


def shown(plan, node, state):
    """What a node shows in a state, or None if memory was refused."""
    try:
        return counterlab.output(plan, node, state)
    except counterlab.CallError:
        return None


def step(plan, node, state, packet):
    """The new state, and whether the node has stepped."""
    try:
        return counterlab.step(plan, node, state, packet)[0], True
    except counterlab.CallError:
        return state, False


def run(plan, node, network):
    """Ends only by a CallError of a plan or an id that is refused."""
    numbers = counterlab.plan(plan)
    quorum, bound = numbers.nodes - numbers.faults, numbers.bound
    sizes = [counterlab.state_bytes(plan, u) for u in range(numbers.nodes)]
    others = [u for u in range(numbers.nodes) if u != node]
    state = bytes(counterlab.state_bytes(plan, node))  # any bytes will do
    left = bound
    while True:
        ticks = network.wait_for_tick()
        before = shown(plan, node, state)
        messages = {u: network.receive(u) for u in others}
        heard = [u for u in others if len(messages[u]) == sizes[u]]
        agreeing = 1 + sum(shown(plan, u, messages[u]) == before for u in heard)
        cells = [counterlab.cell(messages.get(u, b"")) for u in range(numbers.nodes)]
        state, stepped = step(plan, node, state, b"".join(cells))
        number = shown(plan, node, state)
        agreed = None not in (before, number) and stepped and agreeing >= quorum \
            and number == (before + 1) % numbers.modulus
        few = 1 + len(heard) < quorum
        if ticks != 1 or few or not stepped or left > bound or left == 0 and not agreed:
            left = bound  # a disturbance, or a premise that failed
        else:
            left = max(left - 1, 0)
        for u in others:
            network.send_to(u, state)  # s + w after the tick
        if left == 0 and agreed:
            network.act(number)
