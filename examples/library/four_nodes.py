"""Four nodes, one of which starts with another value: their states in five configurations."""

import counterlab

PLAN = b"halving 1\ngroup 4 1 10\nend\n"
states = [bytes.fromhex(state) for state in ["aa00", "1400", "7000", "5000"]]
for t in range(5):
    print(t, *(state.hex() for state in states))
    packet = b"".join(map(counterlab.cell, states))
    states = [counterlab.step(PLAN, v, state, packet)[0] for v, state in enumerate(states)]
