"""Joins the cells of nodes into packets, round by round. It is no part of the proved program.

    python3 hub.py FOLDER PLAN ROUNDS STATE..

Node V reads the named pipe FOLDER/in.V and writes FOLDER/out.V; there are as many nodes as states,
which are given in hex digits. The states of each configuration are printed in hex digits.
"""

import sys


def open_pipes(folder, v):
    """The two ends of node V: a shell that starts `node < in > out` opens in this order too."""
    to = open(f"{folder}/in.{v}", "wb")
    return to, open(f"{folder}/out.{v}", "rb")


def read_cell(out):
    head = out.read(2)
    if len(head) < 2:
        sys.exit("a node has ended")
    return head + out.read(256 * head[0] + head[1])


def send(to, data):
    to.write(data)
    to.flush()


def main():
    folder, plan, rounds, states = sys.argv[1], sys.argv[2], int(sys.argv[3]), sys.argv[4:]
    with open(plan) as text:
        header = text.read()
    pipes = [open_pipes(folder, v) for v in range(len(states))]
    for v, state in enumerate(states):
        send(pipes[v][0], f"{header}node 1\nid {v}\nstate {state}\nend\n".encode())
    for t in range(rounds + 1):
        cells = [read_cell(out) for _, out in pipes]
        print(t, *(cell[2:].hex() for cell in cells))
        if t < rounds:
            for to, _ in pipes:
                send(to, b"".join(cells))
    for to, _ in pipes:
        to.close()


main()
