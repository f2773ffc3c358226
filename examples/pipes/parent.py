#!/usr/bin/env python3
"""A parent of processes of `halvinglab node`: gives them packets, and says what each node shows.

    python3 examples/pipes/parent.py PROGRAM PLAN ROUNDS [MOST]

PROGRAM is halvinglab, PLAN the file of a halving plan. All its nodes are processes here, which
begin in random states; on a network each parent has one node, and takes the other cells from its
links. A node that has answered MOST packets, or a million, is started anew from its last cell, and
the others see nothing of that; so is one whose cell does not come in time, which has missed that
round then. Nothing but PROGRAM is proved.
"""

import os
import select
import subprocess
import sys

SECONDS = 1.0  # for a cell; of a node that is deployed, less than a round


class Node:
    """A node of a plan: its newest cell, and the process that makes the next one."""

    def __init__(self, program, plan, table, v, most):
        self.program, self.plan, self.v, self.most = program, plan, v, most
        words = table[f"node {v}"].split()
        self.at, self.width = int(words[3]), int(words[4])
        self.modulus = int(table["plan nodes"].split()[4])
        self.start(os.urandom(int(words[1])))

    def start(self, state):
        """Its first cell is the state, brought into range: so a new process goes on from a cell."""
        self.child = subprocess.Popen([self.program, "node"], stdin=subprocess.PIPE,
                                      stdout=subprocess.PIPE, bufsize=0)
        self.packets, self.state = 0, state
        header = f"node 1\nid {self.v}\nstate {state.hex()}\nend\n"
        self.child.stdin.write(self.plan + header.encode())
        self.state = self.read_cell()

    def read(self, count):
        data = b""
        while len(data) < count:
            if not select.select([self.child.stdout], [], [], SECONDS)[0]:
                raise TimeoutError
            if not (more := os.read(self.child.stdout.fileno(), count - len(data))):
                raise EOFError
            data += more
        return data

    def read_cell(self):
        return self.read(int.from_bytes(self.read(2), "big"))

    def step(self, cells):
        """Hears the messages of all nodes in the order of their ids, b"" for one that is lost."""
        try:
            if self.packets == self.most:
                self.start_anew()
            self.child.stdin.write(b"".join(len(it).to_bytes(2, "big") + it for it in cells))
            self.state, self.packets = self.read_cell(), self.packets + 1
        except (TimeoutError, EOFError, BrokenPipeError):
            self.start_anew()  # it has missed this round

    def start_anew(self):
        self.child.kill()
        self.child.communicate()
        self.start(self.state)

    def shown(self):
        """The number where the plan's table says; one that is too large is infinite."""
        value = int.from_bytes(self.state, "big") >> 8 * len(self.state) - self.at - self.width
        value %= 1 << self.width
        return value if value < self.modulus else 0


def main():
    program, path, rounds = sys.argv[1], sys.argv[2], int(sys.argv[3])
    most = int(sys.argv[4]) if len(sys.argv) > 4 else 1_000_000
    with open(path, "rb") as file:
        plan = file.read()
    told = subprocess.run([program, "plan"], input=plan, stdout=subprocess.PIPE, check=True)
    lines = [line.split(maxsplit=2) for line in told.stdout.decode().splitlines()]
    table = {" ".join(it[:2]): " ".join(it[2:]) for it in lines}
    count = sum(name.startswith("node ") for name in table)
    nodes = [Node(program, plan, table, v, most) for v in range(count)]
    for t in range(rounds + 1):
        print(t, *(node.shown() for node in nodes), flush=True)
        cells = [node.state for node in nodes]
        for node in nodes:
            node.step(cells)
    for node in nodes:
        node.child.communicate()  # its input ends between two packets, so it ends with 0


main()
