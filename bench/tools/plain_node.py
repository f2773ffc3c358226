"""A node by its definitions, of a plan of either construction, beside the word `node`.

    python3 plain_node.py node < INPUT                     writes what `node` is to write
    python3 plain_node.py compare PROGRAM PLAN SEED PACKETS

`compare` draws for each node of the plan at the beginning of the file PLAN a state and so many
packets, hands them to PROGRAM with the word `node`, and says whether each cell is as it is computed
here. Two of three packets are near a count, where all nodes are as one; cells have any bytes, now
and then of another length. Inputs are taken as accepted ones. It is no part of the proved program.
"""

import random
import subprocess
import sys

from halving_counter import plan_of


def cell_of(data):
    return len(data).to_bytes(2, "big") + data


def answer(plan, v, own, packets):
    """The cells of node v: that of its state, and after each packet that of its new one."""
    state = plan.read(v, own)
    cells = [cell_of(plan.write(v, state))]
    for packet in packets:
        heard = [plan.read(u, cell) for u, cell in enumerate(packet)]
        heard[v] = state
        state = plan.step(v, heard)
        cells.append(cell_of(plan.write(v, state)))
    return b"".join(cells)


# Reading an input.


def parts_of(data):
    """The lines of both parts of a header, and the bytes after it."""
    lines, ends = [], 0
    while ends < 2:
        line, data = data.split(b"\n", 1)
        lines.append(line.decode().strip())
        ends += lines[-1] == "end"
    return lines, data


def packets_in(nodes, data):
    cells, at = [], 0
    while at < len(data):
        size = int.from_bytes(data[at : at + 2], "big")
        cells.append(data[at + 2 : at + 2 + size])
        at += 2 + size
    return [cells[i : i + nodes] for i in range(0, len(cells), nodes)]


def read_node():
    lines, data = parts_of(sys.stdin.buffer.read())
    first = lines.index("end") + 1
    plan = plan_of(lines[:first])
    words = dict(line.split() for line in lines[first:-1])
    packets = packets_in(plan.nodes, data)
    sys.stdout.buffer.write(answer(plan, int(words["id"]), bytes.fromhex(words["state"]), packets))


# Drawing one.


def drawn_cell(draw, plan, u, common):
    """A cell of node u: any bytes, the fields of a common state where it has them, or no state."""
    if draw.randrange(40) == 0:
        return draw.randbytes(draw.randrange(2 * plan.bytes(u) + 2))
    if common is not None and draw.randrange(8) > 0:
        return plan.write(u, plan.read(u, common[: plan.bytes(u)]))
    return draw.randbytes(plan.bytes(u))


def drawn_packet(draw, plan):
    most = max(plan.bytes(u) for u in range(plan.nodes))
    common = draw.randbytes(most) if draw.randrange(3) else None
    return [drawn_cell(draw, plan, u, common) for u in range(plan.nodes)]


def compare(program, path, seed, count):
    with open(path) as file:
        text = file.read()
    text = text[: text.index("end\n") + 4]
    plan = plan_of(text.splitlines())
    draw = random.Random(seed)
    for v in range(plan.nodes):
        own = draw.randbytes(plan.bytes(v))
        packets = [drawn_packet(draw, plan) for _ in range(count)]
        header = f"{text}node 1\nid {v}\nstate {own.hex()}\nend\n".encode()
        data = header + b"".join(cell_of(cell) for packet in packets for cell in packet)
        found = subprocess.run([program, "node"], input=data, stdout=subprocess.PIPE).stdout
        if found != answer(plan, v, own, packets):
            sys.exit(f"node {v}: another answer")
    print(f"nodes {plan.nodes} packets {count} seed {seed}: alike")


def main():
    if sys.argv[1] == "compare":
        compare(sys.argv[2], sys.argv[3], sys.argv[4], int(sys.argv[5]))
    else:
        read_node()


if __name__ == "__main__":
    main()
