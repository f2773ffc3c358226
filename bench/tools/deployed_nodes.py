"""Deploys nodes: correct ones and liars, each a process of its own, and a hub whose links fail.

    python3 deployed_nodes.py PROGRAM PLAN SEED LIAR..
    python3 deployed_nodes.py reboots PROGRAM PLAN SEED LIAR..
    python3 deployed_nodes.py losses PROGRAM PLAN SEED LIAR..

PLAN is a file that begins with a plan. Each of its nodes is a process: PROGRAM with the word `node`,
or of an id LIAR a process that sends random bytes of random lengths, other ones to each receiver in
each round. The correct nodes begin in states of random bytes. The hub gives each node a packet of
the cells that were sent to it. In some rounds each link between two correct nodes fails with an even
chance, and carries random bytes or none. Says since when the correct nodes count, and ends with 1
if that is not as promised. It is no part of the proved program.

With `reboots` no link fails; instead each correct node is ended and started anew, one after another
and then all at once, first with the last cell that it wrote as its state, then in a state of random
bytes. The plan has to tolerate one faulty node more than there are liars.

With `losses` each correct node loses in each round, once they count, the cells of some other correct
nodes, drawn anew: so many as make F with the liars; and then one more.
"""

import random
import subprocess
import sys

from halving_counter import plan_of

LONGEST = 600  # bytes of a cell that is made up
MARGIN = 100  # packets after a bound
FAILING = 300  # packets while links fail
LOSING = 5000  # packets while no more is lost than is tolerated


class Deployed:
    """The plan at the beginning of a file, of either construction, and what its nodes show."""

    def __init__(self, path):
        with open(path) as file:
            text = file.read()
        self.text = text[: text.index("end\n") + 4]
        self.plan = plan_of(self.text.splitlines())
        self.nodes, self.bound, self.modulus = self.plan.nodes, self.plan.bound, self.plan.modulus
        self.faults = self.plan.faults

    def bytes(self, v):
        return self.plan.bytes(v)

    def shown(self, v, cell):
        """What node v shows in the state of a cell that it wrote, 0 for an infinite value."""
        return self.plan.shown(self.plan.read(v, cell))


def cell_of(data):
    return len(data).to_bytes(2, "big") + data


def read_cell(out):
    head = out.read(2)
    if len(head) < 2:
        sys.exit("a node has ended")
    return out.read(256 * head[0] + head[1])


def lie(nodes, seed):
    """The process of a liar: for each byte that it gets a cell for each node."""
    draw = random.Random(seed)
    while sys.stdin.buffer.read(1):
        for _ in range(nodes):
            sys.stdout.buffer.write(cell_of(draw.randbytes(draw.randrange(LONGEST))))
        sys.stdout.buffer.flush()


def start(words, text):
    node = subprocess.Popen(words, stdin=subprocess.PIPE, stdout=subprocess.PIPE)
    node.stdin.write(text)
    node.stdin.flush()
    return node


def start_nodes(program, plan, liars, seed, draw):
    nodes = []
    for v in range(plan.nodes):
        if v in liars:
            words = [sys.executable, __file__, "lie", str(plan.nodes), f"{seed}{v}"]
            nodes.append(start(words, b""))
        else:
            state = draw.randbytes(plan.bytes(v)).hex()
            header = f"{plan.text}node 1\nid {v}\nstate {state}\nend\n"
            nodes.append(start([program, "node"], header.encode()))
    return nodes


def sent_in_round(nodes, liars):
    """What each node sends to each one, and of the correct ones the cell that they wrote."""
    for v in liars:
        nodes[v].stdin.write(b".")
        nodes[v].stdin.flush()
    sent = []
    for v, node in enumerate(nodes):
        if v in liars:
            sent.append([read_cell(node.stdout) for _ in nodes])
        else:
            sent.append([read_cell(node.stdout)] * len(nodes))
    return sent


def none_is_lost(v, u):
    return False


def deliver(nodes, liars, sent, is_lost, draw):
    for v, node in enumerate(nodes):
        if v in liars:
            continue
        cells = [sent[u][v] for u in range(len(nodes))]
        for u in range(len(nodes)):
            if u != v and u not in liars and is_lost(v, u):
                cells[u] = draw.randbytes(draw.choice([0, len(cells[u]), draw.randrange(LONGEST)]))
        node.stdin.write(b"".join(cell_of(cell) for cell in cells))
        node.stdin.flush()


def is_counted(old, new, modulus):
    """Whether all nodes show one number, and then that number plus one."""
    return len(set(old)) == 1 and set(new) == {(old[0] + 1) % modulus}


def counts_since(rows, modulus):
    """The first configuration from which on the rows count."""
    since = len(rows) - 1
    while since > 0 and is_counted(rows[since - 1], rows[since], modulus):
        since -= 1
    return since


def play(program, plan, liars, seed):
    draw = random.Random(seed)
    nodes = start_nodes(program, plan, liars, seed, draw)
    cut = plan.bound + MARGIN
    good = cut + FAILING
    last = good + plan.bound + MARGIN
    rows = []
    for t in range(last + 1):
        sent = sent_in_round(nodes, liars)
        rows.append([plan.shown(v, sent[v][v]) for v in range(plan.nodes) if v not in liars])
        if t < last:
            fails = (lambda v, u: draw.random() < 0.5) if cut <= t < good else none_is_lost
            deliver(nodes, liars, sent, fails, draw)
    for node in nodes:
        node.stdin.close()
        node.wait()
    ended = [node.returncode for v, node in enumerate(nodes) if v not in liars]
    return rows, ended


class Reboots:
    """The rounds of a play in which nodes are started anew, and how."""

    def __init__(self, plan, correct):
        self.handed = plan.bound + MARGIN  # each in turn, with its last cell
        self.handed_all = self.handed + MARGIN * len(correct)  # all, with theirs
        self.fresh = self.handed_all + MARGIN  # each in turn, in random states
        self.apart = plan.bound + MARGIN
        self.fresh_all = self.fresh + self.apart * len(correct)  # all, in random states
        self.last = self.fresh_all + plan.bound + MARGIN
        self.turns = {}  # of a round: the nodes, and whether each gets its last cell
        for k, v in enumerate(correct):
            self.turns[self.handed + MARGIN * k] = ([v], True)
            self.turns[self.fresh + self.apart * k] = ([v], False)
        self.turns[self.handed_all] = (correct, True)
        self.turns[self.fresh_all] = (correct, False)


def reboot(program, plan, nodes, v, state):
    """Ends the process of node v, starts another one, and says what that one writes first."""
    nodes[v].kill()
    nodes[v].wait()
    header = f"{plan.text}node 1\nid {v}\nstate {state.hex()}\nend\n"
    nodes[v] = start([program, "node"], header.encode())
    return read_cell(nodes[v].stdout)


def play_reboots(program, plan, liars, seed):
    draw = random.Random(seed)
    nodes = start_nodes(program, plan, liars, seed, draw)
    reboots = Reboots(plan, [v for v in range(plan.nodes) if v not in liars])
    rows = []
    for t in range(reboots.last + 1):
        sent = sent_in_round(nodes, liars)
        again, handed = reboots.turns.get(t, ([], True))
        for v in again:
            state = sent[v][v] if handed else draw.randbytes(plan.bytes(v))
            sent[v] = [reboot(program, plan, nodes, v, state)] * plan.nodes
        rows.append({v: plan.shown(v, sent[v][v]) for v in range(plan.nodes) if v not in liars})
        if t < reboots.last:
            deliver(nodes, liars, sent, none_is_lost, draw)
    for node in nodes:
        node.stdin.close()
        node.wait()
    return rows, reboots


def broken_steps(rows, first, last, modulus, but=None):
    """In how many rounds the nodes count not, one of them left out."""
    shown = [[x for v, x in row.items() if v != but] for row in rows[first : last + 1]]
    return sum(not is_counted(old, new, modulus) for old, new in zip(shown, shown[1:]))


def told_reboots(program, plan, liars, seed):
    """Plays reboots, says what the outputs were, and whether they are as promised."""
    rows, reboots = play_reboots(program, plan, liars, seed)
    modulus, bound = plan.modulus, plan.bound
    all_rows = [list(row.values()) for row in rows]
    first = counts_since(all_rows[: reboots.handed + 1], modulus)
    print(f"started together: they count from configuration {first}")
    handed = broken_steps(rows, reboots.handed, reboots.fresh - 1, modulus)
    print(f"started anew with their last cells, one after another and all at once: "
          f"{handed} of {reboots.fresh - 1 - reboots.handed} steps count not")
    disturbed, slowest = 0, 0
    for t, (again, is_handed) in sorted(reboots.turns.items()):
        end = min(t + reboots.apart, reboots.last)
        if len(again) == 1 and not is_handed:
            disturbed += broken_steps(rows, t - 1, end - 1, modulus, again[0])
            slowest = max(slowest, counts_since(all_rows[t:end], modulus))
    print(f"started anew in random states, one after another: of the others {disturbed} of "
          f"{reboots.apart * (plan.nodes - len(liars))} steps count not, and each counts with them "
          f"after at most {slowest} rounds")
    again = counts_since(all_rows[reboots.fresh_all :], modulus)
    print(f"started anew in random states, all at once: they count after {again} rounds")
    return first <= bound and handed + disturbed == 0 and slowest <= bound and again <= bound


def play_losses(program, plan, liars, seed):
    """Rows of nodes that lose cells: none, then so many as are tolerated, then one more."""
    draw = random.Random(seed)
    nodes = start_nodes(program, plan, liars, seed, draw)
    correct = [v for v in range(plan.nodes) if v not in liars]
    good = plan.bound + MARGIN
    rows = []
    for t in range(good + LOSING + FAILING + 1):
        sent = sent_in_round(nodes, liars)
        rows.append({v: plan.shown(v, sent[v][v]) for v in correct})
        lost = {v: [] for v in correct}
        if t >= good:
            many = plan.faults - len(liars) + (t >= good + LOSING)
            lost = {v: draw.sample([u for u in correct if u != v], many) for v in correct}
        if t < good + LOSING + FAILING:
            deliver(nodes, liars, sent, lambda v, u: u in lost[v], draw)
    for node in nodes:
        node.stdin.close()
        node.wait()
    return rows, good


def told_losses(program, plan, liars, seed):
    """Plays losses, says what the outputs were, and whether they are as promised."""
    rows, good = play_losses(program, plan, liars, seed)
    first = counts_since([list(row.values()) for row in rows[: good + 1]], plan.modulus)
    many = plan.faults - len(liars)
    print(f"nothing is lost: they count from configuration {first}")
    broken = broken_steps(rows, good, good + LOSING, plan.modulus)
    print(f"each loses {many} in each round from packet {good}: "
          f"{broken} of {LOSING} steps count not")
    worse = broken_steps(rows, good + LOSING, good + LOSING + FAILING, plan.modulus)
    print(f"each loses {many + 1} from packet {good + LOSING}: "
          f"{worse} of {FAILING} steps count not, which nothing promises")
    return first <= plan.bound and broken == 0


def told_links(program, plan, liars, seed):
    """Plays links that fail, says what the outputs were, and whether they are as promised."""
    rows, ended = play(program, plan, liars, seed)
    modulus, cut = plan.modulus, plan.bound + MARGIN
    good = cut + FAILING
    first, second = counts_since(rows[: cut + 1], modulus), counts_since(rows, modulus)
    broken = sum(not is_counted(rows[t], rows[t + 1], modulus) for t in range(cut, good))
    print(f"links good from packet 0: they count from configuration {first}")
    print(f"links failing from packet {cut}: {broken} of {FAILING} steps count not")
    print(f"links good from packet {good}: "
          f"they count from configuration {second} to {len(rows) - 1}")
    return first <= plan.bound and second <= good + plan.bound and not any(ended)


def main():
    if sys.argv[1] == "lie":
        lie(int(sys.argv[2]), sys.argv[3])
        return
    told = {"reboots": told_reboots, "losses": told_losses}.get(sys.argv[1], told_links)
    program, path, seed, *liars = sys.argv[1 if told is told_links else 2 :]
    plan, liars = Deployed(path), [int(v) for v in liars]
    print(f"nodes {plan.nodes} liars {' '.join(map(str, liars))} bound {plan.bound} seed {seed}")
    promised = told(program, plan, liars, seed)
    print("as promised" if promised else "NOT AS PROMISED")
    sys.exit(0 if promised else 1)


main()
