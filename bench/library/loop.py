"""What loop.c does, by the loop of node_loop.py."""

import threading

import node_loop

PLAN = b"halving 1\ngroup 4 1 10\nend\n"
NODES = 4
ROUNDS = 160


class Ended(Exception):
    """The last round is over."""


class Links:
    """What node v has of the network that all share."""

    begin = threading.Barrier(NODES)
    sent = [{}, {}]  # in even and odd rounds, by sender and receiver
    acts = {}

    def __init__(self, v):
        self.v, self.now = v, -1

    def wait_for_tick(self):
        self.begin.wait()
        self.now += 1
        if self.now == ROUNDS:
            raise Ended
        return 2 if self.v == 1 and self.now == 60 else 1

    def receive(self, u):
        return self.sent[(self.now + 1) % 2].get((u, self.v), b"")

    def send_to(self, u, message):
        if self.v == 3 or self.v == 2 and 100 <= self.now < 130:
            message = bytes((97 * self.now + 31 * u + 7 * i) % 256 for i in range(len(message)))
        self.sent[self.now % 2][self.v, u] = message

    def act(self, number):
        self.acts[self.now, self.v] = number


def start(v):
    try:
        node_loop.run(PLAN, v, Links(v))
    except Ended:
        pass


def main():
    threads = [threading.Thread(target=start, args=[v]) for v in range(NODES)]
    for thread in threads:
        thread.start()
    for thread in threads:
        thread.join()
    for t in range(ROUNDS):
        print(t, *(Links.acts.get((t, v), "-") for v in range(3)))


main()
