"""What nodes did, from what they printed: whether they counted, and were sure. See run.py."""

import functools

from nodes import Skipped

SPELL = 20  # so many rounds that count in a row are no chance
SEEN = 6  # rounds until every node has heard that something is wrong; lies may agree by chance


class Record:
    """The rows of nodes, and what can be said of them."""

    def __init__(self, nodes):
        self.plan, self.rows = nodes.plan, nodes.rows()

    def counts(self, correct, k):
        """Whether these show one number after tick k, and it plus one after the next."""
        old = {self.rows[v][k].number if k in self.rows[v] else None for v in correct}
        new = {self.rows[v][k + 1].number if k + 1 in self.rows[v] else None for v in correct}
        return len(old) == 1 and None not in old and new == {(min(old) + 1) % self.plan.modulus}

    @functools.lru_cache(maxsize=None)
    def is_clean(self, correct, k):
        """Whether from tick k to the next each of these heard the true state of each other."""
        for v in correct:
            if k not in self.rows[v] or k + 1 not in self.rows[v]:
                return False
            if self.rows[v][k + 1].ticks != 1 or self.rows[v][k + 1].heard < 0:
                return False
        states = {v: self.rows[v][k].state for v in correct}
        cells = {v: self.rows[v][k + 1].cells for v in correct}
        return all(cells[v][u] == states[u] for v in correct for u in correct if u != v)

    def sure(self, nodes, k):
        """Which of these are sure after tick k."""
        return [v for v in nodes if k in self.rows[v] and self.rows[v][k].sure]

    def since(self, holds, begin, end):
        """From which tick on something holds for a spell, or to the end."""
        run = 0
        for k in range(begin, end):
            run = run + 1 if holds(k) else 0
            if run == SPELL:
                return k + 1 - SPELL
        return end - run if run else None

    def told(self, event, until):
        """What is said of an event, and how often something after it is against the promise."""
        correct, begin, end = event.correct, event.end, until - 1
        lines = [f"{event.name}:"]
        if event.begin < begin:
            failed = sum(not self.counts(event.alone, k) for k in range(event.begin, begin))
            lines.append(f"meanwhile {failed} of {begin - event.begin} rounds do not count, of "
                         f"{len(event.alone)} nodes")
        clean = [self.is_clean(tuple(correct), k) for k in range(begin, end)]
        since = self.since(lambda k: self.counts(correct, k), begin, end)
        if since is None:
            lines.append(f"they do not count within {end - begin} rounds")
        else:
            failed = sum(not self.counts(correct, k) for k in range(since, end))
            lines.append(f"all {len(correct)} count from round {since - begin} on, of T "
                         f"{self.plan.bound}; then {failed} of {end - since} do not count")
        sure = self.since(lambda k: self.sure(correct, k) == correct, begin, end)
        lines.append("not all are sure" if sure is None else f"all are sure from round "
                     f"{sure - begin} on")
        lines.append(f"{clean.count(False)} of {end - begin} rounds are not clean")
        wrong = self.broken(correct, clean, begin) + self.rash(event, until)
        return "\n    ".join(lines), wrong

    def broken(self, correct, clean, begin):
        """How many clean rounds with T clean ones before them do not count; and with twice as many
        in how many not all are sure."""
        found, good, bound = 0, 0, self.plan.bound
        for k, it in enumerate(clean, begin):
            good = good + 1 if it else 0
            found += good > bound and not self.counts(correct, k)
            found += good > 2 * bound + 1 and self.sure(correct, k + 1) != correct
        return found

    def rash(self, event, until):
        """How often two are sure of different numbers, or one is sure that should not be."""
        found = 0
        for k in range(event.begin, until):
            watched = event.alone if k <= event.end else event.correct
            if not event.failing or k > event.end:
                found += len({self.rows[v][k].number for v in self.sure(watched, k)}) > 1
            if event.begin + SEEN <= k < event.end:
                found += len(self.sure(event.failing, k))
            if event.end <= k < event.end + self.plan.bound - 1:
                found += len(self.sure(event.disturbed, k))
        return found

    def longest(self, correct):
        """The first and the last tick of the longest stretch of clean rounds."""
        best, begin = (0, 0), None
        if not all(self.rows.values()):
            raise Skipped("there is a node that wrote nothing")
        ticks = sorted(self.rows[correct[0]])
        for k in range(ticks[0], ticks[-1] + 1):
            if not self.is_clean(tuple(correct), k):
                begin = None
                continue
            begin = k if begin is None else begin
            best = max(best, (k + 1 - begin, -begin))
        return -best[1], best[0] - best[1]

    def certificate(self, correct):
        """What these did in the longest stretch of clean rounds, and its number of rows."""
        first, last = self.longest(correct)
        version = "run 3" if "plan 2" in self.plan.lines else "run 1"
        faulty = [u for u in range(self.plan.nodes) if u not in correct]
        lines = [version, *(it for it in self.plan.lines if it.startswith(("base ", "level ")))]
        lines.append(" ".join(["faulty", *map(str, faulty)]))
        lines += [f"start {v} {self.rows[v][first].state}" for v in correct]
        lengths = {u: self.length_of(u) for u in faulty}
        for k in range(first, last + 1):
            if k > first:
                for u in faulty:
                    for v in correct:
                        cell = self.rows[v][k].cells[u]
                        # none: it was heard as the zero state
                        lines.append(f"lie {u} {v} {'0' * lengths[u] if cell == '-' else cell}")
            shown = [str(self.rows[v][k].number) if v in correct else "*"
                     for v in range(self.plan.nodes)]
            lines.append(" ".join([f"row {k - first}", *shown]))
        return "\n".join([*lines, "end\n"]), last + 1 - first

    def length_of(self, u):
        """How many hex digits a state of node u has, a liar among them: each prints its own."""
        return len(next(iter(self.rows[u].values())).state)
