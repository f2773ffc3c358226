#!/usr/bin/env python3
"""Runs nodes over UDP on 127.0.0.1, and says after how many rounds they count and are sure.

    python3 examples/udp/run.py [STORY [MS [PLAN [CERTIFICATE]]]]

A round takes MS milliseconds, or 100. PLAN is a plan's file, or one beside this script; that of
twelve nodes there is of the boosting construction. Each node is a process of node.c, which is built
here with the library of a package (lib/), or its archive in the repository
(crates/counterlab_c/out/, by `rt lib`) and the kit's, or the archives that COUNTERLAB_ARCHIVES
names; this script gives them their ticks. The stories:

    all      thirteen start, of which as many lie as the plan tolerates; a liar is repaired; one is
             killed, and begins again from nothing; a third of what is sent is lost for two seconds;
             the tick of one is half a round late for a second
    links    while all liars lie, then all but one, then all but two, few datagrams are lost for ten
             seconds; then the first liar floods for five
    field    four nodes, none of which lies: one is stopped for a second; its clock is; it is
             killed, and starts again from its last state; it is started twice; a stranger sends to
             its port, and tries to take it; two lie, one more than the plan tolerates; two have
             another plan
    told     four nodes start, and what they did for some seconds is written as a run certificate,
             which bench/c/check.c and the program have to find true, if they are there

Each event comes T rounds after the last, and some. Of each a line says from which round after it on
all correct nodes show one number that grows by one, and how many rounds later than that did not
count; and one from when on all are sure. A round is *clean* if each correct node has heard the true
state of each other one. The last line is `as promised` if all counted in each round that had T
clean ones before it, and all were sure where 2 T were clean; if no two were sure of different
numbers; and none was sure within T rounds of a disturbance that it can see, nor while a premise
failed: docs/DEPLOY.md has what each node does. The machine may be late, and rounds unclean, but
none of these may fail. The longest stretch of clean rounds of a boosting plan is written to
CERTIFICATE, for `counterlab check`.

The status is 1 if something is not as promised, or a certificate is not true. A tool that is
missing is named in a line, and is no failure. If it may, it runs in real time, before all other
processes. Nothing here is proved but the step of the library. It kills only processes that it
started, and ends by itself.
"""

import os
import pathlib
import signal
import subprocess
import sys
import tempfile
import time

from nodes import HERE, PACKED, TOP, Nodes, Plan, Skipped, build, output
from record import Record
import ticks

CHECKER = TOP / "bench" / "c" / "check.c"
PROGRAM = TOP / ("bin" if PACKED.is_file() else "crates/counterlab/out") / "counterlab"
BOOSTING_FOUR = "plan 2\nbase 576\nlevel 3 1 10 spare 1\nend\n"
OTHER_PLAN = "halving 1\ngroup 4 1 12\nend\n"
MILLISECONDS = 100
TOLD_ROUNDS = 60
MARGIN = 100  # rounds that are watched, beyond T


# ---- what befalls them


class Event:
    """From tick `begin` to `end` something is wrong with all but the nodes `alone`; from `end` on
    `correct` are to count. The nodes `disturbed` know of it, and are not sure for T rounds after
    it; the nodes `failing` are not sure meanwhile."""

    def __init__(self, name, begin, lasts, alone, correct):
        self.name, self.begin, self.end = name, begin, begin + lasts
        self.alone, self.correct = alone, correct
        self.disturbed, self.failing = [], []


class Story:
    """Events one after the other, with calls before some ticks."""

    def __init__(self, nodes, margin=MARGIN):
        self.nodes, self.events, self.calls, self.now = nodes, [], {}, 0
        self.watched = nodes.plan.bound + margin  # rounds after each

    def event(self, name, seconds, alone, correct, *calls, disturbed=(), failing=()):
        """What is called as it begins, and what as it ends."""
        lasts = round(seconds / self.nodes.length)
        event = Event(name, self.now, lasts, alone, correct)
        event.disturbed, event.failing = list(disturbed), list(failing)
        self.events.append(event)
        for at, call in zip([self.now, self.now + lasts], calls):
            self.calls.setdefault(at, []).append(call)
        self.now += lasts + self.watched

    def play(self):
        nodes, length = self.nodes, self.nodes.length
        start = time.monotonic() + 1.0

        def sleep_until(at):
            if (left := at - time.monotonic()) > 0:
                time.sleep(left)

        for k in range(self.now):
            begin = start + k * length
            for call in self.calls.get(k, []):
                sleep_until(begin - 0.3 * length)
                call()
            for delay, v in sorted((nodes.delay[v], v) for v in nodes.running):
                sleep_until(begin + delay)
                nodes.running[v].tick(k, v in nodes.held)
        time.sleep(length)


def started(nodes, margin=MARGIN):
    """A story in which all nodes start, in random states."""
    story = Story(nodes, margin)

    def start_all():
        for v in range(nodes.plan.nodes):
            nodes.start(v)

    story.event("started in random states", 0, [], nodes.correct(), start_all,
                disturbed=nodes.correct())
    return story


def repaired(story, correct):
    """The last liar is repaired; who is correct then."""
    nodes = story.nodes
    liar = max(set(range(nodes.plan.faults)) - set(correct))
    correct = sorted([*correct, liar])
    story.event(f"liar {liar} repaired", 0, [], correct, lambda: nodes.repair(liar))
    return correct


def story_of_all(nodes):
    story = started(nodes)
    correct = nodes.correct()
    if nodes.lying:
        correct = repaired(story, correct)
    v = correct[-2]
    others = [u for u in correct if u != v]
    story.event(f"{v} killed, and after a second from nothing", 1, others, correct,
                lambda: nodes.kill(v), lambda: nodes.start(v), disturbed=[v])
    story.event("a third of all that is sent lost for two seconds", 2, correct, correct,
                lambda: nodes.lose(1 / 3), lambda: nodes.lose(0))
    story.event(f"the tick of {v} half a round late for a second", 1, others, correct,
                lambda: nodes.delay.update({v: 0.5 * nodes.length}),
                lambda: nodes.delay.update({v: 0.0}))
    return story


def story_of_links(nodes):
    story = started(nodes)
    correct = nodes.correct()
    for repairs in range(3):
        if repairs > 0 and len(correct) < nodes.plan.nodes:
            correct = repaired(story, correct)
        for per_thousand in (1, 10):
            name = f"{nodes.plan.nodes - len(correct)} lie, {per_thousand} of 1000 lost for ten " \
                   "seconds"
            story.event(name, 10, correct, correct,
                        lambda share=per_thousand / 1000: nodes.lose(share), lambda: nodes.lose(0))
    if len(correct) < nodes.plan.nodes:
        story.event("liar 0 floods for five seconds", 5, correct, correct,
                    lambda: nodes.lie(0, 200), lambda: nodes.lie(0, 1))
    return story


def story_of_field(nodes):
    story = started(nodes, 3 * nodes.plan.bound)
    everyone, last = nodes.correct(), nodes.plan.nodes - 1
    others, two = everyone[:-1], everyone[-nodes.plan.faults - 1 :]
    rest = [v for v in everyone if v not in two]
    story.event(f"{last} stopped for a second", 1, others, everyone,
                lambda: nodes.stop(last), lambda: nodes.go_on(last), disturbed=[last])
    story.event(f"the clock of {last} stopped for a second", 1, others, everyone,
                lambda: nodes.held.add(last), lambda: nodes.held.discard(last), disturbed=[last])
    story.event(f"{last} killed, and after a second from its last state", 1, others, everyone,
                lambda: nodes.kill(last), lambda: nodes.start(last), disturbed=[last])
    story.event(f"{last} started twice", 1, everyone, everyone, lambda: nodes.start_again(last))
    story.event(f"a stranger sends to the port of {last}, and tries to take it", 1, everyone,
                everyone, lambda: nodes.send_strange(last, 100),
                lambda: nodes.taken.append(nodes.can_be_taken(last)))
    both = " and ".join(map(str, two))
    # shorter than T: a liar too many may agree with a node by chance, once the timer is at 0 again
    story.event(f"{both} lie for 15 rounds, one more than is tolerated", 15 * nodes.length, rest,
                everyone, lambda: [nodes.lie(v, 1) for v in two],
                lambda: [nodes.repair(v) for v in two], failing=rest)
    story.event(f"{both} on another plan for three seconds", 3, rest, everyone,
                lambda: [restart(nodes, v, nodes.other_plan) for v in two],
                lambda: [restart(nodes, v, nodes.plan) for v in two], disturbed=two, failing=rest)
    return story


def restart(nodes, v, plan):
    nodes.kill(v)
    nodes.start(v, plan)


def story_of_told(nodes):
    story = started(nodes)
    story.now = TOLD_ROUNDS
    return story


STORIES = {"all": story_of_all, "links": story_of_links, "field": story_of_field,
           "told": story_of_told}


# ---- what is said of it


def report(story, record, name):
    """Prints what became of each event; whether all is as promised."""
    broken = 0
    for event, until in zip(story.events, [*(it.begin for it in story.events[1:]), story.now]):
        text, wrong = record.told(event, until)
        print(text)
        broken += wrong
    if name == "field":
        broken += field_faults(story.nodes, record)
    print("as promised" if broken == 0 else f"NOT AS PROMISED: {broken} times")
    return broken == 0


def field_faults(nodes, record):
    """How much in the field was not seen that a node has to see; says what was."""
    last = nodes.plan.nodes - 1
    rows = [row for of_node in record.rows.values() for row in of_node.values()]
    seen = {
        f"{last} started twice: the second one ended with 3":
            [it.poll() for it in nodes.again] == [3],
        "the stranger did not get the port": nodes.taken == [False],
        f"{last} dropped the stranger's datagrams":
            sum(row.strange for row in record.rows[last].values()) > 0,
        "nodes told of others on another plan": any(row.other > 0 for row in rows),
        "ticks.py writes the ticks that it missed": ticks_are_made_up(),
    }
    for what, is_so in seen.items():
        print(what if is_so else f"NOT SO: {what}")
    return list(seen.values()).count(False)


def ticks_are_made_up():
    """Whether ticks.py, stopped for half a second, writes all ticks of that time; and two if the
    clock went back, which no test can make it do."""
    with subprocess.Popen([sys.executable, HERE / "ticks.py", "20"], stdout=subprocess.PIPE) as ran:
        ran.stdout.read(1)
        ran.send_signal(signal.SIGSTOP)
        time.sleep(0.5)
        ran.send_signal(signal.SIGCONT)
        time.sleep(0.2)
        ran.terminate()
        written = len(ran.stdout.read())
    return written >= 25 and ticks.ticks_between(10, 7) == 2


def is_true(text, rows, room):
    """Whether the certificate is true, by each checker that is here."""
    if rows < 2:
        raise Skipped("no round was clean")
    check, right = room / "check", True
    if CHECKER.is_file():
        output(["gcc", "-O2", "-o", check, CHECKER])
    for name, command in [("check.c", [check]), ("counterlab check", [PROGRAM, "check"])]:
        if not os.access(command[0], os.X_OK):
            print(f"udp: {name}: not tried, since it is not there")
            continue
        said = subprocess.run(command, input=text.encode(), stdout=subprocess.PIPE)
        answer = said.stdout.decode().strip()
        right &= answer.startswith(f"true rows {rows} ")
        print(f"udp: {name}: {answer}")
    return right


def real_time():
    """Asks that this process and its nodes go before all others, and says what came of it."""
    try:
        os.sched_setscheduler(0, os.SCHED_FIFO, os.sched_param(10))
    except (AttributeError, OSError):
        return "at normal priority"
    return "in real time"


def play(name, milliseconds, path, certificate, room):
    plan = Plan(path, room)
    if certificate and not any(it.startswith("base ") for it in plan.lines):
        raise Skipped("there is a certificate of a boosting plan alone")
    nodes = Nodes(plan, milliseconds / 1000, 0 if name == "field" else plan.faults, name == "field")
    if name == "field":
        (room / "other_plan.txt").write_text(OTHER_PLAN)
        nodes.other_plan = Plan(room / "other_plan.txt", room)
    correct, liars = nodes.correct(), " ".join(map(str, nodes.lying)) or "none"
    story = STORIES[name](nodes)
    priority = real_time()
    if name != "told":
        print(f"nodes {plan.nodes} faults {plan.faults} liars {liars} bound {plan.bound}: T takes "
              f"{plan.bound * nodes.length:.1f} s, all of it {story.now * nodes.length:.0f} s, "
              f"{priority}", flush=True)
    try:
        story.play()
    finally:
        for v in list(nodes.running):
            nodes.kill(v)
    record = Record(nodes)
    right = name == "told" or report(story, record, name)
    if name == "told" or certificate:
        text, rows = record.certificate(correct)
        if certificate:
            pathlib.Path(certificate).write_text(text)
            print(f"{certificate}: {rows} rows")
        right &= name != "told" or is_true(text, rows, room)
    return right


def own_plan(name, room):
    """The plan of a story if no word names one."""
    if name == "told":
        (room / "four_nodes.txt").write_text(BOOSTING_FOUR)
        return room / "four_nodes.txt"
    return HERE / ("four_nodes.txt" if name == "field" else "thirteen_nodes.txt")


def main():
    words = sys.argv[1:]
    name = words[0] if words else "all"
    if name not in STORIES or len(words) > 4 or len(words) > 1 and not words[1].isdecimal() \
            or name == "field" and len(words) > 2:
        sys.exit(__doc__)
    milliseconds = int(words[1]) if len(words) > 1 else MILLISECONDS
    certificate = words[3] if len(words) > 3 else None
    with tempfile.TemporaryDirectory(prefix="counterlab-udp-") as at:
        room = pathlib.Path(at)
        path = os.path.abspath(words[2]) if len(words) > 2 else own_plan(name, room)
        try:
            build(room)
            right = play(name, milliseconds, path, certificate, room)
        except (Skipped, OSError) as why:
            print(f"udp: not tried: {why}")
            return 0
    return 0 if right else 1


if __name__ == "__main__":
    sys.exit(main())
