#!/usr/bin/env python3
"""Writes a byte for each tick of this machine's clock, for a node's standard input.

    python3 ticks.py MS | ./node PLAN PEERS ID WAIT

Round r of the clock lasts from r MS to (r + 1) MS milliseconds after the beginning of 1970. So the
ticks of two machines come as far apart as their clocks are (NTP, PTP), less whole rounds. A tick
that was missed, since the machine or this process stood still or the clock was put forward, is
written all the same, and two if the clock went back: from that a node knows that it was disturbed,
and is not sure for T rounds.
"""

import signal
import sys
import time

LOOK = 0.05  # seconds, at most, until the clock is looked at again: it may have been put
MOST = 4096  # ticks at once; so many say no more than two do


def ticks_between(last, number):
    """How many ticks are due in round `number` of the clock, after round `last`."""
    return min(number - last, MOST) if number >= last else 2


def main():
    if len(sys.argv) != 2 or not sys.argv[1].isdecimal() or int(sys.argv[1]) == 0:
        sys.exit(__doc__)
    length = int(sys.argv[1]) * 1_000_000
    signal.signal(signal.SIGPIPE, signal.SIG_DFL)  # it ends with its node
    last = time.time_ns() // length
    while True:
        now = time.time_ns()
        number = now // length
        if due := ticks_between(last, number):
            sys.stdout.write("\n" * due)
            sys.stdout.flush()
        last = number
        time.sleep(min(LOOK, ((number + 1) * length - now) / 1e9))


if __name__ == "__main__":
    main()
