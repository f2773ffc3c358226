"""Writes the worst inputs that the limits allow, and times what answers them.

    python3 hostile.py FOLDER            writes the inputs into FOLDER
    python3 hostile.py FOLDER PROGRAM    and gives each to PROGRAM, the built counterlab
    python3 hostile.py faults            prints how many faults a plan of 256 nodes can bear at most

Each input comes in some sizes, each twice the one before. A row says the word, the size, the bytes
that were read, the exit code, the first line that was written, and the processor time, which is the
least of three runs. The inputs are the same each time.
"""

import os
import resource
import subprocess
import sys

ONE = "plan 1\nbase 5\nend\n"
FOUR = "plan 1\nbase 2304\nlevel 4 1 10\nend\n"


def span(blocks, faults):
    return 3 * (faults + 2) * (2 * ((blocks + 1) // 2)) ** blocks


def plan_of(levels, modulus):
    """A plan of version 2 of levels (blocks, faults, spares): each modulus is the span above it."""
    moduli = [span(blocks, faults) for blocks, faults, _ in levels] + [modulus]
    lines = ["plan 2", f"base {moduli[0]}"]
    for (blocks, faults, spares), counts_to in zip(levels, moduli[1:]):
        lines.append(f"level {blocks} {faults} {counts_to} spare {spares}")
    return "\n".join(lines) + "\nend\n"


WIDE = plan_of([(3, 1, 1), (9, 9, 0), (7, 39, 4)], 10)  # 256 nodes, 39 of them faulty


def name(number):
    return chr(97 + number // 26) + chr(97 + number % 26)


def script(front, rounds, shown, faulty=(), start="zero", version=1):
    ids = "".join(f" {u}" for u in faulty)
    return (
        f"script {version}\nfaulty{ids}\nstart {start}\n{front}"
        f"rounds {rounds}\nshow {shown} {rounds}\nend\n"
    )


def groups_of_all(count):
    ids = " ".join(str(v) for v in range(256))
    return "".join(f"group {name(i)} {ids}\n" for i in range(count))


def halves():
    """Groups of all nodes but one, so that no line of lies fits every receiver."""
    lines = []
    for i in range(256):
        ids = " ".join(str(v) for v in range(256) if v != i)
        lines.append(f"group {name(i)} {ids}\n")
    return "".join(lines)


LIARS = [6 * i for i in range(39)]


def lies_by_groups(rounds):
    """256 lies over all rounds, to 256 groups, by 39 liars in turn: noise."""
    lines = [f"lie 0 {rounds} {LIARS[i % 39]} to {name(i)} noise\n" for i in range(256)]
    return halves() + "".join(lines)


def lies_of_one(rounds):
    """255 lies to one node, over all rounds, before the one to all that the others hear."""
    lines = [f"lie 0 {rounds} 3 to 0 0 shift {i}\n" for i in range(255)]
    return "".join(lines) + f"lie 0 {rounds} 3 to all noise\n"


def noise_of_all(rounds):
    return "".join(f"lie 0 {rounds} {u} to all noise\n" for u in LIARS)


def eras(count):
    return "".join(f"era {i + 1} faulty\nstart node 0 80\n" for i in range(count))


def slots(count):
    return "slots 1\n" + "".join(f"slot 0 {2 * i} {2 * i}\n" for i in range(count)) + "end\n"


def requests(count):
    return "fire 1\n" + "".join(f"request 0 {3 * i} {3 * i + 1}\n" for i in range(count)) + "end\n"


LOG = "log 1\nvalues 65536\nkeep 1024\ncommands 0" + " 65535" * 16 + "\nend\n"
NODE = "node 1\nid 0\nstate 000000\nend\n"


def packets(count):
    """Packets of four cells, three of them as long as a cell can be."""
    cell = b"\xff\xff" + b"w" * 65535
    return (FOUR + NODE).encode() + (b"\x00\x00" + 3 * cell) * count


def small_packets(count):
    header = ONE + "node 1\nid 0\nstate 80\nend\n"
    return header.encode() + b"\x00\x01\x80" * count


# word, what the input is, the greatest size, and the input of a size
CASES = [
    ("plan", "bytes, lines `a`", 2**20, lambda n: "a\n" * (n // 2)),
    ("plan", "bytes, lines `#`", 2**20, lambda n: "#\n" * (n // 2)),
    ("plan", "bytes, empty lines", 2**20, lambda n: "\n" * n),
    ("plan", "bytes, one line of `#`", 2**20, lambda n: "#" * n),
    ("plan", "bytes, empty lines before a plan", 2**20, lambda n: "\n" * (n - len(ONE)) + ONE),
    ("run", "bytes, `#` after a script", 2**20, lambda n: filled(ONE + script("", 0, 0), n)),
    ("table", "bytes, empty lines", 2**20, lambda n: "\n" * n),
    ("node", "bytes, empty lines", 2**20, lambda n: "\n" * n),
    ("plan", "lines of 4096 bytes before a plan", 255, lambda n: ("#" * 4096 + "\n") * n + ONE),
    ("plan", "lines of 4097 bytes before a plan", 255, lambda n: ("#" * 4097 + "\n") * n + ONE),
    ("run", "groups of 256 ids", 256, lambda n: WIDE + script(groups_of_all(n), 0, 0)),
    ("run", "rounds, 256 lies of 39 to 256 groups", 400,
     lambda n: WIDE + script(lies_by_groups(n), n, n, LIARS, "noise")),
    ("run", "rounds, 256 lies of one of four nodes", 200000,
     lambda n: FOUR + script(lies_of_one(n), n, n, [3], "noise")),
    ("run", "rounds, 256 nodes, noise of 39", 400,
     lambda n: WIDE + script(noise_of_all(n), n, n, LIARS, "noise")),
    ("run", "rounds, 256 nodes, 39 puppets", 400,
     lambda n: WIDE + script("", n, n, LIARS, "noise")),
    ("run", "rounds of one node, all shown", 1000000, lambda n: ONE + script("", n, 0)),
    ("run", "rounds of one node, 16 eras", 1000000,
     lambda n: ONE + script(eras(16), n, n, version=2)),
    ("explain", "rounds of four nodes", 200000,
     lambda n: FOUR + script(lies_of_one(n), n, n, [3], "noise")),
    ("slots", "rounds of one node, 256 slots", 1000000,
     lambda n: "plan 1\nbase 600\nend\n" + slots(256) + script("", n, 0)),
    ("consensus", "rounds of one node", 1000000,
     lambda n: "plan 1\nbase 3\nend\nagree 1\nvalues 65536\ninputs 65535\nend\n"
     + script("", n, 0)),
    ("fire", "rounds of one node, 256 requests", 1000000,
     lambda n: "plan 1\nbase 3\nend\n" + requests(256) + script("", n, 0)),
    ("log", "rounds of one node, 1024 entries", 1000000,
     lambda n: "plan 1\nbase 4\nend\n" + LOG + script("", n, 0)),
    ("find", "nodes at most, of 85 faults", 256, lambda n: f"find 1\nwant 85 2 {n}\nend\n"),
    ("find", "nodes at most, of 3 faults", 256, lambda n: f"find 1\nwant 3 1099511627776 {n}\nend\n"),
    ("node", "packets with cells of 65535 bytes", 400, packets),
    ("node", "packets of one node", 1000000, small_packets),
    ("node", "one packet too many", 1000001, small_packets),
]


def filled(text, length):
    """A text with lines `#` after it, so many bytes in all."""
    behind = length - len(text)
    return text + "#\n" * (behind // 2) + "\n" * (behind % 2)


def most_faults():
    """How many faults some plan of at most 256 nodes bears: by all numbers that levels can have."""
    reached = {(1, 0)}
    todo = [(1, 0)]
    while todo:
        nodes, faults = todo.pop()
        for blocks in range(3, 17):
            leaders = (blocks + 1) // 2
            for more in range(blocks * nodes, 257):
                for borne in range(min((more - 1) // 3, (faults + 1) * leaders - 1) + 1):
                    pair = (more, borne)
                    if pair not in reached and span(blocks, borne) <= 2**40:
                        reached.add(pair)
                        todo.append(pair)
    return max(faults for _, faults in reached)


def answer(program, word, path):
    """The exit code, the first line that was written, and the least time of three runs."""
    times = []
    for _ in range(3):
        before = resource.getrusage(resource.RUSAGE_CHILDREN)
        with open(path, "rb") as text:
            done = subprocess.run([program, word], stdin=text, stdout=subprocess.PIPE, check=False)
        after = resource.getrusage(resource.RUSAGE_CHILDREN)
        times.append(after.ru_utime - before.ru_utime + after.ru_stime - before.ru_stime)
    return done.returncode, done.stdout, min(times)


def first_line(word, out):
    if word == "node":
        return f"{len(out)} bytes"
    return out.split(b"\n")[0].decode()


def main():
    if sys.argv[1] == "faults":
        print(most_faults())
        return
    folder = sys.argv[1]
    os.makedirs(folder, exist_ok=True)
    for word, what, most, make in CASES:
        for size in (most,) if "too many" in what else (most // 4, most // 2, most):
            text = make(size)
            data = text if isinstance(text, bytes) else text.encode()
            place = CASES.index((word, what, most, make))
            path = os.path.join(folder, f"{place:02}-{word}-{size}.txt")
            with open(path, "wb") as out:
                out.write(data)
            if len(sys.argv) > 2:
                code, out, time = answer(sys.argv[2], word, path)
                line = first_line(word, out)
                print(f"| `{word}` | {size:,} {what} | {len(data):,} | {code} | `{line}` | {time:.3f} s |")


main()
