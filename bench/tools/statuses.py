#!/usr/bin/env python3
"""Runs the built programs on an example of each exit code, and on what no other example shows.

    python3 bench/tools/statuses.py [PROGRAM ..]

PROGRAM is the path of a built `counterlab`, `halvinglab`, `attack`, `choose`, `draw`, `states`,
`sweep` or `trace`; if none is named these are crates/NAME/out/NAME, as `rt ci` and `rt run` leave
them. One that is not there is told in a line, and not tried. It is what the contracts of these
programs leave to `main`: that all arguments are the words, that standard input, output and error
are the source and the sinks, and that the status is the exit code. A case is an exit code, words,
an input, the bytes that must come out, and how the line on standard error must begin, or that there
is none. It also looks whether docs/FORMATS.md has the words of `counterlab`, and programs, header
and crate say the version that the file VERSION has. The status is 1 if a case ends otherwise. A
case that this machine cannot make is told in a line, and is no failure, nor is a machine that takes
more than a minute.
"""

import os
import pathlib
import re
import resource
import subprocess
import sys

TOP = pathlib.Path(__file__).resolve().parent.parent.parent
CRATES = TOP / "crates"
EXAMPLES = CRATES / "try_examples" / "data"
FAULTS = CRATES / "try_faults" / "data"
VERSION = (TOP / "VERSION").read_text().strip()
# how the header and the crate for Rust say it
SAY_VERSION = {
    "bindings/counterlab.h": f'#define COUNTERLAB_VERSION "{VERSION}"',
    "bindings/rust/Cargo.toml": f'version = "{VERSION}.0"',
}
DRAWN = EXAMPLES / "pictures"
# the kinds of `attack`, and for each word `run` a plan that it plays
KINDS = ["noise", "frozen", "split", "king", "shadow", "left", "right"]
PLANS = {
    "counterlab": b"plan 2\nbase 576\nlevel 3 1 10 spare 1\nend\n",
    "halvinglab": b"halving 1\ngroup 7 2 10\nend\n",
}
NAMES = ["counterlab", "halvinglab", "attack", "choose", "draw", "states", "sweep", "trace"]
# How many bytes an input of `run` may have.
LIMIT = 2**20
TOO_LONG = b"#\n" * (LIMIT // 2) + b"#"
LONGEST = b"\n" * LIMIT
# A counter of one node, and its node in the state 4.
ONE_NODE = b"plan 1\nbase 5\nend\nnode 1\nid 0\nstate 80\nend\n"
CELL_OF_4 = b"\x00\x01\x80"
# Less room than this is not asked for, and the steps in which it grows.
STEP = 2**16


def example(name):
    return (EXAMPLES / f"{name}.txt").read_bytes()


def stored(code, data, name, *words):
    """A case whose input and answer are stored."""
    text = (data / f"{name}.txt").read_bytes()
    answer = (data / f"{name}.{'_'.join(words)}.out").read_bytes()
    return code, words, text, answer, b""


def own_run(name):
    """The case that lies beside a program's sources."""
    crate = CRATES / name
    words = (crate / "args").read_text().split() if (crate / "args").exists() else []
    text = (crate / "stdin").read_bytes() if (crate / "stdin").exists() else b""
    return 0, words, text, (crate / "stdout").read_bytes(), b""


def told(code, words, text, begin):
    """A case that writes nothing but a line on standard error, which begins so, if there is one."""
    return code, words, text, b"", begin


def words_compared():
    """0 if docs/FORMATS.md has the words of the table of `outcomes` and no others, and else 1."""
    table = (CRATES / "outcomes" / "specs" / "Commands.antt").read_text()
    words = [*re.findall(r'row \(codes "(\w+)"\)', table), "demo SEED"]
    page = (TOP / "docs" / "FORMATS.md").read_text()
    rows = page.split("| word | reads | writes |")[1].split("\n\n")[0]
    told = [row.split("|")[1].replace("`", "").strip() for row in rows.splitlines()[2:]]
    return (0 if sorted(words) == sorted(told) else 1,)


def counterlab_cases():
    liar, usage = example("runs/two_faced_liar"), b"usage: counterlab COMMAND\n"
    return [
        stored(0, EXAMPLES, "runs/two_faced_liar", "run"),
        stored(1, EXAMPLES, "refused_plans/blocks", "plan"),
        (2, (), liar, usage, b""),
        (2, ("run", "run"), liar, usage, b""),
        (2, ("demo", "seven"), b"", usage, b""),
        stored(3, EXAMPLES, "refused_scripts/faulty_node", "run"),
        stored(4, EXAMPLES, "certificates/no_end", "check"),
        stored(5, EXAMPLES, "certificates/row_differs", "check"),
        (1, ("plan",), LONGEST, b"refused plan line 1048577 premise form\n", b""),
        (0, ("node",), LONGEST[len(ONE_NODE):] + ONE_NODE, CELL_OF_4, b""),
        *(told(8, (word,), TOO_LONG, b"") for word in ("run", "plan")),
        told(8, ("node",), LONGEST[len(ONE_NODE) - 1:] + ONE_NODE, b""),
        stored(9, FAULTS, "short/cut_packet", "node"),
        (9, ("node",), ONE_NODE + b"\0", CELL_OF_4, b""),
    ]


def record_checked(program):
    """How `check` ends on a record that is longer than any text that is read at once."""
    played = (TOP / "bench" / "inputs" / "demo_seven.txt").read_bytes()
    record = ended(program, ["record"], input=played)[1]
    return ended(program, ["check"], input=record if len(record) > LIMIT else b"")


def rows_recorded(program):
    """The rows of the record of a script whose first era never locks."""
    record = ended(program, ["record"], input=example("records/too_many_liars_at_first"))[1]
    return rows_of(record)


def rows_of(text):
    """The lines of rows in a text."""
    return [line for line in text.split(b"\n") if line.startswith(b"row ")]


FOUR_HALVING = b"halving 1\ngroup 4 1 10\nend\n"
TOO_FEW = b"halving 1\ngroup 3 1 10\nend\n"
NODE_OF_FOUR = FOUR_HALVING + b"node 1\nid 1\nstate 0000\nend\n"
ZERO_CELL, CELL_BEHIND_ZEROS = b"\x00\x02\x00\x00", b"\x00\x02\x44\x00"


SLOTS_OF_FOUR = FOUR_HALVING + b"slots 1\nslot 1 8 9\nend\n"
HELD_BY_ONE = (
    b"halving 1\ngroup 1 0 3\nend\nslots 1\nslot 0 1 2\nend\n"
    b"script 1\nfaulty\nstart zero\nrounds 4\nshow 1 4\nend\n"
)
HOLDS_OF_ONE = b"bound 0\nhold 1 1\nhold 2 1\nhold 3 .\nhold 4 1\nlocked 0\n"
# one node that counts modulo 4 or 3, with a layer, and what it decides, fires or logs
SCRIPT_OF_ONE = b"script 1\nfaulty\nstart zero\nrounds 8\nshow 0 8\nend\n"
ONE_BY_THREE, ONE_BY_FOUR = (b"halving 1\ngroup 1 0 %d\nend\n" % count for count in (3, 4))
AGREE_OF_ONE = b"agree 1\nvalues 5\ninputs 4\nend\n"
FIRE_OF_ONE = b"fire 1\nrequest 0 2 2\nend\n"
LOG_OF_ONE = b"log 1\nvalues 9\nkeep 1\ncommands 0 7\nend\n"
# of each word with a layer: the plan, the part, what is written, a line that fails and why
LAYERS_OF_ONE = {
    "consensus": (ONE_BY_THREE, AGREE_OF_ONE, b"bound 0\nslot 3 4\nlocked 0\n",
                  b"agree 1\nvalues 1\n", b"refused agree line 5 rule range\n"),
    "fire": (ONE_BY_THREE, FIRE_OF_ONE, b"bound 0\nfire 3 1\nlocked 0\n",
             b"fire 1\nrequest 1 2 2\n", b"refused fire line 5 rule node\n"),
    "log": (ONE_BY_FOUR, LOG_OF_ONE, b"bound 0\nentry 4 owner 0 7\nlocked 0\n",
            b"log 1\nvalues 9\nkeep 0\n", b"refused log line 6 rule range\n"),
}
TABLE_OF_ONE = (
    b"table halving 1\nplan nodes 1 faults 0 modulus 10\nbound 0 levels 0 bits 4 bytes 1\n"
    b"group 0 nodes 1 faults 0 modulus 10\nnode 0 bytes 1 output 0 4\nend\n"
)


def layer_cases(word):
    """Those of a word of `halvinglab` that plays a script with a layer."""
    plan, part, answer, wrong, refusal = LAYERS_OF_ONE[word]
    lines = (plan + part).count(b"\n")
    late_liar = b"refused script line %d rule node\n" % (lines + 2)
    no_slot = plan.replace(plan.split()[-2], b"5") + part
    return [
        (0, [word], plan + part + SCRIPT_OF_ONE, answer, b""),
        (1, [word], TOO_FEW, b"refused halving line 2 premise quorum\n", b""),
        (3, [word], plan + wrong, refusal, b""),
        (3, [word], no_slot, refusal[: refusal.index(b"line")] + b"line 4 rule slot\n", b""),
        (3, [word], plan + part + b"script 1\nfaulty 1\n", late_liar, b""),
        told(8, [word], TOO_LONG, b"the input is too long"),
    ]


def halvinglab_cases():
    refused = b"refused halving line 2 premise quorum\n"
    two_liars = b"refused script line 5 rule faults\n"
    late_liars = b"refused script line 8 rule faults\n"
    no_such = FOUR_HALVING + b"node 1\nid 4\n"
    beyond = FOUR_HALVING + b"slots 1\nslot 1 8 10\nend\n"
    no_range = b"refused slots line 5 rule range\n"
    cut = b"the input ends in packet 0, in the cell of node 1"
    return [
        own_run("halvinglab"),
        (0, ["node"], NODE_OF_FOUR + 4 * ZERO_CELL, ZERO_CELL + CELL_BEHIND_ZEROS, b""),
        (1, ["plan"], TOO_FEW, refused, b""),
        (0, ["plan"], b"halving 1\ngroup 1 0 10\nend\n", TABLE_OF_ONE, b""),
        (1, ["run"], TOO_FEW, refused, b""),
        (1, ["node"], TOO_FEW, refused, b""),
        told(2, [], b"", b"usage: halvinglab "),
        (3, ["run"], FOUR_HALVING + b"script 1\nfaulty 0 1\n", two_liars, b""),
        (0, ["slots"], HELD_BY_ONE, HOLDS_OF_ONE, b""),
        (1, ["slots"], TOO_FEW, refused, b""),
        (3, ["slots"], beyond, no_range, b""),
        (3, ["slots"], SLOTS_OF_FOUR + b"script 1\nfaulty 0 1\n", late_liars, b""),
        *(case for word in LAYERS_OF_ONE for case in layer_cases(word)),
        (3, ["node"], no_such, b"refused node line 5 rule node\n", b""),
        told(8, ["plan"], TOO_LONG, b"the input is too long"),
        told(8, ["run"], TOO_LONG, b"the input is too long"),
        told(8, ["slots"], TOO_LONG, b"the input is too long"),
        told(8, ["node"], TOO_LONG, b"the input is too long"),
        (9, ["node"], NODE_OF_FOUR + ZERO_CELL, ZERO_CELL, cut),
    ]


FRONT_OF_BOTH = b"nodes 10 bound 44 bytes 4 levels 2 halving 1;group 10 3 1000;end\n"
MOST_WITHIN_130 = b"nodes 13 bound 50 bytes 5 levels 3 halving 1;group 13 4 1000;end\n"
NONE_OF_BOTH = (
    b"none: FAULTS 3 takes MOST_NODES of at least 10; MOST_NODES 9 allows FAULTS of at most 2\n"
)
NONE_BOOSTING = (
    b"none: FAULTS 5 takes MOST_NODES of at least 20; MOST_NODES 14 allows FAULTS of at most 4\n"
)
NONE_AT_ALL = (
    b"none: FAULTS 40 is more than any boosting plan of at most 256 nodes tolerates; "
)


def choose_cases():
    return [
        own_run("choose"),
        (0, ["3", "1000", "14"], b"", FRONT_OF_BOTH, b""),
        (0, ["3", "1000", "14", "plan"], b"", b"halving 1\ngroup 10 3 1000\nend\n", b""),
        (0, ["3", "1000", "9"], b"", b"none\n", NONE_OF_BOTH),
        (0, ["boosting", "5", "10", "14"], b"", b"none\n", NONE_BOOSTING),
        (0, ["boosting", "40", "10"], b"", b"none\n", NONE_AT_ALL),
        (0, ["within", "14", "130", "1000"], b"", MOST_WITHIN_130, b""),
        (0, ["within", "3", "0", "8", "plan"], b"", b"plan 2\nbase 8\nend\n", b""),
        told(2, [], b"", b"usage: choose "),
        told(2, ["within", "0", "130", "1000"], b"", b"usage: choose "),
        told(2, ["1", "ten"], b"", b"usage: choose "),
    ]


def script_cases(name, words):
    """Those of a program that reads a plan and a script, and is given these words with it."""
    return [
        own_run(name),
        told(1, words, example("refused_plans/blocks"), b"refused plan line "),
        told(2, [], b"", f"usage: {name} ".encode()),
        told(3, words, example("refused_scripts/faulty_node"), b"refused script line "),
        told(8, words, TOO_LONG, b"the input has more than "),
    ]


# A halving plan and a script of it, of which the rows are those of bench/tools/halving_traces.py.
TRACED_HALVING = (
    FOUR_HALVING + b"script 1\nfaulty 1\nstart zero\nstart node 0 2170\nstart node 2 3b80\n"
    b"start node 3 6b80\nlie 0 19 1 to all hex a8e0\nrounds 20\nshow 10 20\nend\n"
)
TRACE_OF_NODE_2 = (
    b"at 1 node 2 number none output 4\n"
    b"at 1 node 2 whole 0 3 value 4 marked sound seen 1 untrusted share right saw 3 backed "
    b"follows right instruction 2 king king 1 same 1 least none\n"
)
COUNT_TO_4 = ONE_BY_THREE + b"script 1\nfaulty\nstart zero\nrounds 4\nshow 1 4\nend\n"
COUNT_TO_1 = b"plan 1\nbase 5\nend\nscript 1\nfaulty\nstart zero\nrounds 1\nshow 0 1\nend\n"


def trace_cases():
    liar = example("runs/two_faced_liar")
    no_such = b"halving 2\ngroup 1 0 3\nend\n"
    two_alone = b"halving 1\ngroup 2 0 3\nend\n"
    one_liar = ONE_BY_THREE + b"script 1\nfaulty 0\n"
    return [
        *script_cases("trace", ["0", "1"]),
        told(2, ["0", "5"], liar, b"refused words: TO "),
        told(2, ["0", "1", "4"], liar, b"refused words: the plan has no such node"),
        (0, ["0", "0"], COUNT_TO_1, b"at 0 node 0 number 0 output 0\n", b""),
        (0, ["4", "4"], COUNT_TO_4, b"at 4 node 0 number 1 output 1\n", b""),
        (0, ["1", "1", "2"], b"#\n" + TRACED_HALVING, TRACE_OF_NODE_2, b""),
        told(1, ["0", "0"], no_such, b"refused plan line 1 premise form\n"),
        told(1, ["0", "0"], two_alone, b"refused halving line 2 premise single\n"),
        told(3, ["0", "2"], one_liar, b"refused script line 5 rule faults\n"),
    ]


def sweep_cases():
    quiet = example("runs/two_faced_liar")
    data = CRATES / "sweep" / "data"
    halving = (data / "halving.txt").read_bytes()
    plan = b"halving 1\ngroup 4 1 10\nend\n"
    return [
        *script_cases("sweep", ["0", "3"]),
        told(3, ["0", "3"], quiet, b"refused script: "),
        (0, ["0", "40"], halving, (data / "halving.out").read_bytes(), b""),
        told(1, ["0", "3"], halving.replace(b"group 4 1 10", b"group 3 1 10"),
             b"refused halving line 4 premise "),
        told(3, ["0", "3"], halving.replace(b"faulty 1\n", b"faulty 4\n"),
             b"refused script line 7 rule "),
        told(3, ["0", "3"], plan + b"script 1\nfaulty\nstart zero\nrounds 5\nshow 0 5\nend\n",
             b"refused script: "),
    ]


def attack_cases():
    search = ["1", "3"]
    return [
        (*own_run("attack")[:4], b"locked "),
        told(1, search, example("refused_plans/blocks"), b"refused plan line "),
        told(1, search, TOO_FEW, b"refused halving line 2 premise quorum"),
        told(2, [], b"", b"usage: attack "),
        told(2, ["1", "0"], b"", b"usage: attack "),
        told(2, ["1", "3", "nose"], b"", b"usage: attack "),
        told(8, search, TOO_LONG, b"the input has more than "),
    ]


def draw_cases():
    traced = (DRAWN / "four_nodes_traced.txt").read_bytes()
    return [
        own_run("draw"),
        (0, ["--page"], traced, (DRAWN / "four_nodes_traced.html").read_bytes(), b""),
        told(1, [], b"refused plan line 1 premise form\n", b"no run to draw: refused plan line 1"),
        told(1, [], b"refused \x1b[2Jplan\xc3\xa9\n", b"no run to draw: refused [2Jplan\n"),
        told(1, [], b"refused " + b"a" * LIMIT, b"no run to draw: refused " + b"a" * 192 + b"\n"),
        told(1, [], b"", b"no run to draw: "),
        told(2, ["page"], traced, b"usage: draw "),
        told(2, ["--page", "--page"], traced, b"usage: draw "),
    ]


# lines of values behind a plan of four lines that are refused, and the number of the line
WRONG_VALUES = [
    (5, b"values\n"),
    (5, b"values 1\n"),
    (5, b"values 65537\n"),
    (5, b"values 5 5\n"),
    (6, b"values 5\nvalues 4\n"),
    (8, b"values 5\n\nvalues 5\nvalues 5\n"),
]
NOT_VALUES = b"line %d should be `values V`, V from 2 to 65536, at most twice and with one V\n"
NOT_A_STATE = (
    b"line %d should be `node V`, and behind it hex digits or `number X registers R, R`\n"
)


def states_cases():
    plan = example("plans/one_spare")
    # states without a layer, and those of a plan without levels with one
    bare = plan + b"node 0 0014\n#\nnode 3 registers infinite marked\n"
    layered = b"plan 1\nbase 5\nend\nvalues 2\nnode 0 bc\n"
    return [
        own_run("states"),
        (0, [], bare, b"node 0 number 0 registers 5\nnode 3 a8\n", b""),
        (0, [], layered, b"node 0 number 0 registers infinite marked\n", b""),
        *(told(1, [], plan + lines, NOT_VALUES % number) for number, lines in WRONG_VALUES),
        told(1, [], plan + b"node 3 00\nvalues 5\n", NOT_A_STATE % 6),
        told(1, [], plan + b"Values 5\n", NOT_A_STATE % 5),
        told(1, [], example("refused_plans/blocks"), b"line "),
        told(1, [], plan + b"node 0 00\n", b"line "),
        told(1, [], plan + b"values 1\n", b"line "),
        told(2, ["states"], plan, b"usage: states "),
        told(8, [], TOO_LONG, b"the input has more than "),
    ]


CASES = {
    "counterlab": counterlab_cases,
    "halvinglab": halvinglab_cases,
    "attack": attack_cases,
    "choose": choose_cases,
    "draw": draw_cases,
    "states": states_cases,
    "sweep": sweep_cases,
    "trace": trace_cases,
}


def ended(program, words, **how):
    """The exit code, the output and the line on standard error of a call."""
    how = {"stdout": subprocess.PIPE, "stderr": subprocess.PIPE, "timeout": 60, **how}
    done = subprocess.run([program, *words], **how)
    return done.returncode, done.stdout, done.stderr


def within(room):
    """What leaves a process so many bytes of memory."""
    return lambda: resource.setrlimit(resource.RLIMIT_AS, (room, room))


def least_room(program):
    """In how many bytes the program just runs: words outside the table take no memory."""
    for room in range(STEP, 64 * LIMIT, STEP):
        try:
            if ended(program, ["none"], input=b"", preexec_fn=within(room))[0] == 2:
                return room
        except (OSError, subprocess.SubprocessError):
            pass
    raise OSError("no bound of memory was found in which it just runs")


def folder_read(program, words):
    folder = os.open("/", os.O_RDONLY)
    try:
        return ended(program, words, stdin=folder)
    finally:
        os.close(folder)


def full_written(program, words, text):
    full = os.open("/dev/full", os.O_WRONLY)
    try:
        return ended(program, words, input=text, stdout=full)
    finally:
        os.close(full)


def memory_refused(program, words):
    """An input as long as it may be, and no room for it."""
    text = TOO_LONG[:LIMIT]
    return ended(program, words, input=text, preexec_fn=within(least_room(program)))


class Looks:
    """What was tried, and what was wrong."""

    def __init__(self):
        self.tried, self.wrong = 0, []

    def look(self, name, wanted, call, *given, **how):
        try:
            found = call(*given, **how)
        except (OSError, subprocess.SubprocessError) as why:
            print(f"statuses: {name}: not tried: {why}")
            return
        self.tried += 1
        if not self.fits(found, wanted):
            self.wrong.append(f"{name}: {found} in place of {wanted}")

    @staticmethod
    def fits(found, wanted):
        if isinstance(wanted, int):
            return found[0] == wanted
        begins = found[2].startswith(wanted[2]) and bool(found[2]) == bool(wanted[2])
        return found[:2] == wanted[:2] and begins


def attack_played(program, kind, player):
    """How a search of one attack of a kind ends, and 1 if `run` tells another lock of it."""
    code, text, said = ended(program, ["1", "1", kind], input=PLANS[player])
    _, rows, _ = ended(CRATES / player / "out" / player, ["run"], input=text)
    same = said.split()[1:2] == rows.split()[-1:]
    return (code if code or same else 1), text, said


def look_at(name, program, looks):
    for code, words, text, answer, begin in CASES[name]():
        what = " ".join([name, *words])
        looks.look(what, (code, answer, begin), ended, program, words, input=text)
    if name == "counterlab":
        verdict = (0, b"true rows 3365 locked 314\n", b"")
        looks.look(f"{name} check, of a record", verdict, record_checked, program)
        rows = rows_of((EXAMPLES / "records" / "too_many_liars_at_first.run.out").read_bytes())
        looks.look(f"{name} record, its rows", rows, rows_recorded, program)
        looks.look("the words of docs/FORMATS.md", 0, words_compared)
    else:  # counterlab has no such word
        said = (0, f"{name} {VERSION}\n".encode(), b"")
        looks.look(f"{name} --version", said, ended, program, ["--version"], input=b"")
    _, words, text, _, _ = CASES[name]()[0]
    # what failed is said on standard error, of `counterlab` by the exit code alone
    unread, unwritten, refused = [
        b"" if name == "counterlab" else line
        for line in (
            b"the input could not be read", b"the answer could not be written", b"out of memory"
        )
    ]
    full = (7, None, unwritten)
    looks.look(f"{name}, output that is full", full, full_written, program, words, text)
    if name == "choose":  # it reads nothing, and takes little memory
        return
    for kind in KINDS if name == "attack" else []:
        for player in PLANS:
            looks.look(f"attack {kind}, {player} run", 0, attack_played, program, kind, player)
    looks.look(f"{name}, a folder as input", (6, b"", unread), folder_read, program, words)
    looks.look(f"{name}, no memory", (10, b"", refused), memory_refused, program, words)


def main():
    given = [pathlib.Path(word).resolve() for word in sys.argv[1:]]
    looks = Looks()
    for program in given or [CRATES / name / "out" / name for name in NAMES]:
        if program.name not in CASES:
            sys.exit(__doc__)
        if not program.is_file():
            print(f"statuses: {program.name}: not tried, since {program} is not there")
            continue
        look_at(program.name, program, looks)
    for name, line in SAY_VERSION.items():
        looks.tried += 1
        if line not in (TOP / name).read_text():
            looks.wrong.append(f"{name} does not say {line}")
    for it in looks.wrong:
        print(f"statuses: {it}")
    print(f"statuses: {looks.tried - len(looks.wrong)} of {looks.tried} calls end as they must")
    return 1 if looks.wrong else 0


if __name__ == "__main__":
    sys.exit(main())
