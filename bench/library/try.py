#!/usr/bin/env python3
"""Builds the static library, links it, and tries it from C, C++, Python and Rust.

    python3 bench/library/try.py              build the archive by `rt lib`
    python3 bench/library/try.py --after-ci   build it over the libraries that `rt ci` has left, and
                                              for 64-bit ARM, if its compiler and qemu are here
    python3 bench/library/try.py ARCHIVE      take this archive
    python3 bench/library/try.py ARCHIVE --compiler CC --runner WORDS --heap FILE
        an archive for another machine: CC compiles for it, FILE in C has the heap, and what is made
        is run by these words, as `qemu-aarch64 -L /usr/aarch64-linux-gnu`

Random steps of nine plans of both constructions, and calls that are refused, have to give what the
plain step of calls.py gives, and of boosting plans what `counterlab node` writes if the program
is built; the numbers of the example plans have to be those of their stored tables; each allocation
is refused in turn; and the loops of examples/library/ have to act when they should. A line says
what was not tried, and why. The status is 1 if an answer is not what it has to be, or what was
proved is not compiled or linked. A tool that is missing or does not work is no failure, nor is a
machine that has too little memory, or takes more than ten minutes.
"""

import functools
import os
import pathlib
import random
import shutil
import subprocess
import sys
import tempfile
import time

import calls
import halving_counter
import halving_vectors
import vectors

HERE = pathlib.Path(__file__).resolve().parent
TOP = HERE.parent.parent
CRATES = TOP / "crates"
BINDINGS = TOP / "bindings"
FIRST = TOP / "examples" / "library"
PAGE = TOP / "docs" / "LIBRARY.md"
ARCHIVE = CRATES / "counterlab_c" / "out" / "libcounterlab_c.a"
PROGRAM = CRATES / "counterlab" / "out" / "counterlab"
PLAN_EXAMPLES = CRATES / "try_examples" / "data" / "plans"
REFUSED = CRATES / "try_examples" / "data" / "refused_plans"
PREMISES = ["form", "limit", "blocks", "modulus", "quorum", "share", "multiple", "single"]
ARM = "aarch64-linux-gnu-"
STEPS = 1000
MINUTES = 10
KILLED = -9  # as for want of memory

PLANS = [
    calls.plan_of(5, []),
    calls.plan_of(576, [(3, 1, 10, 1)]),
    calls.plan_of(2304, [(4, 1, 960, 0), (3, 3, 10, 0)]),
    calls.plan_of(576, [(3, 1, 960, 1), (3, 3, 10, 0)]),
    calls.plan_of(93312, [(5, 2, 10, 2)]),
    calls.plan_of(576, [(3, 1, 768, 1), (3, 2, 1152, 0), (3, 4, 10, 0)]),
    calls.halving_plan_of(4, 1, 10),
    calls.halving_plan_of(7, 2, 1000),
    calls.halving_plan_of(14, 4, 10),
]

# Texts of halving plans that are refused, with the line and the premise that fail.
REFUSED_HALVING = [
    ("halving 2\n", 1, "form"),
    ("halving 1\nend\n", 2, "form"),
    ("halving 1\ngroup 13 4 10\n", 3, "form"),
    ("halving 1\ngroup 257 4 10\nend\n", 2, "limit"),
    ("halving 1\ngroup 13 4 1\nend\n", 2, "modulus"),
    ("halving 1\ngroup 12 4 10\nend\n", 2, "quorum"),
    ("halving 1\ngroup 2 0 10\nend\n", 2, "single"),
]


# A program at the end of the crate's file, whose calls it does not make.
TOLD_BY_RUST = """
fn main() {
    for code in 0..12 {
        for detail in 0..10 {
            println!("{code} {detail} {}", told(code, detail));
        }
    }
    println!("{FIRST_LINE}");
}
"""


class Skipped(Exception):
    """Something cannot be tried here."""


class Failed(Exception):
    """Something is not what it has to be."""


class Clock:
    """How much time is left for all that is run."""

    end = None

    @classmethod
    def start(cls):
        cls.end = time.monotonic() + 60 * MINUTES

    @classmethod
    def left(cls):
        return max(1, cls.end - time.monotonic())


class Machine:
    """Another machine that is tried: its compiler in the place of gcc, and what runs its programs,
    which stand in a folder of their own."""

    compiler, runner, folder = None, [], None

    @classmethod
    def command(cls, command):
        first, *rest = map(str, command)
        if cls.compiler and first == "gcc":
            return [*cls.compiler, *rest]
        is_made = cls.folder and first.startswith(f"{cls.folder}/")
        return [*cls.runner, first, *rest] if is_made else [first, *rest]


def status_of(command, **how):
    """The status of a command, and what it printed."""
    if "input" not in how:
        how["stdin"] = subprocess.DEVNULL
    words = Machine.command(command)
    how = {"stdout": subprocess.PIPE, "stderr": subprocess.STDOUT, "timeout": Clock.left(), **how}
    try:
        ran = subprocess.run(words, **how)
    except subprocess.TimeoutExpired:
        raise Skipped(f"{MINUTES} minutes did not suffice") from None
    except OSError as error:
        raise Skipped(f"{words[0]} cannot be run: {error.strerror}") from None
    if ran.returncode == KILLED:
        raise Skipped(f"{words[0]} was killed")
    return ran.returncode, ran.stdout


def run(command, **how):
    """What a command prints, which has to end with 0."""
    status, said = status_of(command, **how)
    if status:
        said = said.decode(errors="replace").strip()[-1500:]
        raise Failed(f"{command[0]} ended with {status}: {said}")
    return said


def needs(tool):
    tool = Machine.compiler[0] if Machine.compiler and tool == "gcc" else tool
    if not shutil.which(tool):
        raise Skipped(f"there is no {tool} here")


@functools.lru_cache(maxsize=None)
def needs_compiler(name, ending):
    """A compiler that makes a program, and has the C library's headers."""
    needs(name)
    with tempfile.TemporaryDirectory(prefix="counterlab-library-") as room:
        file = pathlib.Path(room) / f"empty.{ending}"
        file.write_text("#include <inttypes.h>\n#include <stdio.h>\nint main(void) { return 0; }\n")
        if status_of([name, "-o", file.with_suffix(""), file])[0]:
            raise Skipped(f"{name} makes no program here")


@functools.lru_cache(maxsize=None)
def kit():
    """The kit's folder: its first page is the one that `rt doc` names."""
    needs("rt")
    return pathlib.Path(run(["rt", "doc"]).decode().strip()).parent


# ---- the archive


def uses():
    """For each crate, which it uses, as crates.txt says."""
    rows = {}
    for line in (TOP / "crates.txt").read_text(encoding="utf-8").splitlines():
        name, _, used = line.partition("#")[0].partition(":")
        if name.strip():
            rows[name.split()[0]] = used.split()
    return rows


def build_after_ci(to=ARCHIVE, *more):
    """Builds the archive over the libraries that `rt ci` proved and left in each crate's out/; for
    another machine, for which the crate is proved anew, if its target is among more words."""
    rows, below, left = uses(), [], ["counterlab_c"]
    while left:
        for name in rows[left.pop()]:
            if name in rows and name not in below:
                below.append(name)
                left.append(name)
    rlib = lambda name: CRATES / name / "out" / "rlib" / f"{name}.rlib"
    lacking = [name for name in below if not rlib(name).is_dir()]
    if lacking:
        raise Skipped(f"no library {lacking[0]} was left")
    # `rt ci` gives back what an earlier check built, which may be of an older text
    older = [name for name in below if (rlib(name).parent / "stamp").exists()]
    if older:
        raise Skipped(f"the library {older[0]} is that of an earlier check: build by `rt lib`")
    command = [kit() / "bin" / "rattle", "build", "--crate-name", "counterlab_c", "src/lib.rt"]
    command += ["--extern", f"std={kit()}/rlibs/std.rlib", "-L", f"dependency={kit()}/rlibs"]
    for name in rows["counterlab_c"]:
        command += ["--extern", f"{name}={rlib(name)}"]
    for name in below:
        command += ["-L", f"dependency={rlib(name).parent}"]
    command += ["--antt-project", f"{kit()}/rattle/logic/antt-project.json"]
    command += ["--logic-built", f"{kit()}/logic_built", "--toolchain", f"{kit()}/toolchain"]
    command += ["--links", "counterlab_c=", "--crate-type", "staticlib", *more, "-o", to]
    to.parent.mkdir(exist_ok=True)
    status, said = status_of(command, cwd=CRATES / "counterlab_c")
    # 1: it is not proved over these libraries, or the backend cannot compile it
    if status == 1:
        raise Failed(f"the archive is not built: {said.decode(errors='replace').strip()[-1500:]}")
    if status:
        raise Skipped(f"rattle ended with {status}")


def archive(words):
    """The archive, built if no word names one."""
    if words == ["--after-ci"]:
        build_after_ci()
    elif words:
        return pathlib.Path(words[0]).resolve()
    else:
        needs("rt")
        print("library: rt lib", flush=True)
        if subprocess.run(["rt", "lib", "--jobs", "1"], cwd=CRATES / "counterlab_c").returncode:
            raise Failed("the archive was not built")
        Clock.start()
    return ARCHIVE


# ---- cases


def cell(data):
    return len(data).to_bytes(2, "big") + data


def some_bytes(source, size):
    return bytes(source.randrange(256) for _ in range(size))


def some_register(source, level):
    value = None if source.random() < 0.2 else source.randrange(level.modulus)
    return value, source.random() < 0.5


def some_fields(source, plan):
    """A number, and after it a register of each level."""
    registers = [some_register(source, level) for level in plan.levels]
    return [source.randrange(plan.base), *registers]


def some_common(source, plan):
    """What nodes have in common: two states, and how many of them have the second one. Of a halving
    plan a state of each node."""
    if isinstance(plan, halving_counter.Plan):
        return halving_vectors.drawn_states(vectors.Draws(source.random()), plan)
    return some_fields(source, plan), some_fields(source, plan), source.choice([0.05, 0.3, 0.5])


def some_state(source, plan, node, common):
    """The bytes of a state in range; nine fields of ten are those of one of the common states."""
    if isinstance(plan, halving_counter.Plan):
        return common[node]
    first, second, share = common
    fields = some_fields(source, plan)
    for i in range(len(fields)):
        if source.random() < 0.9:
            fields[i] = second[i] if source.random() < share else first[i]
    return plan.write(node, calls.state_of(fields[0], fields[1:]))


def some_packet(source, plan, common):
    """A cell of each node; a tenth of them have any bytes, half of these of another length."""
    packet = b""
    for node in range(plan.nodes):
        data = some_state(source, plan, node, common)
        if source.random() < 0.1:
            size = source.choice([len(data), source.choice([0, 1, 2, 3, 5, 8, 300])])
            data = some_bytes(source, size)
        packet += cell(data)
    return packet


def step_cases(source):
    """Steps of nodes: plan, node, state, packets."""
    for i in range(STEPS):
        plan = PLANS[i % len(PLANS)]
        common, node = some_common(source, plan), source.randrange(plan.nodes)
        state = some_state(source, plan, node, common)
        if source.random() < 0.1:
            state = some_bytes(source, len(state))
        count = source.choice([0, 1, 1, 1, 1, 1, 1, 2, 3])
        yield plan, node, state, b"".join(some_packet(source, plan, common) for _ in range(count))


def refused_cases(source):
    """Calls that are refused for their node, their state or their packets, and more than one."""
    for plan in PLANS:
        packet = some_packet(source, plan, some_common(source, plan))
        size = plan.bytes(0)
        good, cut = bytes(size), packet[:-1]
        for node in (plan.nodes, 256, 2**32 - 1):
            yield plan, node, good, packet
            yield plan, node, b"", cut
        for length in (0, size - 1, size + 1, 128):
            if length != size:
                yield plan, 0, bytes(length), packet
                yield plan, 0, bytes(length), cut
        for end in range(1, len(packet), 1 + len(packet) // 7):
            yield plan, 0, good, packet[:end]
            yield plan, 0, good, packet + packet[:end]


def refused_plans():
    """Plans that are refused, with the line and the number of the premise that each fails."""
    for file in sorted(REFUSED.glob("*.plan.out")):
        words = file.read_text().split()
        text = file.with_name(file.name[: -len(".plan.out")] + ".txt").read_bytes()
        yield text, int(words[3]), 1 + PREMISES.index(words[5])
    for text, line, premise in REFUSED_HALVING:
        yield text.encode(), line, 1 + PREMISES.index(premise)


def plan_numbers():
    """Lines as plans.c reads them: each example plan, with the numbers of its stored table."""
    for file in sorted(PLAN_EXAMPLES.glob("*.plan.out")):
        words = file.read_text().splitlines()[-2].split()
        numbers = dict(zip(words[1::2], words[2::2]))
        text = file.with_name(file.name[: -len(".plan.out")] + ".txt").read_bytes()
        names = ["nodes", "faults", "modulus", "bound", "bytes"]
        yield " ".join([hexed(text), *(numbers[name] for name in names)]) + "\n"
    for plan in PLANS:
        if isinstance(plan, halving_counter.Plan):
            numbers = [plan.nodes, plan.faults, plan.modulus, plan.bound, plan.bytes(0)]
            yield " ".join([hexed(calls.text_of(plan)), *map(str, numbers)]) + "\n"


def acts_as_said(text):
    """Whether the nodes of loop.c act in the rounds in which they should, all on one number."""
    rows = [line.split()[1:] for line in text.decode().splitlines()]
    numbers = [set(row[:2]) - {"-"} for row in rows]
    all_act = [len(numbers[t]) == 1 and "-" not in row for t, row in enumerate(rows)]
    missed = all(row[1] == "-" for row in rows[60:76])
    failed = not any(numbers[101:130])
    good = all(all_act[20:60]) and all(all_act[80:100]) and all(all_act[150:])
    return len(rows) == 160 and all(len(it) < 2 for it in numbers) and missed and failed and good


def hexed(data):
    return data.hex() or "-"


def written(text, node, state, packets, answer):
    """A case as steps.c reads it."""
    code, detail, value, new = answer
    given = f"{hexed(text)} {node} {hexed(state)} {hexed(packets)}"
    return f"{given} {code} {detail} {value} {hexed(new)}"


# ---- what is tried


class Tried:
    def __init__(self, room, made, heap):
        self.room, self.made, self.heap = room, made, heap
        source = random.Random(7)
        self.steps, self.refused = list(step_cases(source)), list(refused_cases(source))
        self.answers = [calls.answer(*case) for case in self.steps]
        self.cases = [
            (calls.text_of(plan), node, state, packets, answer)
            for (plan, node, state, packets), answer in zip(self.steps, self.answers)
        ]
        for plan, node, state, packets in self.refused:
            answer = calls.answer(plan, node, state, packets)
            self.cases.append((calls.text_of(plan), node, state, packets, answer))
        for text, line, premise in refused_plans():
            self.cases.append((text, 0, b"\0", b"", (1, premise, line, b"\0")))
        self.count = len(self.cases)
        self.text = "".join(written(*case) + "\n" for case in self.cases).encode()
        self.plan_count = sum(1 for _ in plan_numbers())
        self.plan_text = "".join(plan_numbers()).encode()

    def link(self, compiler, name, *more, heap=None, flags=(), at=HERE):
        """Compiles and links a program of this folder, or another, with the archive."""
        needs_compiler(compiler, "c")
        to = self.room / f"{name}.{compiler}"
        sources = [at / f"{name}.c", *more]
        options = ["-std=c11", "-O2", "-I", BINDINGS, *flags]
        run([compiler, *options, "-o", to, *sources, self.made, heap or self.heap])
        return to

    def cases_by(self, program):
        said = run([program], input=self.text).decode().strip()
        if not said.startswith(f"{self.count} of {self.count}"):
            raise Failed(f"{said} cases are the same")
        return said

    def plans_by(self, program):
        said = run([program], input=self.plan_text).decode().strip()
        if said != f"{self.plan_count} of {self.plan_count}":
            raise Failed(f"the numbers of {said} plans are the same")
        return f"the numbers of {self.plan_count} plans are the same"

    def c(self, compiler):
        self.cases_by(self.link(compiler, "steps"))
        numbers = self.plans_by(self.link(compiler, "plans"))
        return f"{self.count} calls are the same; {numbers}"

    def c_plus_plus(self, compiler):
        """plans.c as C++, whose header names the same functions and lays its structs out the same."""
        needs_compiler(compiler, "cc")
        source, to = self.room / "plans.cc", self.room / f"plans.{compiler}"
        source.write_bytes((HERE / "plans.c").read_bytes())
        strict = ["-std=c++11", "-pedantic-errors", "-Wall", "-Wextra", "-Werror"]
        run([compiler, *strict, "-I", BINDINGS, "-o", to, source, self.made, self.heap])
        return self.plans_by(to)

    def first(self):
        """four_nodes.c against the same rounds by the plain step."""
        found = run([self.link("gcc", "four_nodes", at=FIRST)]).decode()
        plan = calls.halving_plan_of(4, 1, 10)
        states = [b"\x3f\xff", b"\x12\x34", b"\x00\x14", b"\xff\x00"]
        rows = []
        for t in range(13):
            held = [calls.output(plan, v, states[v]) for v in range(3)]
            rows.append(" ".join(map(str, [t, *held])))
            lies = [bytes([(97 * t + 31 * v) % 256]) + states[3][1:] for v in range(3)]
            packets = [b"".join(map(cell, [*states[:3], lie])) for lie in lies]
            states[:3] = [calls.answer(plan, v, states[v], packets[v])[3] for v in range(3)]
        if found.splitlines() != rows:
            raise Failed(f"four_nodes.c printed\n{found}")
        return "the rows of four_nodes.c are those of the plain step"

    def arena(self):
        """Nodes without malloc: an arena of 64 KB for all plans, and 4 KB for all but the largest
        one of each construction."""
        flags = ["-DARENA=65536"]
        whole = self.cases_by(self.link("gcc", "steps", HERE / "arena.c", heap="-lc", flags=flags))
        large = [calls.text_of(plan) for plan in (PLANS[5], PLANS[-1])]
        small = [case for case in self.cases if case[0] not in large]
        text = "".join(written(*case) + "\n" for case in small).encode()
        program = self.link("gcc", "steps", HERE / "arena.c", heap="-lc")
        said = run([program], input=text).decode().strip()
        if not said.startswith(f"{len(small)} of {len(small)}"):
            raise Failed(f"{said}, in 4 KB")
        return f"{whole}; in 4 KB {said}"

    def memory(self):
        wrap = "-Wl,--wrap=malloc,--wrap=realloc,--wrap=free"
        program, counts = self.link("gcc", "memory", flags=[wrap]), []
        for i, plan in enumerate(PLANS):
            text, packet = self.room / f"plan.{i}", self.room / f"packet.{i}"
            text.write_bytes(calls.text_of(plan))
            packet.write_bytes(b"".join(cell(bytes(plan.bytes(u)))
                                        for u in range(plan.nodes)))
            counts.append(int(run([program, text, packet])))
        return f"each of {sum(counts)} allocations was refused in turn"

    def threads(self):
        return run([self.link("gcc", "threads", flags=["-pthread"])]).decode().strip()

    def told(self):
        """What the header says of codes, and the same by Python and by Rust."""
        needs_compiler("gcc", "c")
        strict = ["-std=c11", "-pedantic-errors", "-Wall", "-Wextra", "-Werror"]
        program = self.room / "told"
        run(["gcc", *strict, "-I", BINDINGS, "-o", program, HERE / "told.c"])
        said = run([program]).decode()
        # the module without its library
        text = (BINDINGS / "counterlab.py").read_text().replace("_library = _load()", "")
        names = {"__file__": str(BINDINGS / "counterlab.py")}
        exec(compile(text, "counterlab.py", "exec"), names)
        pairs = [(code, detail) for code in range(12) for detail in range(10)]
        lines = [f"{code} {detail} {names['told'](code, detail)}" for code, detail in pairs]
        if said.splitlines() != [*lines, names["FIRST_LINE"]]:
            raise Failed("counterlab.h and counterlab.py say different texts of a code")
        if not shutil.which("rustc"):
            return "the header and Python say the same; there is no rustc"
        source, program = self.room / "told.rs", self.room / "told.rust"
        rust = (BINDINGS / "rust" / "src" / "lib.rs").read_text()
        source.write_text("#![allow(dead_code)]\n" + rust.replace("//!", "//") + TOLD_BY_RUST)
        if status_of(["rustc", "--edition", "2021", "-o", program, source, "-C",
                      "link-arg=-Wl,--unresolved-symbols=ignore-all"])[0]:
            raise Skipped("rustc builds no program here")
        if run([program]).decode() != said:
            raise Failed("counterlab.h and the crate of Rust say different texts of a code")
        return "the header, Python and Rust say the same of each code"

    def acts(self):
        """When the nodes of loop.c act."""
        return run([self.link("gcc", "loop", FIRST / "node_loop.c", flags=["-pthread"])])

    def loop(self):
        """The loop of node_loop.c: a tick that is missed, and a liar too many."""
        source = (FIRST / "node_loop.c").read_text()
        if source[source.index("void run(") :] not in PAGE.read_text():
            raise Failed("the page has another loop than node_loop.c")
        found = self.acts()
        if not acts_as_said(found):
            raise Failed(f"nodes act otherwise than they should:\n{found.decode()}")
        return "nodes act when they should, and else do not"

    def python(self):
        """The shared object by ctypes, in a process of its own."""
        try:
            import ctypes  # noqa: F401
        except ImportError:
            raise Skipped("this python has no ctypes") from None
        needs_compiler("gcc", "c")
        shared = self.room / "libcounterlab_c.so"
        run(["gcc", "-shared", "-o", shared, "-Wl,--whole-archive", self.made,
             "-Wl,--no-whole-archive", self.heap, "-Wl,-z,defs"])
        cases = self.room / "cases.txt"
        cases.write_bytes(self.text + self.plan_text)
        found = {"COUNTERLAB_SO": str(shared), "PYTHONPATH": str(BINDINGS)}
        how = {"env": {**os.environ, **found}}
        said = run([sys.executable, FIRST / "four_nodes.py"], **how).decode().splitlines()
        if said[-1:] != ["4 3300 6600 9800 9800"]:
            raise Failed(f"four_nodes.py ended with {said[-1:]}")
        run([sys.executable, FIRST / "thirteen_nodes.py"], **how)
        path = {"PYTHONPATH": os.pathsep.join([str(BINDINGS), str(FIRST)])}
        if run([sys.executable, HERE / "loop.py"], env={**how["env"], **path}) != self.acts():
            raise Failed("node_loop.py acts otherwise than node_loop.c")
        return run([sys.executable, HERE / "by_ctypes.py", cases], **how).decode().strip()

    def rust(self):
        needs("cargo")
        archive = self.room / "archive" / "libcounterlab_c.a"
        archive.parent.mkdir()
        shutil.copyfile(self.made, archive)
        folders = {"COUNTERLAB_ARCHIVE": archive.parent, "KIT_ARCHIVE": self.heap.parent}
        target = {"CARGO_TARGET_DIR": str(self.room / "cargo")}
        env = {**os.environ, **{name: str(it) for name, it in folders.items()}, **target}
        build = ["cargo", "build", "--offline", "--quiet", "--release"]
        empty, crate = self.room / "empty", self.room / "rust"
        (empty / "src").mkdir(parents=True)
        (empty / "src" / "main.rs").write_text("fn main() {}\n")
        head = '[package]\nname = "empty"\nversion = "0.1.0"\nedition = "2021"\n'
        (empty / "Cargo.toml").write_text(head)
        if status_of(build, cwd=empty, env=env)[0]:
            raise Skipped("cargo builds no program here")
        shutil.copytree(BINDINGS / "rust", crate)
        shutil.copyfile(HERE / "steps.rs", crate / "src" / "main.rs")
        run(build, cwd=crate, env=env)
        program = self.room / "cargo" / "release" / "counterlab_nodes"
        self.cases_by(program)
        numbers = self.plans_by(program)
        shutil.copyfile(HERE / "loop.rs", crate / "src" / "main.rs")
        shutil.copyfile(FIRST / "node_loop.rs", crate / "src" / "node_loop.rs")
        run(build, cwd=crate, env=env)
        if run([program]) != self.acts():
            raise Failed("node_loop.rs acts otherwise than node_loop.c")
        archive.write_bytes(b"no archive")
        if status_of(build, cwd=crate, env=env)[0] == 0:
            raise Failed("an archive that has changed is not linked anew")
        return f"{self.count} calls are the same; {numbers}; a changed archive is linked anew"

    def program(self):
        """The word `node` of the program, run once for each step."""
        if not PROGRAM.is_file():
            raise Skipped("the program is not built")
        for (plan, node, state, packets), answer in zip(self.steps, self.answers):
            if isinstance(plan, halving_counter.Plan):
                continue
            text, digits = calls.text_of(plan), state.hex()
            header = text + f"node 1\nid {node}\nstate {digits}\nend\n".encode()
            said = run([PROGRAM, "node"], input=header + packets)
            if not said.endswith(cell(answer[3])):
                raise Failed(f"node {node} of {text}, state {digits}: {said.hex()}")
        return f"{STEPS} steps are the same"


def options(words):
    """The words that are no options, and the options by their names."""
    found = {}
    for name in ("--compiler", "--runner", "--heap"):
        if name in words:
            at = words.index(name)
            found[name] = words[at + 1]
            words = words[:at] + words[at + 2 :]
    if found and len(found) < 3 or len(words) > 1:
        sys.exit(__doc__)
    if words and words[0].startswith("-") and words[0] != "--after-ci":
        sys.exit(__doc__)
    return words, found


def trials(tried):
    """What is tried on this machine, or on another one."""
    names = [("gcc", lambda: tried.c("gcc")), ("a first program", tried.first)]
    names += [("an arena", tried.arena), ("memory", tried.memory), ("threads", tried.threads)]
    names += [("the loop", tried.loop)]
    if Machine.compiler:
        return names
    names[1:1] = [(it, functools.partial(tried.c, it)) for it in ("clang",)]
    names[2:2] = [(it, functools.partial(tried.c_plus_plus, it)) for it in ("g++", "clang++")]
    names += [("what codes say", tried.told), ("python", tried.python), ("rust", tried.rust)]
    return [*names, ("program", tried.program)]


def try_all(title, make):
    """Tries what `make` gives, an archive and the heap, in a folder of its own; how many failed."""
    failed = 0
    with tempfile.TemporaryDirectory(prefix="counterlab-library-") as name:
        room = pathlib.Path(name)
        Machine.folder = name
        try:
            needs_compiler("gcc", "c")
            made, heap = make(room)
            Clock.start()
            tried = trials(Tried(room, made, heap))
        except (Skipped, OSError) as why:
            print(f"{title}: not tried: {why}")
            return 0
        except Failed as why:
            print(f"{title}: FAILED: {why}")
            return 1
        for what, call in tried:
            try:
                print(f"{title}: {what}: {call()}", flush=True)
            except (Skipped, OSError) as why:
                print(f"{title}: {what}: not tried: {why}", flush=True)
            except Failed as why:
                failed += 1
                print(f"{title}: {what}: FAILED: {why}", flush=True)
    return failed


def heap_of(room, source):
    """The heap in C, compiled for the machine that is tried."""
    made = room / "heap.o"
    run(["gcc", "-std=c11", "-O2", "-DLIBRARY", "-c", "-o", made, source])
    return made


def arm_after_ci():
    """The library for 64-bit ARM, over what `rt ci` left, where its compiler and qemu are."""
    lacking = [it for it in (f"{ARM}gcc", "qemu-aarch64") if not shutil.which(it)]
    if lacking:
        print(f"library on ARM: left out: there is no {lacking[0]} here")
        return 0
    Machine.compiler, root = [f"{ARM}gcc"], "/usr/aarch64-linux-gnu"
    Machine.runner = ["qemu-aarch64", "-L", root]
    needs_compiler.cache_clear()

    def make(room):
        made = room / "libcounterlab_c.a"
        build_after_ci(made, "--target", "aarch64-unknown-linux-gnu")
        return made, heap_of(room, TOP / "arm64" / "system.c")

    return try_all("library on ARM", make)


def main():
    words, other = options(sys.argv[1:])
    Clock.start()
    if other:
        Machine.compiler, Machine.runner = other["--compiler"].split(), other["--runner"].split()
        make = lambda room: (archive(words), heap_of(room, other["--heap"]))
        return 1 if try_all("library for another machine", make) else 0
    failed = try_all("library", lambda _: (archive(words), kit() / "c" / "liblibc_c.a"))
    if words == ["--after-ci"]:
        failed += arm_after_ci()
    return 1 if failed else 0


if __name__ == "__main__":
    sys.exit(main())
