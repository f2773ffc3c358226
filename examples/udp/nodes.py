"""Nodes as processes of node.c on 127.0.0.1, their ticks, and what may befall them. See run.py."""

import os
import pathlib
import shutil
import signal
import socket
import subprocess

HERE = pathlib.Path(__file__).resolve().parent
TOP = HERE.parent.parent
PACKED = TOP / "lib" / "libcounterlab.a"
ARCHIVE = TOP / "crates" / "counterlab_c" / "out" / "libcounterlab_c.a"
PORT = 10000 + os.getpid() % 80 * 256  # of node 0; two runs at a time seldom have the same
COLUMNS = 8  # of a line, before the cells


class Skipped(Exception):
    """Something cannot be done here."""


# ---- what is built


def output(command, **how):
    """What a command prints, which has to end with 0."""
    try:
        ran = subprocess.run([str(it) for it in command], stdout=subprocess.PIPE, **how)
    except OSError as error:
        raise Skipped(f"{command[0]} cannot be run: {error.strerror}") from None
    if ran.returncode:
        raise Skipped(f"{command[0]} ended with {ran.returncode}")
    return ran.stdout.decode()


def needs(tool):
    if not shutil.which(tool):
        raise Skipped(f"there is no {tool} here")


def library():
    """The folder of the header, and the archives, of which that of a package has the kit's."""
    if "COUNTERLAB_ARCHIVES" in os.environ:
        return TOP / "bindings", os.environ["COUNTERLAB_ARCHIVES"].split()
    if PACKED.is_file():
        return TOP / "include", [PACKED]
    needs("rt")
    if not ARCHIVE.is_file():
        raise Skipped(f"{ARCHIVE} is not there: it is built by `rt lib`")
    kit = pathlib.Path(output(["rt", "doc"]).strip()).parent
    return TOP / "bindings", [ARCHIVE, kit / "c" / "liblibc_c.a"]


def build(room):
    """The node and what may befall it."""
    needs("gcc")
    header, archives = library()
    options = ["gcc", "-std=c11", "-O2"]
    output([*options, "-I", header, "-o", room / "node", HERE / "node.c", *archives])
    output([*options, "-shared", "-fPIC", "-o", room / "faults.so", HERE / "faults.c"])


# ---- nodes


class Plan:
    """The lines of a plan, and its numbers."""

    def __init__(self, path, room):
        self.path, self.room = path, room
        self.lines = pathlib.Path(path).read_text().splitlines()
        numbers = [int(it) for it in output([room / "node", path]).split()[1::2]]
        self.nodes, self.faults, self.modulus, self.bound = numbers

    def digest(self):
        """What comes first in each message of its nodes: FNV-1a of the plan's bytes."""
        mixed = 0xCBF29CE484222325
        for byte in pathlib.Path(self.path).read_bytes():
            mixed = (mixed ^ byte) * 0x100000001B3 % 2**64
        return mixed.to_bytes(8, "big")


class Process:
    """A process of a node, and the first tick that it was given."""

    def __init__(self, plan, v, length, log, keeps):
        self.log, self.first, self.owed = log, None, 0
        faults = plan.room / f"faults.{v}"
        more = {"LD_PRELOAD": str(plan.room / "faults.so"), "UDP_FAULTS": str(faults)}
        keep = ["--state", plan.room / f"state.{v}"] if keeps else []
        words = [plan.room / "node", "-p", *keep, plan.path, plan.room / "peers.txt", v,
                 round(400 * length)]
        self.words, self.env = [str(it) for it in words], {**os.environ, **more}
        with open(log, "wb") as to:
            self.ran = subprocess.Popen(self.words, stdin=subprocess.PIPE, stdout=to, env=self.env)
        os.set_blocking(self.ran.stdin.fileno(), False)

    def tick(self, k, held):
        """A tick, and those that it was not given while its clock stood."""
        if self.first is None:
            self.first = k
        self.owed += 1
        if held:
            return
        try:
            os.write(self.ran.stdin.fileno(), b"\n" * self.owed)
        except (BlockingIOError, BrokenPipeError):
            pass  # it is stopped, or gone
        self.owed = 0

    def start_again(self):
        """Another process with the same words, which has to end by itself."""
        return subprocess.Popen(self.words, stdin=subprocess.DEVNULL, stdout=subprocess.DEVNULL,
                                stderr=subprocess.DEVNULL, env=self.env)

    def kill(self):
        self.ran.kill()
        self.ran.wait()
        self.ran.stdin.close()


class Row:
    """What a node printed with a tick."""

    def __init__(self, words):
        numbers = map(int, words[: COLUMNS - 1])
        self.ticks, self.number, self.sure, self.heard, self.agreeing, *rest = numbers
        self.other, self.strange = rest
        self.state, self.cells = words[COLUMNS - 1], words[COLUMNS:]


class Nodes:
    """All nodes of a plan, which get a tick in every `length` seconds."""

    def __init__(self, plan, length, liars, keeps):
        self.plan, self.length, self.keeps = plan, length, keeps
        self.running, self.ended, self.held = {}, [], set()
        self.again, self.taken = [], []  # second starts, and whether the port was taken
        self.delay = {v: 0.0 for v in range(plan.nodes)}
        self.lost = 0.0  # of correct nodes, of what is sent
        # how many lies each liar sends in the place of a message; the first ids are those that lead
        self.lying = {v: 1 for v in range(liars)}
        peers = "".join(f"127.0.0.1 {PORT + v}\n" for v in range(plan.nodes))
        (plan.room / "peers.txt").write_text(peers)
        for v in range(plan.nodes):
            self.tell_faults(v)

    def correct(self):
        return [v for v in range(self.plan.nodes) if v not in self.lying]

    def tell_faults(self, v):
        faults = self.plan.room / f"faults.{v}"
        lies = self.lying.get(v, 0)
        lost = 0 if lies else round(65536 * self.lost)
        with open(faults, "r+b" if faults.exists() else "w+b") as file:
            file.write(bytes([lost >> 8, lost & 255, lies]))

    def start(self, v, plan=None):
        log = self.plan.room / f"log.{v}.{len(self.ended)}"
        self.running[v] = Process(plan or self.plan, v, self.length, log, self.keeps)

    def kill(self, v):
        process = self.running.pop(v)
        process.kill()
        self.ended.append((v, process))

    def stop(self, v):
        self.running[v].ran.send_signal(signal.SIGSTOP)

    def go_on(self, v):
        self.running[v].ran.send_signal(signal.SIGCONT)

    def start_again(self, v):
        self.again.append(self.running[v].start_again())

    def repair(self, v):
        del self.lying[v]
        self.tell_faults(v)

    def lie(self, v, lies):
        self.lying[v] = lies
        self.tell_faults(v)

    def lose(self, share):
        self.lost = share
        for v in range(self.plan.nodes):
            self.tell_faults(v)

    def send_strange(self, v, count):
        """Messages to node v from no node, which but for their sender are as any other."""
        with socket.socket(socket.AF_INET, socket.SOCK_DGRAM) as link:
            link.setblocking(False)
            for i in range(count):
                data = self.plan.digest() + bytes([i % 256] * (1 + i % 3))
                try:
                    link.sendto(data, ("127.0.0.1", PORT + v))
                except OSError:
                    pass

    def can_be_taken(self, v):
        """Whether another socket gets the port of node v beside it."""
        with socket.socket(socket.AF_INET, socket.SOCK_DGRAM) as link:
            link.setsockopt(socket.SOL_SOCKET, socket.SO_REUSEADDR, 1)
            try:
                link.bind(("127.0.0.1", PORT + v))
            except OSError:
                return False
        return True

    def rows(self):
        """For each node, what it printed, by the number of the tick."""
        rows = {v: {} for v in range(self.plan.nodes)}
        for v, process in [*self.ended, *self.running.items()]:
            if process.first is None:
                continue
            k = process.first - 1
            for line in process.log.read_text().splitlines():
                words = line.split()
                if len(words) == COLUMNS + self.plan.nodes:  # else cut by a kill
                    row = Row(words)
                    k += row.ticks
                    rows[v][k] = row
        return rows
