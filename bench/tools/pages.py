#!/usr/bin/env python3
"""Runs the commands of the pages, and compares what they print with what stands there.

    python3 bench/tools/pages.py [PAGE ..]
    python3 bench/tools/pages.py --quick

PAGE is README.md or a page of docs/ or bench/, from the top of the repository; if none is named all
are looked at. The blocks of `sh` of a page are run one after the other by one shell, in a copy of
the repository's files in which the built programs lie at their places (crates/NAME/out/NAME, as
`rt ci` and `rt run` leave them). If a block without a language comes next, with nothing between or
with a few lines that begin with "prints" or "writes", it is what the commands have to print, to the
letter. Else they have to end with 0. Pictures and other files of the repository that commands write
have to be what is there, and so have pictures that they write into mine/ by the name of one of
docs/pictures/. In a clone git ignores that folder.

Lines that prove or build by `rt`, and blocks that name what this machine lacks, are left out, and
told: a program that is not built, or a path of the reader's own. The status is 1 if a block ends or
prints otherwise.

`--quick` is what `.ci/run` looks at: the blocks of all pages that call the programs alone, and take
a second or two. What builds by gcc, starts processes that wait for one another, measures, or is one
of the tests of `rt ci` is left out. It fails for no want: if there is no room for the copy, or a
page takes longer than it may on a busy machine, it says that this was not tried, and of each page
how many blocks name a program that is not built.
"""

import os
import pathlib
import re
import shutil
import subprocess
import sys
import tempfile

TOP = pathlib.Path(__file__).resolve().parent.parent.parent
SECONDS = 300  # for a page
QUICK_SECONDS = 60
MOST_BETWEEN = 3  # lines that may stand between commands and what they print
SAYS_OUTPUT = re.compile(r"((it|which|this|and) )?(prints|writes)\b")
# what only its reader can fill in, what takes minutes, and what shows a failing machine
NOT_RUN = [".ci/run", "NAME", "FOLDER", "examples/udp/run.py", "bench/library/try.py", "hostile.py"]
# what takes more than a second or two, or hangs on more than the programs and a shell
NOT_QUICK = ["gcc", "rt doc", "mkfifo", "deployed_nodes.py", "drawn_runs.py", "vectors.py", "time ",
             "parent.py", "out/try_"]
LEFT_OUT = (".git", "out", "__pycache__", "mine")  # folders
NOT_READ = (".rt", ".antt", ".edit")  # what no command of a page reads: the sources
PICTURES = pathlib.Path("docs/pictures")
ARCHIVE = "crates/counterlab_c/out/libcounterlab_c.a"
BUILDS = re.compile(r"\brt (run|lib|ci|try|check|must-fail)\b")
BUILT = re.compile(r"\bout/(\w+)\b")


class Block:
    """A block of a page: its language, its lines and where it begins."""

    def __init__(self, language, line):
        self.language, self.line, self.lines = language, line, []

    def commands(self):
        """Its commands, without those that build."""
        joined = "\n".join(self.lines).replace("\\\n", "\\\0").split("\n")
        kept = [it for it in joined if not BUILDS.search(it)]
        return "\n".join(kept).replace("\0", "\n")

    def text(self):
        return "".join(line + "\n" for line in self.lines)


def blocks_of(page):
    """The blocks of a page, and for each what stands between it and the one before."""
    found, between, block = [], [], None
    for number, line in enumerate(page.read_text().splitlines(), 1):
        if line.lstrip().startswith("```") and block is None:
            indent = len(line) - len(line.lstrip())
            block = Block(line.strip()[3:], number)
            found.append((block, [it for it in between if it.strip()]))
            between = []
        elif line.strip() == "```":
            block = None
        elif block is not None:
            block.lines.append(line[indent:])
        else:
            between.append(line)
    return found


def is_output(block, between):
    """Whether a block is what the commands before it print, by what stands between."""
    words = " ".join(between).strip().lower()
    said = not words or len(between) <= MOST_BETWEEN and SAYS_OUTPUT.match(words) is not None
    return block.language == "" and said


def cases_of(page):
    """Each block of commands with what it has to print, or None if the page does not say it."""
    found = blocks_of(page)
    for i, (block, _) in enumerate(found):
        if block.language != "sh":
            continue
        after = found[i + 1 : i + 3]
        if after and " ".join(after[0][1]).strip() == "reads":
            after = after[1:]  # the input stands first
        yield block, after[0][0].text() if after and is_output(*after[0]) else None


def why_not(commands):
    """Why these cannot be run here, or None."""
    if not commands.strip() or subprocess.run(["bash", "-n"], input=commands.encode(),
                                              stderr=subprocess.DEVNULL).returncode:
        return "it only builds"
    for word in NOT_RUN:
        if word in commands:
            return f"it names {word}"
    if ARCHIVE in commands and not (TOP / ARCHIVE).is_file():
        return "the library is not built"
    for name in BUILT.findall(commands):
        crate = TOP / "crates" / name
        if crate.is_dir() and not (crate / "out" / name).is_file():
            return f"{name} is not built"
    return None


def files():
    """The names of the repository's files that commands may read."""
    try:
        listed = subprocess.run(["git", "ls-files", "-z"], cwd=TOP, stdout=subprocess.PIPE,
                                stderr=subprocess.DEVNULL, check=True)
        names = listed.stdout.decode().split("\0")
    except (OSError, subprocess.CalledProcessError):  # no git, or no clone of one's own
        names = []
    if not any(names):
        for at, folders, here in os.walk(TOP):
            folders[:] = [it for it in folders if it not in LEFT_OUT]
            names += [os.path.relpath(os.path.join(at, it), TOP) for it in here]
    return [it for it in names if it and not it.endswith(NOT_READ) and (TOP / it).is_file()]


def copy(room):
    """The repository's files that commands may read, and the programs that are built."""
    for name in files():
        (room / name).parent.mkdir(parents=True, exist_ok=True)
        shutil.copyfile(TOP / name, room / name)
    for made in TOP.glob("crates/*/out/*"):
        name = made.parent.parent.name
        if made.is_file() and made.name in (name, f"lib{name}.a"):
            to = room / made.relative_to(TOP)
            to.parent.mkdir(parents=True, exist_ok=True)
            shutil.copy(made, to)


def changed_files(room):
    """The files of the repository that are others now in the copy, and pictures that commands wrote
    into the folder mine/ and that are others in docs/pictures/."""
    for file in sorted(room.glob("**/*")):
        name = file.relative_to(room)
        own = TOP / (PICTURES / file.name if name.parts[0] == "mine" else name)
        if file.is_file() and own.is_file() and file.read_bytes() != own.read_bytes():
            yield file.relative_to(room)


def run(cases, room, at, seconds):
    """Runs the blocks of a page in one shell; what each printed, and its status, or None."""
    script = []
    for i, (block, _) in enumerate(cases):
        script += ["{", block.commands(), f"}} > {at}/{i}.out 2> {at}/{i}.err < /dev/null",
                   f"echo $? > {at}/{i}.status"]
    how = {"cwd": room, "timeout": seconds, "env": {**os.environ, "HOME": str(at)}}
    try:
        subprocess.run(["bash"], input="\n".join(script).encode(), **how)
    except subprocess.TimeoutExpired:
        pass
    for i in range(len(cases)):
        status = at / f"{i}.status"
        if not status.is_file():
            yield None
            continue
        said = [(at / f"{i}.{kind}").read_text(errors="replace") for kind in ("out", "err")]
        yield int(status.read_text()), *said


def look(page, room, at, quick):
    """Looks at a page: how many blocks were run, how many compared, and how many failed."""
    tried, compared, failed = 0, 0, 0
    cases, left = [], []
    name = page.relative_to(TOP)
    seconds = QUICK_SECONDS if quick else SECONDS
    for block, wanted in cases_of(page):
        if quick and any(it in block.commands() for it in NOT_QUICK + NOT_RUN):
            continue
        why = why_not(block.commands())
        if why is None:
            cases.append((block, wanted))
        elif why != "it only builds":
            left.append(f"line {block.line}: not tried, since {why}")
    if quick and left:
        left = [f"not tried: {len(left)} of its blocks, whose programs are not built"]
    for it in left:
        print(f"pages: {name}, {it}")
    for (block, wanted), ran in zip(cases, run(cases, room, at, seconds)):
        where = f"pages: {name}, line {block.line}"
        if ran is None and quick:
            print(f"{where}: not tried, since the page did not end in {seconds} seconds")
            continue
        tried += 1
        compared += wanted is not None
        if ran is None:
            print(f"{where}: did not end in {seconds} seconds")
        elif wanted is not None and ran[1] != wanted:
            print(f"{where}: printed\n{ran[1]}{ran[2]}in place of\n{wanted}", end="")
        elif wanted is None and ran[0] != 0:
            print(f"{where}: ended with {ran[0]}\n{ran[1][-500:]}{ran[2][-500:]}", end="")
        else:
            continue
        failed += 1
    for changed in changed_files(room) if cases else []:
        print(f"pages: {name}: {changed} is written otherwise than it is there")
        failed += 1
        if (TOP / changed).is_file():
            shutil.copyfile(TOP / changed, room / changed)
    return tried, compared, failed


def pages_of(words):
    """The pages that are named, or all."""
    if words:
        return [(TOP / word).resolve() for word in words]
    return [TOP / "README.md", *sorted(TOP.glob("docs/**/*.md")), *sorted(TOP.glob("bench/*.md"))]


def look_at_all(pages, quick):
    """Looks at pages, each in a copy of its own, or in the quick case all in one."""
    totals = [0, 0, 0]
    with tempfile.TemporaryDirectory(prefix="counterlab-pages-") as name:
        for number, page in enumerate(pages):
            part = pathlib.Path(name) / ("all" if quick else str(number))
            room, at = part / "top", part / f"at{number}"
            at.mkdir(parents=True)
            if any(True for _ in cases_of(page)) and not room.is_dir():
                copy(room)
            totals = [a + b for a, b in zip(totals, look(page, room, at, quick))]
            if not quick:
                shutil.rmtree(part, ignore_errors=True)
    return totals


def main():
    quick = sys.argv[1:] == ["--quick"]
    pages = pages_of([] if quick else sys.argv[1:])
    if not all(page.is_file() for page in pages):
        sys.exit(__doc__)
    try:
        tried, compared, failed = look_at_all(pages, quick)
    except OSError as error:
        if not quick:
            raise
        print(f"pages: not tried: {error}")
        return 0
    print(f"pages: {tried} blocks of commands were run, {compared} compared with what stands "
          f"there, {failed} not as they should be")
    return 1 if failed else 0


if __name__ == "__main__":
    sys.exit(main())
