"""The repository's crates for the scripts: which stand on which, and rooms to prove or run one in.

Some crates stand apart, and the gate doesn't prove them: the tests, and the programs of bench/. Such a crate is a folder with a file
`crate.txt`, its line as crates.txt would have it, and the parts of a crate, whose files have the ending `.in` besides, as `lib.rt.in`: the
gate refuses a source that none of its crates has. A room has them as the toolchain wants them.
"""

import contextlib
import functools
import hashlib
import os
import re
import shutil
import signal
import subprocess
import sys
import tempfile
from dataclasses import dataclass
from pathlib import Path

from cost import TICKS, fields_of, processes, spent

ROOT = Path(__file__).resolve().parent.parent
# The kit's figure for what a check takes, in bytes: for itself, for each line of the crate's sources, of its proofs, and of sources below.
MEMORY_OF_A_CHECK, OF_A_LINE, OF_A_LINE_OF_PROOFS, OF_A_LINE_BELOW = 1_000_000_000, 1_000_000, 200_000, 80_000
# About how many seconds of a processor a proof takes to read a module of a library, how many modules a function has, and what a line takes.
SECONDS_OF_A_MODULE, MODULES_OF_A_FUNCTION, SECONDS_OF_A_LINE = 0.003, 16, 0.22
FUNCTION = re.compile(rb"\bfn \w+")
# what a library is made of, and what else a crate has
MADE_OF = ("src", "specs", "proofs")
PARTS = (*MADE_OF, "stdin", "stdout", "args", "status", "data")
# the line and the ending of a crate that stands apart, and where these are
LINE, ENDING, APART = "crate.txt", ".in", ("bench/programs/*", "tests")
# the kit's command
RT = [sys.executable, str(Path(__file__).resolve().with_name("rt.py"))]
# how a command is run whose text is passed on
PIPED = {"stdin": subprocess.DEVNULL, "stdout": subprocess.PIPE, "stderr": subprocess.STDOUT, "text": True, "errors": "replace"}
# the variable that names another program to look at than the one that ./build leaves
ANOTHER = "CBRELAY"
# what stops a script
SIGNALS = (signal.SIGINT, signal.SIGTERM, signal.SIGHUP)


@dataclass(frozen=True)
class Crate:
    """A crate of the repository, with the names of the repository's libraries that it names."""

    name: str
    folder: Path
    line: str
    uses: tuple
    ending: str = ""

    @property
    def is_program(self):
        return (self.folder / "src" / f"main.rt{self.ending}").is_file()

    @property
    def is_static(self):
        """Whether it is a static library for C, on which no crate can stand."""
        return "staticlib" in self.line.partition(":")[0].split()[1:]

    def files(self, ending):
        """Returns the crate's files of sources, definitions and proofs with this ending."""
        return [it for part in MADE_OF for it in sorted((self.folder / part).rglob(f"*{ending}{self.ending}"))]

    @functools.cache  # noqa: B019
    def sum(self, parts=MADE_OF):
        """Returns a checksum of the crate's line and of its files in these folders."""
        made = hashlib.sha256(self.line.encode())
        for path in (it for part in parts for it in sorted((self.folder / part).rglob("*")) if it.is_file()):
            made.update(f"{path.relative_to(self.folder)}\n".encode() + hashlib.sha256(path.read_bytes()).digest())
        return made.hexdigest()

    def count_lines(self, ending):
        return sum(it.read_bytes().count(b"\n") for it in self.files(ending))

    def count_modules(self):
        """Returns about how many modules the prover makes of the crate: those of its functions, and one for each other file."""
        functions = sum(len(FUNCTION.findall(it.read_bytes())) for it in self.files(".rt"))
        return MODULES_OF_A_FUNCTION * functions + len(self.files(".antt"))

    def copy(self, to, work=None):
        """Writes the crate's files to a folder, and this part of what earlier checks kept."""

        def copy(source, target):
            shutil.copy2(source, str(target).removesuffix(self.ending))

        to.mkdir(parents=True)
        for part in (self.folder / it for it in PARTS):
            if part.is_dir():
                shutil.copytree(part, to / part.name, copy_function=copy)
            elif part.is_file():
                shutil.copy2(part, to)
        if work and (self.folder / work).is_dir():
            shutil.copytree(self.folder / work, to / work, copy_function=link)


@functools.cache
def kit():
    """Returns the folder of the Rattle kit."""
    path = shutil.which("rt")
    if not path:
        sys.exit("rt isn't on the PATH: a Rattle kit has it in bin/")
    return Path(path).resolve().parent.parent


def link(source, target):
    """Gives a file a second name; copies it where the file system can't. rt replaces such files and never writes into them."""
    try:
        os.link(source, target)
    except OSError:
        shutil.copy2(source, target)


def folder_of(program, top=ROOT):
    """Returns where a program stands below this folder: in bench/programs, or among the crates."""
    apart = Path(top, "bench", "programs", program)
    return apart if apart.is_dir() else Path(top, "crates", program)


def path_of(program, top=ROOT):
    """Returns where ./build leaves a program below this folder; of cbrelay here the one that the variable CBRELAY names, if it does."""
    another = program == "cbrelay" and Path(top) == ROOT and os.environ.get(ANOTHER)
    return Path(another) if another else folder_of(program, top) / "out" / program


class Repository:
    """The crates that crates.txt lists, and those that stand apart, by name."""

    def __init__(self, root):
        self.root, self.found_below = Path(root).resolve(), {}
        lines = [line.split("#")[0].strip() for line in (self.root / "crates.txt").read_text(encoding="utf-8").splitlines()]
        lines = {self.root / "crates" / line.partition(":")[0].split()[0]: line for line in lines if ":" in line}
        far = [it for pattern in APART for it in sorted(self.root.glob(f"{pattern}/{LINE}"))]
        far = {it.parent: it.read_text(encoding="utf-8").strip() for it in far}
        names = {it.name for it in (*lines, *far)}

        def crate(folder, line, ending):
            return Crate(folder.name, folder, line, tuple(it for it in line.partition(":")[2].split() if it in names), ending)

        self.crates = {folder.name: crate(folder, line, "") for folder, line in lines.items()}
        self.apart = {folder.name: crate(folder, line, ENDING) for folder, line in far.items()}

    def crate(self, name):
        return self.crates.get(name) or self.apart[name]

    def below(self, crate):
        """Returns the libraries that a crate stands on, each after those that it stands on itself."""
        if crate.name not in self.found_below:
            self.found_below[crate.name] = self.with_below(map(self.crate, crate.uses))
        return self.found_below[crate.name]

    def with_below(self, crates):
        """Returns these crates and all that they stand on, lowest first."""
        return [*dict.fromkeys(it for crate in crates for it in [*self.below(crate), crate])]

    def sum_of(self, crate, parts=MADE_OF):
        """Returns a checksum of the kit and of a crate with all that it stands on."""
        sums = [(kit() / "KIT-ID").read_text(encoding="utf-8"), *(it.sum(parts) for it in self.with_below([crate]))]
        return hashlib.sha256("\n".join(sums).encode()).hexdigest()[:16]

    def memory(self, crate):
        """Returns the figure in bytes that the kit has for a check of the whole crate. It takes less: scripts/lanes.py."""
        below = sum(it.count_lines(".rt") for it in self.below(crate))
        own = OF_A_LINE * crate.count_lines(".rt") + OF_A_LINE_OF_PROOFS * crate.count_lines(".antt")
        return MEMORY_OF_A_CHECK + own + OF_A_LINE_BELOW * below

    def reading(self):
        """Returns by crates' names for how many lines of its own it counts that a crate's proof reads the libraries below it."""
        modules = {it: it.count_modules() for it in (*self.crates.values(), *self.apart.values())}
        return {it.name: sum(modules[below] for below in self.below(it)) * SECONDS_OF_A_MODULE / SECONDS_OF_A_LINE for it in modules}

    @contextlib.contextmanager
    def room(self, crate, with_work=False, within=None):
        """Lends the folder of a copy of the crate, beside copies of what it stands on, with the work that earlier checks kept if so
        asked: all of the crate's own, and of those below what others read."""
        with tempfile.TemporaryDirectory(prefix=f"cbrelay-{crate.name}-", dir=within, ignore_cleanup_errors=True) as folder:
            top, crates = Path(folder), self.with_below([crate])
            (top / "crates.txt").write_text("".join(f"{it.line}\n" for it in crates), encoding="utf-8")
            shutil.copy2(self.root / "HANDLES", top)
            for it in crates:
                it.copy(top / "crates" / it.name, with_work and ("out" if it is crate else "out/rlib"))
            yield top / "crates" / crate.name


class Stopped(Exception):
    """The script is being stopped."""


class Workshop:
    """A folder of rooms that is gone, with all that runs in them, when the script ends or is stopped."""

    def __init__(self, repository):
        self.repository = repository
        self.running, self.is_open = set(), True

    def __enter__(self):
        self.folder = Path(tempfile.mkdtemp(prefix="cbrelay-"))
        for number in SIGNALS:
            signal.signal(number, self.stop)
        return self

    def __exit__(self, *_):
        self.close()
        shutil.rmtree(self.folder, ignore_errors=True)

    def stop(self, number, _):
        for it in SIGNALS:
            signal.signal(it, signal.SIG_IGN)
        self.close()
        sys.exit(128 + number)

    def close(self):
        """Ends all that runs, and lets nothing more begin."""
        self.is_open = False
        for process in list(self.running):
            with contextlib.suppress(ProcessLookupError):
                os.killpg(process.pid, signal.SIGKILL)

    def call(self, words, folder):
        """Runs a command to its end, and returns its status and what it printed."""
        if not self.is_open:
            raise Stopped
        with subprocess.Popen(words, cwd=folder, start_new_session=True, **PIPED) as process:
            self.running.add(process)
            said, _ = process.communicate()
            self.running.discard(process)
        if not self.is_open:
            raise Stopped
        return process.returncode, said

    def seconds(self):
        """Returns the processor seconds of all commands that this script has run, with those that are running."""
        sessions, found = {str(it.pid) for it in self.running}, [fields_of(it) for it in processes()]
        return spent() + sum(sum(map(int, it[11:15])) for it in found if it and it[3] in sessions) / TICKS

    def room(self, crate):
        """Lends a room of a crate, with the work that earlier checks kept."""
        return self.repository.room(crate, with_work=True, within=self.folder)
