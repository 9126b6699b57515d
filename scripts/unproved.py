#!/usr/bin/env python3
"""Programs that no proof precedes: scripts/unproved.py PROGRAM [PATH] prints where one is, and gives it that path too.

`rt try` compiles a program, with checks for bad accesses and overflows, runs it on inputs that it has read whole, and removes it. So the
program is taken as soon as it runs, and the many runs that were asked for are ended. It stays below out/unproved until one of other sources
takes its place.
"""

import contextlib
import fcntl
import functools
import os
import shutil
import signal
import subprocess
import sys
import tempfile
import time
from pathlib import Path

from cost import text_of
from lanes import free_memory
from repository import ROOT, RT, Repository, link

KEPT, SOURCES = ROOT / "out" / "unproved", "src"
# how many runs are asked for, how the kit names a program that it runs, and a word of a check beside it, which gives hints and takes as long
RUNS, NAMED, HINTS = 5_000, "program", "no function"
# how often a run is looked for, in seconds; how much is told where nothing is compiled
LOOK, SHOWN = 0.05, 3_000


class Uncompiled(Exception):
    """The program couldn't be compiled."""


def program(name, tell):
    """Returns the path of a program, which is compiled first if none is kept for its sources. `tell` is called with what is said then."""
    repository = Repository(ROOT)
    crate = repository.crate(name)
    path = KEPT / f"{name}-{repository.sum_of(crate, (SOURCES,))}" / name
    if path.exists():
        return path
    # so that the folders are removed where the script is stopped
    signal.signal(signal.SIGTERM, lambda number, _: sys.exit(128 + number))
    KEPT.mkdir(parents=True, exist_ok=True)
    with (KEPT / f"lock of {name}").open("w", encoding="utf-8") as lock:
        try:
            fcntl.flock(lock, fcntl.LOCK_EX | fcntl.LOCK_NB)
        except BlockingIOError:
            tell(f"waiting for another compilation of {name}")
            fcntl.flock(lock, fcntl.LOCK_EX)
        if not path.exists():
            compile_to(path, repository, crate, tell)
    return path


def compile_to(path, repository, crate, tell):
    """Compiles a program to a path, and removes those of other sources."""
    tell(f"compiling {crate.name}, without a proof: some minutes and up to 7 GB of memory, of which {free_memory() / 1e9:.1f} are free")
    with repository.room(crate) as room, tempfile.TemporaryDirectory(prefix="cbrelay-try-", ignore_cleanup_errors=True) as folder:
        log, cases, new = Path(folder, "said"), Path(folder, "cases"), KEPT / f"new {crate.name}"
        cases.mkdir()
        new.mkdir(exist_ok=True)
        for it in range(RUNS):
            (cases / str(it)).touch()
        with log.open("wb") as said:
            how = {"cwd": room, "env": {**os.environ, "TMPDIR": folder}, "stdin": subprocess.DEVNULL, "stdout": said, "stderr": said}
            with subprocess.Popen([*RT, "try", "--steps", "1", "--cases", cases], **how) as trying:
                try:
                    while not (is_taken := take(trying.pid, folder, new / crate.name)) and trying.poll() is None:
                        time.sleep(LOOK)
                finally:
                    trying.terminate()
        if not is_taken:
            raise Uncompiled(f"rt try doesn't compile {crate.name}:\n{log.read_text(encoding='utf-8', errors='replace')[-SHOWN:]}")
    for old in KEPT.glob(f"{crate.name}-*"):
        shutil.rmtree(old)
    new.rename(path.parent)


def children(process):
    """Returns the processes that a process started itself; none of one that has ended."""
    with contextlib.suppress(FileNotFoundError):
        return [it for task in Path(f"/proc/{process}/task").iterdir() for it in text_of(process, f"task/{task.name}/children").split()]
    return []


def take(above, folder, to):
    """Copies the program that runs below a process, from a folder. Returns whether there is one."""
    below = [above]
    for it in below:
        below += children(it)
    for it in below:
        words = text_of(it, "cmdline").split("\0")
        with contextlib.suppress(FileNotFoundError, ProcessLookupError):
            if HINTS in words:
                os.kill(int(it), signal.SIGKILL)
            for word in words:
                if word.startswith(f"{folder}/") and Path(word).name == NAMED:
                    shutil.copy(word, to)
                    return True
    return False


def main(words):
    repository = Repository(ROOT)
    if not words or words[0] not in {it.name for it in [*repository.crates.values(), *repository.apart.values()] if it.is_program}:
        sys.exit(__doc__.strip())
    try:
        made = program(words[0], functools.partial(print, file=sys.stderr))
    except Uncompiled as why:
        sys.exit(str(why))
    for it in words[1:]:
        link(made, it)
    print(made)


if __name__ == "__main__":
    main(sys.argv[1:])
