"""Proving and building crates side by side, over the work that earlier checks kept, or over the libraries that the gate built.

The gate `rt ci` leaves its libraries in crates/NAME/out/rlib, unless it puts a session's own back there. They hold what others
can cite and no proofs, and `rt check` would build its own in their place, so `rattle check` is called over them.
"""

import fcntl
import functools
import os
import shutil
import sys
import time

from lanes import run_in_lanes
from progress import Progress, ended_so
from repository import MADE_OF, RT, kit


def keep_work(room, crate):
    """Moves what was proved and built in a room to the crate's own out/, where rt finds it."""
    if crate.ending:
        # it holds sources, and the gate refuses any outside of its crates
        shutil.rmtree(room / "out" / "rlib", ignore_errors=True)
    held = os.open(crate.folder, os.O_RDONLY)
    try:
        fcntl.flock(held, fcntl.LOCK_EX)
        if (crate.folder / "out").exists():
            shutil.move(crate.folder / "out", room / "out before")
        shutil.move(room / "out", crate.folder / "out")
    finally:
        os.close(held)


def is_of_gate(crate):
    """Whether the gate proved the crate's files as they are: what it built is younger. A session's own library has a stamp."""
    made = crate.folder / "out" / (crate.name if crate.is_program else f"rlib/{crate.name}.rlib")
    if not made.exists() or (made.parent / "stamp").exists():
        return False
    made_of = [it for part in MADE_OF for it in [crate.folder / part, *(crate.folder / part).rglob("*")] if it.exists()]
    return made.stat().st_mtime >= max(it.stat().st_mtime for it in made_of)


def stands_on_gate(repository, crate):
    """Whether a check of the crate can take all that it stands on from the gate."""
    return all(is_of_gate(it) for it in repository.below(crate) or [crate])


def check_over_gate(repository, crate, room, jobs, verb="check"):
    """Returns the command for a check of a crate in a room over the gate's libraries, or with "build" for one that compiles it too."""
    top, below = kit(), repository.below(crate)
    of_kit = ["std", *(it for it in crate.line.partition(":")[2].split("#")[0].split() if it not in repository.crates)]
    rlibs = {it.name: room.parent / it.name / "out" / "rlib" for it in below}
    words = [top / "bin" / "rattle", verb, "--crate-name", crate.name, "src/main.rt" if crate.is_program else "src/lib.rt"]
    words += ["--crate-type", "staticlib"] if crate.is_static else []
    words += [word for it in of_kit for word in ("--extern", f"{it}={top}/rlibs/{it}.rlib")]
    words += [word for it in crate.uses for word in ("--extern", f"{it}={rlibs[it]}/{it}.rlib")]
    words += [word for it in [top / "rlibs", *rlibs.values()] for word in ("-L", f"dependency={it}")]
    words += ["--antt-project", top / "rattle" / "logic" / "antt-project.json", "--logic-built", top / "logic_built"]
    words += ["--toolchain", top / "toolchain"] if verb == "build" else []
    return [*words, "--incremental", "out/incremental", "--jobs", str(jobs)]


def tell(*ended):
    """Says how the proof of a crate ended."""
    print(ended_so(*ended), file=sys.stderr, flush=True)


def prove_by(workshop, crate, command, done, made=None, to=None, tell=tell):
    """Runs a command in a room, `command(room)`, keeps the crate's work, and tells how its proof ended. Returns whether it is proved, as
    True or None.

    With `made` it is proved only if the command writes this file of out/, which is copied if somebody wants it.
    """
    began = time.monotonic()
    with workshop.room(crate) as room:
        (room / "out").mkdir(exist_ok=True)
        # what an earlier build left would pass for this one's, were the proof refused
        for old in (room / "out").glob(f"{made}*") if made else ():
            old.unlink()
        status, said = workshop.call(command(room), room)
        # the status of `rt run` is that of the program, which was linked if it was proved
        is_proved = (room / "out" / made).is_file() and (status == 0 or crate.is_program) if made else status == 0
        if is_proved and to:
            shutil.copyfile(room / "out" / made, to)
        keep_work(room, crate)
    tell(crate, is_proved and done, time.monotonic() - began, said)
    return is_proved or None


def prove_over_gate(workshop, crate, jobs):
    """Checks a crate over the gate's libraries."""
    command = functools.partial(check_over_gate, workshop.repository, crate, jobs=jobs)
    return prove_by(workshop, crate, command, "proved over the gate's libraries")


def prove(workshop, crate, jobs, tell=tell):
    """Proves and builds one crate over its libraries' kept work. A program is run on no input: what it prints is compared by the gate."""
    words = [*RT, "run" if crate.is_program else "lib", "--jobs", str(jobs)]
    return prove_by(workshop, crate, lambda _: words, "proved and built", crate.name if crate.is_program else None, tell=tell)


def prove_all(workshop, crates):
    """Proves and builds these crates and all that they stand on, side by side, and tells how far it is. Returns whether all are proved."""
    repository = workshop.repository
    every = repository.with_below(crates)
    with Progress(repository, every) as progress:

        def call(crate, jobs):
            progress.begin(crate)
            return prove(workshop, crate, jobs, progress.end)

        return all(run_in_lanes(repository, every, call, repository.below).values())
