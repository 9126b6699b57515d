#!/usr/bin/env python3
"""Runs the built programs on stored inputs and compares what they print: scripts/stored_runs.py [WORD ..]

runs/PROGRAM/NAME.run is a run of crates/PROGRAM/out/PROGRAM, or of bench/programs/PROGRAM/out/PROGRAM. Runs of the latter are left
to looks, which make them in a checked build, unless a WORD has PROGRAM. docs/TESTING.md tells what the lines of such a file mean.

A file of examples/ is the input of crates/cbrelay/out/cbrelay, NAME.stdout beside it what it prints, NAME.args its words and
NAME.status its status. The variable CBRELAY names another program than that. With WORD only those whose path has one of the words
are run. The status is 0 where all came out so.
"""

import difflib
import hashlib
import struct
import subprocess
import sys
from concurrent.futures import ThreadPoolExecutor
from dataclasses import dataclass, field

from repository import ROOT, Repository, path_of

PROGRAM, APART = "cbrelay", Repository(ROOT).apart
MAGIC = bytes.fromhex("fabfb5da")
SECONDS = 300
# what lies beside an example's input
BESIDE = (".stdout", ".args", ".status")


class BadRun(Exception):
    """A stored run that can't be read."""


@dataclass
class Run:
    """A run: a program, what it is given, and what it must do."""

    name: str
    program: str
    args: list = field(default_factory=list)
    status: int = 0
    given: bytes = b""
    printed: bytes = b""
    told: bytes | None = None

    def failure(self):
        """Runs it, and returns what differs, or None."""
        binary = path_of(self.program)
        try:
            ended = subprocess.run([binary, *self.args], input=self.given, capture_output=True, timeout=SECONDS, check=False)
        except FileNotFoundError:
            return f"there is no {binary}: ./build {self.program}"
        except subprocess.TimeoutExpired:
            return f"it took more than {SECONDS} s"
        pairs = [("standard output", self.printed, ended.stdout), ("standard error", self.told, ended.stderr)]
        found = [difference(name, wanted, got) for name, wanted, got in pairs if wanted is not None and wanted != got]
        if ended.returncode != self.status:
            found.append(f"status {ended.returncode}, not {self.status}")
        return "\n".join(found) or None


def difference(name, wanted, got):
    """Tells how two outputs differ, line by line, as text or, where one isn't text, as hex."""
    try:
        texts = [it.decode().splitlines() for it in (wanted, got)]
    except UnicodeDecodeError:
        texts = [[it.hex()[place : place + 64] for place in range(0, 2 * len(it), 64)] for it in (wanted, got)]
    return "\n".join(difflib.unified_diff(*texts, f"{name}, as stored", f"{name}, now", lineterm="", n=1))


def envelope(text):
    """Returns the bytes of a message: a command's name and a payload in hex, with the right checksum."""
    name, _, payload = text.partition(" ")
    data = bytes.fromhex(payload)
    checksum = hashlib.sha256(hashlib.sha256(data).digest()).digest()[:4]
    return MAGIC + name.encode().ljust(12, b"\0") + struct.pack("<I", len(data)) + checksum + data


FORMS = {
    "text": lambda text: f"{text}\n".encode(),
    "hex": bytes.fromhex,
    "messages": lambda text: f"{envelope(text).hex()}\n".encode(),
    "envelopes": envelope,
}


def read_run(path):
    """Reads a .run file."""
    run, forms = Run(str(path.relative_to(ROOT)), path.parent.name), {"input": "text", "output": "text"}
    for number, line in enumerate(path.read_text(encoding="utf-8").splitlines(), 1):
        head, _, rest = line.partition(" ")
        try:
            if head == "<":
                run.given += FORMS[forms["input"]](rest)
            elif head == ">":
                run.printed += FORMS[forms["output"]](rest)
            elif head == "!":
                run.told = (run.told or b"") + FORMS["text"](rest)
            elif head in forms and rest in FORMS:
                forms[head] = rest
            elif head == "args":
                run.args = rest.split()
            elif head == "status":
                run.status = int(rest)
            elif head and not head.startswith("#"):
                raise ValueError(f"no line begins with {head}")
        except ValueError as error:
            raise BadRun(f"{run.name}:{number}: {error}") from None
    return run


def read_example(path):
    """Reads a file of examples/ with what lies beside it."""

    def beside(ending, default):
        file = path.with_name(path.name + ending)
        return file.read_bytes() if file.is_file() else default

    words = beside(".args", b"").decode().split()
    return Run(str(path.relative_to(ROOT)), PROGRAM, words, int(beside(".status", b"0")), path.read_bytes(), beside(".stdout", b""))


def is_chosen(run, words):
    """Whether a run is made where these words are given."""
    if run.program in APART:
        return any(run.program in word and word in run.name for word in words)
    return not words or any(word in run.name for word in words)


def main(words):
    if {"-h", "--help"} & set(words):
        print(__doc__.strip())
        return 0
    try:
        runs = [read_run(path) for path in sorted((ROOT / "runs").glob("*/*.run"))]
    except BadRun as error:
        print(error)
        return 1
    runs += [read_example(path) for path in sorted((ROOT / "examples").iterdir()) if path.is_file() and path.suffix not in BESIDE]
    chosen = [it for it in runs if is_chosen(it, words)]
    with ThreadPoolExecutor() as pool:
        failures = [(run, failure) for run, failure in zip(chosen, pool.map(Run.failure, chosen)) if failure]
    for run, failure in failures:
        print(f"{run.name}: FAILED\n{failure}")
    print(f"{len(chosen) - len(failures)} stored runs came out as they should, {len(failures)} did not")
    return 1 if failures or not chosen else 0


if __name__ == "__main__":
    sys.exit(main(sys.argv[1:]))
