"""Growths of memory in a run: a library that is loaded before the C library counts them, and makes one of them fail."""

import os
import struct
import subprocess
import sys
from typing import NamedTuple

from bench.tools.programs import ROOT, path_of

# What the program says last on standard error where memory ran out: `serve` tells why its session ended.
STARVED = (b"memory ran out\n", b"closed Memory\n")


class Growths(NamedTuple):
    """How many growths a run tried to make, and of how many bytes together."""

    count: int
    bytes: int


def preloaded(folder, name):
    """Compiles a source of bench/library into a folder, as a library that a program loads before the C library. Its path comes back."""
    library = os.path.join(folder, f"{name}.so")
    subprocess.run(["cc", "-O1", "-shared", "-fPIC", "-o", library, os.path.join(ROOT, "bench", "library", f"{name}.c")], check=True)
    return library


def build(folder):
    """The library that counts growths."""
    return preloaded(folder, "counter")


def run(command, data, library, place):
    """One run in which this growth is refused, or none for 0: its status and output, and its growths."""
    reading, writing = os.pipe()
    os.dup2(writing, 9)
    os.close(writing)
    environment = dict(os.environ, LD_PRELOAD=library, REFUSED_GROWTH=str(place))
    ran = subprocess.run(command, input=data, capture_output=True, env=environment, pass_fds=[9], timeout=60)
    os.close(9)
    told = os.read(reading, 16)
    os.close(reading)
    # A run that was killed tells nothing.
    return ran, Growths(*struct.unpack("ll", told)) if told else Growths(place, 0)


def growths_of(program, library, data):
    """The growths of a run that comes to its end."""
    ran, met = run([program], data, library, 0)
    if ran.returncode != 0:
        sys.exit(f"the program ended with status {ran.returncode}, and told {ran.stdout!r}")
    return met


def is_refusal(ran, ample):
    """Whether a run ended with status 4 after a beginning of what it prints with ample memory."""
    return ran.returncode == 4 and ample.stdout.startswith(ran.stdout)


def is_told(ran, ample):
    """The same, and standard error says so."""
    return is_refusal(ran, ample) and ran.stderr.endswith(STARVED)


def is_same(ran, ample):
    """Whether a run ended as with ample memory."""
    return (ran.returncode, ran.stdout, ran.stderr) == (ample.returncode, ample.stdout, ample.stderr)


def in_turn(told, crate, words, data, library):
    """Refuses each growth of a run of a crate's program in turn, and returns how many runs ended otherwise than they should."""
    return refuse_each(told, [path_of(crate)] + words, data, library, is_told if crate == "cbrelay" else is_refusal)


def refuse_each(told, command, data, library, is_cut):
    """The same of any command. `is_cut` tells of a run and the one with ample memory whether the first ended well for want of memory."""
    ample = subprocess.run(command, input=data, capture_output=True)
    refused, spared, failures = 0, 0, 0
    place = 1
    while True:
        ran, growths = run(command, data, library, place)
        if growths.count < place:
            break
        if is_cut(ran, ample):
            refused += 1
        elif is_same(ran, ample):
            spared += 1
        else:
            failures += 1
            print(f"{told}: growth {place} refused: status {ran.returncode}, printed {ran.stdout!r}, {ran.stderr!r}")
        place += 1
    if not is_same(ran, ample):
        failures += 1
        print(f"{told}: another end with ample memory: status {ran.returncode}")
    print(f"{told}: {place - 1} growths refused in turn: {refused} ended the run, {spared} were done without, {failures} failures")
    return failures
