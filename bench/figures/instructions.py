#!/usr/bin/env python3
"""Counts the instructions of `cbrelay serve` for what a peer sends, and in which functions a ping takes them:
python3 bench/figures/instructions.py [PROGRAM] [BEFORE]

It needs the program, valgrind, python3 and Linux, and takes a minute or two.
Instructions are as valgrind's callgrind counts them, so other work on the machine changes nothing. Each figure is that of a conversation
less that of one with half as many of what is counted, for each of the other half. A function's share is what it takes itself, without
what it calls; the compiler puts many functions into their callers. With a second program, one of before, both are counted.
"""

import os
import re
import subprocess
import sys
import tempfile
from collections import Counter
from pathlib import Path

sys.path.insert(0, str(Path(__file__).resolve().parents[2]))

from bench.figures.relay import Fan
from bench.figures.serve import A_MESSAGE, Chained, given, header_messages
from bench.tools.basics import envelope, pings
from bench.tools.plain_peer import HELLO
from bench.tools.programs import built, usage
from bench.tools.turns import Bench

# How many of each are counted, beyond as many before them.
PINGS, MESSAGES, TXS, BLOCKS = 2_048, 2, 1_000, 1
# Functions that take less than this share of a ping aren't told.
LEAST = 0.005
POSITION = re.compile(r"[-+*0-9]")
NAMED = re.compile(r"\((\d+)\)(?: (.*))?")


def by_function(lines):
    """What each function takes itself, from what callgrind wrote."""
    names, taken, function, called = {}, Counter(), None, False
    for line in lines:
        line = line.rstrip("\n")
        if line.startswith("fn="):
            number, name = NAMED.fullmatch(line[3:]).groups()
            function = names.setdefault(number, name or number)
        elif line.startswith(("cfn=", "cfi=", "cfl=")):
            number, name = NAMED.fullmatch(line[4:]).groups()
            if line.startswith("cfn="):
                names.setdefault(number, name or number)
        elif line.startswith("calls="):
            called = True
        elif function and POSITION.match(line):
            if not called:
                taken[function] += int(line.split()[1])
            called = False
    return taken


class Counted(Bench):
    """Runs of a program in valgrind, over files in a folder."""

    def taken(self, data):
        """The instructions that each function takes while it serves these bytes."""
        path, out = self.write("said", data), os.path.join(self.folder, "counted")
        words = ["valgrind", "--tool=callgrind", f"--callgrind-out-file={out}", *self.command]
        with open(path, "rb") as source:
            ran = subprocess.run(words, stdin=source, stdout=subprocess.DEVNULL, stderr=subprocess.PIPE, text=True)
        if ran.returncode != 0:
            sys.exit(f"{' '.join(words)} ended with status {ran.returncode}: {ran.stderr}")
        with open(out, encoding="utf-8", errors="replace") as file:
            return by_function(file)

    def of_each(self, count, less, more):
        """The instructions of each of so many that one conversation has more than the other, by function."""
        before, behind = self.taken(less), self.taken(more)
        return {name: (number - before[name]) / count for name, number in behind.items() if number != before[name]}


def conversations():
    """What is counted: a name, how many more of it the second conversation has, and both."""
    yield "a ping before the handshake", PINGS, pings(PINGS), pings(2 * PINGS)
    yield "a ping in Ready", PINGS, HELLO + pings(PINGS), HELLO + pings(2 * PINGS)
    headers = MESSAGES * A_MESSAGE
    yield f"a header, {A_MESSAGE:,} a message", headers, HELLO + header_messages(headers), HELLO + header_messages(2 * headers)
    fan = Fan(2 * TXS, 250)
    ground = HELLO + given([fan.first])
    texts = [envelope(b"tx", tx.text) for tx in fan.txs]
    yield "a transaction of 250 bytes for the mempool", TXS, ground + b"".join(texts[:TXS]), ground + b"".join(texts)
    chained = Chained()
    ground, large = HELLO + given([chained.first]), chained.large[: 2 * BLOCKS]
    yield "a block of 3,990 transactions of 250 bytes", BLOCKS, ground + given(large[:BLOCKS]), ground + given(large)


def split(name, counted):
    """The functions that take most of it, one a line."""
    whole = sum(counted.values())
    print(f"{name}, by function:")
    for function, number in sorted(counted.items(), key=lambda pair: -pair[1]):
        if number >= LEAST * whole:
            print(f"  {number:9,.0f}  {100 * number / whole:4.1f} %  {function}")


def main():
    words = usage(__doc__, program="the program, if not that of ./build", before="a program of before").parse_args()
    programs = [built(words.program, "cbrelay")] + [built(path, "cbrelay") for path in [words.before] if path]
    splits = []
    with tempfile.TemporaryDirectory() as folder:
        for name, count, less, more in conversations():
            each = [Counted(program, folder, "serve").of_each(count, less, more) for program in programs]
            print(f"{name}: " + ", before: ".join(f"{sum(counted.values()):,.0f} instructions" for counted in each), flush=True)
            splits += [(name, each[0])] * ("ping" in name)
    for name, counted in splits:
        split(name, counted)


if __name__ == "__main__":
    sys.exit(main())
