#!/usr/bin/env python3
"""Refuses each growth of memory in turn, and looks at how the built program ends: python3 bench/looks/refuse_growth.py [--programs]

It needs the program, a C compiler as `cc`, and python3, and takes some two minutes. A small library that is
loaded before the C library counts growths and makes the Nth fail; N goes up until a run makes fewer. Each run has to end with status 4
after a beginning of what it prints with ample memory, which standard error tells, or wholly as with ample memory, where it could do without
that growth.

With `--programs` the same is done to bench_chain, as ./build leaves it. Calls of a chain are made beside a copy there: one that lacked memory
has to leave the chain as it was, and is made again.
"""

import os
import sys
import tempfile
from pathlib import Path

sys.path.insert(0, str(Path(__file__).resolve().parents[2]))

from bench.tools.basics import header_text, pings, unknown
from bench.tools.chain_drawing import ChainPlay
from bench.tools.growth_rows import ROWS, overtaking, turning
from bench.tools.growths import build, in_turn
from bench.tools.made_blocks import Marks
from bench.tools.programs import ROOT, built, usage
from bench.tools.records import as_records, copies, record
from bench.tools.relay_rows import behind_a_checkpoint


def example(name):
    """The input of an example."""
    with open(os.path.join(ROOT, "examples", name), "rb") as file:
        return file.read()


def careful(low, others, more=b""):
    """The first blocks, and then the others, each beside a copy."""
    return as_records(low) + record(b"c") + as_records(others) + more


def careful_play():
    low, others = overtaking(Marks())
    return careful(low, others, record(b"h", header_text(others[-1].header.name, bytes(32))))


def copying_play():
    """Copies of a chain of three blocks, of a block that spends, and of a message that holds it."""
    marks = Marks()
    blocks = marks.branch(None, 2)
    blocks.append(marks.on(blocks[-1], blocks[0].txs[0]))
    return as_records(blocks) + copies(0, 1) + b"".join(copies(original, 1, blocks[-1].text) for original in (1, 2))


def told_play(count):
    """The records of the first calls, and of what is asked after them."""
    play = ChainPlay(1)
    for number in range(count):
        play.turn(number)
    return b"".join(play.records)


# What is run: a name, the program, its words, and its standard input.
RUNS = [
    ("decode first.hex", "cbrelay", ["decode"], example("first.hex")),
    ("decode not-hex.hex", "cbrelay", ["decode"], example("not-hex.hex")),
    ("decode other-network.hex", "cbrelay", ["decode"], example("other-network.hex")),
    ("decode faults.hex", "cbrelay", ["decode"], example("faults.hex")),
    ("serve mixed.bin", "cbrelay", ["serve"], example("mixed.bin")),
    ("decode blocks.hex", "cbrelay", ["decode"], example("blocks.hex")),
    ("serve blocks.bin", "cbrelay", ["serve"], example("blocks.bin")),
    ("serve conversation.bin", "cbrelay", ["serve"], example("conversation.bin")),
    ("serve relay.bin", "cbrelay", ["serve"], example("relay.bin")),
    ("serve, a checkpoint between a compact block and what it lacks", "cbrelay", ["serve"], behind_a_checkpoint().said()),
    ("serve, a checkpoint between three large messages and a ping", "cbrelay", ["serve"], unknown(3) + pings(1)),
    ("sim crew.txt", "cbrelay", ["sim"], example("crew.txt")),
    ("sim connections.txt", "cbrelay", ["sim"], example("connections.txt")),
    *((f"serve, {row.name}", "cbrelay", ["serve"], row.said()) for row in (row() for row in ROWS)),
]
RUNS_OF_PROGRAMS = [
    ("chain, a block at the tip and three blocks for two", "bench_chain", [], careful_play()),
    ("chain, faults on a side branch, and turns to it and back", "bench_chain", [], careful(*turning(Marks())[:2])),
    ("chain, calls that are told and questions", "bench_chain", [], told_play(10)),
    ("chain, copies of it, of a block and of a message", "bench_chain", [], copying_play()),
]


def main():
    reader = usage(__doc__)
    reader.add_argument("--programs", action="store_true", help="refuse growths of the programs of bench/ instead")
    runs = RUNS_OF_PROGRAMS if reader.parse_args().programs else RUNS
    for crate in sorted({crate for _, crate, _, _ in runs}):
        built(None, crate)
    with tempfile.TemporaryDirectory() as folder:
        library = build(folder)
        failures = sum(in_turn(*what, library) for what in runs)
    sys.exit(1 if failures else 0)


if __name__ == "__main__":
    main()
