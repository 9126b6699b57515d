#!/usr/bin/env python3
"""Measures what a hostile peer can cost, each as a ratio within one run: python3 bench/hostile.py [--limit N] [PROGRAM]

It needs the built program bench_hall (as ./build bench_hall leaves it) and python3, and takes some twenty seconds. What is measured is
told in bench/tools/hall_costs.py; bench/looks/hall_calls.py looks at the same in smaller sizes. Times are of the processor: the least
of some runs with a call, less that of as many that only read it. What is crafted and what isn't take turns.

The status is 1 where a ratio is above the limit, 5 if none is given. The states of a journal share blocks, transactions and the nodes of
headers: with the checkpoint's state headers may take 1.25 times as much memory at the most.
"""

import argparse
import sys
import tempfile
from pathlib import Path

sys.path.insert(0, str(Path(__file__).resolve().parents[1]))

from bench.tools.hall_costs import LIMIT, PROVED, all_rows, header_plays, told, told_memory
from bench.tools.programs import built
from bench.tools.turns import Runs, adopt, seconds_of

TURNS, LEAST = 5, 20e-3


def main():
    parser = argparse.ArgumentParser(description=__doc__, formatter_class=argparse.RawDescriptionHelpFormatter)
    parser.add_argument("--limit", type=float, default=LIMIT, help=f"the greatest ratio, if not {LIMIT}")
    parser.add_argument("program", nargs="?", help="the program, if not that of ./build bench_hall")
    words = parser.parse_args()
    adopt()
    rows = all_rows(PROVED)
    with tempfile.TemporaryDirectory() as folder:
        runs = Runs(built(words.program, "bench_hall"), folder)
        took = seconds_of([(runs, play) for row in rows for play in (row.hostile, row.plain)], TURNS)
        shares = told_memory(PROVED.headers, *(runs.memory(play) for play in header_plays(PROVED)))
    within = [told(row, hostile, plain, words.limit, LEAST) for row, hostile, plain in zip(rows, took[::2], took[1::2])]
    return 0 if shares and all(within) else 1


if __name__ == "__main__":
    sys.exit(main())
