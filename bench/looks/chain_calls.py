#!/usr/bin/env python3
"""Plays generated headers and blocks into a chain, and compares what it answers with a plain chain in Python:
python3 bench/looks/chain_calls.py [COUNT] [SEED]

Without words 1,050 calls from seed 1, in a checked build of bench_chain, which also plays its stored runs. The plain chain
(bench/models/plain_chain.py) was written apart from the program, from the rules in docs/PROTOCOL.md: it keeps what came, and finds the
best chain and what is unspent anew after each call. Then the tip, the locator and what is drawn are compared, now and then all that
came. Half of the calls belong to a story: faults low down on branches that are met late, faulty blocks on the ends of side branches, and
branches that overtake each other. The same build copies chains, blocks and messages: with large transactions that may take at most 50 MB
more than with small ones, since a copy shares them.
"""

import sys
from collections import Counter
from pathlib import Path

sys.path.insert(0, str(Path(__file__).resolve().parents[2]))

from bench.tools.chain_copies import CHECKED, LARGE, ORIGINALS, SMALL, copied
from bench.tools.chain_drawing import ChainPlay
from bench.tools.programs import Case, run_checked, stored_cases, usage

# So many calls go to one chain.
CALLS = 350
# What a full run has.
COUNT = 3 * CALLS
# The bytes of memory that copies with large transactions may take beyond those with small ones: copies of these take 200 MB and more.
MORE = 50_000_000
# What a full run has to meet: each fault that a chain can tell, but want of memory and 1,000,000,000 blocks; a block that can't be
# connected beside the tip, and one below the block that is tried; and a reorganisation of many blocks.
FAULTS = {"F5 BadTx 4", "F5 BadTx 6", "F10 BadCoinbase", "F11 BadWork", "F13 Oversize", "F18 Known", "F19 NoInput",
          "F21 Overspent", "F22 Remade", "F23 NoParent", "F24 BadParent", "a fault beside the tip", "a fault below", "a deep reorganisation"}


def played(seed, calls):
    """A chain to which so many calls were made."""
    play = ChainPlay(seed)
    for number in range(calls):
        play.turn(number)
    return play


def copy_cases():
    """Copies of each original, by its place and the bytes of its transactions."""
    return {(original, size): Case(f"copy-{original}-{size}", copied(CHECKED, original, size).whole)
            for original in range(len(ORIGINALS)) for size in (LARGE, SMALL)}


def dear_copies(cases, ran):
    """Tells what copies take, and returns how many of them take more memory with large transactions."""
    dear = 0
    for original, name in enumerate(ORIGINALS):
        large, small = (ran[cases[original, size].name].memory for size in (LARGE, SMALL))
        is_dear = large - small > MORE
        dear += is_dear
        words = f": ABOVE {MORE / 1e6:,.0f} MB more" if is_dear else ""
        print(f"{CHECKED.copies:,} copies of {name}: {large / 1e6:,.1f} MB with transactions of {LARGE:,} bytes, {small / 1e6:,.1f} with some of {SMALL}{words}")
    return dear


def main():
    words = usage(__doc__, count="how many calls", seed="the first one's seed").parse_args()
    count, first = int(words.count or COUNT), int(words.seed or 1)
    seeds = range(first, first + -(-count // CALLS))
    plays = {f"seed-{seed}": played(seed, min(CALLS, count - (seed - first) * CALLS)) for seed in seeds}
    stored = stored_cases("bench_chain")
    of_copies = copy_cases()
    ran = run_checked("bench_chain", [*stored, *(Case(name, b"".join(play.records)) for name, play in plays.items()), *of_copies.values()])
    differences = [f"{it.name}: {ran[it.name].failure}" for it in [*stored, *of_copies.values()] if ran[it.name].failure]
    differences += [f"{name}: {it}" for name, play in plays.items() for it in play.differences(ran[name])]
    for difference in differences:
        print(difference)
    met = sum((play.ended for play in plays.values()), Counter())
    print(", ".join(f"{name} {times}" for name, times in sorted(met.items())))
    unmet = sorted(name for name in FAULTS if not met[name]) if count >= COUNT else []
    if unmet:
        print("never met:", ", ".join(unmet))
    deepest, answers = max(play.deepest for play in plays.values()), sum(len(play.wanted) for play in plays.values())
    print(f"{count} calls, {answers} answers, {deepest} blocks off in the deepest reorganisation, {len(stored)} stored runs")
    dear = dear_copies(of_copies, ran)
    print(f"{len(ran) - len(differences) - dear} passed, {len(differences) + len(unmet) + dear} failed")
    sys.exit(1 if differences or unmet or dear else 0)


if __name__ == "__main__":
    main()
