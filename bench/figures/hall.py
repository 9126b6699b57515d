#!/usr/bin/env python3
"""Measures the hall: questions at a short journal and at a long one, and the memory of long journals:
python3 bench/figures/hall.py [PROGRAM]

It needs the built program bench/programs/bench_hall/out/bench_hall (as ./build bench_hall leaves it) and python3, and takes some eight minutes.
Times are of the processor. What a call takes is the least time of some runs with it, less that of as many that only read it; calls whose
times are compared take turns. How much `openssl dgst -sha256` hashes in that time tells what the machine does. Memory is what a run has
at its greatest, less that of a run of no input.
"""

import struct
import sys
import tempfile
from pathlib import Path

sys.path.insert(0, str(Path(__file__).resolve().parents[2]))

from bench.models.plain_block import Block, paying, sized
from bench.tools.basics import GENESIS
from bench.tools.hall_play import asked, question_text, repeated
from bench.tools.made_blocks import NOBODY
from bench.tools.programs import built, usage
from bench.tools.records import record
from bench.tools.turns import RUNS, Play, Runs, adopt, seconds_of

# How long journals are, and how many transactions wait in the pool and stand in a block.
LOW, HIGH = 1_000, 900_000
WAITING, GIVEN = 10_000, 4_000
ADMITS, MINED = 5_000_000, 10
# How many entries a peer asks for, and how often, such that a long journal doesn't begin anew meanwhile.
FEW, MANY = (5_000, 30), (50_000, 3)
CALLS = 1_000_000
# How many transactions a small pool has, how many short ids are looked for in one, and how often: a match, and the list of its pairs.
FEW_WAITING, IDS, MATCHES, LISTS = 1_000, 100, 10_000, 2_000
TURNS, BLOCK_TURNS = 3 * RUNS, 8 * RUNS
ADMIT = asked("admit")


def admits(count):
    return repeated(count, *ADMIT)


def given(*question):
    return record(*asked(*question))


class Pools:
    """A block that makes coins for all, transactions that spend them, and a block of the first of them."""

    def __init__(self):
        coins = paying(0, [], [1] * (WAITING + GIVEN))
        self.low = Block(GENESIS, [coins])
        txs = [paying(place, [(coins.name, place)], [1]) for place in range(WAITING + GIVEN)]
        self.own, self.others = txs[:GIVEN], txs[GIVEN:]
        self.block = Block(self.low.header.name, [paying(1, [], [50])] + self.own)

    def ground(self, pool, length):
        """A hall with these in its pool, and a journal so long."""
        return (given("block", self.low, False) + b"".join(repeated(1, *asked("tx", tx)) for tx in pool) + record(b"p") + admits(length))


def at_lengths(ground_of, call, count):
    """The same call so many times at a short journal and at a long one: plays beside such as only read it."""
    return [Play(ground_of(length) + repeated(count, *call), ground_of(length) + repeated(0, *call)) for length in (LOW, HIGH)]


def tell_times(runs, names, plays, counts, turns=TURNS):
    """What a call takes at a short journal and at a long one."""
    took = seconds_of([(runs, play) for pair in plays for play in pair], turns)
    short = []
    for name, count, low, high in zip(names, counts, took[::2], took[1::2]):
        short.append(low / count)
        print(f"{name}: {low / count * 1e3:,.3f} ms, {high / low:.2f} times as long at a journal of {HIGH:,} entries as of {LOW:,}", flush=True)
    return short


def leaves(runs):
    took, = seconds_of([(runs, Play(admits(ADMITS), b""))], RUNS)
    print(f"leave to go on: {ADMITS / took:,.0f} a second, of which each 1,000,000th begins the journal anew")


def blocks(runs, pools):
    """A block of transactions over some pools. Behind a long journal what is written before takes much longer, so it takes more turns."""
    kinds = [("an empty pool", []), (f"a pool of {WAITING:,} others", pools.others), ("a pool of all of them", pools.own),
             (f"a pool of {WAITING:,} of which the block holds one", pools.own[:1] + pools.others[1:])]
    give = asked("block", pools.block, True)
    names = [f"a block of {GIVEN:,} transactions over {name}" for name, _ in kinds]
    plays = [at_lengths(lambda length, pool=pool: pools.ground(pool, length), give, 1) for _, pool in kinds]
    bare, *others = tell_times(runs, names, plays, [1] * len(kinds), BLOCK_TURNS)
    rate = runs.openssl()[1]
    for (name, _), took in zip(kinds[1:], others):
        more = took - bare
        print(f"  over {name} {more * 1e3:,.2f} ms more than over an empty one, in which openssl hashes {more * rate / 1e6:,.2f} MB", flush=True)


def mined(runs, pools):
    call = (b"m", b"\x07")
    plays = [at_lengths(lambda length: pools.ground(pools.others, length), call, MINED)]
    tell_times(runs, [f"a block made of a pool of {WAITING:,}"], plays, [MINED])


def lists(runs):
    """Entries that are wanted, and that are served: few and many of them."""
    block = sized(GENESIS, 200)
    for word, entry in (("want", lambda place: (1, struct.pack("<I", place) + bytes(28))), ("items", lambda _: (2, block.header.name))):
        plays, names = [], []
        for entries, count in (FEW, MANY):
            call = asked(word, [entry(place) for place in range(entries)])
            plays.append(at_lengths(lambda length: given("block", block, False) + admits(length), call, count))
            names.append(f"{'wanted' if word == 'want' else 'served of one block'}: {entries:,} entries")
        few, many = tell_times(runs, names, plays, [FEW[1], MANY[1]])
        print(f"  {many / few:.2f} times as long for {MANY[0] // FEW[0]} times as many")


def matched(runs, pools):
    """A match with a small pool and with a large one, and the list of its pairs, which is made without the hall."""
    calls = (("a match", asked("match", bytes(80), 1, list(range(IDS))), MATCHES), ("the list of its pairs", (b"v", b""), LISTS))
    plays, names = [], []
    for count in (FEW_WAITING, WAITING):
        ground = pools.ground(pools.others[:count], 0) + record(*calls[0][1])
        for name, call, times in calls:
            plays.append((runs, Play(ground + repeated(times, *call), ground + repeated(0, *call))))
            names.append((f"{name} with a pool of {count:,}", times))
    for (name, times), took in zip(names, seconds_of(plays, TURNS)):
        print(f"{name}: {took / times * 1e6:,.1f} µs", flush=True)


def served(runs):
    """The memory of an answer with one block many times, at a small block and at a large one."""
    for size in (200, 900_000):
        block = sized(GENESIS, size)
        call = asked("items", [(2, block.header.name)] * MANY[0])
        none, one = (runs.memory(given("block", block, False) + repeated(count, *call)) for count in (0, 1))
        print(f"served of a block of {size:,} bytes: {MANY[0]:,} entries take {(one - none) / 1e6:,.1f} MB")


def different_txs():
    """Records of a million transactions, each of another input that isn't there."""
    kind, text = question_text(("tx", paying(0, [(NOBODY, 0)], [1])))
    before, after = text[:5 + 32], text[5 + 36:]
    head = struct.pack("<I", 1) + kind + struct.pack("<HQ", 0, 1) + before
    return b"".join(record(b"x", head + struct.pack("<I", place) + after) for place in range(CALLS))


def memory(runs, pools):
    """What a million calls take."""
    same = given("block", pools.low, False) + repeated(CALLS, *asked("tx", pools.own[0]))
    for name, data in (("the same transaction", same), ("different transactions", different_txs()), ("leaves to go on", admits(CALLS))):
        print(f"memory of {CALLS:,} {name}: {runs.memory(data) / 1e6:,.0f} MB", flush=True)


def main():
    words = usage(__doc__, program="the program, if not bench/programs/bench_hall/out/bench_hall").parse_args()
    program = built(words.program, "bench_hall")
    adopt()
    pools = Pools()
    with tempfile.TemporaryDirectory() as folder:
        runs = Runs(program, folder)
        leaves(runs)
        blocks(runs, pools)
        mined(runs, pools)
        lists(runs)
        matched(runs, pools)
        served(runs)
        memory(runs, pools)


if __name__ == "__main__":
    main()
