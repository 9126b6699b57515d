#!/usr/bin/env python3
"""Counts the growths of memory that a hall and copies of a chain meet at small blocks and at large ones, and refuses each growth in turn:
python3 bench/looks/count_growth.py

It needs the built programs bench_hall and bench_chain (./build bench_hall bench_chain), a C compiler as `cc`, and python3, and takes some
seconds. A block of 200 bytes and one of 900,000, with as many transactions, are given to a hall, served and told as news: a call has to
meet as many growths of as many bytes for the one as for the other, so that the block is shared and never copied. So has a match with a
pool of one transaction and with one of a thousand, once the pool was matched with; and so has a copy of a chain, of a block, and of a message that
holds a block, of small transactions and of large ones (bench/looks/chain_calls.py looks at the memory of copies in a checked build).

Then each growth of a hall is refused in turn while three blocks take the place of two under a pool of ten, and the pool is matched with,
and while a block is put off whose transaction goes back to a pool, behind a checkpoint. A look before and after each call tells whether
anything changed: each run has to end as with ample memory, or with status 4. The status is 0 where all is so.
"""

import subprocess
import sys
import tempfile
from pathlib import Path

sys.path.insert(0, str(Path(__file__).resolve().parents[2]))

from bench.models.plain_block import Block, paying, sized
from bench.tools.basics import GENESIS
from bench.tools.chain_copies import COUNTED, ORIGINALS, SIZES, copied
from bench.tools.growth_rows import POOL, PUT_OFF, pool_put_off, put_off_later
from bench.tools.growths import Growths, build, growths_of, in_turn
from bench.tools.hall_play import HallPlay, asked, repeated
from bench.tools.made_blocks import Marks
from bench.tools.programs import built, difference, usage
from bench.tools.records import record

SMALL, LARGE, REPEATS = 200, 900_000, 10
# How many transactions a pool has that is matched with, and how many short ids are looked for.
ONE, THOUSAND, IDS = 1, 1_000, 100


def of_each_of(count, program, library, none, some):
    """The growths of each of so many, which one run has more than the other."""
    less, more = (growths_of(program, library, data) for data in (none, some))
    return Growths(*((high - low) / count for low, high in zip(less, more)))


def of_call(program, library, ground, call, repeats):
    """The growths that a call meets when it is made so many times: those of reading it are taken off."""
    return of_each_of(repeats, program, library, *(ground + repeated(count, *call) for count in (0, repeats)))


def differ(what, small, large, at):
    """Tells what is met at something small and at something large, and whether that differs."""
    print(f"{what} meets {small.count:g} growths of {small.bytes:,.0f} bytes at {at[0]}, and {large.count:g} of {large.bytes:,.0f} bytes at {at[1]}")
    return small != large


def of_each(program, library, size):
    """The growths of giving a block, of serving it and of news of it."""
    block = sized(GENESIS, size)
    give, name = asked("block", block, True), block.header.name
    yield of_call(program, library, b"", give, 1)
    for question in (("items", [(2, name), (4, name)]), ("news", GENESIS, 0, True)):
        yield of_call(program, library, record(*give), asked(*question), REPEATS)


def counted(program, library):
    """How many calls don't meet the same growths at a small and at a large block."""
    sizes, at = (of_each(program, library, size) for size in (SMALL, LARGE)), (f"a block of {SMALL} bytes", f"one of {LARGE:,}")
    return sum(differ(name, small, large, at) for name, small, large in zip(("giving a block", "serving it twice", "news of it"), *sizes))


def waiting(count, given):
    """So many transactions are given, of which so many wait: the others are given a second time."""
    block = Block(GENESIS, [paying(0, [], [50] * count)])
    txs = [paying(mark, [(block.txs[0].name, mark)], [50]) for mark in range(count)]
    return record(*asked("block", block, True)) + b"".join(record(*asked("tx", txs[place % count])) for place in range(given))


def matched(program, library):
    """Whether a match doesn't meet the same growths with a small and with a large pool."""
    match = asked("match", bytes(80), 1, list(range(IDS)))
    small, large = (of_call(program, library, waiting(count, THOUSAND) + record(*match), match, REPEATS) for count in (ONE, THOUSAND))
    return differ("a match", small, large, (f"a pool of {ONE}", f"one of {THOUSAND:,}"))


def copied_alike(program, library):
    """How many copies don't meet the same growths at small and at large transactions."""
    differing = 0
    for original, name in enumerate(ORIGINALS):
        plays = [copied(COUNTED, original, size) for size in SIZES]
        small, large = (of_each_of(COUNTED.copies, program, library, play.ground, play.whole) for play in plays)
        differing += differ(f"a copy of {name}", small, large, [f"transactions of {size:,} bytes" for size in SIZES])
    return differing


def reorganisation():
    """Three blocks take the place of two, whose transactions stand in front of a pool then, beside a look before and after the last."""
    play, (coins, pool, off, spent, others) = HallPlay(), pool_put_off(Marks())
    for block in coins:
        play.ask((0, 1), "block", block, True)
    for tx in pool:
        play.ask((1, 1), "tx", tx)
    for block in off:
        play.ask((0, 1), "block", block, True)
    for tx in spent:
        play.ask((2, 1), "tx", tx)
    for block in others[:-1]:
        play.ask((0, 1), "block", block, True)
    play.records.append(record(b"c"))
    play.ask((0, 1), "block", others[-1], True)
    assert len(play.hall.now.pool) == POOL + PUT_OFF and play.hall.now.height() == POOL + PUT_OFF + 1
    play.call("look")
    play.ask((1, 1), "news", None, 0, False)
    header = bytes(80)
    for place in (0, 1):
        play.ask((2, 1), "match", header, 7, [number for number, _ in play.hall.now.pairs(header, 7)[place:]])
    play.call("last_pairs")
    play.ask((2, 1), "places", others[-1].header.name, [0])
    return play


def behind_a_checkpoint():
    """A block takes a transaction from the pool. Behind a checkpoint two blocks put it off, and its transaction comes back."""
    play, (first, txs, second, others) = HallPlay(), put_off_later(Marks())
    play.records.append(record(b"c"))
    play.ask((0, 1), "block", first, True)
    for tx in txs:
        play.ask((1, 1), "tx", tx)
    play.ask((0, 1), "block", second, True)
    play.call("checkpoint")
    for block in others:
        play.ask((1, 1), "block", block, False)
    assert [tx.name for tx, _ in play.hall.now.pool] == [tx.name for tx in txs]
    play.call("look")
    play.call("counts")
    play.call("again")
    return play


def main():
    usage(__doc__).parse_args()
    hall, chain = built(None, "bench_hall"), built(None, "bench_chain")
    plays = {"three blocks for two under a pool of ten": reorganisation(), "a block put off behind a checkpoint": behind_a_checkpoint()}
    failures = 0
    for name, play in plays.items():
        case = play.case(name)
        ran = subprocess.run([hall], input=case.given, capture_output=True, timeout=100, check=False)
        if (ran.returncode, ran.stdout, ran.stderr) != (0, case.wanted, b""):
            failures += 1
            print(f"{name}: status {ran.returncode}, {ran.stderr!r}", difference("output", case.wanted, ran.stdout), sep="\n")
    with tempfile.TemporaryDirectory() as folder:
        library = build(folder)
        failures += counted(hall, library) + matched(hall, library) + copied_alike(chain, library)
        failures += sum(in_turn(name, "bench_hall", [], b"".join(play.records), library) for name, play in plays.items())
    return 1 if failures else 0


if __name__ == "__main__":
    sys.exit(main())
