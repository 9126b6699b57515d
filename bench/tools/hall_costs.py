"""Calls of a hall that may cost much, each beside one that doesn't: what a hostile peer can send, and what a hall must not copy.

- Entries: an `inv` of hashes that all collide in a table whose seed is known, beside as many that were drawn.
- Inputs: a transaction of inputs that all collide so, beside one of inputs that were drawn.
- Parents: a block on a header whose block isn't kept and that is as high as the tip, over a chain of many transactions, beside a block
  on an unknown parent. A second row has a block that is known to be bad, and a third one without work.
- Touched: blocks that take a small transaction each of a pool of large ones, beside blocks that take none.
- Shared: the memory of a large block that is served, or told as news, again and again, beside that of a small one. A checked build keeps
  memory for a while that was given back, so that copies show.
- Headers: the memory of headers in a hall, over all states that it keeps.
"""

import random
import struct
from typing import NamedTuple

from bench.models.plain_block import Block, Header, Tx, paying, sized
from bench.tools.basics import GENESIS, header_text
from bench.tools.hall_play import asked, repeated
from bench.tools.records import record
from bench.tools.turns import Play


class Sizes(NamedTuple):
    """How much there is of everything."""

    # the entries of an inventory, and the inputs of a transaction
    entries: int
    inputs: int
    # a chain of so many blocks with so many transactions each, and how often a refused block comes
    blocks: int
    txs: int
    refused: int
    # a pool of so many transactions with so many outputs each, and of so many small ones
    pooled: int
    outputs: int
    small: int
    # the bytes of a large block, and how often it is asked for
    large: int
    asked: int
    # headers
    headers: int


# For a proved program, and for a checked build, which takes many times as long.
PROVED = Sizes(50_000, 24_000, 20, 1_000, 40_000, 12, 20_000, 20, 900_000, 10_000, 40_000)
CHECKED = Sizes(30_000, 15_000, 4, 400, 1_000, 4, 8_000, 10, 200_000, 4_000, 6_000)
# The bytes of a small block, and how many headers one message holds.
SMALL, FULL = 200, 2_000
# How many times the memory headers may take with a further state that shares them: 1.08 as measured, 1.39 where each had its own.
SHARED = 1.25
# The greatest ratio of a row.
LIMIT = 5

# The table's hasher with no seed: its first state, and what it multiplies by at a write of eight bytes.
STATE, MULTIPLIER, WORD = 0x243F_6A88_85A3_08D3, 0x9E37_79B9_7F4A_7C15 ^ 16, 2**64 - 1


def mixed(state, word):
    """The hasher's state after a write of eight bytes."""
    product = (state ^ word) * MULTIPLIER
    return (product & WORD) ^ (product >> 64)


def crafted(rng):
    """A hash whose second eight bytes take back what the first made of the state: all such collide."""
    first = rng.getrandbits(64)
    return struct.pack("<QQQQ", first, mixed(STATE, first), 0, 0)


def drawn(rng):
    return rng.randbytes(32)


class Row(NamedTuple):
    """What a hostile call takes beside one that is not."""

    name: str
    hostile: Play
    plain: Play


def given(*question):
    return record(*asked(*question))


def beside(ground, call, count=1):
    """The call so many times behind a ground, beside the ground with the call read and not made."""
    return Play(ground + repeated(count, *call), ground + repeated(0, *call))


def entries(sizes, rng):
    """An inventory of hashes of transactions."""
    plays = [beside(b"", asked("want", [(1, make(rng)) for _ in range(sizes.entries)])) for make in (crafted, drawn)]
    return Row(f"an inventory of {sizes.entries:,} crafted hashes", *plays)


def inputs(sizes, rng):
    """A transaction of inputs that aren't there."""
    plays = [beside(b"", asked("tx", Tx([((make(rng), 0), b"") for _ in range(sizes.inputs)], [1]))) for make in (crafted, drawn)]
    return Row(f"a transaction of {sizes.inputs:,} crafted inputs", *plays)


def headers_up(count):
    """So many headers on the first block, one on the other."""
    headers, prev = [], GENESIS
    for place in range(count):
        headers.append(Header(header_text(prev, struct.pack("<I", place) + bytes(28))))
        prev = headers[-1].name
    return headers


class Chain:
    """A chain of many transactions, and headers alone from the first block up to its height."""

    def __init__(self, count, txs_of_each):
        coins = paying(0, [], [1] * (count * txs_of_each))
        blocks = [Block(GENESIS, [coins])]
        for height in range(count):
            txs = [paying(place, [(coins.name, height * txs_of_each + place)], [1]) for place in range(txs_of_each)]
            blocks.append(Block(blocks[-1].header.name, [paying(height + 1, [], [50])] + txs))
        self.tip = blocks[-1].header.name
        headers = headers_up(len(blocks))
        self.top = headers[-1].name
        self.records = b"".join(given("block", block, False) for block in blocks) + given("headers", headers)


def one_tx(mark, prev, works=True):
    """A block of a coinbase alone."""
    return Block(prev, [paying(mark, [], [50])], works)


def parents(sizes, rng):
    """Blocks that are refused by their headers."""
    chain = Chain(sizes.blocks, sizes.txs)
    bad = Block(chain.tip, [paying(1, [], [50]), paying(0, [(drawn(rng), 0)], [1])])
    ground = chain.records + given("block", bad, False)
    unknown = Play(ground + repeated(sizes.refused, *asked("block", one_tx(0, drawn(rng)), False)), ground)
    for name, block in (("a block on a header alone", one_tx(0, chain.top)), ("a block that is known to be bad", bad),
                        ("a block without work", one_tx(0, chain.tip, works=False))):
        hostile = Play(ground + repeated(sizes.refused, *asked("block", block, False)), ground)
        yield Row(f"{name} at the tip's height", hostile, unknown)


def touched(sizes):
    """Blocks that take one small transaction each beside a pool of large ones, or none."""
    count, outputs = sizes.pooled + sizes.small, sizes.outputs
    coins = paying(0, [], [outputs * count] * count)
    low = Block(GENESIS, [coins])
    pool = [paying(place, [(coins.name, place)], [1] * outputs) for place in range(sizes.pooled)]
    small = [paying(place, [(coins.name, place)], [1]) for place in range(sizes.pooled, count)]
    ground = given("block", low, False) + b"".join(given("tx", tx) for tx in [*pool, *small])
    plays = []
    for taken in ([[tx] for tx in small], [[]] * sizes.small):
        calls, tip = [], low.header.name
        for height, txs in enumerate(taken):
            block = Block(tip, [paying(height + 1, [], [50]), *txs])
            tip = block.header.name
            calls.append(asked("block", block, False))
        plays.append(Play(*(ground + b"".join(repeated(times, *call) for call in calls) for times in (1, 0))))
    return Row(f"{sizes.small} blocks that take one each of a pool of large ones with {sizes.pooled * outputs:,} outputs", *plays)


def shared(sizes):
    """A large block that is served, or told as news, and a small one: for each a name, and the records of both."""
    blocks = [sized(GENESIS, size) for size in (sizes.large, SMALL)]
    for name, question in (("served", lambda block: ("items", [(2, block.header.name)])), ("told as news", lambda _: ("news", GENESIS, 0, True))):
        yield name, *(given("block", it, True) + repeated(sizes.asked, *asked(*question(it))) for it in blocks)


def all_rows(sizes):
    """Each call that may cost much."""
    rng = random.Random(1)
    return [entries(sizes, rng), inputs(sizes, rng), *parents(sizes, rng), touched(sizes)]


def header_plays(sizes):
    """Headers alone, and with a checkpoint behind them."""
    headers = headers_up(sizes.headers)
    calls = b"".join(given("headers", headers[place:place + FULL]) for place in range(0, sizes.headers, FULL))
    return calls, calls + record(b"p")


def told(row, hostile, plain, limit, least):
    """Tells what a row takes in seconds, and whether it is within the limit. Less than `least` can't be told from noise, and counts as it."""
    ratio = max(hostile, least) / max(plain, least)
    within = ratio <= limit
    print(f"{row.name}: {hostile * 1e3:,.2f} ms for {plain * 1e3:,.2f}, {ratio:,.1f} times{'' if within else ': ABOVE ' + str(limit)}", flush=True)
    return within


def told_memory(count, alone, with_checkpoint):
    """Tells what headers take in bytes, before and after a checkpoint, and whether the checkpoint's state shares them."""
    for name, taken in zip(("", " and a checkpoint"), (alone, with_checkpoint)):
        print(f"{count:,} headers{name}: {taken / 1e6:,.1f} MB at the greatest, {taken / count:,.0f} bytes a header", flush=True)
    within = with_checkpoint <= SHARED * alone
    if not within:
        print(f"the checkpoint's state shares no headers: {with_checkpoint / alone:,.2f} times the memory, ABOVE {SHARED}", flush=True)
    return within
