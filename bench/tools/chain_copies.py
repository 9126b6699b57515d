"""Copies of a chain, of a block and of a message that holds a block: each of large transactions beside one of small ones.

A copy shares the transactions, so that both cost the same. A checked build keeps memory for a while that was given back, so that copies
of transactions show.
"""

from typing import NamedTuple

from bench.models.plain_block import Block, paying
from bench.tools.basics import GENESIS
from bench.tools.made_blocks import Sized, block_of, some_name
from bench.tools.records import copies, record
from bench.tools.turns import Play

# The bytes of transactions.
SIZES = SMALL, LARGE = 60, 60_000


class Sizes(NamedTuple):
    """How many blocks the chain has, how many transactions the block has, and how many copies are made."""

    blocks: int
    transactions: int
    copies: int


COUNTED, CHECKED = Sizes(100, 10, 10), Sizes(5, 5, 1_000)
ORIGINALS = ("a chain", "a block", "a message that holds a block")


def chain_of(blocks, size):
    """The records of a chain whose blocks have a coinbase and a transaction of this size that spends the coinbase before."""
    records, prev, spending = [], GENESIS, []
    for mark in range(blocks):
        coinbase = paying(mark, [], [50])
        block = Block(prev, [coinbase] + spending)
        records.append(record(b"b", block.text))
        prev, spending = block.header.name, [Sized(coinbase.name, size)]
    return b"".join(records)


def copied(sizes, original, size):
    """Copies of what has transactions of this size, and as many as none of it."""
    ground = chain_of(sizes.blocks, size) if original == 0 else b""
    block = b"" if original == 0 else block_of([Sized(some_name(number), size).text for number in range(sizes.transactions)])
    return Play(*(ground + copies(original, count, block) for count in (sizes.copies, 0)))
