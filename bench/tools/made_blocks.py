"""Blocks and transactions that no node made: mined ones with the subsidy, full ones, small ones no two of which are alike, and texts of a
size."""

import hashlib
import struct

from bench.models.plain_block import NULL_POINT, Block, MinedBlock, Tx, paying
from bench.tools.basics import GENESIS, compact_size, hash_twice, merkle_root

SUBSIDY = 5_000_000_000
# The mark of blocks that no node mined.
GIVEN = 200
# How many outputs a fan has, and how many transactions of which size a full block has.
OUTPUTS, TXS, SIZE = 4_000, 3_900, 250
# The hash of no block and no transaction.
NOBODY = bytes([9]) * 32


def coinbase(height, mark=GIVEN, outputs=(SUBSIDY,)):
    """The coinbase of a block that is mined at this height with this mark."""
    return Tx([(NULL_POINT, struct.pack("<I", height) + bytes([mark]))], list(outputs))


def mined(prev, height, mark=GIVEN, txs=(), outputs=(SUBSIDY,)):
    """A block as a node mines it."""
    return MinedBlock(prev, height, [coinbase(height, mark, outputs), *txs])


def raised(count, mark=GIVEN):
    """So many blocks one on another, each of a coinbase."""
    blocks = []
    for height in range(1, count + 1):
        blocks.append(mined(blocks[-1].header.name if blocks else GENESIS, height, mark))
    return blocks


def split(made, count, fee=0):
    """A transaction that spends the first output of another, and makes so many of it."""
    return Tx([((made.name, 0), b"")], [made.values[0] // count - fee] * count)


def spending(made, index, fee=1, size=None):
    """A transaction that spends one output of another but for a fee. It may have to have a size."""
    values = [made.values[index] - fee]
    bare = Tx([((made.name, index), b"")], values)
    return Tx([((made.name, index), bytes(size - len(bare.text)))], values) if size else bare


def fan(height, outputs=OUTPUTS):
    """A coinbase that pays to so many outputs."""
    return coinbase(height, GIVEN, [SUBSIDY // outputs] * outputs)


class FullChain:
    """Blocks of nearly 1 MB, each behind a block of a fan, whose outputs it spends."""

    def __init__(self, rounds, txs=TXS, outputs=OUTPUTS):
        self.fans, self.blocks, name = [], [], GENESIS
        for height in range(1, 2 * rounds, 2):
            self.fans.append(MinedBlock(name, height, [fan(height, outputs)]))
            spends = [spending(self.fans[-1].txs[0], index, size=SIZE) for index in range(txs)]
            self.blocks.append(MinedBlock(self.fans[-1].header.name, height + 1, [fan(height + 1, 1), *spends]))
            name = self.blocks[-1].header.name


class Marks:
    """Small blocks and transactions, no two of which are alike. Each output is 50."""

    def __init__(self):
        self.last = 0

    def take(self):
        self.last += 1
        return self.last

    def coinbase(self):
        return paying(self.take(), [], [50])

    def paid(self, *spent):
        """A transaction for each of these, whose first output it spends."""
        mark = self.take()
        return [paying(mark, [(tx.name, 0)], [50]) for tx in spent]

    def on(self, block, *spent):
        """A block on another, or on the first of all, with transactions that spend the first outputs of these."""
        return Block(block.header.name if block else GENESIS, [self.coinbase(), *self.paid(*spent)])

    def branch(self, block, count):
        """Blocks one on another, each of a coinbase."""
        blocks = [block]
        for _ in range(count):
            blocks.append(self.on(blocks[-1]))
        return blocks[1:]

    def faulty_on(self, block):
        """A block that can't be connected."""
        prev = block.header.name if block else GENESIS
        return Block(prev, [self.coinbase(), paying(self.take(), [(hash_twice(b"unknown"), 0)], [50])])


# ---- of a given size or number, with true roots and without work


def script(length):
    """A script of so many zeros behind its length."""
    return compact_size(length) + bytes(length)


def some_name(number):
    """A name for a transaction that isn't there."""
    return hashlib.sha256(struct.pack("<Q", number)).digest()


def transaction(spent, script_len, signed_len=0, outputs=1):
    """A transaction that spends the first output of another, with outputs whose scripts have this length: 60 bytes where it is 0."""
    made = (struct.pack("<q", 1) + script(script_len)) * outputs
    return struct.pack("<i", 1) + b"\x01" + spent + bytes(4) + script(signed_len) + b"\xff" * 4 + compact_size(outputs) + made + bytes(4)


class Sized:
    """A transaction of this size that spends the first output of another: its text and its name."""

    def __init__(self, spent, size):
        self.text = transaction(spent, size - 60 if size < 300 else size - 62)
        self.name = hash_twice(self.text)
        assert len(self.text) == size


def block_of(texts):
    """A block of these transactions, with its true root."""
    root = merkle_root([hash_twice(text) for text in texts])
    header = struct.pack("<i", 1) + bytes(32) + root + struct.pack("<III", 0, 0x207F_FFFF, 0)
    return header + compact_size(len(texts)) + b"".join(texts)


def block(count, script_len):
    """A block of so many transactions with one input and one output."""
    return block_of([transaction(some_name(number), script_len) for number in range(count)])


def bare_block(count):
    """A block of so many transactions of 10 bytes, which have no inputs and no outputs."""
    return block_of([struct.pack("<i", 1) + bytes(6)] * count)


def usual_block(count):
    """A block of so many transactions of 250 bytes: an input with signatures, and two outputs that pay to a hash."""
    return block_of([transaction(some_name(number), 25, 131, 2) for number in range(count)])
