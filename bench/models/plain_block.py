"""Plain transactions, headers and blocks, and the rules that each keeps by itself, by docs/PROTOCOL.md.

They were written apart from the program.
"""

import struct

from bench.tools.basics import compact_size, has_work, hash_twice, header_text, merkle_root

MOST_MONEY = 2_100_000_000_000_000
NULL_POINT = (bytes(32), 0xFFFF_FFFF)
GENESIS_TIME = 1_296_688_602


class Tx:
    """A transaction of any inputs, each a point and a script, and any values: its text, its name, and what it spends. A coinbase spends
    nothing."""

    def __init__(self, inputs, values, script=b"\x51"):
        self.inputs, self.values = inputs, values
        self.spent = [] if self.is_coinbase() else [point for point, _ in inputs]
        made = b"".join(struct.pack("<q", value) + compact_size(len(script)) + script for value in values)
        spent = b"".join(point[0] + struct.pack("<I", point[1]) + compact_size(len(text)) + text + b"\xff" * 4 for point, text in inputs)
        self.text = struct.pack("<i", 1) + compact_size(len(inputs)) + spent + compact_size(len(values)) + made + bytes(4)
        self.name = hash_twice(self.text)

    def is_coinbase(self):
        return [point for point, _ in self.inputs] == [NULL_POINT]

    def points(self):
        return [(self.name, index) for index in range(len(self.values))]

    def broken_rule(self):
        points = [point for point, _ in self.inputs]
        if not points:
            return 1
        if not self.values:
            return 2
        if len(self.text) > 1_000_000:
            return 3
        if any(not 0 <= value <= MOST_MONEY for value in self.values):
            return 4
        if sum(self.values) > MOST_MONEY:
            return 5
        if len(set(points)) < len(points):
            return 6
        if self.is_coinbase():
            return None if 2 <= len(self.inputs[0][1]) <= 100 else 7
        return 8 if NULL_POINT in points else None


def paying(mark, spent, values, script=b"\x51"):
    """A transaction that spends these points, told from others by its mark; a coinbase where there are none."""
    return Tx([(point, struct.pack("<I", mark)) for point in spent or [NULL_POINT]], values, script)


class Header:
    def __init__(self, text):
        self.text, self.prev, self.name, self.works = text, text[4:36], hash_twice(text), has_work(text)


class Block:
    def __init__(self, prev, txs, works=True):
        self.txs = txs
        self.header = Header(header_text(prev, merkle_root([tx.name for tx in txs]), works))
        self.text = self.header.text + compact_size(len(txs)) + b"".join(tx.text for tx in txs)

    def fault(self):
        """What the rules of a block by itself tell."""
        if len(self.text) > 1_000_000:
            return "F13 Oversize"
        if [tx.is_coinbase() for tx in self.txs] != [True] + [False] * (len(self.txs) - 1):
            return "F10 BadCoinbase"
        for tx in self.txs:
            if tx.broken_rule():
                return f"F5 BadTx {tx.broken_rule()}"
        return None


class MinedBlock(Block):
    """A block with the time of its height and the least nonce that serves."""

    def __init__(self, prev, height, txs):
        self.txs = txs
        root, nonce, text = merkle_root([tx.name for tx in txs]), 0, b""
        while not text or not has_work(text):
            text = struct.pack("<i", 1) + prev + root + struct.pack("<III", GENESIS_TIME + height, 0x207F_FFFF, nonce)
            nonce += 1
        self.header = Header(text)
        self.text = self.header.text + compact_size(len(txs)) + b"".join(tx.text for tx in txs)


def sized(prev, size):
    """A block of a coinbase whose text has this size."""
    def made(script):
        return Block(prev, [Tx([(NULL_POINT, bytes(4))], [50], bytes(script))])

    rest = size - len(made(0).text)
    # The script's length takes one byte, or five.
    block = made(rest if rest < 253 else rest - 4)
    assert len(block.text) == size
    return block
