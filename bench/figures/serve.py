#!/usr/bin/env python3
"""Measures `cbrelay serve` as a peer meets it: headers, blocks in and out, pings, and memory while a gigabyte goes through:
python3 bench/figures/serve.py [PROGRAM] [BEFORE]

It needs the program, openssl, python3 and Linux, some 3 GB of disk in the
folder for temporary files, and takes some minutes. Times are of the processor, the least of some turns, behind a run of the same
beginning without what is measured. Blocks are compared with one pass of `openssl dgst -sha256` over as many bytes, which takes its
turns with them. Memory is what a run has at its greatest beyond a run of the same beginning. With a second program, one of before,
pings are served by both in turns.
"""

import os
import sys
import tempfile
from pathlib import Path

sys.path.insert(0, str(Path(__file__).resolve().parents[2]))

from bench.models import plain_wire as wire
from bench.models.plain_block import MinedBlock, Tx, paying
from bench.tools.basics import GENESIS, pings, unknown
from bench.tools.plain_peer import HELLO
from bench.tools.programs import built, usage
from bench.tools.turns import Bench, adopt, ended, in_turns

HEADERS, A_MESSAGE = 100_000, 2_000
# Blocks of so many transactions of 250 bytes, and how many of them go in; how often these are asked for.
TXS, BLOCKS, ASKED = 3_990, 30, 10
PADDING = bytes([0x51]) * 182
PINGS = 200_000
GIGABYTE = 1_000_000_000
SECONDS = 10


class Chained:
    """Blocks one on another: the first makes coins, and each transaction of the others spends what one of the block before made."""

    def __init__(self):
        coins = paying(1, [], [1_000] * TXS)
        self.first = MinedBlock(GENESIS, 1, [coins])
        self.large, points = [], [(coins.name, place) for place in range(TXS)]
        prev = self.first
        for height in range(2, BLOCKS + 2):
            txs = [Tx([(point, bytes(8))], [1_000], PADDING) for point in points]
            points = [(tx.name, 0) for tx in txs]
            prev = MinedBlock(prev.header.name, height, [paying(height, [], [1_000]), *txs])
            self.large.append(prev)


def lone(prev, height, size):
    """A block whose coinbase alone has about this many bytes."""
    return MinedBlock(prev, height, [paying(height, [], [1_000], bytes(size))])


def given(blocks):
    return b"".join(wire.block(block.text) for block in blocks)


def header_messages(count):
    texts, prev = [], GENESIS
    for height in range(1, count + 1):
        header = MinedBlock(prev, height, [paying(height, [], [1_000])]).header
        texts.append(header.text)
        prev = header.name
    return b"".join(wire.headers(texts[start : start + A_MESSAGE]) for start in range(0, count, A_MESSAGE))



class Serving(Bench):
    """Conversations with the program, and with one of before."""

    def __init__(self, program, before, folder):
        super().__init__(program, folder, "serve")
        self.before, (_, self.rate) = before, self.openssl(SECONDS)
        print(f"openssl dgst -sha256: {self.rate / 1e6:.0f} MB a second")

    def costs(self, ground, *more):
        """Seconds and memory of a conversation that goes on so behind its beginning."""
        bare, whole = self.write("bare", ground), self.write("whole", ground, *more)
        ended(self.command, whole, 0)
        less, all_of_it = in_turns((self.command, bare), (self.command, whole), seconds=SECONDS)
        os.truncate(whole, 0)
        return all_of_it.seconds - less.seconds, all_of_it.memory - less.memory

    def times_openssl(self, name, size, ground, *more):
        took, _ = self.costs(ground, *more)
        print(f"{name}: {size / took / 1e6:.0f} MB a second, {took * self.rate / size:.1f} times openssl's one pass", flush=True)

    def memory(self, name, ground, part):
        """What a tenth of a gigabyte takes, and all of it."""
        tenth = GIGABYTE // len(part) // 10
        some, most = (self.costs(ground, *[part] * count)[1] for count in (tenth, 10 * tenth))
        print(f"memory, {name}: {some / 1e6:.0f} MB behind 100 MB, {most / 1e6:.0f} MB behind 1 GB", flush=True)


def speeds(bench, chained):
    took, _ = bench.costs(HELLO, header_messages(HEADERS))
    print(f"headers, {A_MESSAGE:,} a message: {HEADERS / took:,.0f} a second", flush=True)
    ground, large = HELLO + given([chained.first]), given(chained.large)
    bench.times_openssl(f"blocks in, {TXS:,} transactions of 250 bytes each", len(large), ground, large)
    few, prev = [], GENESIS
    for height in range(1, BLOCKS + 1):
        few.append(lone(prev, height, 999_000))
        prev = few[-1].header.name
    bench.times_openssl("blocks in, of one transaction each", len(given(few)), HELLO, given(few))
    for name, blocks, ground in (("of 250 bytes each", chained.large, ground), ("alone", few, HELLO)):
        asking = wire.entries(b"getdata", [(2, block.header.name) for block in blocks])
        size = ASKED * len(given(blocks))
        bench.times_openssl(f"blocks out, transactions {name}", size, ground + given(blocks), asking * ASKED)


def ping_times(bench):
    took, _ = bench.costs(b"", pings(PINGS))
    print(f"pings before the handshake: {PINGS / took:,.0f} a second, {took * bench.rate / (32 * PINGS):.0f} times openssl's one pass")
    took, _ = bench.costs(HELLO, pings(PINGS))
    print(f"pings behind it: {PINGS / took:,.0f} a second", flush=True)
    if bench.before:
        path = bench.write("whole", pings(PINGS))
        now, then = in_turns((bench.command, path), ([bench.before, "serve"], path), seconds=4 * SECONDS)
        print(f"pings before the handshake: {now.seconds / then.seconds:.2f} times as long as with the program of before")


def main():
    words = usage(__doc__, program="the program, if not that of ./build", before="a program of before").parse_args()
    program = built(words.program, "cbrelay")
    adopt()
    chained = Chained()
    with tempfile.TemporaryDirectory() as folder:
        bench = Serving(program, words.before and built(words.before, "cbrelay"), folder)
        ping_times(bench)
        speeds(bench, chained)
        ground = HELLO + given([chained.first])
        bench.memory("a block again and again", ground, given(chained.large[:1]))
        bench.memory("a command that isn't known", HELLO, unknown(1))
        asking = wire.entries(b"getdata", [(2, chained.large[0].header.name)])
        some, most = (bench.costs(ground + given(chained.large[:1]), asking * count)[1] for count in (100, 1_000))
        print(f"memory, a block asked for: {some / 1e6:.0f} MB behind 100 MB that went out, {most / 1e6:.0f} MB behind 1 GB")


if __name__ == "__main__":
    sys.exit(main())
