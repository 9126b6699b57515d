#!/usr/bin/env python3
"""Measures compact blocks as a peer of `cbrelay serve` meets them: a block that comes so, beside the same block in full, compact blocks
that go out, and memory while many are never completed: python3 bench/figures/relay.py [PROGRAM] [--plain]

It needs the program, valgrind, a C compiler as `cc`, python3 and Linux, some
200 MB of disk in the folder for temporary files, and takes less than two minutes. A conversation is one input. Each figure is that of a
conversation less that of the same one without what is measured: instructions as valgrind's callgrind counts them, milliseconds of the
processor, the least of some turns, and allocations. Bytes in and out are whole messages. A compact block that goes out is asked for where
the other conversation has an entry that is passed over, so its figure is that of the answer alone. Memory is what a run has at its greatest
beyond a run of the same beginning.

First all answers are compared, byte by byte, with what the rules say, and each block is asked back. The status is 0 where a compact block
goes out with as many allocations of as many bytes at small transactions as at large ones, and with at most a hundredth more instructions,
so that it copies and hashes none; and else 1. With --plain nothing is measured: the same conversations are held with the plain session
(bench/models/plain_session.py) in place of the program, which takes a minute.
"""

import os
import re
import subprocess
import sys
import tempfile
from concurrent.futures import ThreadPoolExecutor
from pathlib import Path
from typing import NamedTuple

sys.path.insert(0, str(Path(__file__).resolve().parents[2]))

from bench.models import plain_wire as wire
from bench.models.plain_block import Block, MinedBlock, Tx, paying
from bench.models.plain_compact import differences
from bench.models.plain_hall import Shared, applied
from bench.models.plain_session import Closed, Line, PlainSession, Settings
from bench.models.plain_wire import BLOCK, COMPACT, compact
from bench.tools.basics import GENESIS, envelope
from bench.tools.growths import Growths, build, run
from bench.tools.plain_peer import HELLO, NONCE
from bench.tools.programs import built, usage
from bench.tools.turns import Bench, adopt, in_turns, once

# As many transactions of a size as fit in a block, how many of them the mempool lacks, and the sizes of those that are compared.
TXS, SIZE, LACKING = 3_990, 250, 20
FEWER, LARGE = 399, 2_500
# Compact blocks that are never completed: how many, and how many transactions of each are whole, in the mempool, and nowhere.
FEW, MANY = 10, 1_000
WHOLE, WAITING, NOWHERE = 400, 20, 1
GREETING = HELLO + wire.sendcmpct(0)
# A type of entry that is passed over.
PASSED = 3
SECONDS = 6
# By how much instructions may grow with the transactions.
GROWN = 1.01
CALLGRIND = ["valgrind", "--tool=callgrind", "--callgrind-out-file=/dev/null"]
# A file as standard input comes in pieces of one size, and a pipe doesn't.
FROM_FILE = ["sh", "-c", 'exec "$0" serve < "$1"']


# ---- what a peer says


class Talk(NamedTuple):
    """What a peer says behind a beginning, what it must be told for that, and which block is the tip then. Where nothing is measured it says
    something else instead, or nothing."""

    name: str
    ground: bytes
    said: bytes
    told: bytes
    block: Block
    instead: bytes = b""

    def bare(self):
        return self.ground + self.instead

    def whole(self):
        return self.ground + self.said


def spending(point, size):
    """A transaction of this size that spends an output."""
    tx = Tx([(point, bytes(8))], [1_000], bytes([0x51]) * (size - (68 if size < 321 else 70)))
    assert len(tx.text) == size
    return tx


class Fan:
    """A block that makes coins, transactions of one size that spend one each, and a block of these."""

    def __init__(self, count, size):
        coins = paying(1, [], [1_000] * count)
        self.first = MinedBlock(GENESIS, 1, [coins])
        self.txs = [spending(point, size) for point in coins.points()]
        self.block = self.mined(2)
        assert len(self.block.text) <= 1_000_000

    def mined(self, mark):
        """A block of these transactions, with this mark in its coinbase."""
        return MinedBlock(self.first.header.name, 2, [paying(mark, [], [1_000]), *self.txs])

    def ground(self, txs=()):
        """A handshake, the first block, and transactions for the mempool."""
        return GREETING + given(self.first) + b"".join(envelope(b"tx", tx.text) for tx in txs)


def given(block):
    return envelope(b"block", block.text)


def asking(kind, block):
    return wire.entries(b"getdata", [(kind, block.header.name)])


def coming(fan):
    """A block that comes in three ways."""
    block, name = fan.block, fan.block.header.name
    step = len(fan.txs) // LACKING
    places = [step * number for number in range(1, LACKING + 1)]
    lacking = [block.txs[place] for place in places]
    ground, others = fan.ground(fan.txs), fan.ground(tx for tx in fan.txs if tx not in lacking)
    short = compact(block, NONCE)
    return [Talk("comes as a compact block, all in the mempool", ground, short, b"", block),
            Talk(f"comes as a compact block, {LACKING} missing", others, short + wire.blocktxn(name, [tx.text for tx in lacking]),
                 wire.getblocktxn(name, differences(places)), block),
            Talk("comes in full, all in the mempool", ground, given(block), b"", block)]


def going(fan):
    """A block that was given, and goes out as a compact one, the first that the session makes."""
    block = fan.block
    name = f"goes out as a compact block: {len(fan.txs):,} transactions of {len(fan.txs[0].text):,} bytes"
    return Talk(name, fan.ground() + given(block), asking(COMPACT, block), compact(block, 0), block, asking(PASSED, block))


class Endless:
    """Compact blocks beside each other on one tip, each of which lacks its last transaction."""

    def __init__(self):
        self.fan = Fan(WHOLE + WAITING + NOWHERE, SIZE)
        self.ground = self.fan.ground(self.fan.txs[WHOLE:-NOWHERE])

    def messages(self, count):
        """What is said and told of each."""
        for mark in range(3, 3 + count):
            block = self.fan.mined(mark)
            ids = wire.short_ids(block, NONCE, range(1 + WHOLE))
            whole = [(0, tx.text) for tx in block.txs[: 1 + WHOLE]]
            yield wire.cmpctblock(block.header.text, NONCE, ids, whole), wire.getblocktxn(block.header.name, [len(block.txs) - 1])


# ---- whether it is told what it must be


class Quick(Shared):
    """What peers share in the plain session. What is unspent behind the mempool is kept from one transaction to the next."""

    behind = (None, 0, {})

    def unspent_behind(self):
        tip, count, unspent = self.behind
        if tip != self.tip():
            count, unspent = 0, self.unspent()
        for tx, _ in self.pool[count:]:
            _, unspent = applied(unspent, tx)
        self.behind = (self.tip(), len(self.pool), unspent)
        return unspent


def plainly(data):
    """What the plain session answers."""
    try:
        return b"".join(Line(PlainSession(Settings(), Quick())).hear(data))
    except Closed as closed:
        sys.exit(f"the plain session closed: {closed}")


class Serving(Bench):
    """Conversations with the program."""

    def __init__(self, program, folder):
        super().__init__(program, folder, "serve")
        self.library = build(folder)

    def heard(self, data):
        """What the program answers."""
        return self.heard_from(self.write("heard", data))

    def heard_from(self, path):
        with open(path, "rb") as source:
            ran = subprocess.run(self.command, stdin=source, capture_output=True)
        if (ran.returncode, ran.stderr) != (0, b"closed Bye\n"):
            sys.exit(f"serve ended with status {ran.returncode}: {ran.stderr!r}")
        return ran.stdout

    def instructions(self, path):
        with open(path, "rb") as source:
            ran = subprocess.run(CALLGRIND + self.command, stdin=source, stdout=subprocess.DEVNULL, stderr=subprocess.PIPE, text=True)
        counted = re.search(r"Collected : (\d+)", ran.stderr)
        if ran.returncode != 0 or counted is None:
            sys.exit(f"{' '.join(CALLGRIND)} ended with status {ran.returncode}: {ran.stderr}")
        return int(counted[1])

    def growths(self, path):
        ran, met = run([*FROM_FILE, self.command[0], path], b"", self.library, 0)
        if ran.returncode != 0:
            sys.exit(f"serve ended with status {ran.returncode} while allocations were counted")
        return met

    def milliseconds(self, bare, whole):
        less, more = in_turns((self.command, bare), (self.command, whole), seconds=SECONDS)
        return (more.seconds - less.seconds) * 1e3

    def memory(self, path):
        cost, status = once(self.command, path)
        if status != 0:
            sys.exit(f"serve ended with status {status}")
        return cost.memory


def check(talk, heard):
    """Ends this script where something else is told than must be, or the block isn't the tip behind it."""
    tip = wire.getheaders([talk.block.header.prev]) + asking(BLOCK, talk.block)
    wanted = talk.told + wire.headers([talk.block.header.text]) + given(talk.block)
    if heard(talk.whole() + tip) != heard(talk.bare()) + wanted:
        sys.exit(f"a block that {talk.name}: other answers")


def check_endless(endless, heard):
    said, told = zip(*endless.messages(FEW))
    if heard(endless.ground + b"".join(said)) != heard(endless.ground) + b"".join(told):
        sys.exit(f"{FEW} compact blocks that lack a transaction: other answers")


# ---- figures


def beyond_bare(bench, talks):
    """The files of each conversation and its bare one, and the instructions and growths beyond that."""
    paths = {}
    for data in (data for talk in talks for data in (talk.bare(), talk.whole())):
        if data not in paths:
            paths[data] = bench.write(f"talk{len(paths)}", data)
    # Instructions don't depend on what else is at work.
    with ThreadPoolExecutor(max(1, (os.cpu_count() or 1) // 2)) as pool:
        counted = dict(zip(paths.values(), pool.map(bench.instructions, paths.values())))
    grown = {path: bench.growths(path) for path in paths.values()}
    files = [(paths[talk.bare()], paths[talk.whole()]) for talk in talks]
    more = [Growths(*(high - low for low, high in zip(grown[bare], grown[whole]))) for bare, whole in files]
    return files, [counted[whole] - counted[bare] for bare, whole in files], more


def table(bench, ins, outs):
    """A row for each conversation; tells whether the last two, of small and large transactions, take the same."""
    files, counted, grown = beyond_bare(bench, ins + outs)
    took = [f"{bench.milliseconds(*pair):.1f}" for pair in files[: len(ins)]] + ["-"] * len(outs)
    print("| a block that | bytes in | bytes out | instructions | ms | allocations |\n|---|---|---|---|---|---|")
    for talk, number, growths, milliseconds in zip(ins + outs, counted, grown, took):
        print(f"| {talk.name} | {len(talk.said):,} | {len(talk.told):,} | {number:,} | {milliseconds} | {growths.count:,} of {growths.bytes:,} bytes |")
    small, large = counted[-2:]
    return grown[-2] == grown[-1] and large <= GROWN * small


def memory(bench, endless):
    """What few and many compact blocks take that are never completed."""
    ground = bench.write("ground", endless.ground)
    less, took = bench.memory(ground), []
    for count in (FEW, MANY):
        said, told = zip(*endless.messages(count))
        path = bench.write("endless", endless.ground, *said)
        if bench.heard_from(path) != bench.heard_from(ground) + b"".join(told):
            sys.exit(f"{count} compact blocks that lack a transaction: other answers")
        took.append((bench.memory(path) - less) / 1e6)
    print(f"memory, compact blocks of {len(said[0]):,} bytes that are never completed: {took[0]:.1f} MB behind {FEW}, {took[1]:.1f} MB behind {MANY:,}")


def main():
    reader = usage(__doc__, program="the program, if not that of ./build")
    reader.add_argument("--plain", action="store_true", help="hold the conversations with the plain session, and measure nothing")
    words = reader.parse_args()
    program = None if words.plain else built(words.program, "cbrelay")
    usual = Fan(TXS, SIZE)
    ins, outs, endless = coming(usual), [going(fan) for fan in (usual, Fan(FEWER, SIZE), Fan(FEWER, LARGE))], Endless()
    with tempfile.TemporaryDirectory() as folder:
        bench = None if words.plain else Serving(program, folder)
        heard = plainly if words.plain else bench.heard
        for talk in ins + outs:
            check(talk, heard)
        check_endless(endless, heard)
        print(f"{len(ins + outs)} conversations, and {FEW} compact blocks that are never completed: all answers are right", flush=True)
        if words.plain:
            return 0
        adopt()
        same = table(bench, ins, outs)
        memory(bench, endless)
    return 0 if same else 1


if __name__ == "__main__":
    sys.exit(main())
