"""Worked conversations, most of them with compact blocks: what a peer says, step by step, and what it must be told, message by message.

What is told was worked out by hand from the rules in docs/PROTOCOL.md. bench/looks/conversations.py plays them to the plain session, and
writes them as stored runs of cbrelay (runs/cbrelay/serve-*.run) and as an example (examples/relay.bin).
"""

import functools
import struct
import textwrap
from dataclasses import dataclass, field
from types import SimpleNamespace

from bench.models.plain_block import Block, Tx
from bench.models.plain_compact import WORD, key_of, short_id
from bench.models.plain_wire import BLOCK, COMPACT, TX, spelled
from bench.tools import made_blocks
from bench.tools.basics import GENESIS, compact_size, envelope, hash_twice
from bench.tools.hall_drawing import tx_of_64_bytes
from bench.tools.made_blocks import NOBODY, SUBSIDY

NONCE = 0x0102_0304_0506_0708
COIN = 625_000_000


@dataclass
class Message:
    """A command, and its payload in parts."""

    command: str
    parts: tuple = ()

    def bytes(self):
        return envelope(self.command.encode(), b"".join(self.parts))

    def line(self):
        return " ".join([self.command] + [part.hex() for part in self.parts if part])


@dataclass
class Row:
    """A conversation: for each step a remark, what the peer says, and what it is told. At its end the session closes."""

    name: str
    remark: str
    steps: list = field(default_factory=list)
    why: str = "Bye"

    def step(self, remark, said, told=()):
        self.steps.append((remark, list(said), list(told)))

    def said(self):
        """All that the peer sends."""
        return b"".join(message.bytes() for _, said, _ in self.steps for message in said)

    def told(self):
        """All that it must be told."""
        return b"".join(message.bytes() for _, _, told in self.steps for message in told)


# ---- messages


def u32(number):
    return struct.pack("<I", number)


def u64(number):
    return struct.pack("<Q", number)


def message(command, *parts):
    return Message(command, parts)


def version(nonce, services, agent, relay=b"\1"):
    """The version 70014, at the time 0 and the height 0, between zero addresses, with this relay byte, which may be missing."""
    return message("version", u32(70014), u64(services), u64(0), bytes(52), u64(nonce), bytes([len(agent)]) + agent, u32(0), relay)


def sendcmpct(high, number=1):
    return message("sendcmpct", bytes([high]), u64(number))


def ping(nonce):
    return message("ping", u64(nonce))


def pong(nonce):
    return message("pong", u64(nonce))


def getdata(kind, *names):
    return message("getdata", compact_size(len(names)), *(part for name in names for part in (u32(kind), name)))


def getheaders(*locator):
    return message("getheaders", u32(70014), compact_size(len(locator)), *locator, bytes(32))


def headers(*blocks):
    return message("headers", compact_size(len(blocks)), *(part for block in blocks for part in (block.header.text, b"\0")))


def inv(kind, name):
    return message("inv", b"\1", u32(kind), name)


def tx(tx):
    return message("tx", tx.text)


def block(block):
    return message("block", block.header.text, compact_size(len(block.txs)), *(tx.text for tx in block.txs))


def id_of(block, nonce, tx):
    return short_id(key_of(block.header.text, nonce), tx.name).to_bytes(6, "little")


def compact(block, nonce=NONCE, ids=None, prefilled=None):
    """The block's first transaction is whole, and of the others there are short ids, if nothing else is said."""
    ids = [id_of(block, nonce, tx) for tx in block.txs[1:]] if ids is None else ids
    prefilled = [(0, block.txs[0])] if prefilled is None else prefilled
    whole = [part for difference, tx in prefilled for part in (spelled(difference), tx.text)]
    return message("cmpctblock", block.header.text, u64(nonce), compact_size(len(ids)), *ids, compact_size(len(prefilled)), *whole)


def getblocktxn(block, *differences):
    return message("getblocktxn", block.header.name, compact_size(len(differences)), *map(spelled, differences))


def blocktxn(block, *txs):
    return message("blocktxn", block.header.name, compact_size(len(txs)), *(tx.text for tx in txs))


# ---- blocks


def mined(height, prev, outputs=(SUBSIDY,), txs=(), mark=0):
    """A block of this height. Its coinbase has the height and a mark in its script."""
    return made_blocks.mined(prev, height, mark, txs, outputs)


def spending(made, index, value=COIN):
    """A transaction that spends an output."""
    return Tx([((made.name, index), b"")], [value])


FIRST = mined(1, GENESIS, [COIN] * 8)
# Each of these spends an output of the first block's coinbase.
COINS = [spending(FIRST.txs[0], index) for index in range(8)]
# The block of nine transactions of docs/EXAMPLES.md.
NINE = mined(2, FIRST.header.name, txs=COINS)


def on_first(*txs, mark=0):
    """A block on the first one."""
    return mined(2, FIRST.header.name, txs=txs, mark=mark)


def raised(count, mark=0):
    return made_blocks.raised(count, mark)


# ---- rows


# rows of compact blocks; rows with other names, since few compact blocks are in them; and those that are too long to be stored
ROWS, OF_SESSIONS, OTHERS = [], [], []


def begun(name, remark, wish=None, relay=b"\1"):
    """A conversation with a handshake, by a peer that knows compact blocks if it has a wish of them."""
    row = Row(name, remark)
    said = [version(7, 0, b"", relay), message("verack")] + ([sendcmpct(wish)] if wish is not None else [])
    told = [version(1, 1, b"/cbrelay:1/"), message("verack"), message("sendheaders"), sendcmpct(0), getheaders(GENESIS)]
    row.step("the handshake" + {None: "", 0: ", and that the peer knows compact blocks, and wants them if it asks for them",
                                1: ", and that the peer wants compact blocks unasked"}[wish], said, told)
    return row


def given_first(row, is_capable=False):
    """The first block, and who gave it is asked to send compact blocks unasked if it knows them."""
    row.step("block 1, whose coinbase has eight outputs", [block(FIRST)], [sendcmpct(1)] if is_capable else [])


def two_lack(row):
    """Of the block of nine the mempool has all but the places 0, 2 and 7. Place 0 comes whole, so two are missing."""
    for place in (3, 1, 8, 4, 6, 5):
        row.step(f"the transaction of place {place}", [tx(COINS[place - 1])])
    request = message("getblocktxn", NINE.header.name, b"\2", b"\2", b"\4")
    assert len(b"".join(request.parts)) == 35
    row.step("a block of nine, place 0 whole: `getblocktxn` of the places 2 and 7, in 35 bytes", [compact(NINE)], [request])


def worked(remark, wish=None, relay=b"\1", first=False, nine=False, why="Bye", rows=ROWS):
    """Lists a row: the steps that a function adds to a handshake, to the first block, and to a block of nine that lacks two. Its name is
    the function's."""
    def listed(add):
        @functools.wraps(add)
        def made():
            row = begun(add.__name__.replace("_", "-"), remark, wish, relay)
            if first or nine:
                given_first(row, wish is not None)
            if nine:
                two_lack(row)
            add(row)
            row.why = why
            return row

        rows.append(made)
        return made

    return listed


@worked("A compact block with two equal short ids is of no use: its block is asked for whole.", first=True)
def repeated_ids(row):
    two = on_first(*COINS[:2])
    row.step("a block of three, with the id of its place 1 twice: `getdata` of type 2", [compact(two, ids=[id_of(two, NONCE, COINS[0])] * 2)],
             [getdata(BLOCK, two.header.name)])
    row.step("the block", [block(two)])
    row.step("the headers behind the first block: both are there", [getheaders(GENESIS)], [headers(FIRST, two)])


@worked("All places of a compact block are filled, but its header is of other transactions: the block is asked for whole.", first=True)
def wrong_list(row):
    row.step("a transaction", [tx(COINS[1])])
    two = on_first(COINS[0])
    row.step("a block of two, place 0 whole, with the id of the mempool's transaction at place 1: `getdata` of type 2",
             [compact(two, ids=[id_of(two, NONCE, COINS[1])])], [getdata(BLOCK, two.header.name)])
    row.step("a `ping`: the session goes on", [ping(5)], [pong(5)])
    row.step("the block", [block(two)])
    row.step("the headers behind the first block", [getheaders(GENESIS)], [headers(FIRST, two)])


@worked("A compact block of nine, of which two transactions are missing.", nine=True)
def two_missing(row):
    row.step("both, in order", [blocktxn(NINE, COINS[1], COINS[6])])
    row.step("the block is there", [getdata(BLOCK, NINE.header.name)], [block(NINE)])


@worked("One transaction where two are missing closes with BadMessage.", nine=True, why="BadMessage")
def one_of_two(row):
    row.step("the first alone", [blocktxn(NINE, COINS[1])])
    row.step("a `ping` that isn't read any more", [ping(5)])


@worked("The missing transactions in the wrong order make a wrong list: the block is asked for whole.", nine=True)
def exchanged(row):
    row.step("both, the second first", [blocktxn(NINE, COINS[6], COINS[1])], [getdata(BLOCK, NINE.header.name)])
    row.step("both in order, for which nobody asks any more", [blocktxn(NINE, COINS[1], COINS[6])])
    row.step("the block isn't there", [getdata(BLOCK, NINE.header.name)], [message("notfound", b"\1", u32(BLOCK), NINE.header.name)])
    row.step("the block", [block(NINE)])
    row.step("the block is there", [getdata(BLOCK, NINE.header.name)], [block(NINE)])


@worked("Compact blocks are sent down to 5 below the tip, transactions of a block down to 10 below; deeper the whole block.")
def depths(row):
    blocks = raised(12)
    row.step("twelve blocks", [block(one) for one in blocks])
    at = {height: blocks[height - 1] for height in range(1, 13)}
    row.step("height 7 as a compact block: its coinbase whole, under the nonce 0", [getdata(COMPACT, at[7].header.name)], [compact(at[7], 0)])
    row.step("height 6: the whole block", [getdata(COMPACT, at[6].header.name)], [block(at[6])])
    row.step("place 0 of height 2: `blocktxn`", [getblocktxn(at[2], 0)], [blocktxn(at[2], at[2].txs[0])])
    row.step("of height 1: the whole block", [getblocktxn(at[1], 0)], [block(at[1])])
    row.step("the tip, and again height 7: the nonces go on", [getdata(COMPACT, at[12].header.name, at[7].header.name)],
             [compact(at[12], 1), compact(at[7], 2)])
    row.step("no place of the tip: no transaction", [getblocktxn(at[12])], [blocktxn(at[12])])
    row.step("a block that isn't there, as a compact block and by its place: one `notfound`",
             [getdata(COMPACT, NOBODY), message("getblocktxn", NOBODY, b"\1", b"\0")], [message("notfound", b"\1", u32(COMPACT), NOBODY)])


@worked("A compact block of a block that is there does nothing.", first=True)
def known(row):
    row.step("block 1 as a compact block; no transaction of it is asked for", [compact(FIRST, prefilled=[], ids=[bytes([7]) * 6])])
    row.step("a `ping`", [ping(5)], [pong(5)])


@worked("A second compact block with missing transactions takes the place of the first.", first=True)
def replaced(row):
    one, other = on_first(COINS[0], mark=1), on_first(COINS[1], COINS[2], mark=2)
    row.step("a block of two, of which place 1 is missing", [compact(one)], [getblocktxn(one, 1)])
    row.step("a block of three, of which the places 1 and 2 are missing", [compact(other)], [getblocktxn(other, 1, 0)])
    row.step("what the first one lacks does nothing", [blocktxn(one, COINS[0])])
    row.step("what the second one lacks", [blocktxn(other, COINS[1], COINS[2])])
    row.step("the second is there, the first isn't", [getdata(BLOCK, other.header.name, one.header.name)],
             [block(other), message("notfound", b"\1", u32(BLOCK), one.header.name)])


@worked("A block that comes whole isn't rebuilt any more: transactions of it do nothing, as many as they are.", first=True)
def dropped(row):
    two = on_first(COINS[0])
    row.step("a block of two, of which place 1 is missing", [compact(two)], [getblocktxn(two, 1)])
    row.step("the whole block, and no transaction of it", [block(two), blocktxn(two)])
    row.step("a `ping`: the session goes on", [ping(5)], [pong(5)])


@worked("Two transactions of the mempool have the short id of a place: none of them is taken, and the place is missing.", first=True)
def two_pairs(row):
    """The two transactions were sought for: two spend the first block's outputs 0 and 1, and have one short id under this header and nonce."""
    pair = [at_lock_time(0, 1_022_448), at_lock_time(1, 772_265)]
    two = on_first(COINS[2])
    shared = bytes.fromhex("c2e404bea1bc")
    assert [id_of(two, NONCE, one) for one in pair] == [shared] * 2
    row.step("both", [tx(one) for one in pair])
    row.step("a block of two, with their id at its place 1: `getblocktxn` of it", [compact(two, ids=[shared])], [getblocktxn(two, 1)])
    row.step("the transaction", [blocktxn(two, COINS[2])])
    row.step("the block is there", [getdata(BLOCK, two.header.name)], [block(two)])


def at_lock_time(index, lock_time):
    """A transaction that spends an output of the first block's coinbase, with a script of eight bytes and this lock time."""
    made = struct.pack("<q", COIN) + b"\x08" + b"\x51" * 8
    text = u32(1) + b"\1" + FIRST.txs[0].name + u32(index) + b"\0" + b"\xff" * 4 + b"\1" + made + u32(lock_time)
    return SimpleNamespace(text=text, name=hash_twice(text))


def in_two_parts(row, remark, last, known, told):
    """A block comes as a compact one without any transaction, and then its coinbase, while the header of a known block is heard of."""
    row.step(remark, [compact(last, ids=[id_of(last, NONCE, last.txs[0])], prefilled=[]), headers(known), blocktxn(last, last.txs[0])],
             [getblocktxn(last, 0), *told])


@worked("A way of eight headers to a new tip is told by headers, a way of nine by the tip's hash.")
def told_ways(row):
    seven, eight, nine = raised(7), raised(8, 1), raised(9, 2)
    row.step("`sendheaders`, and seven blocks", [message("sendheaders"), *map(block, seven)])
    row.step("seven blocks beside them", map(block, eight[:7]))
    in_two_parts(row, "an eighth on these: eight headers", eight[7], seven[0], [headers(*eight)])
    row.step("eight others", map(block, nine[:8]))
    in_two_parts(row, "a ninth on these: its hash", nine[8], seven[0], [inv(BLOCK, nine[8].header.name)])


@worked("A new tip is told first, then transactions that came back to the mempool, then the wish for compact blocks unasked.", first=True)
def told_in_order(row):
    row.step("block 2 with a transaction, and `sendcmpct`", [block(on_first(COINS[0])), sendcmpct(1)])
    two = on_first(mark=1)
    row.step("another block 2, which stays aside", [block(two)])
    three = mined(3, two.header.name)
    in_two_parts(row, "block 3 on it: the way has two headers, so the tip is told by its hash", three, FIRST,
                 [inv(BLOCK, three.header.name), inv(TX, COINS[0].name), sendcmpct(1)])


@worked("A peer that wants compact blocks unasked is told a new tip so, each under the next nonce.", wish=1, first=True)
def told_unasked(row):
    two = on_first(COINS[0], COINS[1])
    row.step("a block of three, of which the places 1 and 2 are missing", [compact(two)], [getblocktxn(two, 1, 0)])
    row.step("the first header, which is now the last one heard of", [headers(FIRST)])
    row.step("what is missing: the new tip is told, under the nonce 0", [blocktxn(two, COINS[0], COINS[1])], [compact(two, 0)])
    three = mined(3, two.header.name, txs=[COINS[2]])
    row.step("the same with the next block, which has the nonce 1", [compact(three), headers(FIRST), blocktxn(three, COINS[2])],
             [getblocktxn(three, 1), compact(three, 1)])


@worked("A peer that wants compact blocks unasked no longer is told a new tip by its hash. It still knows compact blocks.", wish=1, first=True)
def told_no_longer(row):
    two = on_first()
    row.step("`sendcmpct` with the flag 0", [sendcmpct(0)])
    in_two_parts(row, "block 2, while another header is heard of", two, FIRST, [inv(BLOCK, two.header.name)])
    three = mined(3, two.header.name)
    row.step("the header of block 3: `getdata` of type 4", [headers(three)], [getdata(COMPACT, three.header.name)])


@worked("A peer that doesn't want compact blocks unasked is told a new tip by its hash, and by headers once it asks for these.", wish=0, first=True)
def told_if_asked(row):
    two = on_first(COINS[0])
    row.step("a block of two, of which place 1 is missing, while another header is heard of", [compact(two), headers(FIRST), blocktxn(two, COINS[0])],
             [getblocktxn(two, 1), inv(BLOCK, two.header.name)])
    three = mined(3, two.header.name, txs=[COINS[1]])
    row.step("the same behind `sendheaders`", [message("sendheaders"), compact(three), headers(FIRST), blocktxn(three, COINS[1])],
             [getblocktxn(three, 1), headers(three)])


@worked("A peer that knows another version of compact blocks alone is neither told nor asked by them.")
def another_version(row):
    row.step("`sendcmpct` of version 2, unasked", [sendcmpct(1, 2)])
    given_first(row)
    two = on_first(COINS[0])
    row.step("the header of a block on the tip: `getdata` of type 2", [headers(two)], [getdata(BLOCK, two.header.name)])
    row.step("the block", [block(two)])
    three = mined(3, two.header.name, txs=[COINS[1]])
    row.step("a block of two, of which place 1 is missing, while another header is heard of: the new tip is told by its hash",
             [compact(three), headers(FIRST), blocktxn(three, COINS[1])], [getblocktxn(three, 1), inv(BLOCK, three.header.name)])


@worked("One block on the tip is asked for as a compact one; two are asked for whole.", wish=0, first=True)
def near_the_tip(row):
    two = on_first(COINS[0])
    row.step("the transaction of place 1", [tx(COINS[0])])
    row.step("the header of a block on the tip: `getdata` of type 4", [headers(two)], [getdata(COMPACT, two.header.name)])
    row.step("the compact block, rebuilt at once", [compact(two)])
    three = mined(3, two.header.name)
    four = mined(4, three.header.name)
    row.step("the headers of the next two: `getdata` of type 2", [headers(three, four)], [getdata(BLOCK, three.header.name, four.header.name)])
    row.step("the first as a compact block, the second whole", [compact(three), block(four)])
    row.step("the headers behind the first block: all four", [getheaders(GENESIS)], [headers(FIRST, two, three, four)])


@worked("A whole transaction behind the end of a compact block closes with BadMessage.", why="BadMessage")
def no_such_place(row):
    row.step("the place 2 of a block of two", [compact(on_first(COINS[0]), prefilled=[(2, COINS[0])])])


@worked("A request for a place that the block doesn't have closes with BadRequest.", first=True, why="BadRequest")
def no_such_request(row):
    row.step("place 0 of block 1", [getblocktxn(FIRST, 0)], [blocktxn(FIRST, FIRST.txs[0])])
    row.step("place 1, which it doesn't have", [getblocktxn(FIRST, 1)])


@worked("A request for a place that the block does not have closes with BadRequest deep below the tip too.", why="BadRequest")
def no_such_request_below(row):
    blocks = raised(12)
    row.step("twelve blocks", map(block, blocks))
    row.step("place 1 of height 1, which has one transaction", [getblocktxn(blocks[0], 1)])


@worked("A whole transaction whose difference leads past 64 bits closes with BadMessage.", why="BadMessage")
def place_past_64_bits(row):
    two = on_first(COINS[0])
    row.step("the place 0, and the difference 2^64 - 1", [compact(two, ids=[], prefilled=[(0, two.txs[0]), (WORD, COINS[0])])])


@worked("A request whose difference leads past 64 bits closes with BadRequest.", first=True, why="BadRequest")
def request_past_64_bits(row):
    row.step("the place 0 of block 1, and the difference 2^64 - 1", [getblocktxn(FIRST, 0, WORD)])


@worked("A list with a transaction of 64 bytes isn't sound, though it has the header's root (CVE-2017-12842). As a "
                "compact block it is only asked for whole; as a block it closes with BadBlock.", first=True, why="BadBlock")
def whole_of_64_bytes(row):
    bad = on_first(tx_of_64_bytes())
    assert len(bad.txs[1].text) == 64
    row.step("all of it whole: `getdata` of type 2", [compact(bad, ids=[], prefilled=[(0, bad.txs[0]), (0, bad.txs[1])])], [getdata(BLOCK, bad.header.name)])
    row.step("a `ping`: the session goes on", [ping(5)], [pong(5)])
    row.step("the block", [block(bad)])


@worked("Transactions of a block that nobody asked for do nothing.", first=True)
def nobody_asked(row):
    row.step("of a block that is there, of one that isn't, and none at all", [blocktxn(FIRST, FIRST.txs[0]), blocktxn(NINE, *COINS), blocktxn(NINE)])
    row.step("a `ping`: the session goes on", [ping(5)], [pong(5)])
    row.step("the block isn't there", [getdata(BLOCK, NINE.header.name)], [message("notfound", b"\1", u32(BLOCK), NINE.header.name)])


@worked("A block that was rebuilt and can't be connected isn't held against its sender.", first=True)
def not_held_against(row):
    bad = on_first(spending(FIRST.txs[0], 8))
    row.step("a block that spends a ninth output of block 1, all of it whole", [compact(bad, ids=[], prefilled=[(0, bad.txs[0]), (0, bad.txs[1])])])
    row.step("the same again: its header is refused", [compact(bad)])
    row.step("a block on it", [compact(mined(3, bad.header.name))])
    row.step("the headers behind the first block: block 1 alone", [getheaders(GENESIS)], [headers(FIRST)])


@worked("A compact block on an unknown one leads to a request for headers. It isn't rebuilt.", first=True)
def unknown_parent(row):
    two = on_first(COINS[0])
    three = mined(3, two.header.name)
    row.step("block 3, of which all is whole: `getheaders` behind block 1", [compact(three)], [getheaders(FIRST.header.name, GENESIS)])
    row.step("the headers of block 2 and 3: both blocks are asked for", [headers(two, three)], [getdata(BLOCK, two.header.name, three.header.name)])
    row.step("block 3 as a compact block: it is rebuilt, but the block below it isn't there yet. It waits, since that one is in flight", [compact(three)])
    row.step("block 2: block 3 is asked for again", [block(two)], [getdata(BLOCK, three.header.name)])
    row.step("block 3 as a compact block", [compact(three)])
    row.step("the headers behind the first block", [getheaders(GENESIS)], [headers(FIRST, two, three)])


def on_an_unknown_one(count):
    """So many blocks one on another, the first of them on the first block."""
    blocks = [on_first()]
    while len(blocks) < count:
        blocks.append(mined(len(blocks) + 2, blocks[-1].header.name))
    return blocks


@worked("Headers are asked for once, in whatever way unknown blocks are told. Empty `headers` let them be asked for again.", first=True, rows=OF_SESSIONS)
def asked_once(row):
    two, three, four, five = on_an_unknown_one(4)
    behind_first = getheaders(FIRST.header.name, GENESIS)
    row.step("block 3 as a compact block, on an unknown one: `getheaders` behind block 1", [compact(three)], [behind_first])
    row.step("block 4 as a compact block, by its header, whole, and by its hash: nothing", [compact(four), headers(four), block(four), inv(BLOCK, four.header.name)])
    row.step("no headers: the peer has none. Then block 5 by its hash: `getheaders`", [headers(), inv(BLOCK, five.header.name)], [behind_first])
    row.step("no headers, and the header of block 5: `getheaders`", [headers(), headers(five)], [behind_first])
    row.step("no headers, and block 5 itself: `getheaders`", [headers(), block(five)], [behind_first])
    row.step("the headers that are asked for", [headers(two, three, four, five)], [getdata(BLOCK, *(one.header.name for one in (two, three, four, five)))])
    row.step("the blocks", map(block, (two, three, four, five)))
    row.step("the headers behind the first block: all are there", [getheaders(GENESIS)], [headers(FIRST, two, three, four, five)])


@worked("Headers of a known parent let headers be asked for again; those of an unknown one don't.", first=True, rows=OF_SESSIONS)
def asked_again(row):
    two, three, four, five = on_an_unknown_one(4)
    behind_first = getheaders(FIRST.header.name, GENESIS)
    row.step("block 3 as a compact block, on an unknown one: `getheaders` behind block 1", [compact(three)], [behind_first])
    row.step("the header of block 5, whose parent is unknown too, and block 5: nothing", [headers(five), compact(five)])
    row.step("the header of block 2: it is asked for", [headers(two)], [getdata(BLOCK, two.header.name)])
    row.step("block 5 again: `getheaders`", [compact(five)], [behind_first])
    row.step("the header of block 2, which is known and in flight", [headers(two)])
    row.step("the header of block 5 again: `getheaders`", [headers(five)], [behind_first])
    row.step("block 2", [block(two)])
    row.step("the headers behind it: all three are asked for", [headers(three, four, five)], [getdata(BLOCK, *(one.header.name for one in (three, four, five)))])


@worked("A block that comes before its parent waits, and what is listed again stands last: so parents are asked for first.", rows=OF_SESSIONS)
def parents_first(row):
    one, two, three, four = raised(4)
    names = [it.header.name for it in (one, two, three, four)]
    other = mined(1, GENESIS, mark=1)
    row.step("the headers of four blocks: all are asked for", [headers(one, two, three, four)], [getdata(BLOCK, *names)])
    row.step("block 2, whose parent is in flight, and block 3, whose parent waits: both wait, and nothing is sent", [block(two), block(three)])
    row.step("the header of another block of height 1: it waits behind both", [headers(other)])
    row.step("the headers of block 2 to 4 again: block 2 and 3 wait behind the other one, and block 4 is in flight", [headers(two, three, four)])
    row.step("block 4, whose parent waits, and waits too. Then block 1: what waits is asked for, in its order", [block(four), block(one)],
             [getdata(BLOCK, other.header.name, *names[1:])])
    row.step("these blocks", map(block, (other, two, three, four)))
    row.step("the headers behind the network's first block: all four", [getheaders(GENESIS)], [headers(one, two, three, four)])


def put_back(row):
    """A block with a transaction, and two of a branch beside it: the transaction goes back to the mempool, and is new there."""
    given_first(row)
    two, other = on_first(COINS[0]), on_first(mark=1)
    row.step("block 2, which spends an output of block 1", [block(two)])
    return [block(other), block(mined(3, other.header.name))]


@worked("A peer whose first `version` has the relay byte 0 isn't told of transactions. One that it asks for is sent.", relay=b"\0", rows=OF_SESSIONS)
def no_transactions(row):
    blocks = put_back(row)
    row.step("another `version`, whose relay byte doesn't count", [version(7, 0, b"")])
    row.step("a longer branch: the transaction is in the mempool again, and isn't told", blocks)
    row.step("the transaction is asked for", [getdata(TX, COINS[0].name)], [tx(COINS[0])])


@worked("A peer whose `version` has no relay byte is told of transactions.", relay=b"", rows=OF_SESSIONS)
def transactions_told(row):
    row.step("a longer branch: the transaction is in the mempool again, and is told", put_back(row), [inv(TX, COINS[0].name)])
    row.step("the transaction is asked for", [getdata(TX, COINS[0].name)], [tx(COINS[0])])


@worked("A block that can't be rebuilt is asked for again if it is in flight, and waits if 16 others are.")
def too_many_in_flight(row):
    blocks = raised(18)
    names = [one.header.name for one in blocks]
    row.step("18 headers: 16 blocks are asked for", [headers(*blocks)], [getdata(BLOCK, *names[:16])])
    twice = [bytes([7]) * 6] * 2
    row.step("the first as a compact block with equal ids: it is asked for again", [compact(blocks[0], ids=twice)], [getdata(BLOCK, names[0])])
    row.step("the 17th as one: it waits already", [compact(blocks[16], ids=twice)])
    other = mined(1, GENESIS, mark=1)
    row.step("another block as one: it waits too", [compact(other, ids=twice)])
    row.step("the 16 blocks: the two that are left, and the other one, are asked for", [block(one) for one in blocks[:16]],
             [getdata(BLOCK, *names[16:], other.header.name)])


@worked("Of 20 headers 16 blocks are asked for, and behind the sixteenth the other four. None is told back to its sender.", rows=OTHERS)
def twenty_headers(row):
    blocks = raised(20)
    names = [one.header.name for one in blocks]
    row.step("20 headers", [headers(*blocks)], [getdata(BLOCK, *names[:16])])
    row.step("fifteen of the blocks", [block(one) for one in blocks[:15]])
    row.step("the sixteenth", [block(blocks[15])], [getdata(BLOCK, *names[16:])])
    row.step("the other four", [block(one) for one in blocks[16:]])
    row.step("the headers behind the network's first block: all 20", [getheaders(GENESIS)], [headers(*blocks)])


@worked("The block that is being rebuilt stays, though the session's history begins anew.", nine=True, rows=OTHERS)
def behind_a_checkpoint(row):
    """Large messages between a compact block and its missing transactions: before the last of them the session's history begins anew."""
    row.step("two large messages of no known command", [message("filler", bytes(4_000_000))] * 2)
    row.step("what is missing", [blocktxn(NINE, COINS[1], COINS[6])])
    row.step("the block is there", [getdata(BLOCK, NINE.header.name)], [block(NINE)])


@worked("The block that is being rebuilt stays, though answers let the session's history begin anew.", nine=True, rows=OTHERS)
def asked_often(row):
    """Twelve times the same compact block: an answer of the mempool counts for 16,666 entries of 40 bytes in the session's history."""
    request = message("getblocktxn", NINE.header.name, b"\2", b"\2", b"\4")
    assert 12 * (64 + 40 * 16_666) > 8_000_000
    row.step("the compact block eleven times more: each asks for what is missing", [compact(NINE)] * 11, [request] * 11)
    row.step("what is missing, before which the history begins anew", [blocktxn(NINE, COINS[1], COINS[6])])
    row.step("the block is there", [getdata(BLOCK, NINE.header.name)], [block(NINE)])


@worked("Counts and differences above 252: of a block of 300 transactions the places 3 and 290 are missing.", rows=OTHERS)
def far_apart(row):
    fan = Tx([((FIRST.txs[0].name, 0), b"")], [COIN // 300] * 298)
    txs = [fan] + [Tx([((fan.name, index), b"")], [COIN // 300]) for index in range(298)]
    given_first(row)
    row.step("all but these two", [tx(txs[place - 1]) for place in range(1, 300) if place not in (3, 290)])
    large = on_first(*txs)
    request = message("getblocktxn", large.header.name, b"\2", b"\3", bytes.fromhex("fd1e01"))
    row.step("the block, place 0 whole: `getblocktxn` of the places 3 and 290", [compact(large)], [request])
    row.step("both", [blocktxn(large, txs[2], txs[289])])
    row.step("the block asked back as a compact one, and its places 3 and 290", [getdata(COMPACT, large.header.name), request],
             [compact(large, 0), blocktxn(large, txs[2], txs[289])])


@worked("Of 2,000 headers the one at place 1,000, counted from 0, has no work. It closes with BadBlock.", rows=OTHERS, why="BadBlock")
def a_header_without_work(row):
    blocks = raised(1_000)
    blocks.append(Block(blocks[-1].header.name, blocks[0].txs, False))
    while len(blocks) < 2_000:
        blocks.append(mined(len(blocks) + 1, blocks[-1].header.name))
    row.step("all of them", [headers(*blocks)])
    row.step("a `ping` that isn't read any more", [ping(5)])


@worked("Compact blocks both ways: one is rebuilt at once, one lacks two transactions, one can't be rebuilt, and two are "
                "asked back. A part of a payload stands by itself: counts, hashes, ids, indexes, headers, transactions.", wish=1)
def relay(row):
    """The conversation of examples/relay.bin."""
    row.step("Block 1 comes whole. Its coinbase pays eight outputs. Its sender knows compact blocks and gave a tip, so it is asked to send "
             "them unasked. The tip isn't told back to it.", [block(FIRST)], [sendcmpct(1)])
    row.step("Two transactions for the mempool: T1 and T2, which spend the outputs 0 and 1. They aren't told back.", [tx(COINS[0]), tx(COINS[1])])
    two = on_first(COINS[0], COINS[1])
    row.step("Block 2 has its coinbase, T1 and T2. The coinbase is whole, with the difference 0. The mempool has both short ids, and the list "
             "has the header's root. The block is the tip, and nothing is sent.", [compact(two)])
    row.step("T3 and T5.", [tx(COINS[2]), tx(COINS[4])])
    three = mined(3, two.header.name, txs=COINS[2:6])
    row.step("Block 3 has its coinbase, T3, T4, T5 and T6. The mempool has the ids of the places 1 and 3. The node asks for the places 2 and 4: "
             "the first index is written as it is, and one place lies between them.",
             [compact(three)], [message("getblocktxn", three.header.name, b"\2", b"\2", b"\1")])
    row.step("T4 and T6, in this order. The list has the header's root: the block is the tip.", [blocktxn(three, COINS[3], COINS[5])])
    row.step("T7.", [tx(COINS[6])])
    four = mined(4, three.header.name, txs=[COINS[7]])
    row.step("Block 4 has its coinbase and T8, but the id that comes is T7's. With T7 the list is complete and hasn't the header's root. Ids may "
             "collide by chance, so this isn't held against the sender. The node asks for the whole block, type 2.",
             [compact(four, ids=[id_of(four, NONCE, COINS[6])])], [getdata(BLOCK, four.header.name)])
    row.step("Block 4.", [block(four)])
    row.step("Block 3 is asked back as a compact block, type 4. It stands one below the tip. It is the first that the node makes, and its salt "
             "is 0: so is the nonce. Under it the ids are others than before.", [getdata(COMPACT, three.header.name)], [compact(three, 0)])
    row.step("Its places 1 and 3 are asked for, with the differences 1 and 1: T3 and T5.",
             [message("getblocktxn", three.header.name, b"\2", b"\1", b"\1")], [blocktxn(three, COINS[2], COINS[4])])
    row.step("Block 4 is asked back, the second compact block that the node makes: the nonce is 1.", [getdata(COMPACT, four.header.name)],
             [compact(four, 1)])




# ---- as stored runs


def run_text(row):
    """The stored run of a row."""
    lines = [*remarks(row.remark), "args serve"] + ["status 3"] * (row.why != "Bye") + ["input envelopes", "output envelopes"]
    for remark, said, told in row.steps:
        lines += ["", *remarks(remark), *(f"< {one.line()}" for one in said), *(f"> {one.line()}" for one in told)]
    return "\n".join([*lines, "", f"! closed {row.why}"]) + "\n"


def remarks(text):
    return textwrap.wrap(text, 100, initial_indent="# ", subsequent_indent="# ")
