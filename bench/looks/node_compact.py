#!/usr/bin/env python3
"""Runs a process `cbrelay node` with a plain reader of compact blocks as its peer: python3 bench/looks/node_compact.py [PROGRAM] [--only
LOOK]

It needs the program, python3 and Linux, and takes some seconds. The peer is written
from BIP 152 (bench/models/plain_compact.py), apart from the program. --help tells the looks. The status is 0 where all came out so.
"""

import sys
from pathlib import Path

sys.path.insert(0, str(Path(__file__).resolve().parents[2]))

from bench.models import plain_wire as wire
from bench.models.plain_block import NULL_POINT, MinedBlock, Tx
from bench.models.plain_compact import judged, key_of, short_id
from bench.models.plain_hall import DEPTH
from bench.tools.basics import GENESIS, envelope, shown
from bench.tools.made_blocks import GIVEN, SUBSIDY
from bench.tools.plain_peer import USUAL, dialled
from bench.tools.process_talk import NodeProcess, ProcessLooks

# How many transactions a relayed block has.
TXS = 40


class Compact(ProcessLooks):
    """Nodes that a plain reader of compact blocks talks to."""

    def given(self, node, chain, txs, known):
        """The node's operator gives it the outputs that these transactions spend, and the first of them."""
        self.submits(node, chain[0])
        told = node.say_all([f"tx {tx.text.hex()}" for tx in txs[:known]])
        self.look("tx", told, [f"tx {shown(tx.name)}" for tx in txs[:known]])

    def is_sound(self, short, texts):
        self.look("whether the rebuilt list is the header's", judged(short.header.text, texts), "sound")

    # ---- from the node

    def look_unasked(self):
        """A peer that wants compact blocks unasked rebuilds each that the operator mines, of whose transactions it knows all, half or
        none."""
        for known in (TXS, TXS // 2, 0):
            chain, txs = funded()
            with NodeProcess(self.program) as node, dialled(node.port) as peer:
                self.given(node, chain, txs, TXS)
                peer.shake_hands(wire.sendcmpct(1, 1))
                self.look("a pong", peer.pinged(1, (*USUAL, "inv")), True)
                self.mines(node, height=2)
                short = peer.expect("cmpctblock", (*USUAL, "inv"))
                self.look("its header", shown(short.header.name), node.tip()[1])
                texts, asked = peer.rebuilt(short, txs[:known])
                self.look("how many are asked for", asked, TXS - known)
                self.is_sound(short, texts)
                self.look("its transactions", texts[1:], [tx.text for tx in txs])
                self.ends(node)

    def look_asked_for(self):
        """A peer that doesn't want them unasked is told headers, and asks. A block that lies deep comes whole."""
        chain, txs = funded()
        with NodeProcess(self.program) as node, dialled(node.port) as peer:
            self.given(node, chain, txs, TXS)
            peer.shake_hands(envelope(b"sendheaders", b""), wire.sendcmpct(0, 1))
            self.look("a pong", peer.pinged(1, (*USUAL, "inv")), True)
            self.mines(node, height=2)
            (header,) = peer.expect("headers", ("inv",))
            peer.send(wire.entries(b"getdata", [(wire.COMPACT, header.name)]))
            short = peer.expect("cmpctblock")
            texts, asked = peer.rebuilt(short, txs)
            self.look("how many are asked for", asked, 0)
            self.is_sound(short, texts)
            peer.send(wire.entries(b"getdata", [(wire.BLOCK, header.name)]))
            self.look("the block", [tx.text for tx in peer.expect("block").txs], texts)
            node.say(f"mine {DEPTH + 1}")
            peer.send(wire.entries(b"getdata", [(wire.COMPACT, header.name)]))
            self.look("the deep block", peer.expect("block", ("headers", "inv")).header.name, header.name)
            self.ends(node)

    # ---- to the node

    def look_rebuilt(self):
        """The peer tells compact blocks: one whose transactions the node has, one of which it lacks half, and one with another list, which
        is asked for whole. `peers` counts each."""
        chain, txs = funded()
        known = TXS // 2
        with NodeProcess(self.program) as node, dialled(node.port) as peer:
            self.given(node, chain, txs, known)
            peer.shake_hands(wire.sendcmpct(0, 1))
            self.look("a pong", peer.pinged(1, (*USUAL, "inv")), True)
            all_known, half, other = split(chain, txs, known)
            saved = len(all_known.text) - peer.announce(all_known, 11)
            self.taken(node, peer, all_known, (0, 1, 0, 0), saved)
            for tx in half.txs[1 : known // 2 + 1]:
                node.say(f"tx {tx.text.hex()}")
            saved += len(half.text) - peer.announce(half, 12)
            wanted = list(range(known // 2 + 1, known + 1))
            self.look("the places asked for", peer.asked_places(half), wanted)
            message = wire.blocktxn(half.header.name, [half.txs[place].text for place in wanted])
            peer.send(message)
            saved -= len(message) - 24
            self.taken(node, peer, half, (0, 1, 1, 0), saved)
            wrong = [short_id(key_of(other.header.text, 13), tx.name) for tx in all_known.txs[1:2]]
            peer.announce(other, 13, wrong)
            self.look("the places asked for", peer.asked_places(other), [1])
            peer.send(wire.blocktxn(other.header.name, [all_known.txs[1].text]))
            self.look("what is asked for then", peer.expect("getdata"), [(wire.BLOCK, other.header.name)])
            peer.send(envelope(b"block", other.text))
            self.taken(node, peer, other, (0, 1, 1, 1), saved)
            self.ends(node)

    def taken(self, node, peer, block, ways, saved):
        """A block becomes the node's tip. Its way is counted: full, compact at once, with places asked for, fallback; and what short ids saved."""
        self.comes("the tip", node, lambda: node.tip()[1] == shown(block.header.name))
        self.look("a pong", peer.pinged(2, ("sendcmpct", "inv")), True)
        (one,) = node.peers()
        self.look("how blocks came", (one.full, one.compact, one.completed, one.fallback), ways)
        self.look("bytes that short ids saved", one.saved, saved)
        self.look("the mempool", [name for name in node.list("pool") if name in {shown(tx.name) for tx in block.txs}], [])


def funded():
    """A block whose coinbase has many outputs, as a list, and a transaction that spends each."""
    fan = Tx([(NULL_POINT, b"\1\0\0\0" + bytes([GIVEN]))], [SUBSIDY // TXS] * TXS)
    txs = [Tx([((fan.name, index), bytes(100))], [value - 1]) for index, value in enumerate(fan.values)]
    return [MinedBlock(GENESIS, 1, [fan])], txs


def split(chain, txs, known):
    """Three blocks, one on the other: of the first transactions, of the others, and of a further one."""
    blocks, name = [], chain[-1].header.name
    last = Tx([((txs[0].name, 0), bytes(100))], [txs[0].values[0] - 1])
    for height, mine in enumerate((txs[:known], txs[known:], [last]), 2):
        coinbase = Tx([(NULL_POINT, height.to_bytes(4, "little") + bytes([GIVEN]))], [SUBSIDY])
        blocks.append(MinedBlock(name, height, [coinbase, *mine]))
        name = blocks[-1].header.name
    return blocks


if __name__ == "__main__":
    sys.exit(Compact.main(__doc__))
