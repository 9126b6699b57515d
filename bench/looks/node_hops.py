#!/usr/bin/python3
"""Looks at blocks that hop from process to process, and at bursts of them: /usr/bin/python3 bench/looks/node_hops.py [PROGRAM] [--only
LOOK]

It needs the program, Linux, and Debian's package python3-bitcoinlib, which that
python3 finds. It takes some minutes. --help tells the looks. The status is 0 where all came out so.
"""

import random
import sys
import time
from pathlib import Path

sys.path.insert(0, str(Path(__file__).resolve().parents[2]))

from bitcoin.core import CheckBlock, CheckBlockError, ValidationError, b2lx, lx

from bench.models import plain_wire as wire
from bench.tools.basics import GENESIS, envelope
from bench.tools.between import Between
from bench.tools.library_peer import BLOCK, REGTEST_GENESIS, TX, Offering, dialled, grown, spending
from bench.tools.made_blocks import mined
from bench.tools.node_line import NodeLine, short_told
from bench.tools.plain_peer import dialled as plainly_dialled
from bench.tools.process_talk import NodeProcess, ProcessLooks

# A tick so seldom that nothing comes by it, in ms. How many seconds a hop may take at the most, and all hops of a look.
SELDOM, SOON, ALL_OF_THEM, HOPS = "60000", 5, 30, 10
# How many blocks are mined at once, how often, how many seconds they may take, and how many bytes a block on the way to a peer, and to its peer.
MINED, TIMES, SECONDS, BYTES, FURTHER = 1_000, 10, 60, 800, 1_200
# One block in so many may be asked for again.
SELDOM_AGAIN = 50
# A long chain, and how many seconds it may take.
LONG, LONG_SECONDS = 20_000, 300
# After how many seconds a peer that owes headers is probed, and how late that may be.
PROBE, LATE = 30, 10
# How long a miner waits for more that it is asked, in seconds.
PAUSE = 0.1
KINDS = ("sendheaders", "sendcmpct", "getheaders", "inv", "headers", "cmpctblock")


class Hops(ProcessLooks):
    """Blocks that hop, one by one and many at once."""

    def end_all(self, nodes):
        for node in nodes:
            self.ends(node, "quit", drops=None)

    # ---- hops

    def look_a_tip_doesnt_wait_for_the_tick(self):
        """With a tick of a minute each peer is told in seconds, in its way, of blocks that a peer or the operator brought."""
        began = time.monotonic()
        node = self.node("--tick", SELDOM)
        port = node.port
        source, unasked, headers, names = (plainly_dialled(port, SOON) for _ in range(4))
        for peer, further in ((source, ()), (unasked, (wire.sendcmpct(1, 1),)), (headers, (envelope(b"sendheaders", b""),)), (names, ())):
            peer.shake_hands(*further)
            self.look("a pong", peer.pinged(1), True)
        name = GENESIS
        for height in range(1, HOPS + 1):
            block = self.brought(node, source, name, height)
            name = block.header.name if block else lx(node.tip()[1])
            self.look("the compact block", unasked.expect("cmpctblock", KINDS[:4]).header.name, name)
            self.look("the header", [it.name for it in headers.expect("headers", KINDS[:4])], [name])
            self.look("the hash", names.expect("inv", KINDS[:3]), [(BLOCK, name)])
        self.in_time(f"when {HOPS} blocks have come", time.monotonic() - began, ALL_OF_THEM)
        for peer in (source, unasked, headers, names):
            peer.stream.close()
        self.ends(node, "quit")

    @staticmethod
    def brought(node, source, name, height):
        """A block of this height, in one of four ways. One that the node mines isn't known here."""
        block, way = mined(name, height), height % 4
        if way == 0:
            node.say("mine")
            return None
        if way == 1:
            node.say(f"submit-block {block.text.hex()}")
        else:
            source.send(envelope(b"block", block.text) if way == 2 else wire.compact(block, 7))
        return block

    def look_a_line_of_three(self):
        """A block goes through three nodes, and to the client library at the last one."""
        began = time.monotonic()
        with NodeLine(self.program, 3, "--tick", SELDOM) as line, dialled(line.ports[-1], SOON) as library:
            library.shake_hands()
            source, sink = line.ends()
            self.look("a pong", sink.pinged(1), True)
            name, longest = GENESIS, 0
            for height in range(1, HOPS + 1):
                block, told = mined(name, height), time.monotonic()
                name = block.header.name
                source.send(wire.compact(block, 7) if height > 1 else envelope(b"block", block.text))
                sink.stream.settimeout(SOON)
                short_told(sink, block.header.text)
                longest = max(longest, time.monotonic() - told)
                self.look("what the library is told", library.told(), [(BLOCK, name)])
            self.tell(f"through three nodes in {longest * 1e3:.0f} ms at the most")
            self.in_time(f"when {HOPS} blocks have come", time.monotonic() - began, ALL_OF_THEM)
            self.end_all(line.nodes)

    # ---- bursts

    def look_mined_at_once(self):
        """Ten times 1,000 blocks are mined by one line, and are soon at a peer and at a peer's peer. At most one in 50 is asked for again,
        and at most 800 KB go to the one and 1,200 to the other. The client library fetches them from both, and judges each by its
        CheckBlock."""
        with NodeLine(self.program, 3, counts=True) as line:
            libraries = [Fetching(self, dialled(port, SECONDS)) for port in line.ports[1:]]
            for _ in range(TIMES):
                before = [link.bytes() for link in line.links]
                tip = self.mines(line.nodes[0], MINED)
                self.stands_at(tip, *line.nodes, seconds=SECONDS)
                for library in libraries:
                    self.look("what the library fetches", library.fetched(lx(tip[1])), MINED)
                for what, limit, link, size in zip(("a peer", "its peer"), (BYTES, FURTHER), line.links, before):
                    self.is_bounded(what, link.bytes() - size, MINED, limit)
            for link in line.links:
                self.come_once("a burst", link.asked, MINED * TIMES)
            for library in libraries:
                library.close()
            self.end_all(line.nodes)

    def is_bounded(self, what, size, blocks, limit=FURTHER):
        self.tell(f"{what}: {size / blocks:.0f} bytes a block")
        self.most(f"{what}: bytes for each of {blocks:,} blocks", size / blocks, limit)

    def come_once(self, what, asked, blocks):
        """But for few blocks each is asked for once at most, and none more than twice."""
        again = sum(count - 1 for count in asked.values())
        self.tell(f"{what}: {again} of {blocks:,} blocks were asked for again")
        self.most(f"{what}: blocks asked for again", again, blocks / SELDOM_AGAIN)
        self.most(f"{what}: how often a block is asked for", max(asked.values(), default=0), 2)

    def look_a_library_that_mines(self):
        """The library tells 1,000 blocks one by one, some as compact ones; in the second half now and then one is left out, and then told
        before it. It is asked for headers no more than once for each of these, and for few blocks again."""
        blocks = grown(REGTEST_GENESIS, 0, MINED, b"burst")
        with NodeLine(self.program, 2, counts=True) as line, dialled(line.ports[0], SECONDS) as peer:
            peer.shake_hands()
            miner, tip = Mining(peer, blocks), (MINED, b2lx(blocks[-1].GetHash()))
            miner.tell_all(random.Random(1))
            self.comes("the tip of both", line.nodes[0], lambda: miner.has_answered(PAUSE) and line.have_tip(tip), SECONDS)
            self.tell(f"the library was asked for headers {miner.questions} times, and told {miner.headers}")
            self.come_once("the library", miner.asked, MINED)
            self.look("whether it is asked for headers once at most for each on an unknown one", miner.questions <= miner.told_unknown, True)
            self.come_once("the next one", line.links[0].asked, MINED)
            self.is_bounded("to the next one", line.links[0].bytes(), MINED)
            self.end_all(line.nodes)

    def look_a_third_follows(self):
        """A node fetches a chain of 20,000 blocks, and another one follows it meanwhile."""
        with NodeProcess(self.program, seconds=LONG_SECONDS) as first, Between(first.at) as one:
            for _ in range(LONG // MINED):
                first.say(f"mine {MINED}")
            tip = first.tip()
            with NodeProcess(self.program, seconds=LONG_SECONDS) as second, Between(second.at) as other:
                with NodeProcess(self.program, "--connect", other.address, seconds=LONG_SECONDS) as third:
                    self.has_peers(third, 1)
                    began = time.monotonic()
                    self.begins("connect", "connected", second.say(f"connect {one.address}"))
                    self.comes("the tip", second, lambda: second.tip() == third.tip() == tip, LONG_SECONDS)
                    self.tell(f"{LONG} blocks and a third node in {time.monotonic() - began:.1f} s")
                    for what, link in (("the chain", one), ("the third", other)):
                        self.come_once(what, link.asked, LONG)
                        self.is_bounded(what, link.bytes(), LONG)
                    self.end_all((third, second, first))

    # ---- the relay byte, and a peer that owes headers

    def look_no_transactions(self):
        """No `inv` of a transaction goes to a peer whose `version` said no. It is sent one that it asks for."""
        blocks = grown(REGTEST_GENESIS, 0, 5, b"relay")
        with NodeProcess(self.program) as node, dialled(node.port, SECONDS) as wants, dialled(peers_port(wants), SECONDS) as refuses:
            for block in blocks:
                self.begins("submit-block", "submitted", node.say(f"submit-block {block.serialize().hex()}"))
            wants.shake_hands()
            refuses.shake_hands(relay=False)
            for peer in (wants, refuses):
                self.look("a pong", peer.ping(1), 1)
            for block in blocks:
                tx = spending(block.vtx[0], 1_000)
                self.look("tx", node.say(f"tx {tx.serialize().hex()}"), f"tx {b2lx(tx.GetTxid())}")
                self.look("what the one is told", wants.told(), [(TX, tx.GetTxid())])
                self.look("a pong, and nothing before it", refuses.ping(2), 2)
                refuses.ask(TX, tx.GetTxid())
                self.look("the transaction", refuses.expect(b"tx").tx.GetTxid(), tx.GetTxid())
            node.say("mine")
            tip = lx(node.tip()[1])
            self.look("what both are told of a block", [peer.told() for peer in (wants, refuses)], [[(BLOCK, tip)]] * 2)
            self.ends(node, "quit", drops=None)

    def look_headers_that_never_come(self):
        """A peer tells of unknown blocks and never answers. It is asked once, and again behind a `ping`, 30 seconds later."""
        blocks = grown(REGTEST_GENESIS, 0, 3, b"owed")
        with NodeProcess(self.program) as node, dialled(node.port, PROBE + LATE) as peer:
            peer.shake_hands()
            peer.tell(BLOCK, blocks[1].GetHash())
            self.look("behind which it asks", peer.receive().command, b"getheaders")
            began = time.monotonic()
            peer.tell_headers(blocks[2:])
            peer.tell(BLOCK, blocks[2].GetHash())
            peer.give_block(blocks[2])
            told = peer.receive()
            self.look("what comes next", told.command, b"ping")
            took = time.monotonic() - began
            self.tell(f"a probe after {took:.1f} s")
            self.look(f"whether {took:.1f} s are right", PROBE - 1 <= took <= PROBE + LATE, True)
            peer.tell(BLOCK, blocks[2].GetHash())
            self.look("behind which it asks then", peer.receive().command, b"getheaders")
            self.ends(node, "quit", drops=None)


def peers_port(peer):
    """The port at which this peer's node listens."""
    return peer.socket.getpeername()[1]


class Fetching:
    """The client library as a peer that fetches each new block."""

    def __init__(self, looks, peer):
        self.looks, self.peer, self.last = looks, peer, REGTEST_GENESIS
        peer.shake_hands()

    def close(self):
        self.peer.__exit__()

    def next(self, command):
        """The next message with this command. Others are passed over."""
        message = self.peer.receive()
        while message.command != command:
            message = self.peer.receive()
        return message

    def fetched(self, tip):
        """How many blocks it fetches up to this one, each of which is sound."""
        self.peer.ask_headers(self.last)
        names = [header.GetHash() for header in self.next(b"headers").headers]
        self.looks.look("the last header", names[-1:], [tip])
        self.peer.ask(BLOCK, *names)
        for name in names:
            block = self.next(b"block").block
            self.looks.look("a block", block.GetHash(), name)
            try:
                CheckBlock(block)
            except (CheckBlockError, ValidationError) as fault:
                self.looks.look(f"block {b2lx(name)}", str(fault), None)
        self.last = tip
        return len(names)


class Mining(Offering):
    """The client library as a peer that tells its blocks one by one, and answers what it is asked in between."""

    def __init__(self, peer, blocks):
        super().__init__(peer)
        # All that it mines, and how often it told of a block on an unknown one.
        self.all, self.told_unknown = blocks, 0

    def tell_all(self, rng):
        """Tells each block by a header of its own, or as a compact one; in the second half several at once by the last of them. Now and then it
        answers what it was asked."""
        while len(self.blocks) < len(self.all):
            steps = 1 if len(self.blocks) < len(self.all) // 2 else rng.choice([1, 1, 1, 2, 9])
            self.turn_to(self.all[: len(self.blocks) + steps])
            self.told_unknown += steps > 1
            if rng.random() < 0.5:
                self.peer.tell_headers(self.blocks[-1:])
            else:
                self.peer.socket.sendall(wire.compact(wire.read("block", self.blocks[-1].serialize()), 7))
            if rng.random() < 0.3:
                self.has_answered(0)

    def has_answered(self, seconds):
        """Answers all that comes, until nothing does for so long. Always true."""
        while self.peer.has_more(seconds):
            self.answer()
        return True


if __name__ == "__main__":
    sys.exit(Hops.main(__doc__))
