#!/usr/bin/python3
"""Runs a process `cbrelay node` with a Bitcoin client library as its peer: /usr/bin/python3 bench/looks/node_library.py [PROGRAM] [--only
LOOK]

It needs the program, Linux, and Debian's package python3-bitcoinlib, which that
python3 finds. The library knows nothing of this project: each block that comes from the node goes through its CheckBlock. It takes some
seconds. --help tells the looks. The status is 0 where all came out so.
"""

import sys
import time
from pathlib import Path

sys.path.insert(0, str(Path(__file__).resolve().parents[2]))

from bitcoin.core import CheckBlock, CheckBlockError, ValidationError, b2lx, lx

from bench.tools.basics import envelope
from bench.tools.library_peer import BLOCK, REGTEST_GENESIS, TX, LibraryPeer, dialled, grown, mined, spending
from bench.tools.process_talk import NodeProcess, ProcessLooks

SECONDS, MINED, GIVEN, FLIGHT = 60, 30, 40, 16


class Library(ProcessLooks):
    """Nodes that a client library talks to."""

    def served(self, act):
        """A node with the library as a peer that dialled it and shook hands."""
        with NodeProcess(self.program) as node, dialled(node.port, SECONDS) as peer:
            version, behind = peer.shake_hands()
            self.look("its version", (version.nVersion, version.strSubVer), (70014, b"/cbrelay:1/"))
            self.look("behind which it asks for headers", behind, [REGTEST_GENESIS])
            self.has_peers(node, 1)
            act(node, peer)
            self.ends(node, "quit")

    def has_tip(self, node, block):
        """This block becomes the node's tip."""
        self.comes("the tip", node, lambda: node.tip()[1] == b2lx(block.GetHash()))

    def checked(self, blocks):
        """These blocks are sound, as the library judges."""
        for block in blocks:
            try:
                CheckBlock(block)
            except (CheckBlockError, ValidationError) as fault:
                self.look(f"block {b2lx(block.GetHash())}", str(fault), None)

    # ---- the looks

    def look_handshakes(self):
        """The peer dials, and then the node: a handshake and a `ping`. Each `version` of a node tells its nonce and the time."""
        def pinged(node, peer):
            self.look("a pong", peer.ping(77), 77)
            self.look("the connection", [one.place() for one in node.peers()], [(0, 1, "from")])

        self.served(pinged)
        node, other = self.node(), self.node()
        versions = []
        for at in (node.port, node.port, other.port):
            with dialled(at, SECONDS) as peer:
                versions.append(peer.shake_hands()[0])
        self.look("their times are now", [abs(one.nTime - time.time()) < SECONDS for one in versions], [True] * 3)
        self.look("a node's nonce, and another's", (versions[0].nNonce == versions[1].nNonce, versions[0].nNonce == versions[2].nNonce), (True, False))
        with LibraryPeer(self.dialled_by(node)) as peer:
            self.look("its version", peer.expect(b"version").strSubVer, b"/cbrelay:1/")
            peer.shake_hands_back()
            self.look("a pong", peer.ping(78), 78)
        self.logs(node, "in slot 48 closed: Bye")
        self.ends(node)
        self.ends(other, "quit")

    def look_blocks_from_the_node(self):
        """The node's operator mines; the peer is told of the last block, asks for all headers and then for the blocks, and for one that
        isn't there."""
        def asked_back(node, peer):
            height, name = self.mines(node, MINED, height=MINED)
            told = peer.told()
            self.look("the kinds told", {kind for kind, _ in told}, {BLOCK})
            while told[-1][1] != lx(name):
                told = peer.told()
            headers = peer.headers_behind(REGTEST_GENESIS)
            names = [header.GetHash() for header in headers]
            self.look("how many headers", len(headers), height)
            self.look("what they stand on", [header.hashPrevBlock for header in headers], [REGTEST_GENESIS, *names[:-1]])
            peer.ask(BLOCK, *names)
            blocks = [peer.expect(b"block").block for _ in names]
            self.look("the blocks", [block.GetHash() for block in blocks], names)
            self.checked(blocks)
            peer.ask(BLOCK, b"\x11" * 32)
            self.look("what it hasn't", [(one.type, one.hash) for one in peer.expect(b"notfound").inv], [(BLOCK, b"\x11" * 32)])

        self.served(asked_back)

    def look_blocks_to_the_node(self):
        """The peer tells headers and gives blocks, 16 at a time, tells one by its hash, and tells a longer branch, to which the node goes
        over."""
        def given(node, peer):
            blocks = grown(REGTEST_GENESIS, 0, GIVEN, b"first")
            counts = peer.hand_over(blocks)
            self.look("how many are asked for at once", max(counts), FLIGHT)
            self.has_tip(node, blocks[-1])
            last = grown(blocks[-1].GetHash(), GIVEN, 1, b"told")
            peer.tell(BLOCK, last[0].GetHash())
            self.look("behind which it asks", peer.expect(b"getheaders").locator.vHave[0], blocks[-1].GetHash())
            peer.hand_over(last)
            self.has_tip(node, last[0])
            branch = grown(blocks[-4].GetHash(), GIVEN - 3, 6, b"branch")
            peer.hand_over(branch)
            self.has_tip(node, branch[-1])
            self.look("a block that isn't on the best chain", node.say(f"block {b2lx(last[0].GetHash())}").split()[2:6],
                      ["height", str(GIVEN + 1), "best", "no"])
            (one,) = node.peers()
            self.look("blocks that came whole, and otherwise", (one.full, one.compact + one.completed + one.fallback), (GIVEN + 7, 0))

        self.served(given)

    def look_transactions_both_ways(self):
        """One transaction from the operator, one from the peer, and the block that has both."""
        def relayed(node, peer):
            blocks = grown(REGTEST_GENESIS, 0, 2, b"paid")
            peer.hand_over(blocks)
            self.has_tip(node, blocks[-1])
            ours, theirs = (spending(block.vtx[0], 1_000) for block in blocks)
            self.look("tx", node.say(f"tx {ours.serialize().hex()}"), f"tx {b2lx(ours.GetTxid())}")
            self.look("what the peer is told", peer.told(), [(TX, ours.GetTxid())])
            peer.ask(TX, ours.GetTxid())
            self.look("the transaction", peer.expect(b"tx").tx.serialize(), ours.serialize())
            peer.tell(TX, theirs.GetTxid())
            self.look("what it is asked for", peer.asked(), [(TX, theirs.GetTxid())])
            peer.give_tx(theirs)
            names = [b2lx(tx.GetTxid()) for tx in (ours, theirs)]
            self.comes("both in the mempool", node, lambda: node.list("pool") == names)
            self.mines(node, height=3)
            (_, name), = peer.told()
            peer.ask(BLOCK, name)
            block = peer.expect(b"block").block
            self.checked([block])
            self.look("its transactions", [b2lx(tx.GetTxid()) for tx in block.vtx[1:]], names)
            self.look("the mempool behind it", node.list("pool"), [])

        self.served(relayed)

    def look_a_bad_block(self):
        """A block whose transactions aren't those of its header."""
        def bad(node, peer):
            # The library writes no such block, so its header is put before the transactions of another.
            block, other = mined(REGTEST_GENESIS, 1).serialize(), mined(REGTEST_GENESIS, 1, mark=b"other").serialize()
            peer.socket.sendall(envelope(b"block", block[:80] + other[80:]))
            self.logs(node, "closed: BadBlock")
            self.look("the stream's end", peer.file.read(), b"")
            self.look("the height", node.tip()[0], 0)

        self.served(bad)


if __name__ == "__main__":
    sys.exit(Library.main(__doc__))
