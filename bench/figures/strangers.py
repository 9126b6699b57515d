#!/usr/bin/env python3
"""Measures a node among strangers, and waits for what takes minutes: python3 bench/figures/strangers.py [PROGRAM] [--only LOOK]

It needs the program, python3 and Linux, with 4,000 descriptors (`ulimit -n`), and
takes some eight minutes. --help tells the parts. The status is 0 where what is waited for came so.
"""

import select
import statistics
import struct
import sys
import threading
import time
from pathlib import Path

sys.path.insert(0, str(Path(__file__).resolve().parents[2]))

from bench.models import plain_wire as wire
from bench.models.plain_wire import BLOCK, TX
from bench.tools.basics import GENESIS, envelope, hash_twice
from bench.tools.made_blocks import mined, spending, split
from bench.tools.plain_peer import HELLO, USUAL, PlainPeer, dialled
from bench.tools.process_talk import ProcessLooks, connected, many_descriptors
from bench.tools.strangers import is_open, trickles

SECONDS = 120
# Peers that relay, the slots of their node, and how many of them give a block.
PEERS, SLOTS, BLOCKS = 500, 600, 20
# A node of so many slots, so many of which are for peers that dial it, and for how many seconds it is measured, after how many.
MANY, INBOUND, REST, IDLE = 1_000, 984, 5, 10
# What a second may cost in which nothing happens, in milliseconds of the processor.
MOST = 30
# After how many seconds without a message a probe comes, and how late it may be.
PROBE, LATE = 120, 5
# How long a peer that never answers lasts, and for how long the others are looked at.
UNANSWERED, WATCHED = 300, 380
# A peer that sends a byte so seldom, and after how many seconds it ends, before its handshake and behind it.
PAUSE, HANDSHAKE, QUIET = 30, 60, 200
# The slots of a node whose places are given away, those for peers that dial it, and after how many seconds one is.
FEW, PLACES, MINUTE = 8, 6, 60


class Relaying:
    """A peer that gives what is its own, and asks for all that it is told of."""

    def __init__(self, port):
        self.stream, self.messages = connected(port, SECONDS), wire.Stream()
        self.own, self.ready, self.txs, self.blocks = {}, False, 0, set()
        self.stream.sendall(HELLO)

    def tells(self, kind, name, message):
        """Tells of a transaction or a block of its own, and gives it when it is asked for."""
        self.own[name] = message
        self.stream.sendall(wire.entries(b"inv", [(kind, name)]) if kind == TX else wire.headers([message[24:104]]))

    def more(self):
        """Takes what has come, and answers it."""
        self.messages.add(self.stream.recv(1 << 20))
        answers = []
        while message := self.messages.next():
            answers.append(self.answer(wire.command_of(*message), message[1]))
        self.stream.sendall(b"".join(answers))

    def answer(self, name, payload):
        """What it says to a message."""
        self.ready |= name == "verack"
        self.txs += name == "tx"
        if name == "block":
            self.blocks.add(hash_twice(payload[:80]))
        if name == "inv":
            return envelope(b"getdata", payload)
        if name == "getdata":
            return b"".join(self.own.get(asked, b"") for _, asked in wire.read("getdata", payload))
        return envelope(b"pong", payload) if name == "ping" else b""


class Crowd:
    """Many peers that relay, served by one thread."""

    def __init__(self, port, count):
        self.peers = [Relaying(port) for _ in range(count)]
        self.by_descriptor = {peer.stream.fileno(): peer for peer in self.peers}
        self.poll = select.poll()
        for descriptor in self.by_descriptor:
            self.poll.register(descriptor, select.POLLIN)

    def until(self, holds):
        """Serves them until this holds for each. How many seconds that took comes back."""
        began = time.monotonic()
        while not all(map(holds, self.peers)):
            if time.monotonic() > began + SECONDS:
                raise TimeoutError(f"{sum(map(holds, self.peers))} of {len(self.peers)} came to it")
            for descriptor, _ in self.poll.poll(1_000):
                self.by_descriptor[descriptor].more()
        return time.monotonic() - began


class Strangers(ProcessLooks):
    """What nodes among strangers cost, and what takes minutes."""

    # ---- what it costs

    def look_peers_that_all_relay(self):
        """500 peers at once that all relay: each gives a transaction, and 20 give a block; each asks for all that it is told of. Memory
        and the processor's time are told."""
        node = self.node("--max-connections", str(SLOTS))
        funds = funding(PEERS)
        for block in funds:
            self.submits(node, block)
        alone = node.memory()
        crowd = self.costs(node, "handshakes of all", PEERS, lambda: Crowd(node.port, PEERS), lambda peer: peer.ready)
        self.tell(f"memory: {alone / 1e6:.0f} MB before, {(node.memory() - alone) / PEERS / 1e3:.0f} KB a peer behind the handshake")
        coins = funds[-1].txs[-1]
        for place, peer in enumerate(crowd.peers):
            tx = spending(coins, place, 1_000)
            peer.tells(TX, tx.name, envelope(b"tx", tx.text))
        self.costs(node, "transactions that come to each", PEERS * (PEERS - 1), lambda: crowd, lambda peer: peer.txs >= PEERS - 1)
        self.look("the mempool", len(node.list("pool")), PEERS)
        self.blocks_of_each(node, crowd, funds[-1])
        self.tell(f"memory: {node.memory('VmHWM') / 1e6:.0f} MB at the most, {node.memory() / 1e6:.0f} MB at last, {node.threads()} threads")
        self.look("how many peers are left", len(node.peers()), PEERS)
        self.ends(node, asked=True, drops=None)

    def costs(self, node, what, count, act, holds):
        """Tells what it takes until this holds for each peer of a crowd, which comes back."""
        spent, began = node.processor_ms(), time.monotonic()
        crowd = act()
        crowd.until(holds)
        took, spent = time.monotonic() - began, node.processor_ms() - spent
        self.tell(f"{count:,} {what}: {took:.2f} s, {spent * 1e3 / count:.0f} microseconds of the node's processor each")
        return crowd

    def blocks_of_each(self, node, crowd, last):
        """Some peers give a block each, one after the other, and all others ask for it."""
        name, height, took, spent = last.header.name, 2, [], node.processor_ms()
        for place in range(BLOCKS):
            height += 1
            block = mined(name, height)
            name, giver = block.header.name, crowd.peers[place]
            giver.tells(BLOCK, name, wire.block(block.text))
            took.append(crowd.until(lambda peer, name=name, giver=giver: peer is giver or name in peer.blocks))
        spent = (node.processor_ms() - spent) / BLOCKS
        self.look("the height", node.tip()[0], height)
        self.tell(f"a block of one of them is every other's after {statistics.median(took) * 1e3:.0f} ms, the median of {BLOCKS}, and takes "
                  f"{spent:.0f} ms of the node's processor")

    def look_slots_that_wait(self):
        """1,000 slots: what a second costs in which nothing happens, without a connection, with one and with 984: at most 30 ms."""
        node = self.node("--max-connections", str(MANY))
        peers = []
        for count in (0, 1, INBOUND):
            for peer in [self.enter(dialled(node.port)) for _ in range(count - len(peers))]:
                peer.send(HELLO)
                peers.append(peer)
            self.has_peers(node, len(peers))
            time.sleep(REST)
            self.waits(f"1,000 slots wait with {count} connections", MOST, IDLE, node)
        self.tell(f"memory: {node.memory() / 1e6:.0f} MB, {node.threads()} threads")
        self.ends(node, drops=None)

    # ---- what takes minutes

    def look_what_takes_minutes(self):
        """All at once, since each waits for minutes: probes of peers that say nothing, peers that send a byte each 30 seconds, and places
        that are given away once all are taken."""
        parts = [(Strangers(self.name, self.program), act) for act in ("probes", "a_byte_each_half_minute", "places_are_given_away")]
        together(*(lambda part=part, act=act: part.make(getattr(part, act)) for part, act in parts))
        for part, _ in parts:
            self.count, self.failed = self.count + part.count, self.failed + part.failed

    def probes(self):
        """A peer that answers pings, one that doesn't, and another node."""
        node = self.node("--idle-timeout", str(UNANSWERED))
        other = self.linked(node, "--idle-timeout", str(UNANSWERED))
        self.comes("the other node", node, lambda: len(node.peers()) == 1)
        answers, silent = (self.enter(dialled(node.port)) for _ in range(2))
        for peer in (answers, silent):
            peer.shake_hands()
        pings = {}
        together(*(lambda peer=peer, pongs=pongs: pings.update({peer: pinged(peer, pongs)}) for peer, pongs in ((answers, True), (silent, False))))
        self.tell(f"probes of a peer that answers after {times(pings[answers])} s, of one that doesn't after {times(pings[silent])} s")
        self.look("how many come to the one that answers", len(pings[answers]), WATCHED // PROBE)
        self.look("how many come to the one that doesn't", len(pings[silent]), 1)
        gaps = [now[0] - before for before, now in zip([0, *(at for at, _ in pings[answers])], pings[answers])]
        self.look("whether they come in time", [gap for gap in gaps if not PROBE - 1 <= gap <= PROBE + LATE], [])
        self.look("whether each nonce is new", len({nonce for _, nonce in pings[answers]}), len(pings[answers]))
        self.logs(node, "IdleTimeout")
        self.has_peers(node, 2)
        # another node's probe may come first, and then none goes to it
        pongs = [peer.pong for peer in node.peers() if peer.address.endswith(f":{answers.stream.getsockname()[1]}")]
        self.look(f"whether a pong that took {pongs} ms is told", [pong is not None and pong < 5_000 for pong in pongs], [True])
        self.ends(other, drops=None)
        self.ends(node, drops=None)

    def a_byte_each_half_minute(self):
        """Peers that send a byte each 30 seconds, before their handshake and behind it."""
        node = self.node("--idle-timeout", str(QUIET))
        early, late = (self.enter(dialled(node.port)) for _ in range(2))
        late.shake_hands()
        ends = {}
        together(*(lambda peer=peer: ends.update({peer: trickles(peer.stream, HELLO[:24], PAUSE, WATCHED)}) for peer in (early, late)))
        for peer, limit, cause in ((early, HANDSHAKE, "HandshakeTimeout"), (late, QUIET, "IdleTimeout")):
            took = ends[peer] or WATCHED
            self.tell(f"a peer that sends a byte each {PAUSE} s ends after {took:.1f} s by {cause}")
            self.look(f"whether {took:.1f} s are right for {cause}", limit - 1 <= took <= limit + LATE, True)
            self.logs(node, cause)
        self.ends(node)

    def places_are_given_away(self):
        """All places are taken: by one that gave a block, one that is quiet, and ones that spoke later."""
        node = self.node("--max-connections", str(FEW))
        target = self.enter(PlainPeer(self.dialled_by(node)))
        giver, quiet, *others = peers = [self.enter(dialled(node.port)) for _ in range(PLACES)]
        for peer in peers:
            peer.shake_hands()
        target.shake_hands()
        block = mined(GENESIS, 1)
        giver.send(wire.headers([block.header.text]))
        giver.expect("getdata")
        giver.send(wire.block(block.text))
        self.comes("the block", node, lambda: node.tip()[0] == 1)
        # its `pong` is the latest thing that it says, so it is quiet for longest but for the giver
        quiet.pinged(1, (*USUAL, "inv"))
        began = time.monotonic()
        time.sleep(MINUTE / 2)
        for peer in others:
            peer.send(envelope(b"ping", bytes(8)))
        self.look("whether a peer more gets in", self.gets_in(node), False)
        time.sleep(began + MINUTE + 1 - time.monotonic())
        self.look("whether a peer more gets in after a minute", self.gets_in(node), True)
        self.look("who is left", [is_open(peer.stream) for peer in (giver, quiet, *others, target)], [True, False] + [True] * (PLACES - 1))
        self.tell(f"with all places taken a peer got in after {time.monotonic() - began:.0f} s, for the one that was quiet longest")
        self.ends(node, drops=None)

    @staticmethod
    def gets_in(node):
        """Whether a peer that dials shakes hands, and is served. It goes again."""
        with dialled(node.port) as peer:
            try:
                peer.shake_hands()
                return peer.pinged(2)
            except (OSError, ValueError):
                return False


def together(*acts):
    """Does these at the same time, each in a thread."""
    lanes = [threading.Thread(target=act) for act in acts]
    for lane in lanes:
        lane.start()
    for lane in lanes:
        lane.join()


def pinged(peer, answers):
    """When pings come, and their nonces, for as long as a peer is looked at or lasts."""
    began, pings = time.monotonic(), []
    while time.monotonic() < began + WATCHED:
        if peer.is_quiet(max(0, began + WATCHED - time.monotonic())):
            break
        try:
            name, nonce = peer.receive()
        except (OSError, ValueError):
            break
        if name == "ping":
            pings.append((time.monotonic() - began, nonce))
            if answers:
                peer.send(envelope(b"pong", struct.pack("<Q", nonce)))
    return pings


def times(pings):
    return ", ".join(f"{at:.1f}" for at, _ in pings)


def funding(count):
    """Two blocks, of which the second has a transaction with so many outputs."""
    first = mined(GENESIS, 1)
    return first, mined(first.header.name, 2, txs=[split(first.txs[0], count, 10)])


if __name__ == "__main__":
    many_descriptors()
    sys.exit(Strangers.main(__doc__))
