#!/usr/bin/env python3
"""Runs nodes over loopback with peers that are no nodes, and with slots that are used again and again: python3 bench/looks/node_peers.py
[PROGRAM] [--all] [--only LOOK]

It needs the program, python3 and Linux, and takes a minute. --help tells the
looks. The status is 0 where all came out so.
"""

import re
import socket
import struct
import sys
import time
from pathlib import Path

sys.path.insert(0, str(Path(__file__).resolve().parents[2]))

from bench.models import plain_wire as wire
from bench.models.plain_block import sized
from bench.tools.basics import GENESIS, envelope
from bench.tools.looks import Looks
from bench.tools.made_blocks import mined
from bench.tools.node_scripts import OUTBOUND
from bench.tools.plain_peer import HELLO
from bench.tools.process_talk import MOVED, NodeTalk, connected

SLOTS, CONNECTIONS = 32, 256
# How often a link is tried, and after how many rounds of kicks without a link no slot is left.
TRIES, IDLE_ROUNDS = 100, 3
LARGE, ASKED = 900_000, 60
PING = wire.ping(0)
PONG = PING[:4] + b"pong"
UNREADABLE = envelope(b"ping", bytes(7))
# How long a write may wait, and how long we wait for its end.
TIMEOUT, PATIENCE = 30, 90
# How often we look whether all threads sleep.
LOOKS_AT_REST = 5


class Peers(Looks):
    """Runs of nodes with peers that are no nodes."""

    def ends(self, name, nodes, height, status):
        """The input ends: all nodes must stand at one tip of this height, with audits that say yes."""
        got, lines = nodes.finish()
        rows = [line.split() for line in lines if " tip " in line]
        self.look(f"{name}: the status", got, status)
        self.look(f"{name}: heights", {row[3] for row in rows}, {str(height)})
        self.look(f"{name}: tips", len({row[5] for row in rows}), 1)
        self.look(f"{name}: audits", {row[9] for row in rows}, {"yes"})
        moved = [line for line in lines if " slot " in line and " closed " in line]
        self.look(f"{name}: what connections moved", [line for line in moved if not re.search(rf" {MOVED}$", line)], [])
        return [line.split() for line in moved]

    # ---- connection after connection

    def look_one_slot_again(self):
        """A node's 32 slots are used up, and one is freed by a kick and used again."""
        with NodeTalk(self.program, 2, 2, "--stats") as nodes:
            for _ in range(SLOTS):
                self.look("a link", nodes.say("link 0 1"), None)
            self.look("a link more", nodes.say("link 0 1"), "no slot")
            threads = len(nodes.states())
            self.look("a kick", nodes.say(f"kick 0 {OUTBOUND + 5}"), None)
            # Both connections' readers and writers return. A link before that could use node 0's slot in vain.
            until(lambda: rests(nodes, threads - 4), time.monotonic() + TIMEOUT)
            self.look("a link again", nodes.say("link 0 1"), None)
            self.look("a block", nodes.say("mine 0"), None)
            self.look("a wait", nodes.say("wait"), None)
            rows = self.ends("one slot again", nodes, 1, 3)
            again = {(row[1], row[3]) for row in rows if row[5] != "1"}
            self.look("slots of second connections", again, {("0", str(OUTBOUND + 5)), ("1", "5")})
            kicked = [row[7] for row in rows if row[:6] == ["node", "0", "slot", str(OUTBOUND + 5), "connection", "1"]]
            self.look("the kicked connection's end", kicked, ["Kicked"])

    def look_every_connection(self):
        """With --all, which takes a minute: each slot of node 0 is used 256 times, and then there is none. A link for which node 1 has no
        slot at that moment uses one of node 0 as well."""
        if not self.options.all:
            return
        with NodeTalk(self.program, 2, 4, "--stats", seconds=PATIENCE) as nodes:
            made, idle = 0, 0
            while idle < IDLE_ROUNDS:
                before = made
                while nodes.retried("link 0 1", TRIES) is None:
                    made += 1
                idle = idle + 1 if made == before else 0
                for slot in range(OUTBOUND, OUTBOUND + SLOTS):
                    nodes.say(f"kick 0 {slot}")
            self.look("as many connections as there can be", made <= SLOTS * CONNECTIONS, True)
            self.look("a block", nodes.say("mine 0"), None)
            self.look("a link back", nodes.retried("link 1 0"), None)
            self.look("a wait", nodes.say("wait"), None)
            rows = self.ends("every connection", nodes, 1, 3)
            latest = {int(row[3]): int(row[5]) for row in rows if row[1] == "0" and int(row[3]) >= OUTBOUND}
            self.look("generations", set(latest.values()), {CONNECTIONS})
            self.tell(f"{made} connections by {SLOTS} slots")

    # ---- peers that are no nodes

    def look_odd_peers(self):
        """Peers end in the middle of a message, once with the end of the stream and once by a reset, and others send bytes that are no
        message, a payload that can't be read, many pings, or nothing at all. The nodes go on."""
        for act, end in ((self.silent, None), (self.cut, "Bye"), (self.reset, "Bye"), (self.noise, "BadStream"), (self.unreadable, "BadMessage"),
                         (self.many_pings, "Bye")):
            self.with_peer(act.__name__, act, end)

    def with_peer(self, name, act, end):
        """Nodes 0 and 1 are linked, and a peer is served by node 1's slot 1. What it does ends the connection so."""
        with NodeTalk(self.program, 2, 2, "--stats") as nodes:
            self.look(f"{name}: a link", nodes.say("link 0 1"), None)
            [port] = nodes.ports()
            with connected(port) as stream:
                # The peer waits to be accepted, so it is taken for node 0, whose own connection waits behind it.
                self.look(f"{name}: a link", nodes.say("link 0 1"), None)
                act(nodes, stream)
                self.look(f"{name}: a block", nodes.say("mine 0"), None)
                self.look(f"{name}: a wait", nodes.say("wait"), None)
                self.look(f"{name}: a block back", nodes.say("mine 1"), None)
                self.look(f"{name}: a wait", nodes.say("wait"), None)
            rows = self.ends(name, nodes, 2, 3)
            self.look(f"{name}: the peer's end", [row[7] for row in rows if row[1:4] == ["1", "slot", "1"]], [end] if end else [])

    def silent(self, nodes, stream):
        """Says nothing, and stays."""

    def cut(self, nodes, stream):
        """The stream's end in the middle of a message."""
        stream.sendall(HELLO + PING[:20])
        stream.shutdown(socket.SHUT_WR)
        time.sleep(0.2)

    def reset(self, nodes, stream):
        """A reset in the middle of a payload."""
        stream.sendall(HELLO + PING[:28])
        time.sleep(0.1)
        end_by_reset(stream)
        time.sleep(0.2)

    def noise(self, nodes, stream):
        """Bytes that are no message."""
        stream.sendall(bytes(100))
        time.sleep(0.2)

    def unreadable(self, nodes, stream):
        """A payload that can't be read."""
        stream.sendall(HELLO + UNREADABLE)
        time.sleep(0.2)

    def many_pings(self, nodes, stream):
        """More pings than an inbox holds at once, of which each is answered."""
        stream.sendall(HELLO + PING * 3_000)
        self.look("pongs", pongs(stream, 3_000), 3_000)

    def asked_of(self, nodes):
        """Node 1 is given a large block. A message that asks for it many times comes back."""
        block = mined(GENESIS, 1)
        large = sized(block.header.name, LARGE)
        for one in (block, large):
            self.look("a given block", nodes.say(f"block 1 {one.text.hex()}"), None)
        return wire.entries(b"getdata", [(2, large.header.name)] * ASKED)

    def look_never_reads(self):
        """A peer asks for many large blocks and reads nothing. The others go on; its connection ends by itself once its socket took
        nothing for long."""
        with NodeTalk(self.program, 3, 2, "--stats", seconds=PATIENCE) as nodes:
            self.look("a link", nodes.say("link 0 1"), None)
            self.look("a link", nodes.say("link 2 1"), None)
            much = self.asked_of(nodes)
            self.look("a wait", nodes.say("wait"), None)
            [port] = nodes.ports()
            with connected(port) as stream:
                self.look("a link", nodes.say("link 0 1"), None)
                stream.sendall(HELLO + much)
                began = time.monotonic()
                height = 2
                while time.monotonic() < began + TIMEOUT + 6:
                    for node in (0, 1, 2):
                        self.look("a block beside it", nodes.say(f"mine {node}"), None)
                        self.look("a wait beside it", nodes.say("wait"), None)
                        height += 1
                    time.sleep(1)
                rows = self.ends("a peer that never reads", nodes, height, 3)
            # Where its socket is still, its session sees either a failed write or the stream's end.
            ended = [row[7] for row in rows if row[1:4] == ["1", "slot", "2"]]
            self.look("whether the peer ends by itself", ended in (["WriteFault"], ["Bye"]), True)


def rests(nodes, threads):
    """Whether the nodes have so many threads, which all sleep at several looks in a row."""
    for _ in range(LOOKS_AT_REST):
        if nodes.states() != ["S"] * threads:
            return False
        time.sleep(0.01)
    return True


def until(holds, end):
    """Waits until something holds, to this moment at most."""
    while not holds() and time.monotonic() < end:
        time.sleep(0.01)


def pongs(stream, most):
    """How many pongs come to a peer, up to so many or to the stream's end."""
    got = b""
    while got.count(PONG) < most:
        piece = stream.recv(65_536)
        if not piece:
            break
        got += piece
    return got.count(PONG)


def end_by_reset(stream):
    """Closes a peer's connection by a reset."""
    stream.setsockopt(socket.SOL_SOCKET, socket.SO_LINGER, struct.pack("ii", 1, 0))
    stream.close()


if __name__ == "__main__":
    sys.exit(Peers.main(__doc__, [("all", "use up all connections of all slots too")]))
