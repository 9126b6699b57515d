#!/usr/bin/env python3
"""Plays generated conversations with nodes over loopback, of one peer and of many at once: python3 bench/looks/many_peers.py [COUNT]
[SEED] [PROGRAM]

It needs the program, python3 and Linux, and takes a minute or two. The
conversations are those of bench/looks/conversations.py.

- One peer: without words 300 conversations from seed 1, each with a new node of `run`, by 1 handler or by 4. The node has to answer as
  the plain session does (bench/models/plain_session.py), and its session to end for the same reason. So a session in threads sends what
  `cbrelay serve` sends where no other peer is there.
- Many peers: 40 at once are served by a process `node` with 4 handlers, 5 connections one after another each, with kicks between them.
  Each connection comes to its end, and the audit says yes: each session is the fold of its trace, and the hall gave it the answers that
  its journal tells.

The status is 0 where all came out so.
"""

import os
import random
import socket
import sys
from concurrent.futures import ThreadPoolExecutor
from pathlib import Path

sys.path.insert(0, str(Path(__file__).resolve().parents[2]))

from bench.tools.conversation_drawing import Conversation, Relay, differs
from bench.tools.process_talk import NodeTalk, ProcessLooks, connected

ALONE, PEERS, CONNECTIONS, HANDLERS = 300, 40, 5, 4
# How often a peer of many is kicked by the operator between two of its connections.
KICKS = 0.15
PATIENCE = 60


def drawn(seed):
    return (Relay if seed % 2 else Conversation)(seed)


def heard(stream, said):
    """What comes to a peer that says this and then no more, up to the end of the stream."""
    told = bytearray()
    try:
        stream.sendall(said)
        stream.shutdown(socket.SHUT_WR)
    except OSError:
        pass  # The node has closed the connection already.
    while True:
        try:
            piece = stream.recv(65_536)
        except ConnectionResetError:
            piece = b""
        if not piece:
            return bytes(told)
        told += piece


class ManyPeers(ProcessLooks):
    """Conversations with nodes in threads."""

    def alone(self, seed):
        """How a new node answers one peer otherwise than the plain session, if it does."""
        spoken = drawn(seed)
        with NodeTalk(self.program, 2, 4 if seed % 3 == 0 else 1, "--stats", seconds=PATIENCE) as nodes:
            # The node listens from the first link on. That one ends before the peer comes.
            made = [nodes.say("link 1 0"), nodes.say("kick 0 0")]
            [port] = nodes.ports()
            with connected(port, PATIENCE) as stream:
                # The peer waits to be accepted, so it is taken for node 1, whose own connection waits behind it.
                made.append(nodes.say("link 1 0"))
                told = heard(stream, spoken.stream)
            _, lines = nodes.finish()
        rows = [line.split() for line in lines if line.startswith("node 0 slot 1 connection 1 ")]
        got = made, [row[7] for row in rows], told
        wanted = [None] * 3, [spoken.why], spoken.answered
        return None if got == wanted else f"seed {seed}: {got[:2]} for {wanted[:2]}, {differs(told, spoken.answered)}"

    def look_one_peer(self):
        """Each conversation of one peer is answered as by the plain session."""
        count, first = int(self.options.count or ALONE), int(self.options.seed or 1)
        with ThreadPoolExecutor(os.cpu_count()) as lanes:
            for difference in lanes.map(self.alone, range(first, first + count)):
                self.look("a conversation", difference, None)
        self.tell(f"{count} conversations of one peer")

    def play(self, node, port, seed):
        """One of many peers: its connections, one after another. How many came to their end comes back."""
        rng, ended = random.Random(seed), 0
        for connection in range(CONNECTIONS):
            with connected(port, PATIENCE) as stream:
                heard(stream, drawn(rng.randrange(1, 1 + ALONE)).stream)
            ended += 1
        return ended

    def look_many(self):
        """Many peers at once, and an operator who kicks some of them."""
        seed = int(self.options.seed or 1)
        rng = random.Random(seed)
        node = self.node("--handlers", str(HANDLERS), seconds=PATIENCE)
        port = node.port
        with ThreadPoolExecutor(PEERS) as lanes:
            playing = [lanes.submit(self.play, node, port, (seed << 16) + it) for it in range(PEERS)]
            while not all(it.done() for it in playing):
                for one in node.peers():
                    if rng.random() < KICKS:
                        node.say(f"kick {one.slot}")
        self.look("connections that came to their end", sum(it.result() for it in playing), PEERS * CONNECTIONS)
        self.comes("their sessions' end", node, lambda: node.peers() == [])
        self.ends(node, asked=True, drops=None)


if __name__ == "__main__":
    sys.exit(ManyPeers.main(__doc__, count="how many conversations of one peer", seed="the seed of the first"))
