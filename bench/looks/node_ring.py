#!/usr/bin/env python3
"""Runs five processes `cbrelay node` in a ring: python3 bench/looks/node_ring.py [SECONDS] [SEED] [PROGRAM]

It needs the program, python3 and Linux. Blocks are mined by nodes drawn at random.
Meanwhile processes are ended and started again, connections are kicked, links are made beside the ring, and nodes are begun anew. Then a
last block is mined alone. Each node must come to it, and each audit must say yes. SECONDS is 30 where none is given: ten minutes are 600.
What the processes took of memory and of the processor is told. The status is 0 where all came out so.
"""

import random
import sys
import time
from collections import Counter
from pathlib import Path

sys.path.insert(0, str(Path(__file__).resolve().parents[2]))

from bench.tools.process_talk import ProcessLooks, closed_port

COUNT, SECONDS, SEED, MOST_PAUSE = 5, 30, 1, 0.2
# What may happen to a node, and how often of a hundred.
ACTS = {"mine": 56, "kick": 8, "restart": 4, "quit": 4, "link": 4, "checkpoint": 12, "peers": 12}


class Ring(ProcessLooks):
    """Processes in a ring: each dials the next."""

    def look_ring(self):
        """Lets things happen, and mines a last block alone."""
        self.rng, self.done, self.ports = random.Random(self.options.seed or SEED), Counter(), [closed_port() for _ in range(COUNT)]
        # The processor's milliseconds and the most memory of processes that have ended.
        self.spent, self.most_memory = 0, 0
        self.nodes = [self.start(place) for place in range(COUNT)]
        end = time.monotonic() + float(self.options.seconds or SECONDS)
        while time.monotonic() < end and not self.failed:
            kind = self.rng.choices(list(ACTS), list(ACTS.values()))[0]
            self.done[kind] += 1
            getattr(self, kind)(self.rng.randrange(COUNT))
            time.sleep(self.rng.random() * MOST_PAUSE)
        self.finish()
        if self.failed:
            for node in self.nodes:
                print(*node.logged[-12:], sep="\n  ")

    def start(self, place):
        """Starts the process at this place."""
        peer = f"127.0.0.1:{self.ports[(place + 1) % COUNT]}"
        return self.node("--connect", peer, listen=f"127.0.0.1:{self.ports[place]}")

    def is_linked(self):
        """Whether each node has a peer that it dialled, whose handshake is complete."""
        return all(any((peer.way, peer.phase) == ("to", "ready") for peer in node.peers()) for node in self.nodes)

    def note_cost(self, node):
        """Adds what a process took."""
        self.spent += node.processor_ms()
        self.most_memory = max(self.most_memory, node.memory("VmHWM"))

    # ---- what may happen to a node

    def mine(self, place):
        self.mines(self.nodes[place], self.rng.randrange(1, 4))

    def kick(self, place):
        peers = self.nodes[place].peers()
        if peers:
            slot = self.rng.choice(peers).slot
            told = self.nodes[place].say(f"kick {slot}")
            self.look("a kick", told in (f"kicked {slot}", "error no slot"), True)

    def restart(self, place):
        self.restarts(self.nodes[place], drops=None)

    def quit(self, place):
        """Ends a process and starts another, which knows nothing. It may not have reached its peer, which its status tells."""
        self.note_cost(self.nodes[place])
        status, told = self.nodes[place].close("quit")
        self.ended_so((0 if status == 3 else status, told), drops=None)
        self.nodes[place] = self.start(place)

    def link(self, place):
        """Links two nodes beside the ring, where both aren't linked already."""
        told = self.nodes[place].say(f"connect 127.0.0.1:{self.ports[(place + 2) % COUNT]}")
        self.look("a link", told.startswith("connected ") or told in ("error already", "error io"), True)

    def checkpoint(self, place):
        self.look("a checkpoint", self.nodes[place].say("checkpoint"), "checkpoint")

    def peers(self, place):
        self.nodes[place].peers()

    # ---- the end

    def finish(self):
        """Mines a last block, which has to come to all. Ends all nodes."""
        self.comes("each node is linked", self.nodes[0], self.is_linked)
        best = max(self.nodes, key=lambda node: node.tip()[0])
        tip = self.mines(best)
        self.stands_at(tip, *self.nodes)
        for node in self.nodes:
            self.note_cost(node)
            self.ends(node, drops=None)
        acts = ", ".join(f"{kind} {count}" for kind, count in sorted(self.done.items()))
        self.tell(f"height {tip[0]}; done: {acts}; {self.spent:.0f} ms of the processor in all, "
                  f"at most {self.most_memory / 1e6:.0f} MB in a process")


if __name__ == "__main__":
    sys.exit(Ring.main(__doc__, seconds="how long blocks are mined", seed="of what is drawn"))
