#!/usr/bin/python3
"""Downloads chains of more blocks than a session may want at a time: /usr/bin/python3 bench/looks/long_chains.py [PROGRAM] [--only LOOK]

It needs the program, Linux, and Debian's package python3-bitcoinlib, which that
python3 finds. It takes some minutes. --help tells the looks. In those after the first four the client library is a peer that offers 5,000
headers and hands over what is asked for.

How many blocks a second came is told, and how many headers for each block of the chain: at most 2.1, but for a changed branch, and at most 3
where blocks are announced meanwhile. The status is 0 where all came out so.
"""

import subprocess
import sys
import time
from pathlib import Path

sys.path.insert(0, str(Path(__file__).resolve().parents[2]))

from bitcoin.core import b2lx

from bench.models import plain_wire as wire
from bench.tools.between import Between
from bench.tools.library_peer import MOST_HEADERS, REGTEST_GENESIS, Offering, dialled, grown
from bench.tools.process_talk import NodeProcess, ProcessLooks, command

SECONDS, OFFERED, LONG, FLIGHT = 600, 5_000, 20_000, 16
# How many headers a block may cost, and how many where blocks are announced meanwhile. How often a peer announces one: behind so many given.
RATE, MEANWHILE, PACE, ANNOUNCED = 2.1, 3, 500, 10
# The length of the other branch, and behind how many given blocks a peer goes over to it: the node remembers the 4,000th header then.
BRANCH, TURNED = 3_000, 3_000
# How often a script waits: each wait ends after some seconds.
WAITS = 60


def serve(offered, behind=lambda offered: None):
    """Answers until the last block was given. Behind each answer it does something else."""
    while offered.last != offered.blocks[-1].GetHash():
        offered.answer()
        behind(offered)


class LongChains(ProcessLooks):
    """Chains of more blocks than may be wanted."""

    def came(self, what, count, seconds):
        self.tell(f"{what}: {count} blocks in {seconds:.1f} s, {count / seconds:.0f} a second")

    def costs(self, what, headers, blocks, limit=RATE):
        """How many headers were told for each block of the chain."""
        self.tell(f"{what}: {headers} headers for {blocks} blocks, {headers / blocks:.2f} for each")
        self.most(f"{what}: headers for each block", headers / blocks, limit, ".2f")

    # ---- scripts

    def runs(self, nodes):
        """So many nodes in a line, of which the first has the chain."""
        links = [f"link {node} {node - 1}" for node in range(1, nodes)]
        script = "\n".join(["mine 0"] * OFFERED + links + ["wait"] * WAITS) + "\n"
        began = time.monotonic()
        ran = subprocess.run(command(self.program, nodes, 2), input=script, capture_output=True, text=True, timeout=SECONDS, check=False)
        told = [line.split() for line in ran.stdout.splitlines() if line.startswith("node ")]
        self.look("heights", [words[3] for words in told], [str(OFFERED)] * nodes)
        self.look("tips", len({words[5] for words in told}), 1)
        self.look("audits", {words[-1] for words in told}, {"yes"})
        self.came(f"run, {nodes} nodes", OFFERED * (nodes - 1), time.monotonic() - began)

    def look_one_link(self):
        """`run`: 5,000 blocks behind one link."""
        self.runs(2)

    def look_a_line_of_three(self):
        """The same by three nodes in a line."""
        self.runs(3)

    # ---- processes

    def look_two_processes(self):
        """One node mines 20,000 blocks, and another downloads them; then one that begins anew in the middle, and then the other one."""
        first = self.node(seconds=SECONDS)
        address = first.at
        for _ in range(LONG // 1_000):
            first.say("mine 1000")
        tip = first.tip()
        self.look("its height", tip[0], LONG)
        self.downloads(first, address, tip)
        self.downloads(first, address, tip, (LONG // 2, 3 * LONG // 4))

    def downloads(self, first, address, tip, anew=()):
        """Another process downloads the chain. At these heights it begins anew, and then the first one."""
        with Between(address) as between, NodeProcess(self.program, "--connect", between.address, seconds=SECONDS) as second:
            began = time.monotonic()
            for node, height in zip((second, first), anew):
                self.comes(f"height {height}", second, lambda height=height: second.tip()[0] >= height)
                self.restarts(node, drops=None)
            self.comes("the tip", second, lambda: second.tip() == tip)
            self.came("node, begun anew" if anew else "node", LONG, time.monotonic() - began)
            if not anew:
                self.costs("node", between.headers, LONG)
            self.ends(second, asked=True, drops=None)

    def look_a_node_that_mines(self):
        """A node mines a block behind each 500 that another one has downloaded of its chain."""
        with NodeProcess(self.program, seconds=SECONDS) as first, Between(first.at) as between:
            for _ in range(OFFERED // 1_000):
                first.say("mine 1000")
            with NodeProcess(self.program, "--connect", between.address, seconds=SECONDS) as second:
                for height in range(0, OFFERED, PACE):
                    self.comes(f"height {height}", second, lambda height=height: second.tip()[0] >= height)
                    self.mines(first)
                self.comes("the tip", second, lambda: second.tip() == first.tip())
                self.costs("a node that mines", between.headers, first.tip()[0], MEANWHILE)
                self.ends(second, asked=True, drops=None)
            self.ends(first, asked=True, drops=None)

    # ---- the client library

    def offered(self, what, act, count=OFFERED, limit=RATE):
        """A node whose peer offers a chain of so many blocks."""
        blocks = grown(REGTEST_GENESIS, 0, count, b"long")
        with NodeProcess(self.program, seconds=SECONDS) as node, dialled(node.port, SECONDS) as peer:
            peer.shake_hands()
            offered = Offering(peer, blocks)
            offered.tell(offered.after([REGTEST_GENESIS]))
            began = time.monotonic()
            act(offered)
            self.comes("the tip", node, lambda: node.tip()[1] == b2lx(offered.blocks[-1].GetHash()))
            self.came(what, len(offered.blocks), time.monotonic() - began)
            self.costs(what, offered.headers, len(offered.blocks), limit)
            self.ends(node, "quit", drops=None)

    def look_five_thousand(self):
        """5,000 headers, and what is asked for."""
        self.offered("5,000 headers", serve)

    def look_announced_all_the_while(self):
        """A peer that announces a block behind each 500 that it gave."""
        def announce(offered):
            if offered.given >= PACE * (len(offered.blocks) - OFFERED + 1) and len(offered.blocks) < OFFERED + ANNOUNCED:
                offered.turn_to(offered.blocks + grown(offered.blocks[-1].GetHash(), len(offered.blocks), 1, b"grown"))
                offered.tell(offered.blocks[-1:])

        self.offered("announced all the while", lambda offered: serve(offered, announce), limit=MEANWHILE)

    def look_another_branch(self):
        """A peer that goes over to a branch when 3,000 blocks were given: the node remembers a header of the other then."""
        def turn(offered):
            if offered.given >= TURNED and len(offered.blocks) == OFFERED:
                fork = OFFERED - BRANCH + 1
                offered.turn_to(offered.blocks[:fork] + grown(offered.blocks[fork - 1].GetHash(), fork, BRANCH, b"other"))
                offered.tell(offered.blocks[-1:])

        self.offered("another branch", lambda offered: serve(offered, turn), limit=2 * RATE)

    def look_a_fallback_without_room(self):
        """A compact block with equal short ids comes when 16 blocks are in flight and 2,000 are wanted, of as many headers."""
        def fall_back(offered):
            if offered.headers == MOST_HEADERS + FLIGHT and offered.given == 0:
                offered.turn_to(offered.blocks + grown(offered.blocks[-1].GetHash(), len(offered.blocks), OFFERED - MOST_HEADERS - FLIGHT, b"more"))
                self.falls_back(offered, MOST_HEADERS + FLIGHT)

        self.offered("a fallback without room", lambda offered: serve(offered, fall_back), MOST_HEADERS + FLIGHT)

    def look_a_fallback_meanwhile(self):
        """The same, when a header is remembered already."""
        def fall_back(offered):
            if offered.headers == 2 * MOST_HEADERS and offered.given == 0:
                self.falls_back(offered, MOST_HEADERS + FLIGHT + 4)

        self.offered("a fallback meanwhile", lambda offered: serve(offered, fall_back))

    @staticmethod
    def falls_back(offered, place):
        """Announces the block at this place by a compact block that can't be rebuilt."""
        offered.peer.socket.sendall(wire.cmpctblock(offered.blocks[place].get_header().serialize(), 0, [1, 1], []))


if __name__ == "__main__":
    sys.exit(LongChains.main(__doc__))
