#!/usr/bin/env python3
"""Measures how a block hops from process to process: python3 bench/figures/hops.py [PROGRAM] [--only NAME] [--rounds N]

It needs the program, python3 and Linux, with 4,000 descriptors (`ulimit -n`), and
takes some ten minutes. All stands at this machine's loopback addresses, and the processes `cbrelay node` at their defaults.

- small, full, half: 1, 3 and 8 nodes in a line, and a plain client at each end. One tells a block as a compact one, and the other, which wants
  them unasked, waits for it. A small block has its coinbase alone; a full one has nearly 1 MB and 3,900 transactions, which all mempools
  have, or of which they lack half. A row tells the median and the ninth decile of 50 blocks, and what of the median the nodes' processor had,
  all together (the rest is threads that wait, the kernel's ways and the clients).
- burst, slow: a node mines 1,000 blocks by one line, and a peer of it and that peer's peer follow. Told is when both have all, from the answer
  to the line on, and how many bytes went over each link, both ways; in `slow` a link passes 1 MB a second each way. Aims: 1 s, 2 s where links
  are slow, and 600 KB.
- crowd: 983 peers of one node, each of which asks for the block that one of them gives. Aim: 0.5 s.
- idle: what a second costs in which nothing happens, with one peer.

A part ends after its rounds, or after two minutes.
"""

import statistics
import sys
import threading
import time
from pathlib import Path

sys.path.insert(0, str(Path(__file__).resolve().parents[2]))

from bench.figures.strangers import Crowd
from bench.models import plain_wire as wire
from bench.tools.basics import GENESIS
from bench.tools.made_blocks import TXS, FullChain, mined
from bench.tools.node_line import NodeLine, places_asked, short_told
from bench.tools.process_talk import NodeProcess, many_descriptors
from bench.tools.programs import built, usage

# How long the lines are, how many blocks of each kind go through, how many before; how many seconds a part takes at the most, and what lies
# between two small blocks.
LENGTHS, ROUNDS, WARM, LONGEST, BREATH = (1, 3, 8), 50, 5, 120, 0.02
# How many blocks are mined by a line, how often, how many seconds lie between, and how many bytes a second a slow link passes.
MINED, BURSTS, REST, SLOW = 1_000, 10, 0.5, 1_000_000
# The peers of a crowd, the slots of their node, and how many of them give a block.
PEERS, SLOTS, GIVERS = 983, 1_000, 20
IDLE = 10


class Hops:
    """Blocks that one client tells, and another one waits for."""

    def __init__(self, line):
        self.line = line
        self.source, self.sink = line.ends()

    def seconds(self, block, lacking=()):
        """How long a block takes from the one to the other, and for how long the nodes' threads had a processor meanwhile."""
        message, (request, answer) = wire.compact(block, 7), places_asked(block, lacking)
        for peer in (self.source, self.sink):
            peer.pass_over()
        spent, began = self.line.computed(), time.monotonic()
        self.source.send(message)
        if lacking:
            self.is_asked(request)
            self.source.send(answer)
        short_told(self.sink, block.header.text)
        return time.monotonic() - began, self.line.computed() - spent

    def is_asked(self, request):
        """Waits for this request at the source."""
        while True:
            name, payload = self.source.receive_payload()
            if name == "getblocktxn" and payload == request[24:]:
                return

    def warm(self):
        """Small blocks, behind which each node asks for the next ones by compact blocks. The last one's name and its height come back."""
        name = GENESIS
        for height in range(1, WARM + 1):
            block = mined(name, height)
            name = block.header.name
            self.source.send(wire.block(block.text))
            self.line.until(lambda name=name: all(node.tip()[1] == name[::-1].hex() for node in self.line.nodes), "a block doesn't come")
        self.line.rest()
        return name, WARM

    def give(self, txs):
        """The operator of each node gives it these transactions. Then all rest."""
        lines = [f"tx {tx.text.hex()}" for tx in txs]
        tellers = [threading.Thread(target=node.say_all, args=(lines,)) for node in self.line.nodes]
        for teller in tellers:
            teller.start()
        for teller in tellers:
            teller.join()
        self.line.rest()


def small(hops, rounds):
    """What small blocks take."""
    name, height = hops.warm()
    for _ in range(rounds):
        height += 1
        block = mined(name, height)
        name = block.header.name
        yield hops.seconds(block)
        time.sleep(BREATH)


def full(hops, rounds, known=TXS):
    """What blocks of nearly 1 MB take, of whose transactions the mempools have so many."""
    chain = FullChain(rounds)
    hops.line.rest()
    for fan, block in zip(chain.fans, chain.blocks):
        hops.seconds(fan)
        hops.give(block.txs[1 : known + 1])
        yield hops.seconds(block, range(known + 1, TXS + 1))


def half(hops, rounds):
    return full(hops, rounds, TXS // 2)


def until_late(figures):
    """These figures, as far as they come in time."""
    end = time.monotonic() + LONGEST
    for figure in figures:
        yield figure
        if time.monotonic() > end:
            return


def told(what, nodes, figures):
    took, spent = zip(*figures)
    ninth = statistics.quantiles(took, n=10)[-1] if len(took) > 1 else took[0]
    middle = statistics.median(took)
    print(f"| {what} | {nodes} | {middle * 1e3:.1f} | {ninth * 1e3:.1f} | {middle * 1e3 / nodes:.1f} | {statistics.median(spent) * 1e3:.1f} | {len(took)} |",
          flush=True)


def rows(program, what, act, rounds):
    """A row for each length of a line."""
    for count in LENGTHS:
        with NodeLine(program, count) as line:
            told(what, count, list(until_late(act(Hops(line), rounds))))


# ---- bursts


def bursts(program, what, rate):
    """A node that mines 1,000 blocks by a line, a peer of it, and that peer's peer."""
    with NodeLine(program, 3, counts=True, rate=rate) as line:
        figures = list(until_late(burst(line) for _ in range(BURSTS)))
        for place, name in enumerate(("a peer", "a peer's peer")):
            seconds, sizes = ([one[place] for one in column] for column in zip(*figures))
            twice = max(line.links[place].blocks.values(), default=0)
            print(f"| {what} | {name} | {statistics.median(seconds):.2f} | {max(seconds):.2f} | {statistics.median(sizes):.0f} | {max(sizes):.0f} | "
                  f"{twice} | {len(figures)} |", flush=True)


def burst(line):
    """After how many seconds each of the others has all, and how many KB went over its link."""
    before = [link.bytes() for link in line.links]
    line.nodes[0].say(f"mine {MINED}")
    seconds = followed(line.nodes[1:], line.nodes[0].tip())
    time.sleep(REST)
    return seconds, [(link.bytes() - it) / 1e3 for link, it in zip(line.links, before)]


def followed(nodes, tip):
    """After how many seconds each has this tip, or the longest that is waited."""
    began, seconds = time.monotonic(), [LONGEST] * len(nodes)
    left = set(range(len(nodes)))
    while left and time.monotonic() < began + LONGEST:
        for place in [place for place in left if nodes[place].tip() == tip]:
            seconds[place] = time.monotonic() - began
            left.remove(place)
        time.sleep(0.005)
    return seconds


# ---- many peers, and none


def crowd(program):
    """Many peers of one node: some give a block, one after the other, and all others ask for it."""
    many_descriptors()
    with NodeProcess(program, "--max-connections", str(SLOTS), seconds=LONGEST) as node:
        peers = Crowd(node.port, PEERS)
        peers.until(lambda peer: peer.ready)
        node.until(lambda: node.ready() == PEERS)
        time.sleep(1)
        name, took, spent = GENESIS, [], node.computed()
        for place in range(GIVERS):
            block = mined(name, place + 1)
            name, giver = block.header.name, peers.peers[place]
            giver.tells(wire.BLOCK, name, wire.block(block.text))
            took.append(peers.until(lambda peer, name=name, giver=giver: peer is giver or name in peer.blocks))
        spent = (node.computed() - spent) / GIVERS
        print(f"crowd: a block of one of {PEERS} peers is every other's after {statistics.median(took) * 1e3:.0f} ms, at most "
              f"{max(took) * 1e3:.0f}, and takes {spent * 1e3:.0f} ms of the node's processor", flush=True)


def idle(program):
    """What a second costs in which nothing happens."""
    with NodeLine(program, 1) as line:
        line.peer(0)
        line.rest()
        spent = line.computed()
        time.sleep(IDLE)
        print(f"idle: a second of a node with one peer costs {(line.computed() - spent) / IDLE * 1e3:.1f} ms of the processor", flush=True)


# The heads of tables, and how many columns each has.
HEADS = {
    "hops": ("| block | nodes | ms, median | ninth decile | a hop | ms of the nodes' processor | blocks |", 7),
    "bursts": ("| links | who | s until all are there, median | most | KB over its link, median | most | how often a block came whole, at most | bursts |", 8),
}


def head(name):
    text, columns = HEADS[name]
    print(f"{text}\n{'|---' * columns}|", flush=True)


def main():
    words = usage(__doc__, program="the program")
    words.add_argument("--only", help="the name of the part to make alone")
    words.add_argument("--rounds", type=int, default=ROUNDS, help="how many blocks of each kind")
    given = words.parse_args()
    program = built(given.program, "cbrelay")
    for group, parts in (("hops", {"small": small, "full": full, "half": half}), ("bursts", {"burst": None, "slow": SLOW})):
        chosen = {name: part for name, part in parts.items() if given.only in (None, name)}
        if chosen:
            head(group)
        for name, part in chosen.items():
            if group == "hops":
                rows(program, name, part, given.rounds)
            else:
                bursts(program, name, part)
    for part in (crowd, idle):
        if given.only in (None, part.__name__):
            part(program)


if __name__ == "__main__":
    main()
