#!/usr/bin/env python3
"""Simulates networks in which all goes wrong at once: python3 bench/looks/net.py [COUNT] [SEED] [PROGRAM]

It needs the program and python3. `cbrelay net` plays COUNT networks, 200 where none
is given, in half a minute. Each has 30 nodes, of which some stall and some lie. It is cut in two for some blocks, and a node begins anew
with nothing. At the end the honest nodes must have one tip, each audit must say yes, and no honest node may have closed an honest one's
connection. Some networks are simulated twice, and must print the same bytes; and once more as rows of comma-separated values, which must
say what the words say. Words that no network can have must be refused, and told so. A network without faults must come to the same tip
whatever is audited; the least words suffice. Between two nodes a block takes its latencies and the bytes of its messages. A terminal on
standard error is told how far a network is. The status is 0 where all came out so. A failing network's words are printed.
"""

import csv
import io
import os
import random
import subprocess
import sys
from pathlib import Path

sys.path.insert(0, str(Path(__file__).resolve().parents[2]))

from bench.tools.looks import Looks

COUNT, SEED, NODES, SECONDS = 200, 1, 30, 300
# Of so many networks one is simulated again, and printed as rows.
AGAIN = 8
TIMES = ("half", "most", "all")
WAYS = ("once", "asked", "whole")
# A network without faults.
CALM = "--nodes 20 --seed 5 --blocks 2"

# The least words, and all that is usual in its place.
LEAST = "--nodes 5 --seed 1 --blocks 1"
USUAL = f"{LEAST} --links 8 --latency 20..200 --rate 1250000 --transactions 100 --missing 0 --lacking 0 --stall 0 --lie 0 --audit all"
# Two nodes, and what brings the first block from one to the other: its header (BIP 130), a request for it in short ids, and these (BIP 152).
# The first two have a message's header of 24 bytes, a count, and a block's header with its count of transactions, or an inventory entry.
PAIR, MILLISECONDS, RATE = "--nodes 2 --links 2 --transactions 0 --blocks 1", 300, 1_000
HEADERS, GETDATA = 24 + 1 + 80 + 1, 24 + 1 + 4 + 32
# What goes back to the beginning of a terminal's line and erases it.
ERASE = "\r\x1b[K"
# Words that are refused by their form, and what of it is told.
UNREAD = {
    "": "--nodes",
    "--nodes": "--nodes",
    "--nodes thirty": "thirty",
    "--nodes -1": "-1",
    "--nodes 4294967296": "4294967296",
    "--nodes 30 --nods 31": "--nods",
    "--nodes 30 --nodes 31": "--nodes",
    "--nodes 30 --seed 18446744073709551616": "18446744073709551616",
    "--nodes 30 --csv yes": "yes",
    "--nodes 30 more": "more",
}
# Words that no network can have, and what is told.
LATENCY = "--latency takes A..B in milliseconds, as 20..200"
PART, RESTART = "--part takes N@A..B, as 500@3..5", "--restart takes N@B, as 17@4"
REFUSED = {
    "--nodes 1": "a network has 2 to 100000 nodes",
    "--nodes 100001": "a network has 2 to 100000 nodes",
    "--nodes 30 --links 1": "a node has 2 to 64 links on average",
    "--nodes 30 --latency 20": LATENCY,
    "--nodes 30 --latency 20.200": LATENCY,
    "--nodes 30 --latency 20...200": LATENCY,
    "--nodes 30 --latency 200..20": "latencies go from low to high, up to an hour",
    "--nodes 30 --rate 0": "a node sends at least 1 byte a second",
    "--nodes 30 --blocks 0": "at least 1 block is mined",
    "--nodes 30 --transactions 4001": "a block has at most 4000 transactions",
    "--nodes 30 --missing 101": "at most all transactions of a block are missing",
    "--nodes 30 --lacking 101": "at most 100 percent of the nodes lack some",
    "--nodes 30 --part 12@2": PART,
    "--nodes 30 --part 12@2..": PART,
    "--nodes 30 --part 12@@2..3": PART,
    "--nodes 30 --part 30@1..2": "a part cuts some nodes off for blocks there are",
    "--nodes 30 --part 12@2..4": "a part cuts some nodes off for blocks there are",
    "--nodes 30 --restart 3": RESTART,
    "--nodes 30 --restart x@1": RESTART,
    "--nodes 30 --restart 30@1": "a restart names a node and a block there is",
    "--nodes 30 --stall 15 --lie 15": "at least 1 node neither stalls nor lies",
    "--nodes 30 --audit some": "--audit takes all or none",
}


def words_of(seed):
    """The words of a network in which all goes wrong at once."""
    rng = random.Random(f"net-{seed}")
    blocks = rng.randint(4, 7)
    first = rng.randint(1, blocks - 2)
    last = rng.randint(first, blocks - 1)
    transactions = rng.choice((0, 1, 2, 30, 60))
    return {
        "nodes": NODES,
        "links": rng.randint(3, 10),
        "seed": seed,
        "latency": f"{rng.randint(0, 20)}..{rng.randint(20, 300)}",
        "rate": rng.choice((20_000, 1_250_000, 100_000_000)),
        "blocks": blocks,
        "transactions": transactions,
        "missing": rng.randint(0, min(4, transactions)),
        "lacking": rng.randint(0, 100),
        "part": f"{rng.randint(1, NODES - 1)}@{first}..{last}",
        "restart": f"{rng.randint(0, NODES - 1)}@{rng.randint(1, blocks)}",
        "stall": rng.randint(1, 5),
        "lie": rng.randint(1, 5),
    }


def options(words):
    """The same as a line of words."""
    return " ".join(f"--{name} {value}" for name, value in words.items())


def pairs(words):
    """The commands of a line of bytes, with their messages and bytes."""
    return {words[at]: (int(words[at + 1]), int(words[at + 2])) for at in range(0, len(words), 3)}


def number(text):
    """A time, if there is one."""
    return None if text in ("-", "") else int(text)


class Told:
    """What a network told in words."""

    def __init__(self, text):
        self.blocks, self.bytes, self.last = {}, {}, {}
        for line in text.splitlines():
            first, *words = line.split()
            if first == "block":
                self.blocks[int(words[0])] = dict(zip(words[1::2], words[2::2]))
            elif first == "bytes":
                self.bytes[words[0]] = pairs(words[1:])
            else:
                self.last[first] = words

    def row(self, block):
        """What is told of a block: its miner, times and ways, and the bytes."""
        told = self.blocks[block]
        return (int(told["miner"]), [number(told[name]) for name in TIMES], [int(told[name]) for name in WAYS], self.bytes[str(block)])


def rows(text):
    """What a network told in rows, by blocks."""
    found = {}
    for row in csv.DictReader(io.StringIO(text)):
        commands = [name[: -len("_messages")] for name in row if name.endswith("_messages")]
        sent = {name: (int(row[f"{name}_messages"]), int(row[f"{name}_bytes"])) for name in commands}
        found[int(row["block"])] = (
            int(row["miner"]),
            [number(row[name]) for name in TIMES],
            [int(row[name]) for name in WAYS],
            {name: counts for name, counts in sent.items() if counts[0]},
        )
    return found


class NetLooks(Looks):
    """Looks at networks that the program plays."""

    def text(self, words):
        """What a network prints. It has to end well, and nothing else is told."""
        status, printed, told = self.ran("net", *words.split())
        self.look(f"{words}: how it ends", (status, told), (0, ""))
        return printed

    def look_networks(self):
        """Networks in which all goes wrong at once."""
        first = int(self.options.seed or SEED)
        for place in range(int(self.options.count or COUNT)):
            self.network(first + place, place % AGAIN == 0)

    def network(self, seed, again):
        """One network with every fault, which is played again if that is asked for."""
        words, before = words_of(seed), self.failed
        text = self.text(options(words))
        told = Told(text)
        honest = NODES - words["stall"] - words["lie"]
        tip = told.last.get("tip", [])
        self.look(f"seed {seed}: honest nodes of one tip", tip[2:], ["nodes", str(honest), "of", str(honest)])
        self.look(f"seed {seed}: connections of honest nodes that were closed", told.last.get("closed", [])[2:], ["honest", "0"])
        audits = told.last.get("audit", ["", "", "", ""])
        self.look(f"seed {seed}: audits that say no", audits[2:], ["no", "0"])
        self.look(f"seed {seed}: audits that say yes", audits[1] in (str(honest), str(honest + 1)), True)
        self.look(f"seed {seed}: blocks", sorted(told.blocks), list(range(1, words["blocks"] + 1)))
        if again:
            self.look(f"seed {seed}: printed again", self.text(options(words)), text)
            self.look(f"seed {seed}: its rows", rows(self.text(f"{options(words)} --csv")), {block: told.row(block) for block in told.blocks})
        if self.failed > before:
            print("  ", options(words))
            print(text)

    def look_calm(self):
        """A network without faults: all nodes have each block, and audits change nothing."""
        told = Told(self.text(CALM))
        self.look("a calm network", (told.last["tip"][2:], told.last["audit"]), (["nodes", "20", "of", "20"], ["yes", "20", "no", "0"]))
        for block in told.blocks:
            self.look(f"block {block} of a calm network", [int(told.blocks[block][name]) for name in WAYS], [20, 0, 0])
        other = Told(self.text(f"{CALM} --audit none"))
        self.look("the same without audits", (other.last["tip"], other.bytes), (told.last["tip"], told.bytes))
        self.look("no audits", "audit" in other.last, False)

    def look_least(self):
        """The least words suffice, and stand for all that is usual."""
        text = self.text(LEAST)
        self.look("all that is usual", self.text(USUAL), text)
        told = Told(text)
        self.look("the least words", (told.last["tip"][2:], sorted(told.blocks)), (["nodes", "5", "of", "5"], [1]))

    def look_times(self):
        """A block comes from one node to the other after three latencies, and the bytes of three messages at the rate of a line."""
        told = Told(self.text(f"{PAIR} --latency {MILLISECONDS}..{MILLISECONDS} --rate {RATE}"))
        self.look("messages that bring a block", [told.bytes["1"].get(it) for it in ("headers", "getdata")], [(1, HEADERS), (1, GETDATA)])
        count, compact = told.bytes["1"].get("cmpctblock", (0, 0))
        due = 3 * MILLISECONDS + (HEADERS + GETDATA + compact) * 1_000 // RATE
        self.look("when a block comes", (count, told.blocks[1]["half"], told.blocks[1]["all"]), (1, "0", str(due)))

    def look_progress(self):
        """A terminal is told how far a network is, on a line that is erased; what is printed stays the same."""
        mine, theirs = os.openpty()
        with open(mine, "rb", buffering=0) as terminal:
            ran = subprocess.run([self.program, "net", *LEAST.split()], stdin=subprocess.DEVNULL, stdout=subprocess.PIPE, stderr=theirs, timeout=SECONDS, check=False)
            os.close(theirs)
            told = terminal.read(4096).decode().split(ERASE)
        self.look("how it ends at a terminal", (ran.returncode, ran.stdout.decode()), (0, self.text(LEAST)))
        self.look("what a terminal is told", [it for it in told if it], ["nodes greet each other", "block 1 of 1", "audits"])
        self.look("the terminal's line at the end", told[-1], "")

    def look_refusals(self):
        """Words that can't be read, and words that no network can have."""
        for words, named in UNREAD.items():
            status, printed, told = self.ran("net", *words.split())
            self.look(f"'{words}'", (status, printed, named in told), (1, "", True))
        for words, why in REFUSED.items():
            self.look(words, self.ran("net", *words.split()), (3, "", f"error: {why}\n"))


if __name__ == "__main__":
    sys.exit(NetLooks.main(__doc__, count="how many networks", seed="the first seed"))
