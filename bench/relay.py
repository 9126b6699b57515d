#!/usr/bin/env python3
"""Draws what a block of 1 MB costs from node to node, whole and in short ids: python3 bench/relay.py [PROGRAM] [--rate MBIT] [--tick MS]
[--rounds N] [--draw]

It needs the program, python3, and on Linux root or user namespaces, with `unshare`,
`nsenter`, `ip` and `tc` (Debian's util-linux and iproute2). It takes some three minutes. All stands in network namespaces that it makes by
`unshare -n`, and that end with it.

Five processes `cbrelay node`, each in a namespace, are linked in a line, and in a star around one of them. Each link passes on 10 Mbit a
second each way (`tc`, a token bucket) and adds no delay. The operator of the line's first node, or of one of the star's outer ones, gives it a
block of 3,900 transactions. How long that takes until all nodes have its tip, and how many bytes go out by all links meanwhile, all headers
counted, is told of

- whole blocks: no node learns that its peer knows compact blocks, since `sendcmpct` is kept back (bench/tools/between.py);
- compact blocks (BIP 152), where all mempools hold 100, 99, 90, 50 or 0 % of the block's transactions. These were relayed before.

Each row is the median of the rounds. The rows, with machine and date, are printed and go to bench/figures/relay_rows.txt; the picture of
the line of five, drawn from that file, goes to docs/relay.svg. With --draw nothing is measured, and the picture is drawn alone.
"""

import datetime
import os
import platform
import re
import statistics
import subprocess
import sys
import time
from contextlib import ExitStack
from pathlib import Path

sys.path.insert(0, str(Path(__file__).resolve().parents[1]))

from bench.tools.basics import shown
from bench.tools.lines import picture
from bench.tools.made_blocks import FullChain
from bench.tools.process_talk import NodeProcess, counted
from bench.tools.programs import ROOT, built, usage

# Whom each node dials, and which one is given the block.
SHAPES = {"a line of five nodes": ([(1, 0), (2, 1), (3, 2), (4, 3)], 0), "a star of five nodes": ([(1, 0), (2, 0), (3, 0), (4, 0)], 1)}
COUNT, PORT, PROXY = 5, 18_444, 20_000
FILTER = os.path.join(ROOT, "bench", "tools", "between.py")
# How many per cent of the transactions the mempools hold; None stands for whole blocks.
WAYS = {"whole": None, "100 %": 100, "99 %": 99, "90 %": 90, "50 %": 50, "0 %": 0}
# What was measured, and the picture of it.
ROWS, PICTURE = Path(ROOT, "bench", "figures", "relay_rows.txt"), Path(ROOT, "docs", "relay.svg")
ROW = re.compile(r"\| (a [^|]+) \| (whole|\d+ %) \| ([\d.]+) \| ([\d.]+) \|")
# How long the links have to be still, and how long we wait for anything.
QUIET, PATIENCE = 0.3, 120
# How many bytes a link passes on at once, and for how many milliseconds it queues at the most.
BURST, QUEUE = 16_000, 400


# ---- network namespaces with links between them


def alone():
    """Runs the script once more in a network namespace of its own, if it isn't yet. So no network of the machine is touched."""
    if os.environ.get("ALONE") != "yes":
        user = [] if os.geteuid() == 0 else ["--map-root-user"]
        os.execvpe("unshare", ["unshare", *user, "--net", sys.executable, *sys.argv], {**os.environ, "ALONE": "yes"})


def run(*words):
    subprocess.run(words, check=True)


class Namespace:
    """A namespace, which lasts as long as a process that waits in it."""

    def __init__(self, name):
        self.name, self.links = name, []
        self.holder = subprocess.Popen(["unshare", "--net", "sh", "-c", "ip link set lo up && echo up && exec cat"],
                                       stdin=subprocess.PIPE, stdout=subprocess.PIPE)
        if self.holder.stdout.readline() != b"up\n":
            raise OSError("no namespace can be made")

    def __enter__(self):
        return self

    def __exit__(self, *_):
        self.holder.stdin.close()
        self.holder.wait()

    def inside(self):
        """The words before a command that is to run inside."""
        return ["nsenter", f"--net=/proc/{self.holder.pid}/ns/net", "--"]

    def add(self, link, address, rate):
        """An end of a link comes here, with this address. It sends so many megabits a second."""
        run("ip", "link", "set", link, "netns", str(self.holder.pid))
        run(*self.inside(), "ip", "address", "add", f"{address}/30", "dev", link)
        run(*self.inside(), "ip", "link", "set", link, "up")
        run(*self.inside(), "tc", "qdisc", "add", "dev", link, "root", "tbf", "rate", f"{rate}mbit", "burst", str(BURST), "latency", f"{QUEUE}ms")
        self.links.append(link)

    def sent(self):
        """How many bytes went out by the links' ends here, with all their headers."""
        with open(f"/proc/{self.holder.pid}/net/dev", encoding="ascii") as file:
            rows = [line.split(":") for line in file if ":" in line]
        return sum(int(row.split()[8]) for name, row in rows if name.strip() in self.links)


def linked(one, other, number, rate):
    """Links two namespaces. The address of the first end comes back."""
    near, far = (f"10.0.{number}.{end}" for end in (1, 2))
    run("ip", "link", "add", "name", f"near{number}", "type", "veth", "peer", "name", f"far{number}")
    one.add(f"near{number}", near, rate)
    other.add(f"far{number}", far, rate)
    return near


# ---- nodes


class Network:
    """Linked nodes, each in a namespace."""

    def __init__(self, stack, program, pairs, given, whole):
        self.stack, self.program, self.given, self.whole = stack, program, given, whole
        self.places = [stack.enter_context(Namespace(f"node{number}")) for number in range(COUNT)]
        dials = [[] for _ in range(COUNT)]
        for number, (dialler, other) in enumerate(pairs, 1):
            address = linked(self.places[other], self.places[dialler], number, given.rate)
            dials[dialler].append(self.filtered(dialler, number, address) if whole else f"{address}:{PORT}")
        self.nodes = [self.start(place, dials[number]) for number, place in enumerate(self.places)]
        for number, node in enumerate(self.nodes):
            many = sum(number in pair for pair in pairs)
            self.wait(node, "the links", lambda node=node, many=many: [peer.phase for peer in node.peers()] == ["ready"] * many)

    def start(self, place, dials):
        words = [word for address in dials for word in ("--connect", address)]
        words += ["--tick", str(self.given.tick), "--log", "off"]
        node = NodeProcess(self.program, *words, listen=f"0.0.0.0:{PORT}", seconds=PATIENCE, before=place.inside())
        self.stack.enter_context(node)
        return node

    def filtered(self, place, number, address):
        """The address of a process that hands on what is said, but for `sendcmpct`."""
        command = [*self.places[place].inside(), sys.executable, FILTER, str(PROXY + number), f"{address}:{PORT}"]
        process = subprocess.Popen(command, stdin=subprocess.PIPE, stdout=subprocess.PIPE)
        self.stack.callback(process.wait)
        self.stack.callback(process.stdin.close)
        if process.stdout.readline() != b"listening\n":
            raise OSError("the filter doesn't listen")
        return f"127.0.0.1:{PROXY + number}"

    @staticmethod
    def wait(node, what, holds):
        if not node.until(holds):
            raise TimeoutError(f"{what} don't come; {node.logged[-5:]}")

    def sent(self):
        return sum(place.sent() for place in self.places)

    def settle(self):
        """Waits until the links are still. How many bytes went out comes back."""
        before, since = self.sent(), time.monotonic()
        while time.monotonic() < since + QUIET:
            time.sleep(0.02)
            now = self.sent()
            if now != before:
                before, since = now, time.monotonic()
        return before

    def give(self, first, block):
        """Gives a node a block. Seconds to the last tip come back."""
        name, began = shown(block.header.name), time.monotonic()
        answer = self.nodes[first].say(f"submit-block {block.text.hex()}")
        if answer != f"submitted {name}":
            raise ValueError(answer)
        began = time.monotonic()
        for node in self.nodes:
            while node.tip()[1] != name:
                if time.monotonic() > began + PATIENCE:
                    raise TimeoutError(f"the tip stays {node.tip()}")
                time.sleep(0.002)
        return time.monotonic() - began

    def give_txs(self, first, txs):
        """Gives a node transactions, which come to all mempools."""
        told = self.nodes[first].say_all([f"tx {tx.text.hex()}" for tx in txs])
        if told != [f"tx {shown(tx.name)}" for tx in txs]:
            raise ValueError("a transaction isn't taken")
        for node in self.nodes:
            self.wait(node, "the transactions", lambda node=node: len(node.list("pool")) == len(txs))

    def end(self):
        for node in self.nodes:
            status, told = node.close("quit")
            if status or len(told) != 1 or counted(told[0]) is None:
                raise ValueError("an audit doesn't say yes")


def measured(program, given, chain, pairs, first, percent):
    """Seconds and bytes of a block, the median of the rounds. Blocks have to come in this way alone."""
    rows = []
    blocks = COUNT * given.rounds - given.rounds
    with ExitStack() as stack:
        net = Network(stack, program, pairs, given, percent is None)
        for fans, block in zip(chain.fans, chain.blocks):
            net.give(first, fans)
            net.settle()
            txs = block.txs[1:]
            net.give_txs(first, [tx for place, tx in enumerate(txs) if place * (percent or 0) // 100 != (place + 1) * (percent or 0) // 100])
            before = net.settle()
            took = net.give(first, block)
            rows.append((took, net.settle() - before))
        peers = [peer for node in net.nodes for peer in node.peers()]
        ways = tuple(sum(getattr(peer, way) for peer in peers) for way in ("full", "compact", "completed", "fallback"))
        net.end()
    # The fans come in the same way, but all at once, since they have a coinbase alone.
    if ways != {None: (2 * blocks, 0, 0, 0), 100: (0, 2 * blocks, 0, 0)}.get(percent, (0, blocks, blocks, 0)):
        raise ValueError(f"blocks came otherwise: {ways}")
    return [statistics.median(column) for column in zip(*rows)]


def machine():
    """This machine, in words."""
    with open("/proc/cpuinfo", encoding="utf-8") as file:
        model = next((line.partition(":")[2].strip() for line in file if line.startswith("model name")), platform.machine())
    memory = os.sysconf("SC_PAGE_SIZE") * os.sysconf("SC_PHYS_PAGES") / 1e9
    return f"{os.cpu_count()} cores of {model}, {memory:.0f} GB, Linux {platform.release().split('-')[0]}"


def whose(path):
    return "the program that ./build leaves" if path is None else "a program given by hand"


def drawn(rows):
    """The picture of a line of five nodes, from the rows of the file."""
    found = {(shape, way): (float(took), float(sent)) for shape, way, took, sent in ROW.findall(rows)}
    line = next(iter(SHAPES))
    panels = [(name, found[line, "whole"][number], {WAYS[way]: it[number] for (shape, way), it in found.items() if shape == line and WAYS[way] is not None})
              for number, name in enumerate(("Seconds to the last node", "MB on the wire, over four links"))]
    told = rows.splitlines()[0]
    return picture("A block of 1 MB from node to node", "share of the block in the mempools", ("whole", "compact"), panels, [told])


def rows_of(program, given):
    """Measures all rows, printing each, and returns them below what they are of."""
    chain = FullChain(given.rounds)
    size, today = len(chain.blocks[0].text), datetime.date.today().isoformat()
    rows = [f"A line of five nodes, links of {given.rate} Mbit/s; {size:,} bytes, 3,900 transactions; {today}.", machine(), whose(given.program), ""]
    rows += ["| nodes | blocks | s to the last tip | MB on the wire |", "|---|---|---|---|"]
    print("\n".join(rows), flush=True)
    for shape, (pairs, first) in SHAPES.items():
        for way, percent in WAYS.items():
            took, sent = measured(program, given, chain, pairs, first, percent)
            rows.append(f"| {shape} | {way} | {took:.2f} | {sent / 1e6:.3f} |")
            print(rows[-1], flush=True)
    return "\n".join(rows) + "\n"


def main():
    words = usage(__doc__, program="the program")
    words.add_argument("--rate", type=int, default=10, help="how many megabits a link passes on in a second")
    words.add_argument("--tick", type=int, default=100, help="how many milliseconds pass from tick to tick of a node")
    words.add_argument("--rounds", type=int, default=3, help="how many blocks each row has")
    words.add_argument("--draw", action="store_true", help="measure nothing, and draw what was measured")
    given = words.parse_args()
    if not given.draw:
        program = built(given.program, "cbrelay")
        alone()
        ROWS.write_text(rows_of(program, given), encoding="utf-8")
    PICTURE.write_text(drawn(ROWS.read_text(encoding="utf-8")), encoding="utf-8")


if __name__ == "__main__":
    main()
