#!/usr/bin/env python3
"""Measures nodes over loopback: python3 bench/figures/nodes.py [PROGRAM]

It needs the program, python3 and Linux, and takes a few minutes. Eight nodes stand in
a line, so that what node 0 knows comes to node 7 by six others. Each row is a way in which blocks of nearly 1 MB come from node to node:

- compact: the mempools have all transactions of the block;
- compact, all asked for: they have none, so that each is asked for by getblocktxn;
- catching up: node 0 has all blocks before the others are linked. Where more than one block is missing they are asked for in full.

A row tells milliseconds from the line that gives node 0 the block to the last node's tip (the median of the rounds; a `wait` looks each
millisecond), milliseconds of the processor for each node and block, and bytes that go out from a node to the next for each block. Then
10,000 transactions go from node 0 to seven others in a star. All of it by 1 and by 4 handlers. At last node 0 mines empty blocks one after
the other.
"""

import statistics
import sys
import time
from pathlib import Path

sys.path.insert(0, str(Path(__file__).resolve().parents[2]))

from bench.tools.made_blocks import TXS, FullChain
from bench.tools.process_talk import NodeTalk
from bench.tools.programs import built, usage

NODES, HANDLERS, ROUNDS = 8, (1, 4), 5
STAR_TXS, QUIET = 10_000, 0.3
MINED = 20


def linked(program, handlers, pairs):
    nodes = NodeTalk(program, NODES, handlers, "--stats", seconds=300)
    for first, second in pairs:
        nodes.say(f"link {first} {second}")
    return nodes


LINE = [(node, node + 1) for node in range(NODES - 1)]
STAR = [(0, node) for node in range(1, NODES)]


def settle(nodes):
    if nodes.say("wait") is not None:
        raise TimeoutError("the nodes don't settle")


def quiet(nodes):
    """Ticks until the nodes have nothing more to do. How long that took comes back."""
    began = last = time.monotonic()
    spent = nodes.processor_ms()
    while time.monotonic() < last + QUIET:
        settle(nodes)
        if nodes.processor_ms() - spent > 30:
            last, spent = time.monotonic(), nodes.processor_ms()
        time.sleep(0.02)
    return last - began


def sent(nodes):
    """Ends the nodes. The bytes that went out of node 0, and how blocks came."""
    _, lines = nodes.finish()
    rows = [line.split() for line in lines if " slot " in line]
    out = sum(int(row[row.index("out") + 3]) for row in rows if row[1] == "0")
    ways = {way: sum(int(row[row.index(way) + 1]) for row in rows) for way in ("full", "compact", "completed", "fallback", "saved")}
    return out, ways


def timed(nodes, *lines):
    """Milliseconds from these lines to the last tip, and of the processor for each node."""
    spent, began = nodes.processor_ms(), time.monotonic()
    for line in lines:
        nodes.send(line)
    settle(nodes)
    took = (time.monotonic() - began) * 1_000
    time.sleep(0.1)
    return took, (nodes.processor_ms() - spent) / NODES


def told(name, handlers, figures, out, ways):
    took, spent = (statistics.median(column) for column in zip(*figures))
    print(f"| {name} | {handlers} | {took:.0f} | {spent:.1f} | {out:,.0f} | {ways} |")


def compact(program, handlers, chain, known):
    """Blocks whose transactions the mempools have, or not."""
    figures = []
    with linked(program, handlers, LINE) as nodes:
        for fans, block in zip(chain.fans, chain.blocks):
            nodes.say(f"block 0 {fans.text.hex()}")
            settle(nodes)
            if known:
                for tx in block.txs[1:]:
                    nodes.send(f"tx 0 {tx.text.hex()}")
                quiet(nodes)
            figures.append(timed(nodes, f"block 0 {block.text.hex()}"))
        return figures, *sent(nodes)


def catching_up(program, handlers, chain):
    """Node 0 has all blocks; the others are linked then."""
    with linked(program, handlers, []) as nodes:
        for fans, block in zip(chain.fans, chain.blocks):
            nodes.say(f"block 0 {fans.text.hex()}")
            nodes.say(f"block 0 {block.text.hex()}")
        figures = [timed(nodes, *(f"link {first} {second}" for first, second in LINE))]
        return [tuple(it / len(chain.blocks) for it in row) for row in figures], *sent(nodes)


def star(program, handlers):
    """Transactions from node 0 to seven others."""
    chain = FullChain(1, STAR_TXS, STAR_TXS + 100)
    with linked(program, handlers, STAR) as nodes:
        nodes.say(f"block 0 {chain.fans[0].text.hex()}")
        settle(nodes)
        spent, began = nodes.processor_ms(), time.monotonic()
        for tx in chain.blocks[0].txs[1:]:
            nodes.send(f"tx 0 {tx.text.hex()}")
        nodes.say("checkpoint 0")
        given = time.monotonic() - began
        took = given + quiet(nodes)
        spent = nodes.processor_ms() - spent
        _, lines = nodes.finish()
        pools = {line.split()[7] for line in lines if " tip " in line}
        print(f"10,000 transactions to seven nodes, {handlers} handlers: {took:.2f} s ({given:.2f} s until node 0 has them), "
              f"{spent / STAR_TXS * 1_000:.0f} microseconds of the processor each, mempools of {pools}")


def mining(program, handlers):
    """Milliseconds from `mine` to the last tip of a line of eight."""
    with linked(program, handlers, LINE) as nodes:
        settle(nodes)
        took = []
        for _ in range(MINED):
            one, _ = timed(nodes, "mine 0")
            took.append(one)
        nodes.finish()
    print(f"from mine to the last tip of a line of eight, {handlers} handlers: {statistics.median(took):.1f} ms, the median of {MINED}")


def main():
    program = built(usage(__doc__, program="the program").parse_args().program, "cbrelay")
    chain = FullChain(ROUNDS, TXS)
    print("| blocks of a line of eight | handlers | ms to the last tip | processor ms a node | bytes out of node 0 in all | how blocks came |")
    print("|---|---|---|---|---|---|")
    for handlers in HANDLERS:
        told("compact", handlers, *compact(program, handlers, chain, True))
        told("compact, all asked for", handlers, *compact(program, handlers, chain, False))
        told("catching up", handlers, *catching_up(program, handlers, chain))
    for handlers in HANDLERS:
        star(program, handlers)
        mining(program, handlers)


if __name__ == "__main__":
    main()
