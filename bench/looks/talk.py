#!/usr/bin/env python3
"""Plays a client over a pipe to `cbrelay serve`: a handshake, 100 blocks handed over and asked for back, and then compact blocks
relayed both ways: python3 bench/looks/talk.py [PROGRAM] [--plain]

It needs the program and python3, and takes some seconds. The client
makes its blocks for the regression test network by itself. It tells the node their headers, gives what the node asks for, asks
for the headers from the first block on, and for the blocks of these, and compares.

In a second conversation client and node each know half of a block's transactions. The client announces the block by `cmpctblock`, is
asked for the other half by `getblocktxn`, and gives it. It asks for the block back as a compact one, rebuilds it from its own half,
asks for the rest by `getblocktxn`, and compares. So it goes for block after block; of one the node knows all transactions, and one
is told with a list that isn't its header's and is asked for whole. Of all blocks those near the tip come back as compact ones, the
others whole.
With --plain it talks to the plain session in Python (bench/models/plain_session.py) in place of the program.
"""

import subprocess
import sys
from pathlib import Path

sys.path.insert(0, str(Path(__file__).resolve().parents[2]))

from bench.models import plain_wire as wire
from bench.models.plain_compact import judged
from bench.models.plain_hall import DEPTH, PART_DEPTH
from bench.tools.basics import GENESIS, envelope
from bench.tools.looks import Looks
from bench.tools.made_blocks import mined, spending, split
from bench.tools.plain_peer import NONCE, PlainPeer
from bench.tools.programs import ROOT, built, usage

BLOCKS = 100
# How many transactions of a relayed block are halved, how many blocks are relayed, of which of them the node knows all, and which is
# told with another list.
RELAYED, ROUNDS, KNOWN, FALSE = 20, 14, 3, 7
NO_TX = bytes([1]) * 32


class Piped:
    """A process whose standard input and output are a stream."""

    def __init__(self, command):
        self.process = subprocess.Popen(command, stdin=subprocess.PIPE, stdout=subprocess.PIPE, stderr=subprocess.PIPE, cwd=ROOT)

    def sendall(self, data):
        self.process.stdin.write(data)
        self.process.stdin.flush()

    def recv(self, size):
        return self.process.stdout.read1(size)

    def close(self):
        self.process.kill()
        self.process.communicate()


class Client(PlainPeer):
    """A client of a node behind a pipe, which passes over no message."""

    def expect(self, wanted, passed=()):
        return super().expect(wanted)

    def leave(self):
        """Ends the input. What still comes, what is told on standard error, and the status come back."""
        left, said = self.stream.process.communicate()
        return left, said, self.stream.process.returncode


class Talk(Looks):
    """Conversations of a client."""

    def converse(self, command, act):
        """A conversation, which ends well."""
        with Client(Piped(command)) as client:
            self.shakes_hands(client)
            act(client)
            self.look("the end", client.leave(), (b"", b"closed Bye\n", 0))

    def shakes_hands(self, client):
        client.send(wire.version(NONCE))
        client.expect("version")
        client.expect("verack")
        client.send(envelope(b"verack", b""))
        client.expect("sendheaders")
        self.look("which compact blocks it knows", client.expect("sendcmpct"), (0, 1))
        self.look("behind which it asks for headers", client.expect("getheaders")[0], [GENESIS])

    def hand_over(self, client):
        """Hands blocks over and asks for them back."""
        blocks = [mined(GENESIS, 1)]
        while len(blocks) < BLOCKS:
            blocks.append(mined(blocks[-1].header.name, len(blocks) + 1))
        client.hand_over(blocks)
        self.look("a pong", client.pinged(BLOCKS), True)
        client.send(wire.getheaders([GENESIS]))
        names = [header.name for header in client.expect("headers")]
        self.look("the headers behind the first block", names, [block.header.name for block in blocks])
        client.send(wire.entries(b"getdata", [(wire.BLOCK, name) for name in names] + [(wire.TX, NO_TX)]))
        self.look("their blocks", [client.expect("block").text for _ in names], [block.text for block in blocks])
        self.look("what isn't there", client.expect("notfound"), [(wire.TX, NO_TX)])
        self.tell(f"{len(blocks)} blocks handed over and given back")

    # ---- compact blocks, both ways

    def relay(self, client):
        """Relays blocks both ways, each on the one before."""
        client.send(wire.sendcmpct(0))
        blocks, asked, asked_back = [mined(GENESIS, 1)], 0, 0
        client.send(wire.block(blocks[0].text))
        self.look("who gave a tip is asked for compact blocks", client.expect("sendcmpct"), (1, 1))
        for number in range(ROUNDS):
            fan = split(blocks[-1].txs[0], RELAYED)
            txs = [spending(fan, index) for index in range(RELAYED)]
            client.send(*(envelope(b"tx", tx.text) for tx in [fan] + (txs if number == KNOWN else txs[::2])))
            blocks.append(mined(blocks[-1].header.name, len(blocks) + 1, txs=[fan, *txs]))
            asked += self.announces(client, blocks[-1], number)
            self.look("a pong", client.pinged(number), True)
            # The client has the other half. The node's nonces count the compact blocks that it made.
            asked_back += self.asks_back(client, blocks[-1], number, txs[1::2])
        self.asks_all_back(client, blocks[::-1], ROUNDS)
        self.tell(f"{len(blocks)} blocks relayed both ways: the node asked for {asked} transactions, the client for {asked_back}")

    def announces(self, client, block, number):
        """Tells a compact block, and gives what the node asks for. How many transactions that are comes back."""
        if number == FALSE:
            # Those transactions alone that the node knows: the list is whole, but not the header's.
            ids = wire.short_ids(block, NONCE, (0, *range(3, len(block.txs), 2)))
            client.announce(block, NONCE, ids)
            self.look("whether the block is asked for whole", client.expect("getdata"), [(wire.BLOCK, block.header.name)])
            client.send(wire.block(block.text))
            return 0
        client.announce(block, NONCE + number)
        if number == KNOWN:
            return 0
        # Places 0 and 1 have the coinbase and the fan, behind which every other transaction is missing.
        places = client.asked_places(block)
        self.look("the places asked for", places, list(range(3, len(block.txs), 2)))
        client.send(wire.blocktxn(block.header.name, [block.txs[place].text for place in places]))
        return len(places)

    def asks_back(self, client, block, nonce, known):
        """Asks for a block as a compact one, and rebuilds it. For how many transactions it asks comes back."""
        client.send(wire.entries(b"getdata", [(wire.COMPACT, block.header.name)]))
        short = client.expect("cmpctblock")
        self.look("the compact block", (short.header.name, short.nonce, [step for step, _ in short.prefilled]), (block.header.name, nonce, [0]))
        texts, asked = client.rebuilt(short, known)
        self.look("the rebuilt block", (judged(short.header.text, texts), texts), ("sound", [tx.text for tx in block.txs]))
        return asked

    def asks_all_back(self, client, blocks, made):
        """All blocks as compact ones, the tip first, and place 0 of each: near the tip it comes so, deeper as a whole block."""
        client.send(wire.entries(b"getdata", [(wire.COMPACT, block.header.name) for block in blocks]))
        for depth, block in enumerate(blocks):
            if depth <= DEPTH:
                told = client.expect("cmpctblock")
                self.look(f"a block at depth {depth}", (told.header.name, told.nonce), (block.header.name, made + depth))
            else:
                self.look(f"a block at depth {depth}", client.expect("block").text, block.text)
        for depth, block in enumerate(blocks):
            client.send(wire.getblocktxn(block.header.name, [0]))
            if depth <= PART_DEPTH:
                self.look(f"place 0 at depth {depth}", [tx.text for tx in client.expect("blocktxn")[1]], [block.txs[0].text])
            else:
                self.look(f"place 0 at depth {depth}", client.expect("block").text, block.text)


def main():
    reader = usage(__doc__, program="the program, if not that of ./build")
    reader.add_argument("--plain", action="store_true", help="talk to the plain session")
    words = reader.parse_args()
    command = [sys.executable, "-m", "bench.models.plain_session"] if words.plain else [built(words.program, "cbrelay"), "serve"]
    looks = Talk("talk", None)
    for act in (looks.hand_over, looks.relay):
        looks.make(looks.converse, command, act)
    return looks.told()


if __name__ == "__main__":
    sys.exit(main())
