#!/usr/bin/env python3
"""Runs processes `cbrelay node` as an operator would, and looks at what they answer, log and end with: python3 bench/looks/node_process.py
[PROGRAM] [--only LOOK]

It needs the program, python3 and Linux, and takes half a minute. Each audit says
yes, compared some answers where a block came, and none was dropped, but by a checkpoint. --help tells the looks. The status is 0 where all
came out so.
"""

import os
import sys
import time
from pathlib import Path

sys.path.insert(0, str(Path(__file__).resolve().parents[2]))

from bench.models.plain_block import paying
from bench.tools.basics import GENESIS, shown
from bench.tools.made_blocks import SUBSIDY, mined
from bench.tools.plain_peer import HELLO, PlainPeer, dialled
from bench.tools.process_talk import NodeProcess, ProcessLooks, Stopwatch, closed_port, connected

# The first slot of peers that a node dials.
DIALLED = 48
# How long nodes wait to be measured, after how long, and how many milliseconds a second of that may cost.
IDLE, REST, MOST = 5, 2, 30
# How long after the start connections are made, and how many seconds their time may be wrong.
LATE, NEAR = 6, 2
# How many descriptors a node may have, and how many peers come then.
DESCRIPTORS, PEERS = 20, 64
UNREADABLE = ["", "tip ", " tip", "Tip", "mine 1001", "mine x", "mine ", "kick", "kick 65536", "kick -1", "tx", "tx 0", "tx 00", "tx zz",
              "submit-block 00", "block 00", "block " + "g" * 64, "connect", "connect 127.0.0.1", "connect localhost:1",
              "connect 127.0.0.1:65536", "quit now", "bye", "\u00e4"]
# Words that can't be followed, with the status.
WORDS = {("--listen", "here"): 3, ("--connect", "127.0.0.1"): 3, ("--log", "loud"): 3, ("--tick", "0"): 1, ("--handlers", "17"): 1,
         ("--nodes", "1"): 1}


class Processes(ProcessLooks):
    """Processes of nodes and their operators."""

    # ---- nodes and their operators

    def look_blocks_go_both_ways(self):
        """Two nodes: blocks go from each to the other, and an input that ends is as good as `quit`."""
        one = self.node()
        self.look("the first tip", one.tip(), (0, shown(GENESIS)))
        other = self.linked(one)
        self.stands_at(self.mines(one, 3, height=3), other)
        self.stands_at(self.mines(other, height=4), one)
        self.told_of_both(one, other)
        self.logs(one, rf"^\d{{4}}-\d\d-\d\dT\d\d:\d\d:\d\dZ \[INFO +cbrelay\] tip 4 {one.tip()[1]}")
        self.ends(other, asked=True)
        self.logs(other, rf"connection to {one.at} in slot {DIALLED} closed: NodeEnded")
        self.logs(one, "closed: Bye")
        self.look("peers of the one that is left", one.peers(), [])
        self.ends(one, "quit", drops=True)

    def told_of_both(self, one, other):
        """What two linked nodes tell of their blocks and of each other."""
        height, name = one.tip()
        for text in (name, name.upper()):
            self.look("a block", one.say(f"block {text}"), f"block {name} height {height} best yes transactions 1")
        (peer,), (back,) = one.peers(), other.peers()
        self.look("the connection", (peer.place(), peer.phase), ((0, 1, "from"), "ready"))
        self.look("the connection, of the other", (back.place(), back.phase, back.address), ((DIALLED, 1, "to"), "ready", one.at))
        self.look("whether messages and bytes went both ways", min(peer.messages_in, peer.messages_out, peer.payload_in, peer.bytes_out) > 0, True)
        # They are counted at the end of a turn, in which the tip changes before.
        self.comes("blocks of the one", one, lambda: [blocks(peer) for peer in one.peers()] == [1])
        self.comes("blocks of the other", other, lambda: [blocks(peer) for peer in other.peers()] == [3])
        self.look("what stats tells", one.say("stats").split()[3:7], ["open", "1", "connections", "1"])
        self.look("a checkpoint", one.say("checkpoint"), "checkpoint")

    def look_transactions_are_relayed(self):
        """A block and a transaction from the operator reach the other node; each is refused where it has to be."""
        block = mined(GENESIS, 1)
        tx = paying(7, [block.txs[0].points()[0]], [SUBSIDY - 1_000])
        twice = paying(8, [block.txs[0].points()[0]], [SUBSIDY - 2_000])
        one, other = self.node(), self.node()
        self.says(other, f"connect {one.at}", f"connected {one.at} slot {DIALLED}")
        self.submits(one, block)
        self.look("submit-block again", one.say(f"submit-block {block.text.hex()}"), "error F18 Known")
        # A node refuses a transaction whose inputs it doesn't know yet, and isn't told of it again.
        self.comes("the block comes", other, lambda: other.tip()[0] == 1)
        self.look("tx", one.say(f"tx {tx.text.hex()}"), f"tx {shown(tx.name)}")
        self.look("tx again", one.say(f"tx {tx.text.hex().upper()}"), "error F18 Known")
        self.look("tx that spends the same", one.say(f"tx {twice.text.hex()}"), "error F19 NoInput")
        self.comes("the transaction comes", other, lambda: other.list("pool") == [shown(tx.name)])
        self.stands_at(self.mines(other, height=2), one)
        self.look("the mempool behind it", one.list("pool"), [])
        self.look("its transactions", one.say(f"block {one.tip()[1]}").split()[-1], "2")
        self.ends(one, asked=True)
        self.ends(other, asked=True)

    def look_lines_are_refused(self):
        """Lines that can't be read, and calls that the node refuses."""
        node = self.node()
        for line in UNREADABLE:
            self.look(f"what {line!r} is answered", node.say(line), "error unreadable")
        self.mines(node, 0, height=0)
        self.begins("mine 007", "mined 7 tip 7", node.say("mine 007"))
        self.says(node, "kick 0", "error no slot")
        self.says(node, "kick 64", "error no slot")
        self.look("an unknown block", node.say("block " + "11" * 32), "error unknown block")
        for host in ("127.0.0.1", "[::1]"):
            self.look("connect to a closed port", node.say(f"connect {host}:{closed_port()}"), "error io")
        self.look("peers", node.peers(), [])
        self.ends(node)

    def look_peers_come_again(self):
        """A connection that is kicked is made again, in a slot that had none; a peer that starts later is reached."""
        port = closed_port()
        one = self.node("--connect", f"127.0.0.1:{port}")
        self.logs(one, rf"\[WARN +cbrelay\] no connection to 127.0.0.1:{port}")
        other = self.node(listen=f"127.0.0.1:{port}")
        self.has_peers(one, 1)
        self.says(one, f"connect {other.at}", "error already")
        self.look("a kick", one.say(f"kick {DIALLED}"), f"kicked {DIALLED}")
        self.logs(one, "closed: Kicked")
        self.comes("it is made again", one, lambda: (DIALLED + 1, 1, "to") in [peer.place() for peer in one.peers()])
        self.stands_at(self.mines(other), one)
        self.ends(other, asked=True)
        self.ends(one, asked=True)

    def look_nodes_begin_anew(self):
        """`restart` ends the node with an audit, and goes on over its chain and mempool at its address."""
        block = mined(GENESIS, 1)
        tx = paying(7, [block.txs[0].points()[0]], [SUBSIDY - 1_000])
        one = self.node()
        other = self.linked(one)
        self.comes("it is connected", one, lambda: [peer.slot for peer in one.peers()] == [0])
        self.submits(one, block)
        self.look("tx", one.say(f"tx {tx.text.hex()}"), f"tx {shown(tx.name)}")
        self.restarts(one, f"1 {shown(block.header.name)}")
        self.logs(one, "in slot 0 closed: NodeEnded")
        self.look("its mempool", one.list("pool"), [shown(tx.name)])
        self.comes("it is connected again", other, lambda: DIALLED + 1 in [peer.slot for peer in other.peers()])
        self.stands_at(self.mines(one), other)
        self.ends(one, asked=True)
        self.ends(other, asked=True)

    # ---- what can't be done

    def look_a_port_in_use(self):
        """A node can't listen where another one does."""
        one = self.node()
        status, printed, errors = self.ran("node", "--listen", one.at)
        self.look("the status and the output", (status, printed), (3, ""))
        self.look("the error", errors.startswith(f"error: can't listen at {one.at}"), True)
        self.ends(one)

    def look_a_peer_that_is_never_reached(self):
        """A closed port is dialled again and again, and the status tells at last that nobody was reached."""
        port = closed_port()
        one = self.node("--connect", f"127.0.0.1:{port}")
        for seconds in (1, 2):
            self.logs(one, f"no connection to 127.0.0.1:{port}: it doesn't answer; again in {seconds} s")
        self.ends(one, status=3)
        self.logs(one, f"127.0.0.1:{port} was never reached")

    def look_an_output_that_takes_nothing(self):
        """A standard output that is closed, or full."""
        read, write = os.pipe()
        os.close(read)
        for out in (write, os.open("/dev/full", os.O_WRONLY)):
            with NodeProcess(self.program, stdout=out) as one:
                self.look("the status", one.process.wait(timeout=60), 3)
                one.logging.join(60)
                self.look("the error", "write failed" in one.logged, True)
            os.close(out)

    def look_words_that_are_refused(self):
        """Words of the command line."""
        for pair, wanted in WORDS.items():
            status, printed, errors = self.ran("node", *pair)
            self.look(f"{pair}: status and output", (status, printed), (wanted, ""))
            self.look(f"{pair}: the error", errors.startswith("error: "), True)
        status, _, errors = self.ran("node", "--help")
        self.look("the status of --help", status, 1)
        self.look("what --help tells", "--connect <ADDR:PORT>" in errors and "Examples:" in errors, True)

    def look_slow_addresses_hold_nobody_up(self):
        """A listener that accepts nothing holds up neither lines nor other peers; a level that is off logs nothing."""
        node = self.node("--connect", self.deaf(), "--log", "off")
        tip = self.mines(node)
        other = self.linked(node)
        watch = Stopwatch(node, other)
        self.stands_at(tip, other)
        self.in_time("when it comes, which is before a dial's end", watch.seconds(), 5)
        self.ends(other)
        self.ends(node, status=3, asked=True)
        self.look("the log", [line for line in node.logged if line], [])

    def look_descriptors_run_out(self):
        """More peers than descriptors: lines are answered, and the log has a line a second of it at the most."""
        node = self.node(before=("prlimit", f"--nofile={DESCRIPTORS}"))
        streams = [self.enter(connected(node.port)) for _ in range(PEERS)]
        self.logs(node, "a peer wasn't accepted: a socket or a thread failed")
        before = len(node.found("wasn't accepted"))
        time.sleep(REST)
        self.look("whether it is told too often", len(node.found("wasn't accepted")) - before > REST + 1, False)
        self.mines(node)
        for stream in streams:
            stream.close()
        self.comes("their end", node, lambda: node.peers() == [])
        self.comes("that all were served", node, lambda: node.served()[0] == PEERS)
        self.ends(node)

    def look_waiting_costs_little(self):
        """Two linked nodes to which nothing happens."""
        one = self.node()
        other = self.linked(one)
        self.comes("a connection", other, lambda: other.peers() != [])
        time.sleep(REST)
        self.waits("a node waits", MOST, IDLE, one, other)
        self.ends(other)
        self.ends(one)

    def look_versions_tell_their_time(self):
        """Connections that are made seconds after the start, each the first of its slot: two from peers, and one that the node dials."""
        node = self.node()
        time.sleep(LATE)
        with dialled(node.port) as one, dialled(node.port) as other:
            self.tells_the_time("the first peer", one)
            self.tells_the_time("the second peer", other)
        with PlainPeer(self.dialled_by(node)) as peer:
            self.tells_the_time("a peer that is dialled", peer)
        self.ends(node)

    def tells_the_time(self, whom, peer):
        """Whether the `version` for a peer that was just connected tells what time it is."""
        peer.send(HELLO)
        wrong = peer.expect("version").time - time.time()
        self.look(f"whether the time for {whom}, wrong by {wrong:.1f} seconds, is right", abs(wrong) <= NEAR, True)


def blocks(peer):
    """How many blocks came by a connection, in whatever way."""
    return peer.full + peer.compact + peer.completed + peer.fallback


if __name__ == "__main__":
    sys.exit(Processes.main(__doc__))
