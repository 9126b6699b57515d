#!/usr/bin/python3
"""Runs a process `cbrelay node` among strangers: /usr/bin/python3 bench/looks/node_limits.py [PROGRAM] [--only LOOK]

It needs the program, Linux, and Debian's package python3-bitcoinlib, which that
python3 finds. It takes some 100 seconds. Nodes have short timeouts. What takes a minute or more (probes, places that are given away) is in
bench/figures/strangers.py. --help tells the looks. The status is 0 where all came out so.
"""

import re
import socket
import sys
import time
from concurrent.futures import ThreadPoolExecutor
from pathlib import Path

sys.path.insert(0, str(Path(__file__).resolve().parents[2]))

from bitcoin.core import b2lx

from bench.tools.library_peer import REGTEST_GENESIS, VERSION, LibraryPeer, dialled, grown
from bench.tools.plain_peer import HELLO
from bench.tools.process_talk import ProcessLooks, Stopwatch, closed_port, connected
from bench.tools.strangers import SAFE, Dialler, ends_at, is_open, trickles

# Short timeouts in seconds, and how much later a connection may end on a busy machine.
HANDSHAKE, IDLE, BLOCK, LATE = 2, 6, 3, 4
SHORT = ("--handshake-timeout", str(HANDSHAKE), "--idle-timeout", str(IDLE))
# How many slots serve peers that dial a node, and how many connections come at once that send nothing.
INBOUND, SILENT = 48, (48, 200)
# In how many seconds a block comes to a linked node, and a node that was turned away gets in.
SOON, GETS_IN = 5, 20
# How many connections of an address last, how many of it begin within a second, how often it dials a second, and for how long.
LASTING, BEGINNING, DIALS, DIALLING = 8, 10, 100, 3
# How many blocks a peer tells of, how many are asked for at once, and of how many it gives one now and then, so many seconds apart.
TOLD, FLIGHT, GIVEN, PAUSE = 20, 16, 4, 2
# For how long a peer says nothing, and how far off a time may be that is told, in seconds.
QUIET, NEAR = 5, 2
SECONDS = 60
# After how many seconds a dial is given up.
DIAL = 5
# The nodes of the ring that are cut off, and how many blocks each side mines.
RING, CUT, MINED = 6, (0, 3), {0: 1, 1: 3, 5: 5}
# By --max-connections: the slots for peers that dial.
SLOTS = {2: 1, 4: 3, 8: 6, 64: 48, 100: 84, 1000: 984}
# What a node of 1,000 slots may take of the processor, in milliseconds a second, while nothing happens.
MOST = 30
UNREADABLE = ["network", "network ", "network maybe", "network ON", "network  on", "network on ", "disconnect", "disconnect ",
              "disconnect 127.0.0.1", "disconnect localhost:1", "disconnect 127.0.0.1:65536", "disconnect 127.0.0.1:1 "]
WORDS = [(word, value) for word, values in {"--handshake-timeout": ("0", "86401", "-1", "x", "1.5"), "--idle-timeout": ("0", "86401"),
         "--block-timeout": ("0", "86401"), "--max-connections": ("0", "1", "1001"), "--per-address": ("0", "1001")}.items() for value in values]
AGENTS = [b"", b"/Satoshi:27.0.0/", b"/a/\nslot 9 connection 1 from 127.0.0.9:9 ready", b"/b/\r\x1b[2J\x1b[1;31m\x00\x07\x7f", bytes(range(256)),
          b"/c/ version 1 height 2 agent <&\">'%#*\\", "\u00e4\u2028\u202e".encode(), b"audit no\r\n" * 25]


class Limits(ProcessLooks):
    """Nodes among strangers."""

    def relays(self, node, other):
        """A block of either node comes to the other in time."""
        for one, two in ((node, other), (other, node)):
            watch = Stopwatch(node, other)
            self.stands_at(self.mines(one), two)
            self.in_time("when the block comes", watch.seconds(), SOON)

    def tells(self, node, stream, cause):
        """The log tells why this peer's connection ended."""
        self.logs(node, rf"{address_of(stream)}\b.*\b{cause}\b")

    # ---- peers that send nothing, or little

    def look_silent_peers(self):
        """48 connections that send nothing hold all slots for a moment, and end by HandshakeTimeout. Another node gets in, and blocks go
        both ways."""
        self.beside_silent(SILENT[0])

    def look_more_silent_peers(self):
        """The same of 200 connections that send nothing."""
        self.beside_silent(SILENT[1])

    def beside_silent(self, count):
        """Another node gets in beside so many connections that send nothing, all of which end."""
        node = self.node(*SHORT[:2])
        silent = [self.enter(connected(node.port, SECONDS)) for _ in range(count)]
        other = self.linked(node)
        began = time.monotonic()
        self.comes("the honest node", other, lambda: [peer.phase for peer in other.peers()] == ["ready"], GETS_IN)
        self.tell(f"beside {count} an honest one gets in after {time.monotonic() - began:.1f} s")
        closed = other.found("closed")
        self.relays(node, other)
        self.look("how many end", sum(ends_at(one, began + SECONDS) is not None for one in silent), count)
        if count == INBOUND:  # the log tells of few only, where 152 more were turned away just before
            self.logs(node, "closed: HandshakeTimeout")
        self.has_peers(node, 1)
        self.look("whether the honest one stays", other.found("closed"), closed)
        self.ends(other, asked=True, drops=None)
        self.ends(node, asked=True, drops=None)

    def look_a_byte_a_second(self):
        """A peer that trickles ends by HandshakeTimeout, behind its handshake by IdleTimeout; one that pings stays."""
        node = self.node(*SHORT)
        early, late, alive = (self.enter(dialled(node.port, SECONDS)) for _ in range(3))
        for peer in (late, alive):
            peer.shake_hands()
        lanes = self.enter(ThreadPoolExecutor(2))
        ends = {"HandshakeTimeout": (early, HANDSHAKE, lanes.submit(trickles, early.socket, HELLO, 1, SECONDS)),
                "IdleTimeout": (late, IDLE, lanes.submit(trickles, late.socket, HELLO[:24], 1, SECONDS))}
        for nonce in range((IDLE + LATE) // PAUSE):
            time.sleep(PAUSE)
            self.look("a pong", alive.ping(nonce), nonce)
        for cause, (peer, limit, end) in ends.items():
            took = end.result() or SECONDS
            self.look(f"whether {took:.1f} s are right for {cause}", limit - 0.5 <= took <= limit + LATE, True)
            self.tells(node, peer.socket, cause)
        self.has_peers(node, 1)
        self.ends(node)

    # ---- an address that dials and dials

    def look_an_address_holds_what_it_dials(self):
        """An address dials 100 times a second and holds its connections. Eight last, the others are closed at once. Others get in and
        relay."""
        node = self.node("--per-address", str(LASTING))
        other = self.linked(node)
        self.has_peers(node, 1)
        dialler = Dialler(node.port, "127.0.0.2", DIALS, DIALLING, holds=True)
        self.gets_in(node, other)
        streams = dialler.done()
        self.comes("that all were let in or refused", node, lambda: sum(node.served()) == len(streams) + 2)
        self.look("how many were let in and refused", node.served(), (LASTING + 2, len(streams) - LASTING))
        self.comes("that only eight last", node, lambda: sum(map(is_open, streams)) == LASTING)
        self.comes("that the honest ones are left", node, lambda: len(node.peers()) == LASTING + 1)
        for stream in streams:
            stream.close()
        self.has_peers(node, 1)
        # The address may come again once its connections ended.
        with dialled(node.port, SECONDS, "127.0.0.2") as again:
            again.shake_hands()
            self.look("a pong", again.ping(2), 2)
        self.ends(other, asked=True, drops=None)
        self.ends(node, asked=True, drops=None)

    def look_an_address_dials_again_and_again(self):
        """An address dials 100 times a second and closes each at once. At most ten a second are let in."""
        node = self.node("--per-address", str(LASTING))
        other = self.linked(node)
        self.has_peers(node, 1)
        began = time.monotonic()
        dialler = Dialler(node.port, "127.0.0.2", DIALS, DIALLING, holds=False)
        self.gets_in(node, other)
        count = len(dialler.done())
        self.comes("that all were let in or refused", node, lambda: sum(node.served()) == count + 2)
        let_in, most = node.served()[0] - 2, BEGINNING * (int(time.monotonic() - began) + 1)
        self.tell(f"of {count} connections of an address {let_in} were let in")
        self.look(f"whether {let_in} are from 1 to {most}", 1 <= let_in <= most, True)
        self.ends(other, asked=True, drops=None)
        self.ends(node, asked=True, drops=None)

    def gets_in(self, node, other):
        """A client library at an address of its own gets in, and gives a block, which comes to the other node."""
        began = time.monotonic()
        with dialled(node.port, SECONDS, "127.0.0.3") as honest:
            honest.shake_hands()
            (block,) = grown(REGTEST_GENESIS, 0, 1, b"honest")
            honest.tell_headers([block])
            self.look("what it is asked for", [name for _, name in honest.asked()], [block.GetHash()])
            honest.give_block(block)
            self.comes("its block", other, lambda: other.tip()[1] == b2lx(block.GetHash()))
            self.in_time("when", time.monotonic() - began, SOON)
        self.relays(node, other)

    def look_elsewhere_an_address_has_a_limit(self):
        """Without --per-address a node that listens elsewhere than at loopback lets in eight of an address."""
        node = self.node(listen="0.0.0.0:0")
        streams = [self.enter(connected(node.port, SECONDS, "127.0.0.2")) for _ in range(LASTING + 3)]
        self.comes("that three are refused", node, lambda: node.served() == (LASTING, 3))
        self.comes("that eight last", node, lambda: [is_open(stream) for stream in streams] == [True] * LASTING + [False] * 3)
        self.ends(node)

    def look_a_loopback_address_has_no_limit(self):
        """Without --per-address a node at loopback lets in what comes."""
        node = self.node()
        for _ in range(INBOUND):
            self.enter(connected(node.port, SECONDS))
        self.comes("all", node, lambda: len(node.peers()) == INBOUND)
        self.look("how many were let in and refused", node.served(), (INBOUND, 0))
        self.ends(node)

    def look_limits_outlast_a_restart(self):
        """Behind `restart` a peer that sends nothing ends as before, and an address has as many connections as before."""
        node = self.node(*SHORT[:2], "--per-address", "1")
        self.restarts(node, "0")
        silent, more = (self.enter(connected(node.port, SECONDS)) for _ in range(2))
        self.look("whether a second one is closed at once", ends_at(more, time.monotonic() + HANDSHAKE / 2) is not None, True)
        self.look("whether the first one ends", ends_at(silent, time.monotonic() + HANDSHAKE + LATE) is not None, True)
        self.tells(node, silent, "HandshakeTimeout")
        self.ends(node)

    # ---- blocks that don't come

    def look_blocks_that_are_not_given(self):
        """A peer takes a request of 16 blocks and gives none. It ends by BlockTimeout once another is ready, which gives them."""
        blocks = grown(REGTEST_GENESIS, 0, TOLD, b"stalled")
        node = self.node("--block-timeout", str(BLOCK))
        idle = self.enter(dialled(node.port, SECONDS))
        idle.shake_hands()
        self.look("for how many it is asked", asked_for(idle, blocks), FLIGHT)
        self.look("whether it stays while it is alone", ends_at(idle.socket, time.monotonic() + BLOCK + 2), None)
        other = self.enter(dialled(node.port, SECONDS))
        other.shake_hands()
        began = time.monotonic()
        self.serves(other, blocks)
        self.has_tip(node, blocks[-1])
        self.look("whether it ends", ends_at(idle.socket, began + BLOCK + LATE) is not None, True)
        self.tells(node, idle.socket, "BlockTimeout")
        self.has_peers(node, 1)
        self.look("a pong of the other", other.ping(3), 3)
        self.ends(node, asked=True, drops=None)

    def look_blocks_that_come_now_and_then(self):
        """Of two peers that are asked for blocks one gives none, and the other one each two seconds, which is often enough."""
        blocks = grown(REGTEST_GENESIS, 0, TOLD, b"slow")
        node = self.node("--block-timeout", str(BLOCK))
        slow, idle = (self.enter(dialled(node.port, SECONDS)) for _ in range(2))
        for peer in (slow, idle):
            peer.shake_hands()
        began = time.monotonic()
        for peer in (idle, slow):
            self.look("for how many it is asked", asked_for(peer, blocks), FLIGHT)
        for block in blocks[:GIVEN]:
            time.sleep(PAUSE)
            slow.give_block(block)
        self.look("whether the one that gives none ended", ends_at(idle.socket, time.monotonic()) is not None, True)
        self.tells(node, idle.socket, "BlockTimeout")
        self.look("whether the slow one is there", (slow.ping(4), time.monotonic() - began > 2 * BLOCK), (4, True))
        for block in blocks[GIVEN:FLIGHT]:
            slow.give_block(block)
        asked = slow.asked()
        self.look("how many are left", len(asked), TOLD - FLIGHT)
        for block in blocks[FLIGHT:]:
            slow.give_block(block)
        self.has_tip(node, blocks[-1])
        self.ends(node, asked=True, drops=None)

    def look_blocks_that_nobody_asked_for(self):
        """A peer gives none of the blocks that it is asked for, but a known one and an orphan twice a second. None of these counts, and it
        ends by BlockTimeout, since another is ready."""
        blocks, (known,) = grown(REGTEST_GENESIS, 0, TOLD, b"held"), grown(REGTEST_GENESIS, 0, 1, b"known")
        (orphan,) = grown(grown(REGTEST_GENESIS, 0, 1, b"unknown")[0].GetHash(), 1, 1, b"orphan")
        node = self.node("--block-timeout", str(2 * BLOCK))
        idle, other = (self.enter(dialled(node.port, SECONDS)) for _ in range(2))
        for peer in (idle, other):
            peer.shake_hands()
        began = time.monotonic()
        self.look("for how many it is asked", asked_for(idle, blocks), FLIGHT)
        self.serves(other, [known])
        self.has_tip(node, known)
        counted = []
        while is_open(idle.socket) and time.monotonic() < began + 2 * BLOCK + LATE:
            for block in (known, orphan):
                idle.give_block(block)
            time.sleep(0.5)
            counted += [(peer.full, peer.messages_in) for peer in node.peers() if peer.slot == 0]
        self.look("what counts", {full for full, _ in counted}, {0})
        self.look("whether they came", len({came for _, came in counted}) >= BLOCK, True)
        self.tells(node, idle.socket, "BlockTimeout")
        self.has_peers(node, 1)
        self.serves(other, blocks)
        self.has_tip(node, blocks[-1])
        self.ends(node, asked=True, drops=None)

    def serves(self, peer, blocks):
        """A peer tells headers, and gives each block that it is asked for."""
        by_name, left = {block.GetHash(): block for block in blocks}, len(blocks)
        peer.tell_headers(blocks)
        while left > 0:
            for _, name in peer.asked():
                peer.give_block(by_name[name])
                left -= 1

    def has_tip(self, node, block):
        """This block becomes the node's tip."""
        self.comes("the tip", node, lambda: node.tip()[1] == b2lx(block.GetHash()))

    # ---- peers by name

    def look_peers_are_told(self):
        """Who a peer is, since when it is there, and when its last message came, whoever dialled."""
        node = self.node()
        peer, made = self.enter(dialled(node.port, SECONDS)), time.time()
        self.comes("it", node, lambda: len(node.peers()) == 1)
        (told,) = node.peers()
        self.look("before its version", (told.version, told.height, told.agent, told.last, told.pong), (None, None, "-", None, None))
        self.is_near("since when", told.since, made)
        peer.shake_hands(b"/library:0.1(a; b)/", 123)
        self.is_told(node, 0, (VERSION, 123, "/library:0.1(a; b)/"), made)
        time.sleep(QUIET)
        self.is_told(node, 0, (VERSION, 123, "/library:0.1(a; b)/"), made, quiet=QUIET)
        self.look("a pong", peer.ping(5), 5)
        self.is_told(node, 0, (VERSION, 123, "/library:0.1(a; b)/"), made)
        made = time.time()
        with LibraryPeer(self.dialled_by(node)) as second:
            second.expect(b"version")
            second.shake_hands_back()
            self.is_told(node, 1, (VERSION, -1, "/python-bitcoinlib/"), made)
        self.ends(node)

    def is_told(self, node, place, who, made, quiet=0):
        """At this place of `peers` stands this version, height and agent, and it was connected and spoke last at these times."""
        self.comes("its greeting", node, lambda: node.peers()[place].phase == "ready")
        now = time.time()
        # what came is noted each 10 ms
        node.until(lambda: abs((node.peers()[place].last or 0) - now + quiet) <= NEAR, NEAR)
        told = node.peers()[place]
        self.look("who it is", (told.version, told.height, told.agent), who)
        self.is_near("since when", told.since, made)
        self.is_near("when it spoke last", told.last or 0, now - quiet)

    def is_near(self, what, told, wanted):
        """A time is told right, to within a second and the moment of asking."""
        self.look(f"{what}: whether {told} is near {wanted:.1f}", abs(told - wanted) <= NEAR, True)

    def look_agents_stay_in_their_lines(self):
        """Agents of any bytes stay in their lines of `peers`: line ends, control characters and other bytes are left out."""
        node = self.node()
        for agent in AGENTS:
            with dialled(node.port, SECONDS) as peer:
                peer.shake_hands(agent)
                self.has_peers(node, 1)
                (line,) = node.list("peers")
                self.look("what is told", line.partition(" agent ")[2], "".join(chr(byte) for byte in agent if chr(byte) in SAFE))
                self.look("what else is in the line", line.isprintable() and line.isascii(), True)
                self.begins("tip", "tip 0", node.say("tip"))
            self.comes("its end", node, lambda: node.peers() == [])
        self.look("what else is logged", [line for line in node.logged if not re.match(r"\d{4}-\d\d-\d\dT\d\d:\d\d:\d\dZ \[", line)], [])
        self.ends(node)

    # ---- links that are undone

    def look_links_are_undone(self):
        """`disconnect` ends a link, and the address isn't dialled any more; `connect` undoes it."""
        node = self.node()
        other, at = self.linked(node), node.at
        self.has_peers(node, 1)
        self.says(node, f"disconnect {node.peers()[0].address}", "error not dialled")
        self.says(node, f"disconnect 127.0.0.1:{closed_port()}", "error not dialled")
        self.says(other, f"disconnect {at}", f"disconnected {at}")
        for one in (node, other):
            self.comes("the end of the link", one, lambda one=one: one.peers() == [])
        self.says(other, f"disconnect {at}", "error not dialled")
        self.mines(node)
        time.sleep(3)  # a dial would come after one second
        self.look("whether it is dialled again", (node.served(), other.tip()[0]), ((1, 0), 0))
        self.begins("connect", f"connected {at}", other.say(f"connect {at}"))
        self.comes("the block", other, lambda: other.tip() == node.tip())
        self.ends(node, asked=True, drops=None)
        self.logs(other, "no connection to")
        self.says(other, f"disconnect {at}", f"disconnected {at}")
        node = self.node(listen=at)
        time.sleep(3)
        self.look("whether one that waits is dialled again", (node.served(), node.peers()), ((0, 0), []))
        self.ends(node)
        self.ends(other, asked=True, drops=None)

    def look_a_dial_is_undone(self):
        """`disconnect` while a dial is under way, which nobody answers: nothing waits for it, and what comes of it is let go."""
        at = self.deaf()
        node = self.node("--connect", at)
        watch = Stopwatch(node)
        self.says(node, f"disconnect {at}", f"disconnected {at}")
        self.says(node, f"disconnect {at}", "error not dialled")
        self.mines(node, height=1)
        self.in_time("when", watch.seconds(), 1)
        time.sleep(DIAL + 2)
        self.look("whether it is dialled again", (node.peers(), node.found("no connection to")), ([], []))
        status, told = node.close("quit")
        self.ended_so((0 if status == 3 else status, told))

    def look_six_nodes_are_parted(self):
        """Two nodes of a ring of six have no network. Both sides mine, and so does one of the two. Then all come to the longest chain."""
        ports = [closed_port() for _ in range(RING)]
        nodes = [self.node("--connect", f"127.0.0.1:{ports[(place + 1) % RING]}", listen=f"127.0.0.1:{port}")
                 for place, port in enumerate(ports)]
        self.all_linked(nodes)
        self.stands_at(self.mines(nodes[0], 2, height=2), *nodes)
        for place in CUT:
            self.says(nodes[place], "network off", "network off")
            self.comes("that it has no peers", nodes[place], lambda place=place: nodes[place].peers() == [])
        for place, count in MINED.items():
            self.mines(nodes[place], count, height=2 + count)
        self.are_parted(nodes, ports)
        for place in CUT:
            self.says(nodes[place], "network on", "network on")
        self.stands_at(nodes[5].tip(), *nodes)
        self.all_linked(nodes)
        self.stands_at(self.mines(nodes[CUT[1]], height=3 + max(MINED.values())), *nodes)
        for node in nodes:
            self.ends(node, asked=True, drops=None)

    def are_parted(self, nodes, ports):
        """Each side has its own chain, and who has no network refuses dials of both kinds."""
        first, second = nodes[1].tip(), nodes[5].tip()
        self.stands_at(first, nodes[2])
        self.stands_at(second, nodes[4])
        self.says(nodes[0], f"connect 127.0.0.1:{ports[2]}", "error network off")
        with connected(ports[0], SECONDS) as stream:
            self.look("whether who connects is closed at once", ends_at(stream, time.monotonic() + SOON) is not None, True)
        self.says(nodes[0], "network off", "network off")
        time.sleep(2)
        heights = [node.tip()[0] for node in nodes]
        self.look("the heights", heights, [2 + MINED[0], first[0], first[0], 2, second[0], second[0]])
        self.look("how many peers each has", [len(node.peers()) for node in nodes], [0, 1, 1, 0, 1, 1])

    def all_linked(self, nodes):
        """Each node of the ring has both its neighbours."""
        for node in nodes:
            self.has_peers(node, 2)

    # ---- slots, words, cost

    def look_slots_go_by_their_number(self):
        """By --max-connections: a quarter of the slots, 1 to 16, is for peers that are dialled; no kind takes one of the other."""
        for most, inbound in SLOTS.items():
            node = self.node("--max-connections", str(most))
            servers = [self.enter(socket.create_server((f"127.0.0.{count + 2}", 0))) for count in range(min(most - inbound, 3) + 1)]
            told = [node.say(f"connect {server.getsockname()[0]}:{server.getsockname()[1]}").split()[-2:] for server in servers]
            wanted = [["slot", str(inbound + count)] for count in range(len(servers))]
            self.look(f"slots of peers that are dialled, of {most}", told, wanted[:-1] + [["no", "slot"]] if most - inbound < 4 else wanted)
            if inbound < INBOUND:
                peers = [self.enter(dialled(node.port, SECONDS)) for _ in range(inbound)]
                for peer in peers:
                    peer.shake_hands()
                with connected(node.port, SECONDS) as more:
                    self.look("whether one more is turned away", ends_at(more, time.monotonic() + SOON) is not None, True)
                self.look("whether the others stay", [peer.ping(6) for peer in peers], [6] * inbound)

    def look_lines_and_words_are_refused(self):
        """Lines that can't be read, and numbers out of their range."""
        node = self.node()
        for line in UNREADABLE:
            self.says(node, line, "error unreadable")
        self.ends(node)
        for pair in WORDS:
            status, printed, errors = self.ran("node", "--listen", "127.0.0.1:0", *pair)
            self.look(f"{pair}: status, output, whether an error is told", (status, printed, errors.startswith("error: ")), (1, "", True))
        _, _, errors = self.ran("node", "--help")
        for word in dict(WORDS):
            self.look(f"whether --help tells {word}", word in errors, True)

    def look_a_thousand_slots_cost_little(self):
        """A node of 1,000 slots to which nothing happens."""
        node = self.node("--max-connections", "1000")
        time.sleep(2)
        self.waits("1,000 slots wait", MOST, 3, node)
        self.ends(node)


def address_of(stream):
    """The address of this end, as the program tells it, for a pattern."""
    return "{}:{}".format(*stream.getsockname()).replace(".", r"\.")


def asked_for(peer, blocks):
    """A peer tells headers: for how many blocks it is asked."""
    peer.tell_headers(blocks)
    return len(peer.asked())


if __name__ == "__main__":
    sys.exit(Limits.main(__doc__))
