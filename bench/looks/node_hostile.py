#!/usr/bin/env python3
"""Runs a process `cbrelay node` with many peers and with ones that behave badly: python3 bench/looks/node_hostile.py [PROGRAM] [--whole]
[--only LOOK]

It needs the program, python3 and Linux, and takes some two minutes, with --whole
some ten. Beside each peer another node is linked, and blocks go on to it in time. Of each look the processor's time, the most memory and what
it grew by are told. --help tells the looks. The status is 0 where all came out so.
"""

import hashlib
import socket
import sys
import threading
import time
from contextlib import ExitStack, contextmanager
from pathlib import Path

sys.path.insert(0, str(Path(__file__).resolve().parents[2]))

from bench.models import plain_wire as wire
from bench.models.plain_block import sized
from bench.models.plain_wire import BLOCK, COMPACT
from bench.tools.basics import GENESIS, envelope, shown
from bench.tools.made_blocks import mined
from bench.tools.plain_peer import HELLO, USUAL, PlainPeer, dialled
from bench.tools.process_talk import Lateness, ProcessLooks, Stopwatch, connected

# How many slots serve peers that dial a node, how many those that it dials, and how many connections a slot serves.
INBOUND, OUTBOUND, CONNECTIONS = 48, 16, 256
# In how many seconds a block comes to a peer beside bad ones.
SOON = 5
# A block of this size is asked for so often that a socket can't take it, and one of this size in so many messages of 50,000 entries that an
# outbox can't.
LARGE, MANY, SMALL, TOO_MANY = 900_000, 20, 250, 3
# So many headers of this size are asked for, in so many messages.
HEADERS, HEADER, REQUESTS = 2_000, 81, 300
# A block of this size is asked for so often in one message, as often as one may ask, and so often that all is read.
FULL, ENTRIES, ALL = 1_000_000, 50_000, 500
# In how many seconds a peer beside that has each answer, for how many seconds it asks, and how much memory the node may take then.
AT_ONCE, BESIDE, MEMORY = 1, 8, 300_000_000
# For how many seconds a socket needn't move, in how many its connection has ended at the most, and how long we wait for that.
STILL, ENDED, PATIENCE = 30, 50, 240
# After how many seconds a peer reads that reads late.
LATE = 5
# Messages of this size, for how many seconds, and by how many bytes the memory may grow meanwhile.
HUGE, FLOOD, GROWTH = 4_000_000, 5, 100_000_000
# In how many seconds all slots are used up at the most.
USED_UP = 400
PING = wire.ping(7)
# What a node tells a peer that says nothing but its hello.
ANY = ("version", "verack", *USUAL, "inv")


class Hostile(ProcessLooks):
    """A node, another node that is linked to it, and peers that are none."""

    @contextmanager
    def pair(self, *words, ends=True):
        """Two linked nodes: the port of the first comes with them. What the first one took is told at the end, and both end well. Without
        `ends` the first is killed: its audit would compare each block that was asked for, byte by byte."""
        node = self.node(*words, seconds=PATIENCE)
        port = node.port
        other = self.node("--connect", f"127.0.0.1:{port}", seconds=PATIENCE)
        self.has_peers(node, 1)
        before, spent, began = node.memory(), node.processor_ms(), time.monotonic()
        yield node, other, port
        took, spent = time.monotonic() - began, node.processor_ms() - spent
        self.tell(f"{took:.1f} s, {spent:.0f} ms of the processor, memory {before / 1e6:.0f} MB before, "
                  f"{node.memory('VmHWM') / 1e6:.0f} MB at the most, {node.memory() / 1e6:.0f} MB at last")
        self.ends(other, drops=None)
        if ends:
            self.ends(node, drops=None)

    def block_in_time(self, node, other):
        """A block that the node mines comes to the other in time."""
        watch = Stopwatch(node, other)
        self.stands_at(self.mines(node), other)
        self.in_time("when the block comes", watch.seconds(), SOON)

    @staticmethod
    def end(node, slot):
        """How the connection of a slot ended, as the log tells; None where it didn't."""
        return next((line.rpartition(" ")[2] for line in node.found(rf"in slot {slot} closed: ")), None)

    def ended(self, node, slot):
        """How the connection of a slot ends; None where it doesn't in time."""
        node.until(lambda: self.end(node, slot), PATIENCE)
        return self.end(node, slot)

    # ---- many at once

    def look_sixty_four_at_once(self):
        """48 peers dial the node, of which one is the other node, and it dials 16. One more of each is turned away. A block is told to
        all."""
        with self.pair() as (node, other, port), ExitStack() as stack:
            threads = node.threads()
            listener = stack.enter_context(socket.create_server(("127.0.0.1", 0), backlog=64))
            hosts = [f"127.0.0.{count + 2}:{listener.getsockname()[1]}" for count in range(OUTBOUND + 1)]
            listeners = [listener, *(stack.enter_context(listening(host)) for host in hosts)]
            peers = [stack.enter_context(dialled(port)) for _ in range(INBOUND - 1)]
            for host, one in zip(hosts[:OUTBOUND], listeners[1:]):
                self.begins("connect", f"connected {host}", node.say(f"connect {host}"))
                peers.append(stack.enter_context(PlainPeer(one.accept()[0])))
            for peer in peers:
                peer.send(HELLO)
            self.has_peers(node, INBOUND + OUTBOUND)
            self.look("a dial more", node.say(f"connect {hosts[OUTBOUND]}"), "error no slot")
            # The log has a line of it if it had few about connections within a second.
            time.sleep(1.5)
            with connected(port, PATIENCE) as more:
                self.look("a peer more", more.recv(1), b"")
            self.logs(node, "a peer was turned away: no slot is free")
            began = time.monotonic()
            self.block_in_time(node, other)
            name = node.tip()[1]
            for peer in peers:
                ((_, told),) = peer.expect("inv", ANY[:-1])
                self.look("the block that is told", shown(told), name)
            self.tell(f"a block is told to 64 peers in {time.monotonic() - began:.2f} s; {node.threads()} threads")
            stack.close()
            self.comes("their end", node, lambda: len(node.peers()) == 1)
            # Addresses are dialled again, and each dial has a thread for a moment.
            self.comes("their threads' end", node, lambda: node.threads() <= threads + OUTBOUND)

    # ---- slow ones

    def look_a_byte_a_second(self):
        """A peer that sends a byte a second: a ping. Without --whole that goes on for ten seconds, and the rest comes faster."""
        with self.pair() as (node, other, port), dialled(port) as peer:
            for count, byte in enumerate(HELLO + PING):
                peer.send(bytes([byte]))
                time.sleep(1 if self.options.whole or count < 10 else 0.01)
                if count % 10 == 0 and (self.options.whole or count < 11):
                    self.block_in_time(node, other)
            self.look("the answer", peer.expect("pong", ANY), 7)

    def look_slow_readers(self):
        """Three peers ask for blocks: one never reads, one reads a byte now and then, which end with WriteFault; and one reads all, but
        late."""
        with self.pair("--handlers", "1") as (node, other, port), ExitStack() as stack:
            request = self.large_block(node, other, MANY)
            slow = stack.enter_context(reading_bytes(port, 20 if self.options.whole else 1))
            silent, late = stack.enter_context(small(port, 4_096)), stack.enter_context(small(port, 65_536))
            for peer in (slow, silent, late):
                peer.send(HELLO, request)
            self.comes("what they ask for", node, lambda: all(peer.messages_out >= MANY for peer in node.peers()[1:4]))
            began = time.monotonic()
            reader = threading.Thread(target=self.reads_late, args=(late,), daemon=True)
            reader.start()
            ends = {}
            while len(ends) < 2 and time.monotonic() < began + PATIENCE:
                self.block_in_time(node, other)
                for slot in (1, 2):
                    if slot not in ends and self.end(node, slot):
                        ends[slot] = time.monotonic() - began, self.end(node, slot)
                time.sleep(0.5)
            reader.join(PATIENCE)
            for slot, what in ((1, "the slow one"), (2, "the one that never reads")):
                took, end = ends.get(slot, (PATIENCE, None))
                self.look(f"the end of {what}", end, "WriteFault")
                self.look(f"whether {what} had time", took > STILL / 2, True)
                self.in_time(f"when {what} ends", took, ENDED)
                self.tell(f"after {took:.0f} s the connection of {what} had the end {end}")
            self.look("the end of the late one", self.end(node, 3), None)

    def reads_late(self, peer):
        """Reads all that a peer asked for, but not at once."""
        time.sleep(LATE)
        self.look("whether all comes to the late one", read_all(peer, MANY * LARGE), True)

    def look_more_than_an_outbox_holds(self):
        """A peer that asks for more than may wait for it gets all of it once it reads."""
        with self.pair("--handlers", "1") as (node, other, port), small(port, 65_536) as peer:
            sent_aside(peer, HELLO, *[self.large_block(node, other, ENTRIES, SMALL)] * TOO_MANY)
            time.sleep(LATE)
            self.look("whether all comes", read_all(peer, TOO_MANY * ENTRIES * SMALL), True)
            self.look("its end", self.end(node, 1), None)
            self.block_in_time(node, other)

    def look_headers_again_and_again(self):
        """A peer that asks again and again for 2,000 headers, and doesn't wait for them, gets all of them once it reads."""
        with self.pair() as (node, other, port), small(port, 65_536) as peer:
            for _ in range(HEADERS // 1_000):
                node.say("mine 1000")
            self.stands_at(node.tip(), other)
            peer.send(HELLO, wire.getheaders([GENESIS]) * REQUESTS)
            time.sleep(LATE)
            self.look("whether all come", read_all(peer, REQUESTS * HEADERS * HEADER), True)
            self.look("its end", self.end(node, 1), None)
            most = node.memory("VmHWM")
            self.most("bytes of memory", most, MEMORY, ",")
            self.block_in_time(node, other)

    def look_more_than_an_outbox_holds_unread(self):
        """A peer that asks for more than may wait for it and doesn't read ends with WriteFault."""
        with self.pair("--handlers", "1") as (node, other, port), small(port, 4_096) as peer:
            sent_aside(peer, HELLO, *[self.large_block(node, other, ENTRIES, SMALL)] * TOO_MANY)
            watch = Stopwatch(node, other)
            self.look("its end", self.ended(node, 1), "WriteFault")
            self.in_time("when it ends", watch.seconds(), ENDED)
            self.block_in_time(node, other)

    def large_block(self, node, other, count, size=LARGE, kind=BLOCK):
        """The node is given a large block, which comes to the other. A message that asks for it so often comes back."""
        block = mined(GENESIS, 1)
        large = sized(block.header.name, size)
        for one in (block, large):
            self.submits(node, one)
        self.stands_at(node.tip(), other)
        return wire.entries(b"getdata", [(kind, large.header.name)] * count)

    # ---- ones that ask for all that they may

    def look_many_answers(self):
        """Two peers ask 50,000 times for a block of 1,000,000 bytes and don't read. One beside them is answered within a second."""
        self.asked_and_unread(2, "--handlers", "2")

    def look_many_answers_at_eight(self):
        """The same of eight peers, by eight handlers."""
        self.asked_and_unread(8, "--handlers", "8")

    def look_many_short_answers(self):
        """Two peers ask 50,000 times for it as a compact block and don't read."""
        self.asked_and_unread(2, "--handlers", "2", kind=COMPACT)

    def asked_and_unread(self, count, *words, kind=BLOCK):
        """So many peers ask for a block as often as they may in a message, and don't read. One beside them has its answers meanwhile."""
        with self.pair(*words, ends=False) as (node, other, port), ExitStack() as stack:
            request, late = self.large_block(node, other, ENTRIES, FULL, kind), stack.enter_context(Lateness())
            honest = stack.enter_context(dialled(port))
            honest.shake_hands()
            for _ in range(count):
                stack.enter_context(small(port, 4_096)).send(HELLO, request)
            end, longest, nonce = time.monotonic() + BESIDE, 0, 0
            while time.monotonic() < end:
                nonce, began = nonce + 1, time.monotonic() - late.seconds
                self.look("a pong", honest.pinged(nonce, (*USUAL, "inv")), True)
                longest = max(longest, time.monotonic() - late.seconds - began)
                time.sleep(0.02)
            most = node.memory("VmHWM")
            self.tell(f"{nonce} pings beside {count} that ask, the longest took {longest:.2f} s; memory {most / 1e6:.0f} MB at the most; "
                      f"a sleeper woke {late.seconds:.2f} s too late in all")
            self.in_time("the longest", longest, AT_ONCE)
            self.most("bytes of memory", most, MEMORY, ",")

    def look_slow_but_all(self):
        """A peer that asks 500 times for a block reads slowly, and gets all."""
        with self.pair() as (node, other, port), small(port, 65_536) as peer:
            peer.send(HELLO, self.large_block(node, other, ALL, FULL))
            self.look("whether all comes to the slow one", read_all(peer, ALL * FULL, pause=0.0005), True)
            self.block_in_time(node, other)
            self.look("its end", self.end(node, 1), None)

    def look_half_closed(self):
        """A peer that asks 500 times for a block closes its side behind the message, and gets all."""
        with self.pair() as (node, other, port), small(port, 65_536) as peer:
            peer.send(HELLO, self.large_block(node, other, ALL, FULL))
            peer.stream.shutdown(socket.SHUT_WR)
            self.look("whether all comes to the half-closed one", read_all(peer, ALL * FULL), True)
            self.look("its end", self.ended(node, 1), "Bye")
            self.block_in_time(node, other)

    # ---- loud ones

    def look_huge_messages(self):
        """Messages of 4,000,000 bytes of an unknown command, for some seconds, from four peers."""
        message = envelope(b"filler", hashlib.sha256(b"filler").digest() * (HUGE // 32))
        with self.pair() as (node, other, port), ExitStack() as stack:
            before = node.memory()
            peers = [stack.enter_context(dialled(port)) for _ in range(4)]
            end = time.monotonic() + (FLOOD if not self.options.whole else 10 * FLOOD)
            sent, threads = [0] * len(peers), []
            for place, peer in enumerate(peers):
                peer.send(HELLO)
                threads.append(threading.Thread(target=flood, args=(peer, message, end, sent, place), daemon=True))
                threads[-1].start()
            while time.monotonic() < end:
                self.block_in_time(node, other)
                time.sleep(0.2)
            for thread in threads:
                thread.join(PATIENCE)
            for peer in peers:
                peer.send(PING)
                self.look("the answer", peer.expect("pong", ANY), 7)
            self.most("bytes of memory more", node.memory("VmHWM") - before, GROWTH, ",")
            self.tell(f"{sum(sent) * len(message) / 1e6:,.0f} MB came")

    def look_unreadable_messages(self):
        """Messages of 4,000,000 bytes that can't be read, or are longer than any may be."""
        with self.pair() as (node, other, port):
            for slot, (command, size, end) in enumerate([(b"inv", HUGE, "BadMessage"), (b"headers", HUGE, "BadMessage"),
                                                         (b"block", HUGE, "BadMessage"), (b"filler", HUGE + 1, "BadStream")], 1):
                with dialled(port) as peer:
                    try:
                        peer.send(HELLO, envelope(command, b"\xfd" * size))
                    except OSError:  # it was closed meanwhile
                        pass
                    self.look(f"the end behind {command} of {size} bytes", self.ended(node, slot), end)
                self.block_in_time(node, other)

    # ---- connections that open and close

    def look_open_and_close(self):
        """Connections that open and close at once: threads and descriptors are given back. Those for which no slot is free are turned
        away."""
        count = 10_000 if self.options.whole else 1_000
        with self.pair() as (node, other, port):
            threads, descriptors, before, spent, began = node.threads(), len(node.descriptors()), node.memory(), node.processor_ms(), time.monotonic()
            for _ in range(count):
                connected(port, PATIENCE).close()
            self.comes("their end", node, lambda: len(node.peers()) == 1)
            took, spent = time.monotonic() - began, node.processor_ms() - spent
            served = node.served()[0] - 1
            self.comes("their threads' end", node, lambda: node.threads() <= threads)
            self.comes("their descriptors' end", node, lambda: len(node.descriptors()) <= descriptors)
            self.tell(f"{count} connections in {took:.1f} s, of which {served} were served; {spent / count:.2f} ms of the processor and "
                      f"{(node.memory() - before) / count:,.0f} bytes of memory each")
            self.block_in_time(node, other)

    def look_all_slots_used_up(self):
        """With --whole, connections until no slot is left, which `restart` mends."""
        if not self.options.whole:
            return
        node = self.node(seconds=PATIENCE)
        port, began, spent = node.port, time.monotonic(), node.processor_ms()
        while not node.found("a peer was turned away: all slots are used up, which restart mends") and time.monotonic() < began + USED_UP:
            for _ in range(100):
                connected(port, PATIENCE).close()
        self.logs(node, "a peer was turned away: all slots are used up, which restart mends")
        self.look("connections", node.served()[0], INBOUND * CONNECTIONS)
        self.tell(f"{time.monotonic() - began:.0f} s, {node.processor_ms() - spent:.0f} ms of the processor, "
                  f"memory {node.memory() / 1e6:.0f} MB")
        began = time.monotonic()
        self.restarts(node)
        self.tell(f"restart took {time.monotonic() - began:.1f} s, memory {node.memory() / 1e6:.0f} MB behind it")
        with dialled(port) as peer:
            peer.send(HELLO, PING)
            self.look("the answer", peer.expect("pong", ANY), 7)
        self.ends(node)


def listening(host):
    """A listener at an address of this machine."""
    name, _, port = host.partition(":")
    return socket.create_server((name, int(port)), backlog=4)


def small(port, size):
    """A peer whose socket holds little."""
    stream = socket.socket()
    stream.setsockopt(socket.SOL_SOCKET, socket.SO_RCVBUF, size)
    stream.settimeout(PATIENCE)
    stream.connect(("127.0.0.1", port))
    return PlainPeer(stream)


@contextmanager
def reading_bytes(port, pause):
    """A peer that reads a byte after each pause, by a thread of its own."""
    with small(port, 4_096) as peer:
        def read():
            while peer.stream.fileno() >= 0:
                time.sleep(pause)
                try:
                    peer.stream.recv(1)
                except OSError:
                    return

        threading.Thread(target=read, daemon=True).start()
        yield peer


def read_all(peer, count, pause=0):
    """Whether so many bytes come to a peer that pauses behind each piece."""
    while count > 0:
        piece = peer.stream.recv(1 << 20)
        if not piece:
            return False
        count -= len(piece)
        time.sleep(pause)
    return True


def sent_aside(peer, *messages):
    """Sends messages by a thread of its own: the node may read on only once its answers are read."""
    def send():
        try:
            peer.send(*messages)
        except OSError:
            return

    threading.Thread(target=send, daemon=True).start()


def flood(peer, message, end, sent, place):
    """Sends a message again and again."""
    while time.monotonic() < end:
        peer.send(message)
        sent[place] += 1


if __name__ == "__main__":
    sys.exit(Hostile.main(__doc__, [("whole", "at whole length")]))
