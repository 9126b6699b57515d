#!/usr/bin/env python3
"""Runs processes `cbrelay node` whose standard output or standard error nobody reads, and looks at what they say of words that can't be
followed: python3 bench/looks/node_pipes.py [PROGRAM] [--only LOOK]

It needs the program, python3 and Linux, and takes some two minutes. --help tells
the looks. The status is 0 where all came out so.
"""

import re
import socket
import subprocess
import sys
import time
from collections import Counter
from contextlib import contextmanager
from pathlib import Path

sys.path.insert(0, str(Path(__file__).resolve().parents[2]))

from bench.tools.plain_peer import PlainPeer, dialled
from bench.tools.process_talk import NodeProcess, ProcessLooks, closed_port

# How many connections come where nobody reads the log.
CONNECTIONS = 400
# In how many seconds a line is answered, and in how many a node ends, at the most.
SOON, LATEST = 1, 10
# For how many seconds a flood of connections lasts, and how many lines of the log a second are about them at the most.
FLOOD, MOST = 4, 20
# What the log tells of lines that it had no room for.
DROPPED = "lines of the log were dropped"
# A line that is answered at length, and how many of them fill a pipe and leave some unanswered.
LONG, FULL = "block " + "11" * 32, 6_000
# How many bytes of addresses are too few for a node, though enough for its first threads.
SCARCE = 40_000_000
# An address of no machine in reach (RFC 5737).
FOREIGN = "192.0.2.1:18444"
CLOSED = re.compile(r"connection (from|to) \S+ in slot \d+|a peer was turned away|a peer wasn't accepted|no connection to ")
OTHERS = re.compile(r"\] (\d+) more lines about connections$")


class Pipes(ProcessLooks):
    """Nodes whose pipes nobody reads."""

    @contextmanager
    def unread(self, *words, errors=True, output=True):
        """A node at a port of the loopback address, with what it is spoken to by. Pipes that nobody reads aren't read before its end."""
        port = closed_port()
        command = [self.program, "node", "--listen", f"127.0.0.1:{port}", *words]
        given = {"stdin": subprocess.PIPE, "stdout": subprocess.PIPE if output else subprocess.DEVNULL,
                 "stderr": subprocess.PIPE if errors else subprocess.DEVNULL}
        with subprocess.Popen(command, **given) as process:
            try:
                self.look("whether it listens", self.listens(port), True)
                yield process, port
            finally:
                process.kill()

    @staticmethod
    def listens(port):
        """Waits until somebody listens at a port; whether it came to that."""
        end = time.monotonic() + 20
        while time.monotonic() < end:
            try:
                with dialled(port, 20):
                    return True
            except OSError:
                time.sleep(0.05)
        return False

    def is_served(self, port):
        """Whether a new peer is answered."""
        with dialled(port, 20) as peer:
            peer.shake_hands()
            return peer.pinged(5)

    def ends_soon(self, process, wanted):
        """The process ends in time, with this status."""
        began = time.monotonic()
        status = process.wait(timeout=60)
        self.in_time("when it ends", time.monotonic() - began, LATEST)
        self.look("the status", status, wanted)

    # ---- nobody reads

    def look_errors_are_unread(self):
        """400 connections, one after another, are served though nobody reads the log, and `tip` is answered within a second."""
        node = self.node("--log", "trace", reads_errors=False)
        port = node.port
        for count in range(CONNECTIONS):
            with dialled(port, 20) as peer:
                peer.shake_hands()
            if count % 100 == 0:
                self.answers_in_time(node)
        self.answers_in_time(node)
        self.look("its connections", node.served()[0] >= CONNECTIONS, True)
        node.process.stdin.close()
        self.ends_soon(node.process, 0)

    def answers_in_time(self, node):
        began = time.monotonic()
        node.tip()
        self.in_time("when tip is answered", time.monotonic() - began, SOON)

    def look_output_is_unread(self):
        """With a full standard output a new peer is served; `quit` and the end of input end the node within ten seconds."""
        self.fills_its_output(0, errors=False)

    def fills_its_output(self, connections, *words, **given):
        """A node with so many connections answers many lines, which nobody reads, and is ended in two ways."""
        for last in (b"quit\n", b""):
            with self.unread(*words, **given) as (process, port):
                for _ in range(connections):
                    with dialled(port, 20):
                        pass
                process.stdin.write((LONG + "\n").encode() * FULL)
                process.stdin.flush()
                time.sleep(1)
                self.look("whether a peer is served", self.is_served(port), True)
                self.finish(process, last)

    def look_both_are_unread(self):
        """The same with a log that nobody reads either, and many lines that wait for their answer."""
        self.fills_its_output(CONNECTIONS, "--log", "trace")

    def finish(self, process, last):
        """Says the last line, or ends the input. The node ends in time, since its output takes nothing."""
        if last:
            process.stdin.write(last)
            process.stdin.flush()
        else:
            process.stdin.close()
        self.ends_soon(process, 3)

    def look_nothing_waits_to_be_read(self):
        """An output that holds all that was printed is as good as one that is read."""
        with self.unread() as (process, _):
            process.stdin.write(b"tip\nquit\n")
            process.stdin.flush()
            self.ends_soon(process, 0)
            told = process.stdout.read().decode().splitlines()
            self.says_yes("the last line", told[-1])

    # ---- the log

    def look_a_flood_is_counted(self):
        """Connections by the hundred a second: 20 lines of the log a second at the most are about them. The counts of the others add up to
        all."""
        node = self.node()
        port, end = node.port, time.monotonic() + FLOOD
        while time.monotonic() < end:
            for _ in range(50):
                with dialled(port, 20):
                    pass
            time.sleep(0.05)
        self.comes("their end", node, lambda: node.peers() == [])
        served = node.served()[0]
        self.ends(node)
        told = [line for line in node.logged if line and CLOSED.search(line)]
        counts = [int(OTHERS.search(line)[1]) for line in node.logged if line and OTHERS.search(line)]
        away = len(node.found("turned away"))
        self.tell(f"{served} served, {len(told)} lines told, {sum(counts)} counted")
        self.look("whether some were counted", sum(counts) > 0, True)
        self.look("whether all lines of those served are told or counted", len(told) + sum(counts) >= 2 * served + away, True)
        seconds = Counter(line[:20] for line in node.logged if line and (CLOSED.search(line) or OTHERS.search(line)))
        self.look("the most lines a second", max(seconds.values()) <= 2 * MOST, True)
        spans = sorted(seconds)
        self.look("lines a second on the whole", sum(seconds.values()) <= MOST * (len(spans) + 1), True)

    def look_dropped_lines_are_counted(self):
        """A log that is read late: a line tells how many were dropped before it."""
        node = self.node("--log", "debug", reads_errors=False)
        mined = 3_000
        for _ in range(mined):
            node.say("mine")
        node.read_errors()
        # while the log's thread hasn't read on, the next lines are dropped too
        while not node.found(DROPPED) and mined < 3_100:
            node.say("mine")
            mined += 1
            time.sleep(0.1)
        self.logs(node, rf"\[WARN  cbrelay\] [1-9]\d* {DROPPED}$")
        node.say("mine")
        mined += 1
        self.logs(node, f" tip {mined} ")
        tips = len(node.found(r"\] tip \d+ "))
        lost = sum(int(line.split()[3]) for line in node.found(DROPPED))
        self.look("tips that were told and lines that were dropped", tips + lost, mined)
        self.ends(node)

    # ---- words

    def look_words_are_named(self):
        """Words that can't be followed are named; a port in use and another machine's address are told apart."""
        rows = {("--listen", "localhost:1"): r"--listen .* numbers alone", ("--connect", "localhost:1"): r"--connect .* numbers alone",
                ("--log", "loud"): r"--log takes off, error", ("--listen", FOREIGN): r"192\.0\.2\.1:18444: the address isn't this machine's"}
        node = self.node()
        rows["--listen", node.at] = "the port is in use"
        for words, wanted in rows.items():
            status, printed, errors = self.ran("node", *words)
            self.look(f"{words}: status and output", (status, printed), (3, ""))
            self.look(f"{words}: the error", bool(re.search(wanted, errors)), True)
        self.ends(node)

    def look_want_of_memory_is_told(self):
        """Memory that runs out at the start is no fault of the address."""
        command = ["prlimit", f"--as={SCARCE}", self.program, "node", "--listen", "127.0.0.1:0"]
        run = subprocess.run(command, stdin=subprocess.DEVNULL, capture_output=True, text=True, timeout=60, check=False)
        self.look("the end", (run.returncode, run.stdout, run.stderr), (4, "", "memory ran out\n"))

    def look_addresses_are_dialled_once(self):
        """A peer that is given twice is dialled once; the node's own address is not dialled."""
        own, other = closed_port(), socket.create_server(("127.0.0.1", 0))
        with other:
            other.settimeout(3)
            address = f"127.0.0.1:{other.getsockname()[1]}"
            words = [word for given in (address, address, f"127.0.0.1:{own}") for word in ("--connect", given)]
            with NodeProcess(self.program, *words, listen=f"127.0.0.1:{own}") as node:
                self.logs(node, f"127.0.0.1:{own} is this node's own address")
                with PlainPeer(other.accept()[0]):
                    try:
                        again = other.accept()[0]
                        again.close()
                        self.look("a second dial", True, False)
                    except TimeoutError:
                        pass
                    self.look("its peers", [peer.way for peer in node.peers()], ["to"])
                self.look("a dial of its own", node.say(f"connect 127.0.0.1:{own}"), "error own address")
                self.ends(node)


if __name__ == "__main__":
    sys.exit(Pipes.main(__doc__))
