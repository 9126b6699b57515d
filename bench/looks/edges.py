#!/usr/bin/env python3
"""Runs the built program where no stored run can: reads and writes that fail, one byte at a time, lists of words and lines that each
end a run, and long inputs: python3 bench/looks/edges.py

It needs the program, a C compiler as `cc`, python3 and Linux, and takes some
seconds. What has to
come out was written from the rules in docs/PROTOCOL.md.
"""

import os
import resource
import signal
import socket
import subprocess
import sys
import tempfile
import time
from pathlib import Path

sys.path.insert(0, str(Path(__file__).resolve().parents[2]))

from bench.tools.basics import envelope
from bench.tools.growths import preloaded
from bench.tools.looks import Looks

SECONDS = 60
VERACK = envelope(b"verack", b"")
PING, PONG = envelope(b"ping", bytes(8)), envelope(b"pong", bytes(8))
# A `verack`, one with a wrong checksum, and an unknown command, and what `decode` prints of them.
DECODED = VERACK.hex().encode() + b"\n" + VERACK[:20].hex().encode() + b"00000000\n" + envelope(b"hello", b"hello").hex().encode() + b"\n"
PRINTED = b"verack\ndamaged\nunknown hello 5\nrest 0\n"
SIMULATED = b"system 1 1 1\nput 0 7\n"
REPORTED = b"peer 0 queued 7 taken -\nring 0\nhandler 0 -\n"
# Words that are refused: one that is empty, and two commands as one word.
REFUSED_WORDS = ("", "decode serve")
# Lines of `decode` that aren't hex.
NO_HEX = (b"xy", b"fab", b" fa", b"fa\rbf", b"fabf\r\r")
# First lines of `sim` that can't be read: sizes out of their ranges, too few and too many, and words that aren't parted by one space.
NO_SIZES = (
    "system 65 1 1", "system 0 1 1", "system 1 17 1", "system 1 0 1", "system 1 1 1025", "system 1 1 0", "system 1 1",
    "system 1 1 1 1", "system  1 1 1", "system 1 1 1 ", "system +1 1 1", "System 1 1 1", "put 0 1", "", "1 unreadable",
)
# Lines of acts that can't be read.
NO_ACTS = (
    "put 65536 1", "put 0 18446744073709551616", "put  0 1", "put 0  1", "put 0 1 ", " put 0 1", "put 0\r 1", "put 0 1\r\r",
    "drop 0 1", "put 0", "put", "end", "end 0 1", "open", "open 0 1", "open 65536", "claim", "claim 65536", "take x", "take -1",
    "give 0 ", "give +0", "system 1 1 1", "",
)
# Words of `run` that are refused: sizes out of their ranges, and without one of them.
NO_RUNS = (
    "--nodes 0 --handlers 1", "--nodes 9 --handlers 1", "--nodes 1 --handlers 0", "--nodes 1 --handlers 17", "--nodes -1 --handlers 1",
    "--nodes x --handlers 1", "--nodes 65537 --handlers 1", "--nodes 1", "--handlers 1", "", "--nodes 1 --handlers 1 more", "--nodes 1 --handlers 1 --stat",
    "--nodes 1 --nodes 2 --handlers 1",
)
TX_64 = "0100000001" + "11" * 32 + "000000000401020304ffffffff010100000000000000" + "00" * 5
# Lines of `run` with two nodes that can't be read.
NO_LINES = (
    "", " ", "wait ", " wait", "Wait", "wait 0", "link", "link 0", "link 0 ", "link 0  1", "link  0 1", "link 0 1 ", "link 0 2", "link 2 0",
    "link 0 1 1", "link +0 1", "link 0 -1", "link 0 x", "link 0 18446744073709551616", "link 0 65536", "mine", "mine 2", "mine 0 0", "mine x",
    "kick 0", "kick 2 0", "kick 0 65536", "kick 0 0 0", "kick 0 18446744073709551616", "checkpoint", "checkpoint 2", "checkpoint 0 ", "tx 0",
    "tx 0 ", f"tx 0 {TX_64[:-2]}", f"tx 0 {TX_64}00", f"tx 0 {TX_64[:-1]}", f"tx 0 {TX_64[:-1]}g", f"tx 0 {TX_64[:64]} {TX_64[64:]}", f"tx 0  {TX_64}",
    f"tx 2 {TX_64}", f"block 0 {TX_64}", "block 0", "block 0 ", "block 1 00", "put 0 1", "system 1 1 1", "link\t0 1", "mine 0\r\r", "mine \u0660",
)
RUN = ["run", "--nodes", "2", "--handlers", "1"]
STANDS = "height 0 tip 0f9188f13cb7b2c71f2a335e3a4fc328bf5beb436012afca590b1a11466e2206 pool 0 audit yes"
STOOD = f"node 0 {STANDS}\nnode 1 {STANDS}\n".encode()


class Edges(Looks):
    """Runs of the program."""

    def run(self, words, given, **streams):
        """The status, standard output and standard error of a run; an output that goes elsewhere is empty."""
        streams = {"input": given, "stdout": subprocess.PIPE, "stderr": subprocess.PIPE} | streams
        ran = subprocess.run([self.program, *words], timeout=SECONDS, check=False, **streams)
        return ran.returncode, ran.stdout or b"", ran.stderr or b""

    # ---- words and lines that end a run

    def look_words_that_are_refused(self):
        for word in REFUSED_WORDS:
            status, printed, told = self.run([word], DECODED)
            self.look(f"the word {word!r}", (status, printed, told != b""), (1, b"", True))

    def look_lines_that_cannot_be_read(self):
        for line in NO_HEX:
            self.look(f"decode of {line!r}", self.run(["decode"], b"fa\n" + line + b"\nfa\n"), (3, b"line 2 not hex\n", b""))
        self.look("decode of a CR at the end", self.run(["decode"], b"fabf\r"), (3, b"line 1 not hex\n", b""))
        for line in NO_SIZES:
            self.look(f"sim of {line!r}", self.run(["sim"], f"{line}\nput 0 1\n".encode()), (3, b"1 unreadable\n", b""))
        for line in NO_ACTS:
            lines = f"system 1 1 1\nput 0 7\n{line}\ntake 0\n".encode()
            self.look(f"sim of {line!r}", self.run(["sim"], lines), (3, b"3 unreadable\n", b""))

    def look_nodes_that_are_refused(self):
        for words in NO_RUNS:
            status, printed, told = self.run(["run", *words.split()], b"wait\n")
            self.look(f"run {words}", (status, printed, told != b""), (1, b"", True))

    def look_lines_of_nodes_that_cannot_be_read(self):
        for line in NO_LINES:
            given = f"kick 0 64\n{line}\nmine 0\n".encode()
            self.look(f"run of {line!r}", self.run(RUN, given), (3, b"1 no slot\n2 unreadable\n", b""))
        self.look("run of what isn't UTF-8", self.run(RUN, b"mine 0\xff\n"), (3, b"1 unreadable\n", b""))

    # ---- reads

    def look_one_byte_a_read(self):
        """Each read gives one byte: a message of a socket that keeps them apart."""
        for words, given, printed, told in (
            (["decode"], DECODED, PRINTED, b""),
            (["serve"], VERACK + PING + PING, PONG + PONG, b"closed Bye\n"),
            (["sim"], SIMULATED, REPORTED, b""),
            (RUN, b"link 0 1\nwait\n", STOOD, b""),
        ):
            ours, theirs = socket.socketpair(socket.AF_UNIX, socket.SOCK_SEQPACKET)
            with ours, theirs, subprocess.Popen([self.program, *words], stdin=theirs, stdout=subprocess.PIPE, stderr=subprocess.PIPE) as node:
                theirs.close()
                for place in range(len(given)):
                    ours.send(given[place : place + 1])
                ours.close()
                got = node.communicate(timeout=SECONDS)
            self.look(f"{words[0]}, a byte a read", (node.returncode, *got), (0, printed, told))

    def look_reads_that_fail(self):
        """Behind these bytes a read fails: what its peer didn't read when it closed breaks a socket's connection."""
        for name, words, given, wanted in (
            ("decode, behind a line and a half", ["decode"], DECODED[:60], (3, b"verack\n", b"read failed\n")),
            ("sim, behind a line and a half", ["sim"], SIMULATED[:15], (3, b"", b"read failed\n")),
            ("run, behind a line and a half", RUN, b"kick 0 64\nmin", (3, b"1 no slot\n", b"read failed\n")),
            ("serve, at once", ["serve"], b"", (3, b"", b"closed Bye\nread failed\n")),
            ("serve, behind a ping", ["serve"], PING, (3, PONG, b"closed Bye\nread failed\n")),
            ("serve, behind a ping and a magic", ["serve"], PING + PING[:4], (3, PONG, b"closed Bye\nread failed\n")),
            *((f"serve, behind {size} bytes of a ping", ["serve"], PING[:size], (3, b"", b"closed Bye\nread failed\n")) for size in range(1, 32)),
        ):
            ours, theirs = socket.socketpair()
            with ours, theirs:
                ours.sendall(given)
                theirs.sendall(b"unread")
                ours.close()
                self.look(f"a read fails in {name}", self.run(words, None, stdin=theirs), wanted)

    # ---- writes

    def limited(self, words, given, size):
        """A run whose output is a file that takes so many bytes, and what the file holds then."""

        def limit():
            signal.signal(signal.SIGXFSZ, signal.SIG_IGN)
            resource.setrlimit(resource.RLIMIT_FSIZE, (size, size))

        with tempfile.TemporaryFile() as file:
            status, _, told = self.run(words, given, stdout=file, restore_signals=False, preexec_fn=limit)
            file.seek(0)
            return status, file.read(), told

    def look_writes_that_fail(self):
        """A file that takes a few bytes, a device that is full, and a pipe that nobody reads."""
        for size in (0, 9, 37):
            wanted = (3, PRINTED[:size], b"write failed\n")
            self.look(f"decode into {size} bytes", self.limited(["decode"], DECODED, size), wanted)
        for size in range(len(PONG)):
            wanted = (3, PONG[:size], b"closed WriteFault\nwrite failed\n")
            self.look(f"serve into {size} bytes", self.limited(["serve"], PING + PING, size), wanted)
        for words, given, told in (
            (["decode"], DECODED, b"write failed\n"),
            (["sim"], SIMULATED, b"write failed\n"),
            (["serve"], PING, b"closed WriteFault\nwrite failed\n"),
        ):
            with open("/dev/full", "wb") as full:
                self.look(f"{words[0]} to a full device", self.run(words, given, stdout=full), (3, b"", told))
            with unread_pipe() as pipe:
                self.look(f"{words[0]} to a closed pipe", self.run(words, given, stdout=pipe), (3, b"", told))

    def look_one_byte_a_write(self):
        """Each write takes one byte, and each second one is interrupted: the whole output goes out."""
        with tempfile.TemporaryDirectory() as folder:
            environment = dict(os.environ, LD_PRELOAD=preloaded(folder, "writes"))
            for words, given, printed, told in (
                (["decode"], DECODED, PRINTED, b""),
                (["serve"], PING + PING, PONG + PONG, b"closed Bye\n"),
                (["sim"], SIMULATED, REPORTED, b""),
                (RUN, b"link 0 1\nwait\n", STOOD, b""),
            ):
                self.look(f"{words[0]}, a byte a write", self.run(words, given, env=environment), (0, printed, told))

    # ---- long inputs

    def look_a_hundred_thousand_acts(self):
        """The lists grow to 50,000 entries: an act that copied one would take minutes together."""
        count, began = 50_000, time.monotonic()
        lines = b"system 1 1 1\nclaim 0\n" + b"put 0 1\ntake 0\n" * count
        listed = ",".join("1" * count)
        report = f"peer 0 queued {listed} taken {listed}\nring -\nhandler 0 desk 0\n"
        self.look("100,000 acts", self.run(["sim"], lines), (0, report.encode(), b""))
        took = time.monotonic() - began
        self.look("100,000 acts within 10 seconds", took < 10, True)

    def look_pings_past_checkpoints(self):
        for count in (32_767, 32_768, 100_000):
            self.look(f"{count} pings", self.run(["serve"], PING * count), (0, PONG * count, b"closed Bye\n"))


def unread_pipe():
    """The end to write to of a pipe that nobody can read."""
    reading, writing = os.pipe()
    os.close(reading)
    return os.fdopen(writing, "wb")


if __name__ == "__main__":
    sys.exit(Edges.main(__doc__))
