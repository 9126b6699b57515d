#!/usr/bin/env python3
"""A listener between two nodes: it passes on what each says, as fast as its link goes, and counts what goes by.

As a script it passes on all but `sendcmpct`: bench/tools/between.py PORT ADDR:PORT. It listens at that port of this machine and dials that
address for each connection. So each node takes the other for one that knows no compact blocks, and blocks go whole. It prints `listening`
once it does, and ends when its input does.
"""

import contextlib
import socket
import sys
import threading
import time
from collections import Counter
from pathlib import Path

sys.path.insert(0, str(Path(__file__).resolve().parents[2]))

from bench.models import plain_wire as wire
from bench.tools.basics import hash_twice

# How much is read at once, and how much where the link is slow.
PIECE, SMALL = 1 << 16, 1 << 12


class Between:
    """Whoever dials it is connected to a node. A rate is how many bytes a second go each way; messages of one command may be left out."""

    def __init__(self, address, rate=None, port=0, without=None):
        host, _, behind = address.rpartition(":")
        self.behind, self.rate, self.without, self.listener = (host, int(behind)), rate, without, socket.create_server(("127.0.0.1", port))
        self.address = f"127.0.0.1:{self.listener.getsockname()[1]}"
        # What the one behind it told: headers, and how often each block, whole and as a compact one. What it was asked for: how often each
        # block, and headers.
        self.headers, self.blocks, self.shorts, self.asked, self.questions = 0, Counter(), Counter(), Counter(), 0
        self.came, self.went = 0, 0
        threading.Thread(target=self.accept, daemon=True).start()

    def __enter__(self):
        return self

    def __exit__(self, *_):
        self.listener.close()

    def accept(self):
        with contextlib.suppress(OSError):
            while True:
                self.connect(self.listener.accept()[0])

    def connect(self, dialling):
        """Passes on between this connection and one to the node, until one of them ends."""
        try:
            answering = socket.create_connection(self.behind)
        except OSError:
            dialling.close()
            return
        for one in (dialling, answering):
            one.setsockopt(socket.IPPROTO_TCP, socket.TCP_NODELAY, 1)
        for ways in ((dialling, answering, self.note_asked), (answering, dialling, self.note_told)):
            threading.Thread(target=self.pass_on, args=ways, daemon=True).start()

    def pass_on(self, source, target, note):
        """Passes a stream on, as fast as its link goes, and lets it be counted."""
        free, stream = 0, wire.Stream()
        with contextlib.suppress(OSError):
            while piece := source.recv(SMALL if self.rate else PIECE):
                if self.rate:
                    free = max(free, time.monotonic()) + len(piece) / self.rate
                    time.sleep(max(0, free - time.monotonic()))
                if self.without is None:
                    target.sendall(piece)
                stream.add(piece)
                while message := stream.next():
                    name = message[0][4:16].rstrip(b"\0").decode()
                    if self.without not in (None, name):
                        target.sendall(b"".join(message))
                    note(name, message[1])
        for one in (source, target):
            with contextlib.suppress(OSError):
                one.shutdown(socket.SHUT_RDWR)

    def bytes(self):
        """How many went by, both ways."""
        return self.came + self.went

    def note_asked(self, command, payload):
        """Notes a message that goes to the node behind."""
        self.went += wire.FRONT + len(payload)
        self.questions += command == "getheaders"
        if command == "getdata":
            self.asked.update(name for kind, name in wire.read("getdata", payload) if kind != wire.TX)

    def note_told(self, command, payload):
        """Notes a message that comes from the node behind."""
        self.came += wire.FRONT + len(payload)
        if command == "headers":
            self.headers += wire.compact_at(payload, 0)[0]
        elif command in ("block", "cmpctblock"):
            (self.blocks if command == "block" else self.shorts)[hash_twice(payload[:80])] += 1


if __name__ == "__main__":
    with Between(sys.argv[2], port=int(sys.argv[1]), without="sendcmpct"):
        print("listening", flush=True)
        sys.stdin.read()
