"""Peers of a process `cbrelay node` that are strangers: whether their connections last, and an address that dials and dials."""

import select
import threading
import time

from bench.tools.process_talk import connected

# What is told of a peer's agent: Bitcoin Core's SAFE_CHARS_DEFAULT (util/strencodings.cpp).
SAFE = "ABCDEFGHIJKLMNOPQRSTUVWXYZabcdefghijklmnopqrstuvwxyz0123456789 .,;-_/:?@()"
PATIENCE = 60


def ends_at(stream, end):
    """When the other side ended a connection, if it does up to this moment. What comes is passed over."""
    poll = select.poll()
    poll.register(stream, select.POLLIN)
    while True:
        if not poll.poll(max(0, end - time.monotonic()) * 1_000):
            return None
        try:
            if not stream.recv(1 << 16):
                return time.monotonic()
        except OSError:
            return time.monotonic()


def is_open(stream):
    """Whether a connection lasts. What came is passed over."""
    return ends_at(stream, 0) is None


def trickles(stream, text, pause, most):
    """Sends a byte each pause. After how many seconds the other side ended the connection comes back; None where it lasts longer than that."""
    began = time.monotonic()
    for byte in text:
        try:
            stream.sendall(bytes([byte]))
        except OSError:
            return time.monotonic() - began
        ended = ends_at(stream, min(time.monotonic() + pause, began + most))
        if ended or time.monotonic() >= began + most:
            return ended and ended - began
    return None


class Dialler:
    """An address that dials a node so many times a second, and holds its connections or closes each at once."""

    def __init__(self, port, host, rate, seconds, holds):
        self.port, self.host, self.rate, self.holds, self.streams = port, host, rate, holds, []
        self.thread = threading.Thread(target=self.dial, args=(rate * seconds,), daemon=True)
        self.thread.start()

    def dial(self, count):
        """Dials in time, as far as the machine goes."""
        began = time.monotonic()
        for number in range(count):
            time.sleep(max(0, began + number / self.rate - time.monotonic()))
            stream = connected(self.port, PATIENCE, self.host)
            self.streams.append(stream)
            if not self.holds:
                stream.close()

    def done(self):
        """Its connections, once all are made."""
        self.thread.join(PATIENCE)
        return self.streams
