#!/usr/bin/env python3
"""Sends messages that are cut short and counts that lie: python3 bench/looks/cuts.py

It needs the program and python3, and takes some ten seconds. Each beginning of
each command's payload, in a message of its own with the right checksum, is Bad with F2 in `decode`, and ends `serve` with BadMessage
before anything is sent. A `version` is read without its last byte, which says whether it wants transactions. A count of 2^32 - 1 is F4
where the protocol limits it, and else F2. Each beginning of a `ping` is the beginning of a message, which `serve` waits for until its
input ends. What has to come out was written from the rules in docs/PROTOCOL.md.
"""

import subprocess
import sys
from concurrent.futures import ThreadPoolExecutor
from pathlib import Path

sys.path.insert(0, str(Path(__file__).resolve().parents[2]))

from bench.models import plain_wire as wire
from bench.tools import relay_rows as rows
from bench.tools.basics import GENESIS, envelope
from bench.tools.looks import Looks
from bench.tools.made_blocks import NOBODY

SECONDS = 60
COUNT = bytes.fromhex("feffffffff")
COIN, OTHER = (rows.spending(rows.FIRST.txs[0], index) for index in (0, 1))
BLOCK = rows.on_first(COIN, OTHER)
HEADER = BLOCK.header.text
ENTRIES = ((1, COIN.name), (2, GENESIS), (4, NOBODY))
# A message of each command as the node writes it, but for those without a payload.
MESSAGES = {
    "version": rows.version(7, 1, b"/cbrelay:1/"), "ping": rows.ping(7), "pong": rows.pong(7), "sendcmpct": rows.sendcmpct(1),
    "headers": rows.headers(rows.FIRST, BLOCK), "getheaders": rows.getheaders(NOBODY, GENESIS), "tx": rows.tx(COIN), "block": rows.block(BLOCK),
    "cmpctblock": rows.compact(BLOCK), "getblocktxn": rows.getblocktxn(BLOCK, 1, 300), "blocktxn": rows.blocktxn(BLOCK, COIN, OTHER),
}
PAYLOADS = {name: b"".join(message.parts) for name, message in MESSAGES.items()}
PAYLOADS |= {name: wire.entries(name.encode(), ENTRIES)[24:] for name in wire.LISTS}
# Payloads that end in a count of 2^32 - 1, and the fault that it is.
LYING = [
    *((name, COUNT, "F4 TooMany") for name in (*wire.LISTS, "headers")),
    ("getheaders", bytes(4) + COUNT, "F4 TooMany"),
    ("getblocktxn", NOBODY + COUNT, "F4 TooMany"),
    ("version", PAYLOADS["version"][:80] + COUNT, "F4 TooMany"),
    ("blocktxn", NOBODY + COUNT, "F2 Truncated"),
    ("block", HEADER + COUNT, "F2 Truncated"),
    ("tx", bytes(4) + COUNT, "F2 Truncated"),
    ("tx", COIN.text[:46] + COUNT, "F2 Truncated"),
    ("cmpctblock", HEADER + bytes(8) + COUNT, "F2 Truncated"),
    ("cmpctblock", HEADER + bytes(8) + b"\0" + COUNT, "F4 TooMany"),
]


def beginnings():
    """Each command with each proper beginning of its payload that can't be read."""
    for name, payload in PAYLOADS.items():
        for size in range(len(payload) - (name == "version")):
            yield name, payload[:size], "F2 Truncated"


CASES = [*beginnings(), *LYING]


class Cuts(Looks):
    """Runs of the program on what is cut short, and on counts that lie."""

    def run(self, word, given):
        """The status, standard output and standard error of a run."""
        ran = subprocess.run([self.program, word], input=given, capture_output=True, timeout=SECONDS, check=False)
        return ran.returncode, ran.stdout, ran.stderr

    def look_decoded(self):
        """All in one stream, each in a message of its own: the next message is found behind each."""
        lines = b"".join(envelope(name.encode(), payload).hex().encode() + b"\n" for name, payload, _ in CASES)
        status, printed, _ = self.run("decode", lines)
        told = printed.decode("ascii", "replace").split("\n")
        self.look("decode, status and end", (status, told[-2:]), (0, ["rest 0", ""]))
        self.look("decode, lines", len(told), len(CASES) + 2)
        for (name, payload, fault), line in zip(CASES, told):
            self.look(f"decode of {name}, {len(payload)} bytes", line, f"bad {name} {fault}")

    def look_served(self):
        """Each ends a session of its own."""
        with ThreadPoolExecutor(4) as pool:
            ran = pool.map(lambda case: self.run("serve", envelope(case[0].encode(), case[1]) + rows.ping(7).bytes()), CASES)
            for (name, payload, _), got in zip(CASES, ran):
                self.look(f"serve of {name}, {len(payload)} bytes", got, (3, b"", b"closed BadMessage\n"))

    def look_whole(self):
        """What is cut above can be read whole, and a `version` also without its last byte."""
        for name, payload in PAYLOADS.items():
            status, printed, _ = self.run("decode", envelope(name.encode(), payload).hex().encode())
            self.look(f"decode of a whole {name}", (status, printed.startswith(name.encode() + b" ")), (0, True))
        both = [self.run("decode", envelope(b"version", payload).hex().encode()) for payload in (PAYLOADS["version"], PAYLOADS["version"][:-1])]
        self.look("decode of a version without its last byte", both[1], both[0])

    def look_pings_cut(self):
        """Nothing comes of the beginning of a message."""
        ping = rows.ping(0).bytes()
        for size in range(len(ping)):
            self.look(f"serve of {size} bytes of a ping", self.run("serve", ping[:size]), (0, b"", b"closed Bye\n"))
        self.look("serve of a whole ping", self.run("serve", ping), (0, rows.pong(0).bytes(), b"closed Bye\n"))


if __name__ == "__main__":
    sys.exit(Cuts.main(__doc__))
