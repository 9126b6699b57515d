#!/usr/bin/python3
"""Talks to a node that listens on a port of this machine, by a Bitcoin client library: bench/tools/library.py PORT

It needs Debian's package python3-bitcoinlib, which knows nothing of this project. The library shakes hands, sends a ping, tells of
a block that it mines, is asked for headers, gives the block, and asks for it back. docs/EXAMPLES.md shows how `cbrelay serve` is put behind a port.
The status is 0 where all was as it should be.
"""

import sys
from pathlib import Path

sys.path.insert(0, str(Path(__file__).resolve().parents[2]))

from bitcoin.core import b2lx

from bench.tools.library_peer import BLOCK, Unexpected, dialled, mined

SECONDS, VALUE = 20, 50


def talked(peer):
    """Talks to a node, and tells what comes."""
    version, behind = peer.shake_hands()
    print(f"version {version.nVersion} {version.strSubVer.decode()} height {version.nStartingHeight}, asks for headers behind {b2lx(behind[0])}")
    if peer.ping(77) != 77:
        raise Unexpected("a pong with another nonce")
    print("pong 77")
    block = mined(behind[0], 1, value=VALUE)
    peer.tell(BLOCK, block.GetHash())
    peer.expect(b"getheaders")
    peer.give_block(block)
    print(f"gave block {b2lx(block.GetHash())}")
    names = [header.GetHash() for header in peer.headers_behind(behind[0])]
    peer.ask(BLOCK, *names)
    if names != [block.GetHash()] or peer.expect(b"block").block != block:
        raise Unexpected("another block")
    print(f"got block {b2lx(names[0])}")


def main():
    words = sys.argv[1:]
    if len(words) != 1 or not words[0].isdecimal():
        print(__doc__.strip(), file=sys.stderr)
        return 2
    with dialled(int(words[0]), SECONDS) as peer:
        try:
            talked(peer)
        except Unexpected as told:
            print(f"library: FAILED: {told}")
            return 1
    return 0


if __name__ == "__main__":
    sys.exit(main())
