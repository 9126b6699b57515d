"""Records, as the programs of bench/ read them: a kind, a length and a payload."""

import struct


def record(kind, payload=b""):
    """A record of this kind."""
    return kind + struct.pack("<I", len(payload)) + payload


def as_records(blocks, kind=b"b"):
    """A record of each block's text."""
    return b"".join(record(kind, block.text) for block in blocks)


def copies(original, count, block=b""):
    """So many copies: of the chain for 0, of this block for 1, of a message that holds it for 2."""
    return record(b"y", struct.pack("<BI", original, count) + block)
