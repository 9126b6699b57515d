"""Bitcoin's protocol for the looks: counts, hashes and how they are shown, the regression test network and its work, and messages."""

import hashlib
import struct

MAGIC = bytes.fromhex("fabfb5da")
GENESIS = bytes.fromhex("06226e46111a0b59caaf126043eb5bbf28c34f3a5e332a1fc7b2b73cf188910f")
TARGET = bytes(29) + bytes.fromhex("ffff7f")


def compact_size(number):
    """A number as Bitcoin's protocol writes a count."""
    if number < 0xFD:
        return struct.pack("<B", number)
    if number < 0x1_0000:
        return b"\xfd" + struct.pack("<H", number)
    return b"\xfe" + struct.pack("<I", number)


def hash_twice(data):
    """SHA-256 of SHA-256, which Bitcoin hashes with."""
    return hashlib.sha256(hashlib.sha256(data).digest()).digest()


def merkle_root(level):
    """The root of the tree over these hashes. The list may be given another end."""
    while len(level) > 1:
        if len(level) % 2 == 1:
            level.append(level[-1])
        level = [hash_twice(level[i] + level[i + 1]) for i in range(0, len(level), 2)]
    return level[0]


def shown(name):
    """A hash as it is shown."""
    return name[::-1].hex()


def line(word, names):
    """A word and hashes."""
    return " ".join([word] + [shown(name) for name in names])


def random_bytes(rng, size):
    """So many bytes, each drawn."""
    return bytes(rng.randrange(256) for _ in range(size))


def has_work(text):
    """Whether a header's hash isn't above the target."""
    return hash_twice(text)[::-1] <= TARGET[::-1]


def header_text(prev, root, works=True):
    """A header with the work that the network asks for, or without it."""
    for nonce in range(1_000):
        text = struct.pack("<i", 1) + prev + root + struct.pack("<III", 0, 0x207F_FFFF, nonce)
        if has_work(text) == works:
            return text
    raise ValueError("no nonce")


def envelope(command, payload):
    """A message as Bitcoin's protocol writes it."""
    return MAGIC + command.ljust(12, b"\0") + struct.pack("<I", len(payload)) + hash_twice(payload)[:4] + payload


def pings(count):
    """So many pings, each with another nonce."""
    return b"".join(envelope(b"ping", struct.pack("<Q", nonce)) for nonce in range(count))


def unknown(count):
    """So many messages of a command that isn't known, of 4,000,000 bytes each."""
    payload = hashlib.sha256(b"payload").digest() * 125_000
    return envelope(b"filler", payload) * count
