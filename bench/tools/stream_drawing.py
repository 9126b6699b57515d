"""Draws payloads of all commands, and streams of messages: some are well-formed, in others a payload, an envelope or the bytes between are
hurt."""

import struct

from bench.models.plain_stream import CARRIERS
from bench.models.plain_wire import LISTS, MOST_TXS, READERS
from bench.tools.basics import compact_size, envelope


def spelled(rng, number):
    """A CompactSize, now and then longer than it needs."""
    lengths = [(0, 253), (2, 0x10000), (4, 0x100000000), (8, 1 << 64)]
    fitting = [size for size, limit in lengths if number < limit]
    size = rng.choice(fitting) if rng.random() < 0.02 else fitting[0]
    return bytes([number]) if size == 0 else bytes([{2: 253, 4: 254, 8: 255}[size]]) + number.to_bytes(size, "little")


def counted(rng, texts, told=None):
    """Texts behind their count, or behind another one that is told."""
    return spelled(rng, len(texts) if told is None else told) + b"".join(texts)


def near_the_limit(rng, count, others=0):
    """A count, or now and then one that is at its limit together with others, or above."""
    return rng.choice([MOST_TXS - others, MOST_TXS - others + 1]) if rng.random() < 0.1 else count


def script(rng):
    return counted(rng, [bytes([it]) for it in rng.randbytes(rng.choice([0, 0, 1, 25, 107, 252, 253, 300]))])


def random_tx(rng):
    spent = [rng.randbytes(36) + script(rng) + rng.randbytes(4) for _ in range(rng.choice([0, 1, 1, 2, 3]))]
    made = [rng.randbytes(8) + script(rng) for _ in range(rng.choice([0, 1, 1, 2, 3]))]
    return rng.randbytes(4) + counted(rng, spent) + counted(rng, made) + rng.randbytes(4)


def random_txs(rng):
    return counted(rng, [random_tx(rng) for _ in range(rng.choice([0, 1, 2, 5]))])


def random_difference(rng):
    return spelled(rng, rng.choice([0, 0, 1, 252, 253, 16_665, rng.randrange(1 << 64)]))


def random_version(rng):
    agent = rng.randbytes(rng.choice([0, 11, 256, 257]))
    text = struct.pack("<iQq", rng.randrange(-5, 80_000), rng.getrandbits(64), rng.getrandbits(62)) + rng.randbytes(60) + compact_size(len(agent)) + agent
    return text + struct.pack("<i", rng.randrange(-3, 800_000)) + rng.choice([b"", b"\0", b"\1", b"\2 more"])


def random_entries(rng):
    return counted(rng, [struct.pack("<I", rng.choice([1, 2, 4, 0x40000001])) + rng.randbytes(32) for _ in range(rng.randrange(5))])


def random_headers(rng):
    return counted(rng, [rng.randbytes(80) + rng.choice([b"\0", b"\0", b"\0", b"\1", b"\xfd\0\0"]) for _ in range(rng.randrange(4))])


def random_locator(rng):
    return rng.randbytes(4) + counted(rng, [rng.randbytes(32) for _ in range(rng.randrange(4))]) + rng.randbytes(32)


def random_compact_block(rng):
    """Short ids and prefilled transactions, and now and then a count of these that is near the limit of both together."""
    ids = [rng.randbytes(6) for _ in range(rng.choice([0, 0, 1, 2, 7]))]
    whole = [random_difference(rng) + random_tx(rng) for _ in range(rng.choice([0, 1, 1, 3]))]
    return rng.randbytes(88) + counted(rng, ids) + counted(rng, whole, near_the_limit(rng, len(whole), len(ids)))


def random_differences(rng):
    steps = [random_difference(rng) for _ in range(rng.choice([0, 1, 3, 300]))]
    return rng.randbytes(32) + counted(rng, steps, near_the_limit(rng, len(steps)))


# a payload of each command
DRAWN = {
    "version": random_version, "verack": lambda rng: b"", "sendheaders": lambda rng: b"",
    "ping": lambda rng: rng.randbytes(8), "pong": lambda rng: rng.randbytes(8), "sendcmpct": lambda rng: bytes([rng.randrange(3)]) + rng.randbytes(8),
    **dict.fromkeys(LISTS, random_entries), "headers": random_headers, "getheaders": random_locator,
    "tx": random_tx, "block": lambda rng: rng.randbytes(80) + random_txs(rng),
    "cmpctblock": random_compact_block, "getblocktxn": random_differences, "blocktxn": lambda rng: rng.randbytes(32) + random_txs(rng),
}
assert set(DRAWN) == set(READERS)


def changed(rng, text):
    """Bytes with one change, cut short, or with more behind them; or as they are."""
    change = rng.randrange(6)
    if change == 0 and text:
        return text[: rng.randrange(len(text))]
    if change == 1:
        return text + rng.randbytes(rng.randrange(1, 4))
    if change in (2, 3) and text:
        place = rng.randrange(len(text))
        return text[:place] + bytes([rng.choice([0, 1, 252, 253, 254, 255, text[place] ^ 1])]) + text[place + 1 :]
    return text


def random_message(rng):
    """A message; some payloads are hurt before the checksum is taken."""
    if rng.random() < 0.4:
        command = rng.choice(CARRIERS)
        return envelope(command.encode(), changed(rng, DRAWN[command](rng)))
    command = rng.choice([b"verack", b"ping", b"pong", b"ping", b"hello", b"a b", b"pingpongping", rng.randbytes(rng.randrange(13))])
    return envelope(command, rng.randbytes(rng.choice([0, 8, 8, 8, 7, 9, rng.randrange(200)])))


def random_stream(rng):
    if rng.random() < 0.1:
        return rng.randbytes(rng.randrange(100))
    stream = bytearray(b"".join(random_message(rng) for _ in range(rng.randrange(1, 6))))
    for _ in range(rng.choice([0, 0, 1, 1, 2, 5])):
        place = rng.randrange(len(stream) + 1)
        change = rng.randrange(4)
        if change == 0 and place < len(stream):
            stream[place] ^= 1 << rng.randrange(8)
        elif change == 1:
            del stream[place : place + rng.randrange(1, 10)]
        elif change == 2:
            stream[place:place] = rng.randbytes(rng.randrange(1, 5))
        else:
            other = rng.randrange(len(stream) + 1)
            stream[place:place] = stream[min(place, other) : max(place, other)]
        if not stream:
            break
    return bytes(stream)
