"""Messages in Python: how envelopes and payloads are read and written, by docs/PROTOCOL.md. It was written apart from the program.

A message is its name and its fields: numbers, bytes, lists of entries (type, hash), of headers' 80 bytes, or of hashes. All other models
and the tools read messages by it.
"""

import struct
from types import SimpleNamespace

from bench.models.plain_block import Block, Header, Tx
from bench.models.plain_compact import differences, key_of, short_id
from bench.tools.basics import MAGIC, compact_size, envelope, hash_twice

FRONT, MOST_PAYLOAD = 24, 4_000_000
MOST_ENTRIES, MOST_HEADERS, MOST_LOCATOR, MOST_AGENT, MOST_TXS = 50_000, 2_000, 101, 256, 16_666
TX, BLOCK, COMPACT = 1, 2, 4
NOBODY = bytes(26)
LISTS = ("inv", "getdata", "notfound")


class Fault(ValueError):
    """What can't be read: the number of its first fault from the left."""

    def __init__(self, number):
        super().__init__(number)
        self.number = number


# ---- envelopes


def envelope_at(stream, place=0):
    """A message's front and its payload, and the place behind it; None where not all of it is there. A Fault tells of the magic and the
    length."""
    front = stream[place : place + FRONT]
    if len(front) < FRONT:
        return None
    if front[:4] != MAGIC:
        raise Fault(12)
    size = struct.unpack("<I", front[16:20])[0]
    if size > MOST_PAYLOAD:
        raise Fault(13)
    end = place + FRONT + size
    return (front, stream[place + FRONT : end], end) if end <= len(stream) else None


def is_command(name):
    return 1 <= len(name) <= 12 and all(0x20 <= byte <= 0x7E for byte in name)


def command_of(front, payload):
    """A message's command; None where the command or the checksum is damaged."""
    name = front[4:16].rstrip(b"\0")
    return name.decode() if is_command(name) and hash_twice(payload)[:4] == front[20:] else None


class Stream:
    """The messages of a stream whose bytes come in pieces."""

    def __init__(self):
        self.held, self.place = b"", 0

    def add(self, piece):
        self.held, self.place = self.held[self.place :] + piece, 0

    def next(self):
        """The next message's front and payload; None where not all of it has come."""
        found = envelope_at(self.held, self.place)
        if found is None:
            return None
        front, payload, self.place = found
        return front, payload

    def left(self):
        """What has come and wasn't taken."""
        return self.held[self.place :]


# ---- parts of payloads, each with the place behind it


def after(data, place, size):
    """The place behind so many bytes."""
    if len(data) - place < size:
        raise Fault(2)
    return place + size


def number_at(data, place, form):
    end = after(data, place, struct.calcsize(form))
    return struct.unpack(form, data[place:end])[0], end


def compact_at(data, place):
    """A CompactSize."""
    end = after(data, place, 1)
    first = data[place]
    for mark, size, least in ((253, 2, 253), (254, 4, 0x10000), (255, 8, 0x100000000)):
        if first == mark:
            place, end = end, after(data, end, size)
            value = int.from_bytes(data[place:end], "little")
            if value < least:
                raise Fault(3)
            return value, end
    return first, end


def count_at(data, place, least, most=None):
    """The count of items of at least so many bytes, which isn't above its limit."""
    count, place = compact_at(data, place)
    if most is not None and count > most:
        raise Fault(4)
    if count * least > len(data) - place:
        raise Fault(2)
    return count, place


def script_at(data, place):
    size, place = compact_at(data, place)
    end = after(data, place, size)
    return data[place:end], end


class ReadTx(Tx):
    """A transaction as it was read, with its own text."""

    def __init__(self, text, inputs, values):
        super().__init__(inputs, values)
        self.text, self.name = text, hash_twice(text)


class ReadBlock(Block):
    """A block as it was read: its transactions may belong to another header."""

    def __init__(self, text, txs):
        self.text, self.txs, self.header = text, txs, Header(text[:80])


def tx_at(data, start):
    inputs, values = [], []
    count, place = count_at(data, after(data, start, 4), 41)
    for _ in range(count):
        end = after(data, place, 36)
        point = data[place : place + 32], int.from_bytes(data[place + 32 : end], "little")
        script, place = script_at(data, end)
        inputs.append((point, script))
        place = after(data, place, 4)
    count, place = count_at(data, place, 9)
    for _ in range(count):
        value, place = number_at(data, place, "<q")
        values.append(value)
        _, place = script_at(data, place)
    end = after(data, place, 4)
    return ReadTx(data[start:end], inputs, values), end


def txs_at(data, place):
    """Transactions behind their count."""
    count, place = count_at(data, place, 10)
    txs = []
    for _ in range(count):
        tx, place = tx_at(data, place)
        txs.append(tx)
    return txs, place


# ---- payloads


def read_version(data):
    place, told = 0, SimpleNamespace()
    told.version, place = number_at(data, place, "<i")
    told.services, place = number_at(data, place, "<Q")
    told.time, place = number_at(data, place, "<q")
    told.addresses, place = data[place : place + 52], after(data, place, 52)
    told.nonce, place = number_at(data, place, "<Q")
    size, place = compact_at(data, place)
    if size > MOST_AGENT:
        raise Fault(4)
    told.agent, place = data[place : place + size], after(data, place, size)
    told.height, place = number_at(data, place, "<i")
    told.relay = data[place : place + 1] != b"\0"
    return told, len(data)


def read_wish(data):
    """The flag and the version of a `sendcmpct`."""
    flag, place = number_at(data, 0, "<B")
    if flag > 1:
        raise Fault(15)
    version_of, place = number_at(data, place, "<Q")
    return (flag, version_of), place


def read_entries(data):
    count, place = count_at(data, 0, 36, MOST_ENTRIES)
    cuts = [data[place + 36 * k : place + 36 * k + 36] for k in range(count)]
    return [(struct.unpack("<I", cut[:4])[0], cut[4:]) for cut in cuts], place + 36 * count


def read_headers(data):
    count, place = count_at(data, 0, 81, MOST_HEADERS)
    found = []
    for _ in range(count):
        found.append(Header(data[place : place + 80]))
        txs, place = compact_at(data, after(data, place, 80))
        if txs:
            raise Fault(15)
    return found, place


def read_getheaders(data):
    count, place = count_at(data, after(data, 0, 4), 32, MOST_LOCATOR)
    names = [data[place + 32 * k : place + 32 * k + 32] for k in range(count)]
    place += 32 * count
    return (names, data[place : place + 32]), after(data, place, 32)


def read_block(data):
    txs, place = txs_at(data, after(data, 0, 80))
    return ReadBlock(data[:place], txs), place


def read_compact_block(data):
    """A header, a nonce, short ids, and prefilled transactions behind their differences (BIP 152)."""
    told = SimpleNamespace(header=Header(data[:80]))
    told.nonce, place = number_at(data, after(data, 0, 80), "<Q")
    count, place = count_at(data, place, 6)
    told.ids = [int.from_bytes(data[place + 6 * k : place + 6 * k + 6], "little") for k in range(count)]
    prefilled, place = compact_at(data, place + 6 * count)
    if count + prefilled == 0:
        raise Fault(9)
    if count + prefilled > MOST_TXS:
        raise Fault(4)
    after(data, place, 11 * prefilled)
    told.prefilled = []
    for _ in range(prefilled):
        difference, place = compact_at(data, place)
        tx, place = tx_at(data, place)
        told.prefilled.append((difference, tx))
    return told, place


def read_differences(data):
    """A block's hash, and differences of indexes (BIP 152)."""
    count, place = count_at(data, after(data, 0, 32), 1, MOST_TXS)
    steps = []
    for _ in range(count):
        step, place = compact_at(data, place)
        steps.append(step)
    return (data[:32], steps), place


def read_block_txs(data):
    txs, place = txs_at(data, after(data, 0, 32))
    return (data[:32], txs), place


# how the payload of each command is read: its value, and the place behind it
READERS = {
    "version": read_version, "verack": lambda _: (None, 0), "sendheaders": lambda _: (None, 0), "sendcmpct": read_wish,
    "ping": lambda data: number_at(data, 0, "<Q"), "pong": lambda data: number_at(data, 0, "<Q"),
    **dict.fromkeys(LISTS, read_entries), "headers": read_headers, "getheaders": read_getheaders, "tx": lambda data: tx_at(data, 0),
    "block": read_block, "cmpctblock": read_compact_block, "getblocktxn": read_differences, "blocktxn": read_block_txs,
}


def read(name, data):
    """The value of a known command's payload; a Fault tells the number of its first fault from the left."""
    value, place = READERS[name](data)
    if place < len(data):
        raise Fault(14)
    return value


def read_all(stream):
    """The commands and the payloads of a stream of good messages."""
    place, found = 0, []
    while place < len(stream):
        front, payload, place = envelope_at(stream, place)
        found.append((command_of(front, payload), payload))
    return found


# ---- writing


def spelled(value):
    """A number of up to 64 bits as a CompactSize."""
    return b"\xff" + struct.pack("<Q", value) if value > 0xFFFF_FFFF else compact_size(value)


def listed(texts):
    """Texts, as of transactions, behind their count."""
    return compact_size(len(texts)) + b"".join(texts)


def version(nonce=1, time=0, height=0, relay=b"\x01"):
    return envelope(b"version", struct.pack("<iQq", 70014, 1, time) + NOBODY * 2 + struct.pack("<Q", nonce)
                    + b"\x0b/cbrelay:1/" + struct.pack("<i", height) + relay)


def entries(command, found):
    return envelope(command, listed([struct.pack("<I", kind) + name for kind, name in found]))


def headers(texts):
    return envelope(b"headers", listed([text + b"\0" for text in texts]))


def getheaders(locator, stop=bytes(32)):
    return envelope(b"getheaders", struct.pack("<I", 70014) + listed(locator) + stop)


def sendcmpct(high, number_of=1):
    return envelope(b"sendcmpct", struct.pack("<BQ", high, number_of))


def ping(nonce):
    return envelope(b"ping", struct.pack("<Q", nonce))


def block(text):
    return envelope(b"block", text)


def compact_form(header, nonce, ids, prefilled):
    """A compact block's payload: the header's 80 bytes, short ids, and transactions behind their differences (BIP 152)."""
    shorts = listed([it.to_bytes(6, "little") for it in ids])
    return header + struct.pack("<Q", nonce) + shorts + listed([spelled(step) + text for step, text in prefilled])


def cmpctblock(header, nonce, ids, prefilled):
    return envelope(b"cmpctblock", compact_form(header, nonce, ids, prefilled))


def short_ids(block, nonce, places=(0,)):
    """The short ids of a block's transactions, but for those at these places."""
    key = key_of(block.header.text, nonce)
    return [short_id(key, tx.name) for place, tx in enumerate(block.txs) if place not in places]


def compact(block, nonce, places=(0,)):
    """A block as a compact one: the transactions at these places whole, and short ids of all others."""
    whole = [(step, block.txs[place].text) for step, place in zip(differences(list(places)), places)]
    return cmpctblock(block.header.text, nonce, short_ids(block, nonce, places), whole)


def getblocktxn(name, steps):
    return envelope(b"getblocktxn", name + listed([spelled(step) for step in steps]))


def blocktxn(name, texts):
    return envelope(b"blocktxn", name + listed(texts))


GENESIS_BLOCK = read("block", bytes.fromhex(
    "0100000000000000000000000000000000000000000000000000000000000000000000003ba3edfd7a7b12b27ac72c3e67768f617fc81bc3888a51323a9fb8aa4b1e5e4a"
    "dae5494dffff7f200200000001"
    "01000000010000000000000000000000000000000000000000000000000000000000000000ffffffff4d04ffff001d0104455468652054696d65732030332f4a616e2f32"
    "303039204368616e63656c6c6f72206f6e206272696e6b206f66207365636f6e64206261696c6f757420666f722062616e6b73ffffffff0100f2052a0100000043410467"
    "8afdb0fe5548271967f1a67130b7105cd6a828e03909a67962e0ea1f61deb649f6bc3f4cef38c4f35504e51ec112de5c384df7ba0b8d578a4c702b6bf11d5fac00000000"))
