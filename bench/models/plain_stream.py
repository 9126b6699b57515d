"""What `decode` prints of a stream of messages, and what `serve` answers before a handshake, by docs/PROTOCOL.md.

It was written apart from the program. Messages are read by bench/models/plain_wire.py.
"""

from bench.models.plain_wire import Fault, command_of, envelope_at, read
from bench.tools.basics import envelope, shown

NAMES = {1: "Memory", 2: "Truncated", 3: "NotShortest", 4: "TooMany", 9: "Empty", 12: "BadMagic", 13: "Oversize", 14: "Trailing"}
CARRIERS = ("tx", "block", "cmpctblock", "getblocktxn", "blocktxn")
# what is printed of a payload's value: hashes, and numbers of bytes, of transactions and of differences
PRINTED = {
    "verack": lambda _: (),
    "ping": lambda nonce: (nonce,),
    "pong": lambda nonce: (nonce,),
    "tx": lambda tx: (shown(tx.name), len(tx.text)),
    "block": lambda block: (shown(block.header.name), len(block.txs)),
    "cmpctblock": lambda short: (shown(short.header.name), "ids", len(short.ids), "prefilled", len(short.prefilled)),
    "getblocktxn": lambda asked: (shown(asked[0]), len(asked[1])),
    "blocktxn": lambda given: (shown(given[0]), len(given[1])),
}


def items_of(stream):
    """The items of a stream, what is left over, and the number of its fault."""
    items, place = [], 0
    try:
        while found := envelope_at(stream, place):
            front, payload, place = found
            items.append(item_of(command_of(front, payload), payload))
    except Fault as fault:
        return items, 0, fault.number
    return items, len(stream) - place, None


def item_of(name, payload):
    """The words that are printed of a message. A payload that can't be read is told by the number of its fault."""
    if name is None:
        return ("damaged",)
    if name not in PRINTED:
        return ("unknown", name, len(payload))
    try:
        return (name, *PRINTED[name](read(name, payload)))
    except Fault as fault:
        return ("bad", name, fault.number)


def line_of(item):
    if item[0] == "bad":
        return f"bad {item[1]} F{item[2]} {NAMES[item[2]]}\n"
    return " ".join(str(part) for part in item) + "\n"


def decoded(lines):
    """What `decode` prints for lines, and its status."""
    stream = b""
    for number, line in enumerate(lines, 1):
        try:
            if any(byte not in b"0123456789abcdefABCDEF" for byte in line):
                raise ValueError
            stream += bytes.fromhex(line.decode("ascii"))
        except ValueError:
            items, _, fault = items_of(stream)
            return printed(items, fault) + f"line {number} not hex\n", 3
    items, rest, fault = items_of(stream)
    return printed(items, fault) + f"rest {rest}\n", 0 if fault is None else 3


def printed(items, fault):
    text = "".join(line_of(item) for item in items)
    return text if fault is None else text + f"broken F{fault} {NAMES[fault]}\n"


def served(stream):
    """What `serve` writes, what it says on standard error, and its status."""
    items, _, fault = items_of(stream)
    written = b""
    for item in items:
        if item[0] == "bad":
            return written, "closed BadMessage\n", 3
        if item[0] == "ping":
            written += envelope(b"pong", item[1].to_bytes(8, "little"))
    if fault is not None:
        return written, "closed BadStream\n", 3
    return written, "closed Bye\n", 0
