"""The calls of the C library in Python, by docs/PROTOCOL.md, BIP 152 and the other sources that cbrelay.h names.

It was written apart from the library. A call gives its answer, or raises a `Fault` with the number of its fault, and with the rule's number
where a transaction breaks one. Bytes are read by bench/models/plain_wire.py.
"""

import struct

from bench.models import plain_wire as wire
from bench.models.plain_compact import differences, indexes, is_mutated, judged, key_of, missing, short_id, slots
from bench.models.plain_wire import FRONT, MOST_PAYLOAD, READERS, Fault, compact_form, is_command, read, short_ids, spelled, tx_at, txs_at
from bench.tools.basics import envelope, has_work, hash_twice, merkle_root

REGTEST_BITS = 0x207F_FFFF
MOST_BLOCK, LEAF = 1_000_000, 64
DAMAGED, PARTIAL = 65538, 65537


class BadTx(Fault):
    """A transaction that breaks a rule by itself."""

    def __init__(self, rule):
        super().__init__(5 + 256 * rule)


def whole(data, place):
    """Nothing may be left over."""
    if place < len(data):
        raise Fault(14)


def sized_header(text):
    if len(text) != 80:
        raise Fault(2 if len(text) < 80 else 14)


def read_tx(text):
    tx, place = tx_at(text, 0)
    whole(text, place)
    return tx


# ---- hashes, headers, transactions, blocks


def txid(text):
    return read_tx(text).name


def block_hash(header):
    sized_header(header)
    return hash_twice(header)


def root_and_mark(hashes):
    if not hashes:
        raise Fault(9)
    return merkle_root(list(hashes)), is_mutated(list(hashes))


def header_check(header):
    sized_header(header)
    if struct.unpack("<I", header[72:76])[0] != REGTEST_BITS or not has_work(header):
        raise Fault(11)


def tx_check(text):
    if rule := read_tx(text).broken_rule():
        raise BadTx(rule)


def block_sound(text):
    """The block, whose transactions are the only ones that fit its header."""
    block = read("block", text)
    names = [tx.name for tx in block.txs]
    if not names:
        raise Fault(9)
    if any(len(tx.text) == LEAF for tx in block.txs):
        raise Fault(8)
    if is_mutated(list(names)):
        raise Fault(7)
    if merkle_root(list(names)) != text[36:68]:
        raise Fault(6)
    return block


def block_check(text):
    block = block_sound(text)
    if len(text) > MOST_BLOCK:
        raise Fault(13)
    if [tx.is_coinbase() for tx in block.txs] != [True] + [False] * (len(block.txs) - 1):
        raise Fault(10)
    if rule := next(filter(None, (tx.broken_rule() for tx in block.txs)), None):
        raise BadTx(rule)
    return block


# ---- compact blocks


def compact_block(text, nonce):
    block = block_check(text)
    return compact_form(text[:80], nonce, short_ids(block, nonce), [(0, block.txs[0].text)])


def listed(text):
    """The transactions that are all of these bytes, behind their count."""
    txs, place = txs_at(text, 0)
    whole(text, place)
    return [tx.text for tx in txs]


def placed(message, txs, names=None):
    """What stands at each place of a compact block, or None where two of its ids are equal; and its header."""
    told = read("cmpctblock", message)
    places = indexes([step for step, _ in told.prefilled], len(told.ids) + len(told.prefilled))
    if places is None:
        raise Fault(16)
    given = listed(txs)
    if names is not None and len(names) != len(given):
        raise Fault(17)
    if len(set(told.ids)) < len(told.ids):
        return None, told.header
    key = key_of(told.header.text, told.nonce)
    pairs = [(short_id(key, name), text) for name, text in zip(map(hash_twice, given) if names is None else names, given)]
    return slots(told.ids, list(zip(places, (tx.text for _, tx in told.prefilled))), pairs), told.header


def block_text(header, texts):
    """The block of these transactions, or nothing where it isn't sound."""
    if judged(header.text, texts) != "sound":
        return "useless", b""
    return "block", header.text + wire.listed(texts)


def rebuild_block(message, txs, names=None):
    """The kind of the answer, and its text."""
    found, header = placed(message, txs, names)
    if found is None:
        return "useless", b""
    if missing(found):
        return "request", header.name + wire.listed([spelled(step) for step in differences(missing(found))])
    return block_text(header, found)


def block_transactions_request(message, txs):
    kind, text = rebuild_block(message, txs)
    return text if kind == "request" else b""


def block_transactions(text, request):
    block = read("block", text)
    name, steps = read("getblocktxn", request)
    places = indexes(steps, len(block.txs))
    if places is None:
        raise Fault(16)
    return name + wire.listed([block.txs[it].text for it in places])


def complete_block(message, txs, answer):
    told = read("cmpctblock", message)
    if indexes([step for step, _ in told.prefilled], len(told.ids) + len(told.prefilled)) is None:
        raise Fault(16)
    listed(txs)
    _, more = read("blocktxn", answer)
    found, header = placed(message, txs)
    if found is None:
        return "useless", b""
    if len(more) != len(missing(found)):
        raise Fault(17)
    rest = iter(more)
    return block_text(header, [next(rest).text if it is None else it for it in found])


# ---- messages


def message_fault(name, payload):
    """The status of a message: 0, or what is wrong with it."""
    if not is_command(name):
        return DAMAGED
    if len(payload) > MOST_PAYLOAD:
        return 13
    if name.decode("ascii") not in READERS:
        return 0
    try:
        read(name.decode("ascii"), payload)
    except Fault as fault:
        return fault.number
    return 0


def envelope_at(stream):
    """The status, and where it is 0 the payload's length and what is wrong with the message."""
    try:
        found = wire.envelope_at(stream)
    except Fault as fault:
        return fault.number, None, None
    if found is None:
        return PARTIAL, None, None
    front, payload, end = found
    is_damaged = wire.command_of(front, payload) is None
    return 0, end - FRONT, DAMAGED if is_damaged else message_fault(front[4:16].rstrip(b"\0"), payload)


def message_write(name, payload):
    if status := message_fault(name, payload):
        raise Fault(status)
    return envelope(name, payload)
