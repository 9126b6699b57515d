"""Blocks, compact blocks (BIP 152) and messages of Bitcoin, by the proved functions of the C library cbrelay.

Each call takes bytes and gives bytes, numbers or the dataclasses below. Hashes are in wire order, the reverse of what people write. A
refusal raises `Fault`, whose text is as "F2 Truncated" and whose `name` is as "Truncated". What each call checks, and what a block's check
leaves out, stands in cbrelay.h at the function of the same name.

The library is the file that the environment's CBRELAY_LIBRARY names, else libcbrelay.so.0 beside this file, else the system's.
"""

import ctypes
import os
from ctypes import POINTER, byref, c_char_p, c_int32, c_int64, c_size_t, c_uint8, c_uint16, c_uint32, c_uint64
from ctypes.util import find_library
from dataclasses import dataclass
from pathlib import Path

OK, TOO_SMALL, PARTIAL, DAMAGED = 0, 65536, 65537, 65538
# the interface that this file was written for
VERSION = 1
# how many bytes stand before a message's payload
ENVELOPE = 24


class Fault(Exception):
    """Why a call refused what it was given: `status` as C gets it, `number` (or None), `name`, and of "BadTx" the `rule` (or None)."""

    def __init__(self, status):
        text = fault_text(status)
        words = text.split()
        super().__init__(text)
        self.status, self.name = status, words[1] if len(words) > 1 else text
        self.number = status & 255 if status < TOO_SMALL else None
        self.rule = status >> 8 if status < TOO_SMALL and status >> 8 else None


# ---- what calls give


@dataclass(frozen=True)
class Header:
    """A block header. `time` is in Unix seconds, `bits` the target in compact form."""

    version: int
    prev: bytes
    root: bytes
    time: int
    bits: int
    nonce: int


@dataclass(frozen=True)
class Input:
    """An input: the output that it spends, its script, and its sequence number."""

    txid: bytes
    index: int
    script: bytes
    sequence: int


@dataclass(frozen=True)
class Output:
    """An output: its value in satoshis, and its script."""

    value: int
    script: bytes


@dataclass(frozen=True)
class Tx:
    """A transaction without witnesses."""

    version: int
    inputs: tuple
    outputs: tuple
    lock_time: int


@dataclass(frozen=True)
class Rebuilt:
    """What rebuilding came to. One of the three is there: the block; the payload of the `getblocktxn` that asks for what is missing; or
    neither, where the compact block is useless."""

    block: bytes | None = None
    request: bytes | None = None

    @property
    def is_useless(self):
        return self.block is None and self.request is None


@dataclass(frozen=True)
class Envelope:
    """A message in a stream: its command (12 bytes, as they came), its payload, and why it can't be read, or None."""

    command: bytes
    payload: bytes
    fault: Fault | None

    @property
    def name(self):
        """The command without its padding, as text."""
        return self.command.rstrip(b"\0").decode("ascii", "replace")

    @property
    def size(self):
        """How many bytes of the stream it takes."""
        return ENVELOPE + len(self.payload)

    def read(self):
        """Its payload's fields, as `message_read` tells them. Raises its fault."""
        if self.fault:
            raise self.fault
        return message_read(self.name, self.payload)


@dataclass(frozen=True)
class Address:
    """A network address: an IPv6 address in 16 bytes, or an IPv4 address in the last 4."""

    services: int
    ip: bytes
    port: int


@dataclass(frozen=True)
class Version:
    """The fields of a version. `relay` (BIP 37) is True if it isn't in the payload."""

    version: int
    services: int
    time: int
    receiver: Address
    sender: Address
    nonce: int
    agent: bytes
    height: int
    relay: bool


@dataclass(frozen=True)
class Nonce:
    """A ping or a pong (BIP 31)."""

    nonce: int


@dataclass(frozen=True)
class SendCmpct:
    """A sendcmpct (BIP 152)."""

    high_bandwidth: bool
    version: int


@dataclass(frozen=True)
class Entry:
    """An entry of inv, getdata or notfound: kind 1 is a transaction, 2 a block, 4 a compact block."""

    kind: int
    hash: bytes


@dataclass(frozen=True)
class GetHeaders:
    """A getheaders: the block locator, and the hash to stop at."""

    version: int
    locator: tuple
    stop: bytes


@dataclass(frozen=True)
class Prefilled:
    """A prefilled transaction of a compact block: its index as a difference (BIP 152), and its bytes."""

    difference: int
    tx: bytes


@dataclass(frozen=True)
class CompactBlock:
    """A cmpctblock (BIP 152)."""

    header: Header
    nonce: int
    ids: tuple
    prefilled: tuple


@dataclass(frozen=True)
class GetBlockTxn:
    """A getblocktxn (BIP 152): the indexes as differences."""

    block: bytes
    differences: tuple


@dataclass(frozen=True)
class BlockTxn:
    """A blocktxn (BIP 152): each transaction's bytes."""

    block: bytes
    txs: tuple


# ---- the structs and functions of cbrelay.h


def _struct(name, **fields):
    return type(name, (ctypes.Structure,), {"_fields_": list(fields.items())})


_Hash = _struct("cbrelay_hash", bytes=c_uint8 * 32)
_Key = _struct("cbrelay_key", k0=c_uint64, k1=c_uint64)
_Header = _struct("cbrelay_header", version=c_int32, prev=_Hash, root=_Hash, time=c_uint32, bits=c_uint32, nonce=c_uint32)
_Span = _struct("cbrelay_span", offset=c_size_t, len=c_size_t)
_Input = _struct("cbrelay_input", txid=_Hash, index=c_uint32, sequence=c_uint32, script=_Span)
_Output = _struct("cbrelay_output", value=c_int64, script=_Span)
_Tx = _struct("cbrelay_tx", version=c_int32, lock_time=c_uint32, inputs=c_size_t, outputs=c_size_t)
_Address = _struct("cbrelay_address", services=c_uint64, ip=c_uint8 * 16, port=c_uint16)
_Version = _struct("cbrelay_version_fields", version=c_int32, relay=c_uint32, services=c_uint64, time=c_int64, receiver=_Address,
                   sender=_Address, nonce=c_uint64, agent=_Span, height=c_int32)
_Entry = _struct("cbrelay_entry", kind=c_uint32, hash=_Hash)
_Prefilled = _struct("cbrelay_prefilled", difference=c_uint64, tx=_Span)
_Compact = _struct("cbrelay_compact", header=_Header, nonce=c_uint64, ids=c_size_t, prefilled=c_size_t)

_BYTES, _SIZE = (c_char_p, c_size_t), POINTER(c_size_t)
# a caller's buffer, and where the length that is needed comes
_TEXT = (c_char_p, c_size_t, _SIZE)
_U32, _U64 = POINTER(c_uint32), POINTER(c_uint64)


def _list(kind):
    """A caller's list."""
    return POINTER(kind), c_size_t


# what each function takes; each returns a status, but those of RETURNED
FUNCTIONS = {
    "version": (),
    "fault_text": (c_uint32, *_TEXT),
    "sha256d": (*_BYTES, POINTER(_Hash)),
    "txid": (*_BYTES, POINTER(_Hash)),
    "block_hash": (*_BYTES, POINTER(_Hash)),
    "merkle_root": (*_list(_Hash), POINTER(_Hash), _U32),
    "sip24": (POINTER(_Key), *_BYTES),
    "short_id_key": (*_BYTES, c_uint64, POINTER(_Key)),
    "short_id": (POINTER(_Key), POINTER(_Hash)),
    "header_read": (*_BYTES, POINTER(_Header)),
    "header_write": (POINTER(_Header), *_TEXT),
    "header_check": _BYTES,
    "tx_read": (*_BYTES, *_list(_Input), *_list(_Output), POINTER(_Tx)),
    "tx_check": _BYTES,
    "block_sound": _BYTES,
    "block_check": _BYTES,
    "block_transactions_at": (*_BYTES, *_list(_Span), _SIZE),
    "compact_block": (*_BYTES, c_uint64, *_TEXT),
    "rebuild_block": (*_BYTES, *_BYTES, *_TEXT, _U32),
    "rebuild_block_known": (*_BYTES, *_BYTES, *_list(_Hash), *_TEXT, _U32),
    "block_transactions_request": (*_BYTES, *_BYTES, *_TEXT),
    "block_transactions": (*_BYTES, *_BYTES, *_TEXT),
    "complete_block": (*_BYTES, *_BYTES, *_BYTES, *_TEXT, _U32),
    "envelope_at": (*_BYTES, _SIZE, _U32),
    "message_check": (*_BYTES, *_BYTES),
    "message_write": (*_BYTES, *_BYTES, *_TEXT),
    "version_read": (*_BYTES, POINTER(_Version)),
    "nonce_read": (*_BYTES, _U64),
    "sendcmpct_read": (*_BYTES, _U32, _U64),
    "inventory_read": (*_BYTES, *_list(_Entry), _SIZE),
    "getheaders_read": (*_BYTES, *_list(_Hash), _SIZE, _U32, POINTER(_Hash)),
    "headers_read": (*_BYTES, *_list(_Header), _SIZE),
    "cmpctblock_read": (*_BYTES, *_list(c_uint64), *_list(_Prefilled), POINTER(_Compact)),
    "getblocktxn_read": (*_BYTES, *_list(c_uint64), _SIZE, POINTER(_Hash)),
    "blocktxn_read": (*_BYTES, *_list(_Span), _SIZE, POINTER(_Hash)),
}
RETURNED = {"sha256d": None, "sip24": c_uint64, "short_id": c_uint64}


def load(path=None):
    """Loads the library, from this file or as the head of this module says. All calls go to it from then on."""
    beside = Path(__file__).resolve().parent / "libcbrelay.so.0"
    path = path or os.environ.get("CBRELAY_LIBRARY") or (str(beside) if beside.exists() else find_library("cbrelay"))
    if not path:
        raise OSError("libcbrelay.so.0 isn't found: set CBRELAY_LIBRARY to its path")
    found = ctypes.CDLL(path)
    for name, taken in FUNCTIONS.items():
        function = getattr(found, f"cbrelay_{name}")
        function.argtypes, function.restype = taken, RETURNED.get(name, c_uint32)
    if found.cbrelay_version() != VERSION:
        raise OSError(f"{path} has interface {found.cbrelay_version()}, and not {VERSION}")
    global _library
    _library = found


_library = None


def _call(name, *words):
    """Calls a function of the library. Returns what it returns."""
    if _library is None:
        load()
    return getattr(_library, f"cbrelay_{name}")(*words)


# ---- how values cross


def _bytes(data):
    """Bytes as a pointer and a length."""
    data = data if isinstance(data, bytes) else bytes(data)
    return data, len(data)


def _checked(status):
    """Raises the fault of a status, if it is one."""
    if status:
        raise Fault(status)


def _hash(data):
    if len(data) != 32:
        raise ValueError(f"a hash has 32 bytes, and not {len(data)}")
    return _Hash.from_buffer_copy(data)


def _hashes(data):
    data = list(data)
    return (_Hash * len(data))(*map(_hash, data)), len(data)


def _text(name, *words, guess, more=()):
    """The text that a call writes: first into a buffer of this size, and again where it needs a larger one."""
    for _ in range(2):
        out, needed = ctypes.create_string_buffer(max(guess, 1)), c_size_t()
        status = _call(name, *words, out, guess, byref(needed), *more)
        if status != TOO_SMALL:
            break
        guess = needed.value
    _checked(status)
    return out.raw[: needed.value]


def _items(name, data, kind, least, *more):
    """The list that a reader writes, and each item takes at least so many bytes of what it reads."""
    room = len(data) // least + 1
    items, count = (kind * room)(), c_size_t()
    _checked(_call(name, *_bytes(data), items, room, byref(count), *more))
    return items[: count.value]


def _cut(data, span):
    return bytes(data[span.offset : span.offset + span.len])


def _header(fields):
    return Header(fields.version, bytes(fields.prev.bytes), bytes(fields.root.bytes), fields.time, fields.bits, fields.nonce)


def _address(fields):
    return Address(fields.services, bytes(fields.ip), fields.port)


def listed(txs):
    """Transactions as the calls of compact blocks take them: their count as a CompactSize, then each."""
    txs = list(txs)
    size = next(it for it in (1, 2, 4, 8) if len(txs) < (253 if it == 1 else 1 << 8 * it))
    mark = b"" if size == 1 else bytes([{2: 253, 4: 254, 8: 255}[size]])
    return mark + len(txs).to_bytes(size, "little") + b"".join(txs)


# ---- statuses and hashes


def version():
    """The interface that the library was built with, as (major, minor)."""
    return divmod(_call("version"), 65536)


def fault_text(status):
    """The name of a status, as "F5 BadTx 3"."""
    out, needed = ctypes.create_string_buffer(32), c_size_t()
    _call("fault_text", status, out, 32, byref(needed))
    return out.raw[: needed.value].decode("ascii")


def sha256d(data):
    """The double SHA-256."""
    found = _Hash()
    _call("sha256d", *_bytes(data), byref(found))
    return bytes(found.bytes)


def _hashed(name, data):
    found = _Hash()
    _checked(_call(name, *_bytes(data), byref(found)))
    return bytes(found.bytes)


def txid(tx):
    """The txid of a transaction."""
    return _hashed("txid", tx)


def block_hash(header):
    """The hash of a block, from the 80 bytes of its header."""
    return _hashed("block_hash", header)


def merkle_root(hashes):
    """The Merkle root of hashes, and whether the tree is mutated (CVE-2012-2459)."""
    root, mutated = _Hash(), c_uint32()
    _checked(_call("merkle_root", *_hashes(hashes), byref(root), byref(mutated)))
    return bytes(root.bytes), mutated.value == 1


def sip24(key, data):
    """SipHash-2-4 of bytes, under a key of two words."""
    return _call("sip24", byref(_Key(*key)), *_bytes(data))


def short_id_key(header, nonce):
    """The key of short ids (BIP 152) under a header of 80 bytes and a nonce, as two words."""
    key = _Key()
    _checked(_call("short_id_key", *_bytes(header), nonce, byref(key)))
    return key.k0, key.k1


def short_id(key, txid):
    """The short id of a txid under a key (BIP 152)."""
    return _call("short_id", byref(_Key(*key)), byref(_hash(txid)))


# ---- headers, transactions, blocks


def header_read(header):
    """Reads a header."""
    fields = _Header()
    _checked(_call("header_read", *_bytes(header), byref(fields)))
    return _header(fields)


def header_write(header):
    """The 80 bytes of a header."""
    fields = _Header(header.version, _hash(header.prev), _hash(header.root), header.time, header.bits, header.nonce)
    return _text("header_write", byref(fields), guess=80)


def header_check(header):
    """Raises a fault unless the header of these bytes has the work that regtest asks for."""
    _checked(_call("header_check", *_bytes(header)))


def tx_read(tx):
    """Reads a transaction."""
    # an input takes at least 41 bytes, an output 9
    rooms, fields = (len(tx) // 41 + 1, len(tx) // 9 + 1), _Tx()
    inputs, outputs = (_Input * rooms[0])(), (_Output * rooms[1])()
    _checked(_call("tx_read", *_bytes(tx), inputs, rooms[0], outputs, rooms[1], byref(fields)))
    spent = (Input(bytes(it.txid.bytes), it.index, _cut(tx, it.script), it.sequence) for it in inputs[: fields.inputs])
    made = (Output(it.value, _cut(tx, it.script)) for it in outputs[: fields.outputs])
    return Tx(fields.version, tuple(spent), tuple(made), fields.lock_time)


def tx_check(tx):
    """Raises a fault unless the transaction meets the rules that one meets by itself."""
    _checked(_call("tx_check", *_bytes(tx)))


def block_sound(block):
    """Raises a fault unless the block's transactions are the only ones that fit its header."""
    _checked(_call("block_sound", *_bytes(block)))


def block_check(block):
    """Raises a fault unless the block is sound and meets the rules that one meets by itself. This is not consensus."""
    _checked(_call("block_check", *_bytes(block)))


def block_transactions_at(block):
    """The bytes of each transaction of a block."""
    return [_cut(block, it) for it in _items("block_transactions_at", block, _Span, 10)]


# ---- compact blocks


def compact_block(block, nonce):
    """The payload of the `cmpctblock` of a block under a nonce."""
    return _text("compact_block", *_bytes(block), nonce, guess=len(block) + 10)


def _rebuilt(name, message, *words):
    kind = c_uint32()
    text = _text(name, *_bytes(message), *words, guess=1_000_000, more=(byref(kind),))
    return Rebuilt(text if kind.value == 0 else None, text if kind.value == 1 else None)


def rebuild_block(message, txs, txids=None):
    """Rebuilds the block of a `cmpctblock` payload from transactions. With their txids, none is hashed."""
    known = _bytes(listed(txs))
    if txids is None:
        return _rebuilt("rebuild_block", message, *known)
    return _rebuilt("rebuild_block_known", message, *known, *_hashes(txids))


def block_transactions_request(message, txs):
    """The payload of the `getblocktxn` that asks for what is missing; empty where nothing has to be asked for."""
    return _text("block_transactions_request", *_bytes(message), *_bytes(listed(txs)), guess=4096)


def block_transactions(block, request):
    """The payload of the `blocktxn` that answers a `getblocktxn` payload from its block."""
    return _text("block_transactions", *_bytes(block), *_bytes(request), guess=len(block))


def complete_block(message, txs, answer):
    """Rebuilds the block from the same transactions, and from the `blocktxn` payload that answers the request."""
    return _rebuilt("complete_block", message, *_bytes(listed(txs)), *_bytes(answer))


# ---- messages


def envelope_at(stream, offset=0):
    """The envelope of a stream at an offset, or None while bytes are missing. A fault that it raises ends the stream."""
    stream = stream if isinstance(stream, bytes) else bytes(stream)
    if not 0 <= offset <= len(stream):
        raise ValueError(f"the stream has {len(stream)} bytes")
    # the bytes from there on, without a copy; `stream` holds them
    here = c_char_p(ctypes.cast(c_char_p(stream), ctypes.c_void_p).value + offset)
    size, told = c_size_t(), c_uint32()
    status = _call("envelope_at", here, len(stream) - offset, byref(size), byref(told))
    if status == PARTIAL:
        return None
    _checked(status)
    payload = stream[offset + ENVELOPE : offset + ENVELOPE + size.value]
    return Envelope(stream[offset + 4 : offset + 16], payload, Fault(told.value) if told.value else None)


def message_check(command, payload):
    """Raises a fault unless the payload is one of this command."""
    _checked(_call("message_check", *_bytes(command.encode("ascii")), *_bytes(payload)))


def message_write(command, payload=b""):
    """The envelope of a command and a payload."""
    return _text("message_write", *_bytes(command.encode("ascii")), *_bytes(payload), guess=len(payload) + ENVELOPE)


def version_read(payload):
    """Reads a version."""
    it = _Version()
    _checked(_call("version_read", *_bytes(payload), byref(it)))
    return Version(it.version, it.services, it.time, _address(it.receiver), _address(it.sender), it.nonce, _cut(payload, it.agent), it.height,
                   it.relay == 1)


def nonce_read(payload):
    """Reads a ping or a pong."""
    nonce = c_uint64()
    _checked(_call("nonce_read", *_bytes(payload), byref(nonce)))
    return Nonce(nonce.value)


def sendcmpct_read(payload):
    """Reads a sendcmpct."""
    high, number = c_uint32(), c_uint64()
    _checked(_call("sendcmpct_read", *_bytes(payload), byref(high), byref(number)))
    return SendCmpct(high.value == 1, number.value)


def inventory_read(payload):
    """Reads the entries of an inv, a getdata or a notfound."""
    return tuple(Entry(it.kind, bytes(it.hash.bytes)) for it in _items("inventory_read", payload, _Entry, 36))


def getheaders_read(payload):
    """Reads a getheaders."""
    number, stop = c_uint32(), _Hash()
    locator = _items("getheaders_read", payload, _Hash, 32, byref(number), byref(stop))
    return GetHeaders(number.value, tuple(bytes(it.bytes) for it in locator), bytes(stop.bytes))


def headers_read(payload):
    """Reads the headers of a headers."""
    return tuple(map(_header, _items("headers_read", payload, _Header, 81)))


def cmpctblock_read(payload):
    """Reads a cmpctblock."""
    # an id takes 6 bytes, a prefilled transaction at least 11
    rooms, it = (len(payload) // 6 + 1, len(payload) // 11 + 1), _Compact()
    ids, prefilled = (c_uint64 * rooms[0])(), (_Prefilled * rooms[1])()
    _checked(_call("cmpctblock_read", *_bytes(payload), ids, rooms[0], prefilled, rooms[1], byref(it)))
    whole = (Prefilled(one.difference, _cut(payload, one.tx)) for one in prefilled[: it.prefilled])
    return CompactBlock(_header(it.header), it.nonce, tuple(ids[: it.ids]), tuple(whole))


def getblocktxn_read(payload):
    """Reads a getblocktxn."""
    block = _Hash()
    differences = _items("getblocktxn_read", payload, c_uint64, 1, byref(block))
    return GetBlockTxn(bytes(block.bytes), tuple(differences))


def blocktxn_read(payload):
    """Reads a blocktxn."""
    block = _Hash()
    spans = _items("blocktxn_read", payload, _Span, 10, byref(block))
    return BlockTxn(bytes(block.bytes), tuple(_cut(payload, it) for it in spans))


READERS = {
    "version": version_read, "ping": nonce_read, "pong": nonce_read, "sendcmpct": sendcmpct_read, "inv": inventory_read,
    "getdata": inventory_read, "notfound": inventory_read, "headers": headers_read, "getheaders": getheaders_read, "tx": tx_read,
    "cmpctblock": cmpctblock_read, "getblocktxn": getblocktxn_read, "blocktxn": blocktxn_read,
}


def message_read(command, payload):
    """The fields of a payload, by its command. Of a block these are its header and the bytes of each transaction; of verack and
    sendheaders, and of a command that isn't known, the payload itself, if it is one of the command."""
    if command in READERS:
        return READERS[command](payload)
    message_check(command, payload)
    return (header_read(payload[:80]), tuple(block_transactions_at(payload))) if command == "block" else bytes(payload)
