#!/usr/bin/env python3
"""Prints the messages of a stream that a node of regtest sent or got: messages.py [FILE], without FILE examples/relay.bin"""

import sys
from pathlib import Path

TOP = Path(__file__).resolve().parents[2]
sys.path.insert(0, str(TOP / "bindings" / "python"))

import cbrelay


def told(message):
    """A message in a few words."""
    fields = message.read()
    if message.name == "block":
        return f"{cbrelay.block_hash(message.payload[:80])[::-1].hex()}, {len(fields[1])} transactions"
    if message.name == "tx":
        return f"{cbrelay.txid(message.payload)[::-1].hex()}, {len(fields.inputs)} inputs, {sum(it.value for it in fields.outputs)} satoshis"
    if message.name == "cmpctblock":
        return f"{cbrelay.block_hash(message.payload[:80])[::-1].hex()}, {len(fields.ids)} short ids, {len(fields.prefilled)} prefilled"
    return f"{fields.version}, height {fields.height}" if message.name == "version" else f"{len(message.payload)} bytes"


stream, place = Path(sys.argv[1] if len(sys.argv) > 1 else TOP / "examples" / "relay.bin").read_bytes(), 0
while message := cbrelay.envelope_at(stream, place):
    print(message.name, message.fault or told(message))
    place += message.size
print(f"{len(stream) - place} bytes left")
