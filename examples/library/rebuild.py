#!/usr/bin/env python3
"""Sends a block as a compact block (BIP 152), and rebuilds it: from all of its transactions, and where one is missing."""

import sys
from pathlib import Path

HERE = Path(__file__).resolve().parent
sys.path.insert(0, str(HERE.parents[1] / "bindings" / "python"))

import cbrelay

block = (HERE / "block-170.bin").read_bytes()
coinbase, payment = cbrelay.block_transactions_at(block)

compact = cbrelay.compact_block(block, nonce=7)
print(f"{len(block)} bytes as {len(compact)}")
print("with the payment:", cbrelay.rebuild_block(compact, [payment]).block == block)

lacking = cbrelay.rebuild_block(compact, [])
request = cbrelay.getblocktxn_read(lacking.request)
print("without it, these are asked for, as differences:", *request.differences)
answer = cbrelay.block_transactions(block, lacking.request)
print("with the answer:", cbrelay.complete_block(compact, [], answer).block == block)
try:
    cbrelay.complete_block(compact, [], cbrelay.block_transactions(block, request.block + b"\x00"))
except cbrelay.Fault as fault:
    print("with an empty one:", fault)
