"""Txids, Merkle roots and fields by the C library and by python3-bitcoinlib: beside_bitcoinlib.py BLOCKS, a list of blocks in hex as JSON."""

import json
import sys
from pathlib import Path

sys.path.insert(0, str(Path(__file__).resolve().parents[2] / "bindings" / "python"))

import cbrelay
from bitcoin.core import CBlock


def same(what, one, other):
    if one != other:
        sys.exit(f"{what}: {one!r} by the library, {other!r} by python3-bitcoinlib")


def look_at(text):
    """Looks at a block. Returns how many transactions it has."""
    block, txs = CBlock.deserialize(text), cbrelay.block_transactions_at(text)
    cbrelay.block_check(text)
    same("the number of transactions", len(txs), len(block.vtx))
    for own, tx in zip(txs, block.vtx):
        same("a transaction", own, tx.serialize())
        same("a txid", cbrelay.txid(own), tx.GetTxid())
        read = cbrelay.tx_read(own)
        same("what it spends", [(it.txid, it.index, it.script, it.sequence) for it in read.inputs],
             [(it.prevout.hash, it.prevout.n, bytes(it.scriptSig), it.nSequence) for it in tx.vin])
        same("what it makes", [(it.value, it.script) for it in read.outputs], [(it.nValue, bytes(it.scriptPubKey)) for it in tx.vout])
        same("its other fields", (read.version, read.lock_time), (tx.nVersion, tx.nLockTime))
    header = cbrelay.header_read(text[:80])
    same("the header", (header.version, header.prev, header.root, header.time, header.bits, header.nonce),
         (block.nVersion, block.hashPrevBlock, block.hashMerkleRoot, block.nTime, block.nBits, block.nNonce))
    same("the block's hash", cbrelay.block_hash(text[:80]), block.GetHash())
    same("the root", cbrelay.merkle_root(map(cbrelay.txid, txs)), (block.calc_merkle_root(), False))
    return len(txs)


blocks = [bytes.fromhex(it) for it in json.loads(Path(sys.argv[1]).read_text(encoding="ascii"))]
print(f"{len(blocks)} blocks, {sum(map(look_at, blocks))} transactions")
