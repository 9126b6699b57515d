"""What looks give to the C library: payloads of each command, blocks with each fault, and the outcomes that published sources tell."""

import struct
from pathlib import Path

from bench.models.plain_block import MOST_MONEY, NULL_POINT, Block, Tx, sized
from bench.models.plain_wire import read_all
from bench.tools.basics import GENESIS, compact_size, header_text
from bench.tools.programs import ROOT

# the genesis block of regtest, and block 170 of the main network, the first with a payment, as public sources tell them
REGTEST_GENESIS = "0f9188f13cb7b2c71f2a335e3a4fc328bf5beb436012afca590b1a11466e2206"
COINBASE = "4a5e1e4baab89f3a32518a88c31bc87f618f76673e2cc77ab2127b7afdeda33b"
BLOCK_170 = "00000000d1145790a8694403d4063f323d499e655c83426834d4ce2f8dd4a2ee"
PAYMENT = "f4184fc596403b9d638783cf57adfe4c75c605f6356fbc91338530e9831e9e16"
# SipHash-2-4 under the key 00 01 .. 0f of the bytes 00 01 .., of none, of one, and so on: the vectors of its authors
SIPHASH = """
726fdb47dd0e0e31 74f839c593dc67fd 0d6c8009d9a94f5a 85676696d7fb7e2d cf2794e0277187b7 18765564cd99a68d cbc9466e58fee3ce ab0200f58b01d137
93f5f5799a932462 9e0082df0ba9e4b0 7a5dbbc594ddb9f3 f4b32f46226bada7 751e8fbc860ee5fb 14ea5627c0843d90 f723ca908e7af2ee a129ca6149be45e5
""".split()
OTHER_SCRIPT = b"x" * 9


def example(place):
    """A message's payload in an example: the first, or a later one."""
    return read_all(bytes.fromhex("".join(Path(ROOT, "examples/blocks.hex").read_text(encoding="ascii").split())))[place][1]


def genesis():
    return example(0)


def block_170():
    return example(2)


def coinbase(mark=0):
    return Tx([(NULL_POINT, struct.pack("<I", mark))], [50])


def spending(name, values=(1,), script=OTHER_SCRIPT):
    """A transaction that spends the first output of another."""
    return Tx([((name, 0), script)], list(values))


def block_of(rng, count):
    """A block of so many transactions that meets its rules."""
    return Block(GENESIS, [coinbase(count)] + [spending(rng.randbytes(32), [number]) for number in range(1, count)])


def bare(txs, root=bytes(32)):
    """A block's bytes with this root, whatever its transactions are."""
    return header_text(GENESIS, root) + compact_size(len(txs)) + b"".join(txs)


def blocks_with_faults(rng):
    """Blocks, each with the fault that docs/PROTOCOL.md names, as a number, with 256 times the rule of F5 on top."""
    first, others = coinbase(), [spending(rng.randbytes(32), [number]) for number in range(1, 4)]
    payment = block_170()[-275:]
    leaf = Tx([((b"\x11" * 32, 0), bytes([1, 2, 3, 4]))], [1], b"")
    assert len(leaf.text) == 64

    def made(*txs):
        return Block(GENESIS, [first, *txs]).text

    yield "a sound block", made(*others), 0
    yield "the payment of block 170 twice under a root of zeros", bare([payment, payment]), 7
    yield "a block without transactions", bare([]), 9
    yield "a root of zeros", bare([payment]), 6
    yield "two of 64 bytes, also equal", bare([leaf.text, leaf.text]), 8
    three = Block(GENESIS, [first, *others[:2]])
    yield "the last of three doubled under the same root", three.text[:80] + b"\4" + b"".join(it.text for it in [first, others[0], others[1], others[1]]), 7
    two = Block(GENESIS, [first, others[0]])
    yield "two nodes above the leaves are equal", Block(GENESIS, two.txs).text[:36] + Block(GENESIS, two.txs * 2).text[36:], 7
    yield "of 1,000,000 bytes", sized(GENESIS, 1_000_000).text, 0
    yield "of 1,000,001 bytes", sized(GENESIS, 1_000_001).text, 13
    yield "no coinbase", Block(GENESIS, [others[0]]).text, 10
    yield "a coinbase that isn't first", made(coinbase(7)), 10
    yield "bytes behind it", made(*others) + b"\0", 14
    yield "a count in a longer spelling", made()[:80] + b"\xfd\1\0" + first.text, 3
    yield "a count that the bytes don't hold", made()[:80] + b"\xfe\0\0\0\1" + first.text, 2
    for tx, rule in txs_with_faults(rng):
        # one that is too long makes the block too long, which is told first
        yield f"a transaction that breaks rule {rule}", made(tx), 13 if rule == 3 else 5 + 256 * rule
    yield "a coinbase whose script has one byte", Block(GENESIS, [Tx([(NULL_POINT, b"1")], [1])]).text, 5 + 256 * 7
    yield "a coinbase whose script has 101 bytes", Block(GENESIS, [Tx([(NULL_POINT, bytes(101))], [1])]).text, 5 + 256 * 7


def txs_with_faults(rng):
    """Transactions, each with the number of the first rule that it breaks; those of coinbases are left to blocks."""
    name = rng.randbytes(32)
    yield Tx([], [1]), 1
    yield Tx([((name, 0), OTHER_SCRIPT)], []), 2
    yield Tx([((name, 0), bytes(1_000_001))], [1]), 3
    yield spending(name, [-1]), 4
    yield spending(name, [MOST_MONEY + 1]), 4
    yield spending(name, [MOST_MONEY, 1]), 5
    yield Tx([((name, 0), OTHER_SCRIPT), ((name, 0), b"")], [1]), 6
    yield Tx([((name, 0), OTHER_SCRIPT), (NULL_POINT, b"")], [1]), 8


# ---- payloads


def counts_at_limits():
    """Payloads whose counts are at their limits, and above: a command, a payload, and its fault."""
    name = bytes(32)
    entry, header = struct.pack("<I", 1) + name, bytes(81)
    for command, most, item, before, behind in (
        ("inv", 50_000, entry, b"", b""),
        ("headers", 2_000, header, b"", b""),
        ("getheaders", 101, name, bytes(4), name),
        ("getblocktxn", 16_666, b"\0", name, b""),
    ):
        yield command, before + compact_size(most) + item * most + behind, 0
        yield command, before + compact_size(most + 1) + item * (most + 1) + behind, 4
        yield command, before + compact_size(most) + item * (most - 1), 2
    form = bytes(88)
    yield "cmpctblock", form + compact_size(16_666) + bytes(6 * 16_666) + b"\0", 0
    yield "cmpctblock", form + compact_size(16_667) + bytes(6 * 16_667) + b"\0", 4
    yield "cmpctblock", form + b"\0\0", 9
    for size, fault in ((256, 0), (257, 4)):
        yield "version", bytes(80) + compact_size(size) + bytes(size + 5), fault
