#!/usr/bin/env python3
"""Measures rebuilding by the C library: among few and many known transactions, beside reading a block in full, and under ids that a
sender would pick: python3 bench/figures/compact.py [COMPILER]

It needs the library (./build --library; COMPILER may be rattle, for that of the kit's own compiler), a C compiler as `cc`, and python3, and
takes a minute. Times are of the processor: the least of some calls of cbrelay_rebuild_block_known, which take turns where they are compared.
Ids are drawn at random. Beside them stand ids that whoever sends a block would pick: a search found them, such that in a table that hashes
with std's fixed seed they would all begin at one group, or have the same tag too. bench/figures/library.py measures short ids.
"""

import ctypes
import random
import subprocess
import sys
import tempfile
import time
from pathlib import Path

sys.path.insert(0, str(Path(__file__).resolve().parents[2]))

from bench.models.plain_compact import key_of, short_id
from bench.models.plain_wire import compact_form, listed
from bench.tools.basics import hash_twice
from bench.tools.c_library import SOURCES, cbrelay, load, prefix_of
from bench.tools.made_blocks import block_of, some_name, transaction, usual_block
from bench.tools.programs import usage

# How many ids a compact block has at the most, and how many transactions are known: few, and many.
IDS, FEW, MANY = 16_666, 10_000, 100_000
# How many transactions a usual block has, and how many turns calls take.
USUAL, TURNS = 4_000, 15
# A table's groups have nine ids each at the most, on average, and are as many as a power of two says.
GROUP = 9
HEADER, NONCE = bytes(80), 7
KEY = key_of(HEADER, NONCE)


def form(ids, header=HEADER, prefilled=()):
    """The payload of a compact block with these ids, and transactions that are prefilled at its beginning."""
    return compact_form(header, NONCE, ids, [(0, it) for it in prefilled])


def known(count):
    """So many transactions of 60 bytes, and their txids."""
    txs = [transaction(some_name(number), 0) for number in range(count)]
    return listed(txs), [hash_twice(it) for it in txs]


class Rebuilding:
    """A call that rebuilds, whose words are made once."""

    def __init__(self, message, txs, names):
        self.room = ctypes.create_string_buffer(4_000_000)
        self.size, self.kind = ctypes.c_size_t(), ctypes.c_uint32()
        hashes = (cbrelay._Hash * len(names)).from_buffer_copy(b"".join(names)) if names else (cbrelay._Hash * 0)()
        self.words = (message, len(message), txs, len(txs), hashes, len(names), self.room, len(self.room), ctypes.byref(self.size), ctypes.byref(self.kind))

    def __call__(self):
        if status := cbrelay._call("rebuild_block_known", *self.words):
            raise cbrelay.Fault(status)
        return self.kind.value


def least(*calls, turns=TURNS):
    """The least processor time of each of these calls, in seconds. They take turns."""
    found = [float("inf")] * len(calls)
    for _ in range(turns):
        for place, call in enumerate(calls):
            began = time.process_time()
            call()
            found[place] = min(found[place], time.process_time() - began)
    return found


def among(ids, groups):
    """Rebuilding a block of these ids among so many known transactions, each count of which is a group."""
    message = form(ids)
    return [Rebuilding(message, *group) for group in groups]


def among_known(groups):
    """A block of as many ids as fit, half of which are known, among no, few and many transactions."""
    names = [short_id(KEY, name) for name in groups[1][1][: IDS // 2]]
    ids = names + random.Random(1).sample(range(1 << 48), IDS - len(names))
    calls = among(ids, groups)
    none, low, high = least(*calls)
    print(f"{IDS:,} ids: {none * 1e3:.2f} ms with nothing known, {low * 1e3:.2f} ms among {FEW:,} transactions, {high * 1e3:.2f} ms among {MANY:,}: "
          f"{high / low:.2f} times as long", flush=True)


def rebuilt():
    """A usual block that is rebuilt, all of whose transactions are known, beside reading and judging its text."""
    text = usual_block(USUAL)
    txs = [text[83 + 250 * number : 333 + 250 * number] for number in range(USUAL)]
    assert block_of(txs) == text
    key = key_of(text[:80], NONCE)
    ids = [short_id(key, hash_twice(it)) for it in txs]
    others = txs[:0:-1]
    call = Rebuilding(form(ids[1:], text[:80], txs[:1]), listed(others), [hash_twice(it) for it in others])
    again, read = least(call, lambda: cbrelay.block_sound(text))
    assert call() == 0 and call.room.raw[: call.size.value] == text
    print(f"a block of {USUAL:,} transactions of 250 bytes: {again * 1e3:.2f} ms where it is rebuilt, {read * 1e3:.2f} ms where it is read in full "
          f"and judged: {again / read:.2f} times as long", flush=True)


def groups_of(count):
    groups = 1
    while GROUP * groups < count:
        groups *= 2
    return groups


def searched(folder, count, mask):
    """Ids whose hashes have no bit of the mask."""
    program = Path(folder, "search")
    subprocess.run(["cc", "-O2", "-o", program, SOURCES / "search.c"], check=True)
    return [int(line) for line in subprocess.run([program, str(mask), str(count)], capture_output=True, check=True).stdout.split()]


def twice_the_ids(groups, folder):
    """Half as many ids as fit and as many, at random and such that they would meet, with nothing known and among as many transactions."""
    mask = groups_of(IDS) - 1
    kinds = [("at random", random.Random(3).sample(range(1 << 48), IDS)), ("that would begin at one group", searched(folder, IDS, mask)),
             ("that would begin there with the same tag", searched(folder, IDS, mask | 0xFF00_0000))]
    for name, ids in kinds:
        for words, group in (("nothing known", groups[0]), (f"{MANY:,} transactions", groups[2])):
            some, double = least(*among(ids[: IDS // 2], [group]), *among(ids, [group]))
            print(f"ids {name}, {words}: {some * 1e3:.2f} ms for {IDS // 2:,}, {double * 1e3:.2f} ms for {IDS:,}: {double / some:.2f} times as long", flush=True)


def main():
    words = usage(__doc__, compiler="whose library, llvm or rattle").parse_args()
    load(prefix_of(words.compiler or "llvm"))
    groups = [known(0), known(FEW), known(MANY)]
    among_known(groups)
    rebuilt()
    with tempfile.TemporaryDirectory() as folder:
        twice_the_ids(groups, folder)


if __name__ == "__main__":
    main()
