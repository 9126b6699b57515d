#!/usr/bin/env python3
"""Rebuilds generated compact blocks by the C library, and compares what comes of them with a plain reader in Python:
python3 bench/looks/compact_cases.py [COUNT] [SEED] [COMPILER]

Without words worked cases and 2,000 compact blocks from seed 1, by the library that ./build --library made; COMPILER may be rattle, for
that of the kit's own compiler. The plain reader (bench/models/plain_library.py, plain_compact.py) was written apart from the program, from
BIP 152 and the paper on SipHash. The compact blocks have a few transactions; what is known of them comes in any order, doubled, tripled,
under txids of others; ids are repeated, places lie behind the end, and what is missing is handed in, or something else. bench/looks/c_library.py
does the same. The status is 0 where all came out alike and everything was met.
"""

import random
import struct
import sys
from collections import Counter
from pathlib import Path

sys.path.insert(0, str(Path(__file__).resolve().parents[2]))

from bench.models import plain_library as plain
from bench.models.plain_compact import WORD, differences, indexes, key_of, short_id
from bench.models.plain_wire import MOST_TXS, Fault, compact_form, listed, read, spelled
from bench.tools.basics import hash_twice
from bench.tools.c_library import cbrelay, load, prefix_of
from bench.tools.library_cases import genesis
from bench.tools.looks import Looks
from bench.tools.made_blocks import block_of, some_name, transaction
from bench.tools.programs import usage

# So many places are told one by one.
FEW = 16
# What drawn compact blocks have to meet.
MET = {"block", "useless", "missing", "filled: block", "filled: useless", "filled: F17", "indexes", "indexes: F16", "a doubled pair", "a tripled pair",
       "a pair of another txid", "a pair of another transaction", "a whole block", "all prefilled", "prefilled: F16", "repeated ids"}


def bare(mark):
    """A transaction of 10 bytes, which has no inputs and no outputs."""
    return struct.pack("<i", 1) + bytes(2) + struct.pack("<I", mark)


def places_line(places):
    return " ".join(["missing", *map(str, places)]) if len(places) <= FEW else f"missing {len(places)}"


def fault_line(call, *words):
    """What a call gives, or the number of its fault: of the plain reader and of the library."""
    try:
        return call(*words)
    except Fault as fault:
        return f"F{fault.number}"
    except cbrelay.Fault as fault:
        return f"F{fault.number}"


class CompactPlay:
    """A compact block, the transactions that are known for it, and how many outcomes weren't those of the plain reader."""

    def __init__(self, looks):
        self.looks, self.met = looks, Counter()
        self.of([bare(0)])

    def of(self, txs):
        """A block of these transactions, which are numbered. None of them is known, and no place is prefilled."""
        self.block = block_of(txs)
        self.header, self.txs, self.in_block = self.block[:80], list(txs), len(txs)
        self.ids, self.whole, self.pairs, self.nonce, self.lacking = [], [], [], 0, None

    def more(self, text):
        """A transaction that isn't the block's: its number."""
        self.txs.append(text)
        return len(self.txs) - 1

    def names(self):
        """The short ids of all transactions."""
        key = key_of(self.header, self.nonce)
        return [short_id(key, hash_twice(text)) for text in self.txs]

    def compact(self, places):
        """The compact form of the block, in which these places are whole. Its ids come back."""
        steps = differences(places)
        self.ids = [name for place, name in enumerate(self.names()[: self.in_block]) if place not in set(places)]
        self.whole = [(step, self.txs[place]) for step, place in zip(steps, places)]
        return self.ids

    def use_whole(self, steps, numbers):
        """Transactions that are there whole, behind their places as differences."""
        self.whole = list(zip(steps, (self.txs[number] for number in numbers)))

    def know(self, pairs):
        """The transactions that are known, each behind the txid that is told of it: that of another, by its number, or 32 bytes."""
        self.pairs = [(told if isinstance(told, bytes) else hash_twice(self.txs[told]), self.txs[number]) for told, number in pairs]

    def message(self):
        return compact_form(self.header, self.nonce, self.ids, self.whole)

    def is_true(self):
        return all(hash_twice(text) == name for name, text in self.pairs)

    def place(self, wanted=None):
        """Rebuilds the block. What comes of it is a line; it may be told."""
        message, texts, names = self.message(), [text for _, text in self.pairs], [name for name, _ in self.pairs]
        told = fault_line(plain.rebuild_block, message, listed(texts), names)
        self.looks.look("rebuilt", rebuilt(cbrelay.rebuild_block, message, texts, names), told)
        if self.is_true():
            self.looks.look("rebuilt, hashed", rebuilt(cbrelay.rebuild_block, message, texts), told)
            request = told if isinstance(told, str) else told[1] if told[0] == "request" else b""
            self.looks.look("what is asked for", fault_line(cbrelay.block_transactions_request, message, texts), request)
        line = self.line(told)
        self.looks.look("what comes of it", line, wanted or line)
        self.met[line.split()[0] if not line.startswith("F") else f"prefilled: {line}"] += 1
        return line

    def line(self, told):
        self.lacking = None
        if isinstance(told, str):
            return told
        if told[0] != "request":
            return told[0]
        steps = read("getblocktxn", told[1])[1]
        self.lacking = indexes(steps, 1 << 64)
        return places_line(self.lacking)

    def fill(self, numbers, wanted=None):
        """Hands in transactions for the places that are missing, where what is told of the known ones is true."""
        if self.lacking is None or not self.is_true():
            return None
        texts, answer = [text for _, text in self.pairs], self.header[:32] + listed([self.txs[number] for number in numbers])
        told = fault_line(plain.complete_block, self.message(), listed(texts), answer)
        self.looks.look("completed", rebuilt(cbrelay.complete_block, self.message(), texts, answer), told)
        line = told if isinstance(told, str) else told[0]
        self.looks.look("what comes of completing", line, wanted or line)
        self.met[f"filled: {line}"] += 1
        return line

    def undiffer(self, steps, total, wanted=None):
        """The transactions at the places that differences stand for, of a block of so many."""
        txs = [bare(number) for number in range(total)]
        block = block_of(txs) if txs else self.header + b"\0"
        request = self.header[:32] + listed([spelled(step) for step in steps])
        told = fault_line(plain.block_transactions, block, request)
        self.looks.look("served", fault_line(cbrelay.block_transactions, block, request), told)
        line = told if isinstance(told, str) else " ".join(["indexes", *(str(struct.unpack("<I", tx.text[6:])[0]) for tx in read("blocktxn", told)[1])])
        self.looks.look("what is served", line, wanted or line)
        self.met["indexes: F16" if line == "F16" else "indexes"] += 1
        return line


def rebuilt(call, *words):
    """What the library rebuilds, in the form of the plain reader."""
    found = fault_line(call, *words)
    if isinstance(found, str):
        return found
    return ("block", found.block) if found.block is not None else ("request", found.request) if found.request is not None else ("useless", b"")


def some_block(play, count, nonce, places):
    """The compact form of a block of so many transactions in which these places are whole, and the ids of all of them."""
    play.of([transaction(some_name(number), 0) for number in range(count)])
    play.nonce = nonce
    play.compact(places)
    return play.names()


# ---- worked cases


def short_id_of_the_first_coinbase(play):
    header, coinbase = genesis()[:80], genesis()[81:]
    for nonce in (0, 7, 1 << 40, WORD):
        key = cbrelay.short_id_key(header, nonce)
        play.looks.look("a key", key, key_of(header, nonce))
        play.looks.look("a short id", cbrelay.short_id(key, cbrelay.txid(coinbase)), short_id(key_of(header, nonce), hash_twice(coinbase)))
    play.looks.look("under nonce 7", cbrelay.short_id(cbrelay.short_id_key(header, 7), cbrelay.txid(coinbase)), 0x71CD_8620_B0D5)


def row_9_indexes_as_differences(play):
    play.undiffer([0, 4, 0], 7, "indexes 0 5 6")
    play.undiffer([0, 4, 0], 6, "F16")
    play.undiffer([], 3, "indexes")
    play.undiffer([0, WORD], 9, "F16")
    play.undiffer([WORD], 9, "F16")
    play.undiffer([WORD - 1, 0, 0], 9, "F16")


def row_10_repeated_ids(play):
    play.of([transaction(some_name(number), 0) for number in range(2)])
    play.ids = [5, 5]
    play.place("useless")


def row_11_another_transaction_with_the_id(play):
    some_block(play, 2, 7, [0])
    other = play.more(bare(7))
    play.know([(1, other)])
    play.place("useless")
    play.know([(1, 1)])
    play.place("block")


def row_12_two_are_missing(play):
    some_block(play, 9, 7, [0])
    play.know([(number, number) for number in (8, 1, 6, 5, 3, 4)])
    for given, wanted in (([2], "F17"), ([2, 7], "block"), ([7, 2], "useless"), ([2, 7, 2], "F17"), ([], "F17")):
        play.place("missing 2 7")
        play.fill(given, wanted)


def row_c_three_pairs_of_one_id(play):
    some_block(play, 3, 9, [0])
    others = [play.more(bare(mark)) for mark in range(2)]
    three = [(1, 1), (1, others[0]), (1, others[1])]
    for first in range(3):
        for order in (three[first:] + three[:first], (three[first:] + three[:first])[::-1]):
            for place in range(4):
                play.know(order[:place] + [(2, 2)] + order[place:])
                play.place("missing 1")
    play.know([(1, 1)] * 3 + [(2, 2)])
    play.place("missing 1")
    play.fill([1], "block")


def lists_that_are_not_sound(play):
    """A transaction of 64 bytes, a list that repeats its end under the same root, and one that lacks it."""
    txs = [transaction(some_name(number), 0) for number in range(3)]
    play.of(txs)
    size_64 = play.more(transaction(some_name(9), 4))
    assert len(play.txs[size_64]) == 64
    names = play.names()
    play.ids = names[1:3]
    play.use_whole([0], [size_64])
    play.know([(1, 1), (2, 2)])
    play.place("useless")
    play.use_whole([0, 2], [0, 2])
    play.place("useless")
    play.ids = names[1:2]
    play.use_whole([0], [0])
    play.place("useless")
    play.ids = names[1:3]
    play.place("block")


def prefilled_past_the_total(play):
    some_block(play, 3, 1, [0])
    play.use_whole([0, 2], [0, 1])
    play.place("missing 1 2")
    play.use_whole([0, 3], [0, 1])
    play.place("F16")
    play.use_whole([3], [0])
    play.place("F16")


def row_b_all_places_that_fit(play):
    """A block of 16,666 places, of which the first is there whole: with nothing known, and with all in reverse order."""
    play.of([bare(number) for number in range(MOST_TXS)])
    play.nonce = 1
    ids = play.compact([0])
    play.place(places_line(range(1, MOST_TXS)))
    # no two ids are equal, so each transaction serves one place
    assert len(set(ids)) == MOST_TXS - 1
    play.know([(number, number) for number in range(MOST_TXS)][::-1])
    play.place("block")


CASES = [short_id_of_the_first_coinbase, row_9_indexes_as_differences, row_10_repeated_ids, row_11_another_transaction_with_the_id,
         row_12_two_are_missing, row_c_three_pairs_of_one_id, lists_that_are_not_sound, prefilled_past_the_total, row_b_all_places_that_fit]


# ---- drawn compact blocks


class Drawing:
    """Compact blocks of a few transactions, drawn from a seed."""

    def __init__(self, play, seed):
        self.play, self.rng = play, random.Random(seed)

    def draw(self):
        rng, play = self.rng, self.play
        count = rng.choice((1, 2, 3, rng.randrange(1, 14)))
        play.of([bare(rng.randrange(1 << 32)) if rng.random() < 0.5 else transaction(some_name(rng.randrange(1 << 64)), 0) for _ in range(count)])
        play.nonce = rng.choice((0, WORD, rng.randrange(1 << 64)))
        places = sorted(rng.sample(range(count), rng.choice((0, 1, rng.randrange(count + 1))) if count > 1 else rng.randrange(2)))
        play.compact(places)
        play.met["all prefilled" if len(places) == count else "a whole block" if not places else "some prefilled"] += 1
        self.others = [play.more(bare(rng.randrange(1 << 32))) for _ in range(2)]
        if rng.random() < 0.1 and len(play.ids) > 1:
            ids = list(play.ids)
            ids[rng.randrange(len(ids))] = rng.choice(ids)
            play.ids = ids
            play.met["repeated ids"] += len(set(ids)) < len(ids)
        if rng.random() < 0.1:
            play.use_whole([rng.randrange(count + 2) for _ in places], places)
        play.know(self.pairs(count))
        play.place()
        self.hand_in()
        self.undiffer()

    def pairs(self, count):
        """The right transactions, but for a few that lack or that are there several times, in any order."""
        rng, met = self.rng, self.play.met
        pairs = [(number, number) for number in range(count) if rng.random() < 0.9]
        for _ in range(rng.choice((0, 0, 1, 2))):
            word, more = rng.choice((("a doubled pair", 1), ("a tripled pair", 2), ("a pair of another txid", 0), ("a pair of another transaction", 0)))
            number = rng.randrange(count)
            met[word] += 1
            pairs += [(number, rng.choice((number, self.others[0]))) for _ in range(more)]
            if word == "a pair of another txid":
                pairs.append((rng.randbytes(32), number))
            if word == "a pair of another transaction":
                pairs = [pair for pair in pairs if pair[0] != number] + [(number, rng.choice(self.others))]
        rng.shuffle(pairs)
        return pairs

    def hand_in(self):
        """What is missing, or something else."""
        play, rng = self.play, self.rng
        if not play.lacking:
            return
        right = [place for place in play.lacking if place < play.in_block]
        play.fill(rng.choice((right, right, right[::-1], right[1:], right + self.others[:1], self.others[:1] * len(right))))

    def undiffer(self):
        rng = self.rng
        steps = [rng.choice((0, 1, rng.randrange(5), rng.randrange(1 << 64))) if rng.random() < 0.3 else 0 for _ in range(rng.randrange(5))]
        self.play.undiffer(steps, rng.choice((rng.randrange(12), len(steps))))


def played(looks, count, seed):
    """The worked cases, and so many drawn compact blocks. Returns what was never met, and tells what was."""
    play = CompactPlay(looks)
    for case in CASES:
        case(play)
    drawing = Drawing(play, seed)
    for _ in range(count):
        drawing.draw()
    print(", ".join(f"{name} {times}" for name, times in sorted(play.met.items())))
    return sorted(MET - {name for name, times in play.met.items() if times})


def main():
    words = usage(__doc__, count="how many compact blocks", seed="their seed", compiler="whose library, llvm or rattle").parse_args()
    count, seed = int(words.count or 2_000), int(words.seed or 1)
    load(prefix_of(words.compiler or "llvm"))
    looks = Looks("compact_cases", None)
    unmet = played(looks, count, seed) if count else []
    if count >= 2_000:
        looks.look("what was never met", unmet, [])
    sys.exit(looks.told())


if __name__ == "__main__":
    main()
