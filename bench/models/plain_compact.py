"""Compact blocks in Python: short ids, indexes as differences, and what comes of a compact block, by BIP 152 and by the paper on SipHash.

It was written apart from the program. Transactions are their texts.
"""

import hashlib
import struct

from bench.tools.basics import hash_twice, merkle_root

WORD = (1 << 64) - 1


# ---- short ids


def rotated(word, count):
    return (word << count | word >> (64 - count)) & WORD


def rounds(count, v0, v1, v2, v3):
    """So many rounds of SipHash."""
    for _ in range(count):
        v0 = (v0 + v1) & WORD
        v1 = rotated(v1, 13) ^ v0
        v0 = rotated(v0, 32)
        v2 = (v2 + v3) & WORD
        v3 = rotated(v3, 16) ^ v2
        v0 = (v0 + v3) & WORD
        v3 = rotated(v3, 21) ^ v0
        v2 = (v2 + v1) & WORD
        v1 = rotated(v1, 17) ^ v2
        v2 = rotated(v2, 32)
    return v0, v1, v2, v3


def siphash_2_4(key, data):
    """SipHash-2-4 of some bytes under a key of two words."""
    v0, v1 = key[0] ^ 0x736F_6D65_7073_6575, key[1] ^ 0x646F_7261_6E64_6F6D
    v2, v3 = key[0] ^ 0x6C79_6765_6E65_7261, key[1] ^ 0x7465_6462_7974_6573
    padded = data + bytes(7 - len(data) % 8) + bytes([len(data) % 256])
    for (word,) in struct.iter_unpack("<Q", padded):
        v0, v1, v2, v3 = rounds(2, v0, v1, v2, v3 ^ word)
        v0 ^= word
    v0, v1, v2, v3 = rounds(4, v0, v1, v2 ^ 0xFF, v3)
    return v0 ^ v1 ^ v2 ^ v3


def key_of(header, nonce):
    """The key of short ids: two words of a hash over the header's 80 bytes and the nonce."""
    return struct.unpack("<QQ", hashlib.sha256(header + struct.pack("<Q", nonce)).digest()[:16])


def short_id(key, name):
    return siphash_2_4(key, name) & ((1 << 48) - 1)


# ---- indexes


def differences(indexes):
    """Rising indexes as differences."""
    return [index - before - 1 for before, index in zip([-1] + indexes, indexes)]


def indexes(differences, total):
    """The indexes whose differences these are; None where one isn't below the total."""
    found, least = [], 0
    for difference in differences:
        found.append(least + difference)
        least = found[-1] + 1
    return found if all(index < total for index in found) else None


# ---- blocks


def is_mutated(level):
    """Whether two neighbours are equal at some level of the tree."""
    while len(level) > 1:
        if any(level[i] == level[i + 1] for i in range(0, len(level) - 1, 2)):
            return True
        level = level + level[-1:] * (len(level) % 2)
        level = [hash_twice(level[i] + level[i + 1]) for i in range(0, len(level), 2)]
    return False


def judged(header, texts):
    """Whether these transactions are those of the block with this header."""
    names = [hash_twice(text) for text in texts]
    sound = texts and all(len(text) != 64 for text in texts) and not is_mutated(names) and merkle_root(list(names)) == header[36:68]
    return "sound" if sound else "wrong"


def slots(ids, prefilled, pairs):
    """What stands at each place: a transaction, or None. The prefilled ones are pairs of a place and a transaction."""
    whole, rest, by_id, found = dict(prefilled), iter(ids), {}, []
    for number, text in pairs:
        by_id.setdefault(number, []).append(text)
    for place in range(len(ids) + len(prefilled)):
        candidates = [whole[place]] if place in whole else by_id.get(next(rest), [])
        found.append(candidates[0] if len(candidates) == 1 else None)
    return found


def missing(found):
    return [place for place, text in enumerate(found) if text is None]
