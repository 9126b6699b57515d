"""Calls of a hall as records of bench_hall, and the lines that a plain hall wants of them."""

import struct
from collections import Counter

from bench.models.plain_hall import PlainHall
from bench.tools.programs import Case
from bench.tools.records import record


def entries_text(entries):
    """Entries as records hold them: a type and a hash each."""
    return b"".join(struct.pack("<I", kind) + name for kind, name in entries)


def numbers_text(numbers):
    """Numbers as records hold them."""
    return b"".join(struct.pack("<Q", number) for number in numbers)


# the kind of each question's record, and what stands in it behind its connection
QUESTIONS = {
    "admit": (b"a", lambda: b""),
    "locator": (b"l", lambda: b""),
    "headers": (b"h", lambda headers: b"".join(header.text for header in headers)),
    "want": (b"w", entries_text),
    "items": (b"s", entries_text),
    "tx": (b"t", lambda tx: tx.text),
    "block": (b"b", lambda block, capable: bytes([capable]) + block.text),
    "after": (b"f", lambda locator, stop: stop + b"".join(locator)),
    "match": (b"d", lambda header, nonce, ids: header + numbers_text([nonce, *ids])),
    "places": (b"e", lambda name, differences: name + numbers_text(differences)),
    "news": (b"n", lambda tip, number, whole: struct.pack("<BQ", whole, number) + (tip or b"")),
}
# the kind of the record of each other call, and the form of what stands in it
CALLS = {"open": (b"o", "<H"), "kick": (b"k", "<H"), "mine": (b"m", "<B"), "extend": (b"M", "<B"), "checkpoint": (b"p", ""), "look": (b"i", ""),
         "last_pairs": (b"v", ""), "counts": (b"j", ""), "again": (b"g", ""), "replay": (b"r", "")}


def question_text(question):
    """The kind of a question's record, and what stands behind its connection."""
    kind, text = QUESTIONS[question[0]]
    return kind, text(*question[1:])


def asked(*question):
    """A question of the first peer: its record's kind and payload."""
    kind, text = question_text(question)
    return kind, struct.pack("<HQ", 0, 1) + text


def repeated(count, kind, payload):
    """A record that stands for so many."""
    return record(b"x", struct.pack("<I", count) + kind + payload)


class HallPlay:
    """Records, the lines that are wanted of them, and what was met."""

    def __init__(self):
        self.records, self.wanted, self.met = [], [], Counter()
        # What the repeated calls tell, if there are any.
        self.sum = None
        self.hall = PlainHall()

    def begin(self):
        """From now on calls are made of a new hall."""
        self.records.append(record(b"z"))
        self.hall = PlainHall()

    def put(self, kind, payload, told):
        self.records.append(record(kind, payload))
        self.wanted.append(told[0])
        return told[0]

    def ask(self, connection, *question):
        kind, text = question_text(question)
        return self.put(kind, struct.pack("<HQ", *connection) + text, self.hall.ask(connection, question))

    def ask_often(self, count, connection, *question):
        """The question so many times, of which no line is printed."""
        kind, text = question_text(question)
        self.records.append(repeated(count, kind, struct.pack("<HQ", *connection) + text))
        self.sum = (self.sum or 0) + sum(self.hall.ask(connection, question)[1] for _ in range(count))

    def submit(self, word, thing):
        question = (word, thing, False) if word == "block" else (word, thing)
        return self.put(b"B" if word == "block" else b"T", thing.text, self.hall.submit(question))

    def call(self, name, *words):
        """A call that is no question."""
        kind, form = CALLS[name]
        return self.put(kind, struct.pack(form, *words), getattr(self.hall, name)(*words))

    def lines(self):
        return self.wanted + ([f"sum {self.sum}"] if self.sum is not None else [])

    def case(self, name):
        """A run that plays these records."""
        return Case(name, b"".join(self.records), "".join(f"{line}\n" for line in self.lines()).encode("ascii"))
