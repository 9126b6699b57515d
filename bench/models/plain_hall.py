"""A plain hall: what the peers of a node share, and what each question is answered, by the rules in docs/PROTOCOL.md.

It was written apart from the program. It keeps all calls that were granted, and where the journal began anew; how things stand is
computed from the calls (now and then that is kept, so that a call doesn't cost all of them). The plain session (plain_session.py) reads
and changes what peers share by it, so both tell the same.
"""

import copy
import struct
from collections import Counter
from types import SimpleNamespace

from bench.models.plain_block import GENESIS_TIME, NULL_POINT, MinedBlock, Tx
from bench.models.plain_chain import PlainChain, connected
from bench.models.plain_compact import indexes, key_of, short_id
from bench.models.plain_wire import BLOCK, COMPACT, GENESIS_BLOCK, TX, Fault
from bench.tools.basics import GENESIS, compact_size, line, shown

PEERS = 64
POOL, ANNOUNCERS, ANNOUNCED, DEPTH, PART_DEPTH, BLOCK_BYTES = 10_000, 3, 8, 5, 10, 1_000_000
JOURNAL_ENTRIES, JOURNAL_WEIGHT, ENTRY_WEIGHT, LISTED_WEIGHT = 1_000_000, 64_000_000, 64, 40
# How many calls are folded at the most to tell how things stand.
FOLDED = 16


# ---- what peers share


def applied(unspent, tx):
    """Why a transaction can't be spent, or what is unspent behind it."""
    behind = dict(unspent)
    fault = connected(behind, SimpleNamespace(txs=[tx]))
    return (fault, unspent) if fault else (None, behind)


class Shared:
    """The chain, the pool with its numbers of arrival, the announcers, and what is known of the connections."""

    def __init__(self):
        self.chain = PlainChain()
        self.pool, self.next = [], 0
        self.announcers = []
        self.asked, self.kicked, self.generations = Counter(), set(), Counter({peer: 1 for peer in range(PEERS)})

    def copy(self):
        """Another one, which shares what never changes."""
        other = copy.copy(self)
        other.chain = copy.copy(self.chain)
        for name in ("headers", "heights", "kept", "marked"):
            setattr(other.chain, name, copy.copy(getattr(self.chain, name)))
        for name in ("pool", "announcers", "asked", "kicked", "generations"):
            setattr(other, name, copy.copy(getattr(self, name)))
        return other

    def latest(self, peer):
        return (peer, self.generations[peer])

    def tip(self):
        return self.chain.tip()

    def height(self):
        return self.chain.height(self.tip())

    def unspent(self):
        return self.chain.unspent(self.tip())[0]

    def lacks(self, name):
        return not self.chain.has_block(name) and name not in self.chain.marked

    def has_block(self, name):
        return self.chain.has_block(name) and name not in self.chain.marked

    def kept(self, name):
        return GENESIS_BLOCK if name == GENESIS else self.chain.kept[name]

    def depth(self, name):
        """How far below the tip's height a block stands."""
        return self.height() - self.chain.height(name)

    # ---- what is read and changed

    def take_headers(self, headers):
        """The names of those whose blocks are lacking, and the refusal that ended it."""
        lack = []
        for header in headers:
            ended = self.chain.take_header(header)
            if ended not in ("taken", "F18 Known"):
                return lack, ended
            lack += [header.name] if self.lacks(header.name) else []
        return lack, None

    def needed(self, entries):
        """The transactions and blocks among these that are lacking, each once."""
        pooled = {tx.name for tx, _ in self.pool}
        return [(kind, name) for kind, name in dict.fromkeys(entries) if kind == TX and name not in pooled or kind == BLOCK and self.lacks(name)]

    def is_near(self, names):
        """Whether this is one block alone, whose header stands on the tip."""
        headers = self.chain.headers
        return len(names) == 1 and names[0] in headers and headers[names[0]].prev == self.tip()

    def served(self, kind, name):
        """How a transaction or a block that is asked for is told, and itself."""
        if kind == TX:
            tx = next((tx for tx, _ in self.pool if tx.name == name), None)
            return "tx" if tx else "lacking", tx
        if not self.has_block(name):
            return "lacking", None
        return "short" if kind == COMPACT and self.depth(name) <= DEPTH else "whole", self.kept(name)

    def places(self, name, differences):
        """A block, and its transactions at these places; none of them deep down, where the whole block is told. No block where it isn't
        there."""
        if not self.has_block(name):
            return None, None
        block = self.kept(name)
        places = indexes(differences, len(block.txs))
        if places is None:
            raise Fault(16)
        return block, [block.txs[place] for place in places] if self.depth(name) <= PART_DEPTH else None

    def pairs(self, header, nonce):
        """The pool, each transaction behind its short id."""
        key = key_of(header, nonce)
        return [(short_id(key, tx.name), tx) for tx, _ in self.pool]

    def news(self, tip, number):
        """The way from a tip to this one, and what came to the pool from a number on."""
        return self.chain.path(tip) if tip is not None else [], [tx.name for tx, other in self.pool if other >= number]

    # ---- entries

    def step(self, entry):
        """One call more: the line of what is answered, and how much that tells."""
        kind, *rest = entry
        if kind == "kick":
            self.kicked.add(rest[0])
        elif kind == "opened":
            peer, self.generations[peer] = rest[0]
            self.announcers = [other for other in self.announcers if other[0] != peer]
        elif kind == "submitted":
            return self.answer(None, rest[0])
        else:
            connection, question = rest
            self.asked[connection] += 1
            return ("kicked", 0) if connection in self.kicked else self.answer(connection, question)
        return None

    def answer(self, connection, question):
        kind, *rest = question
        return getattr(self, "answer_" + kind)(connection, *rest)

    def answer_admit(self, _):
        return "go", 1

    def answer_locator(self, _):
        return line("locator", self.chain.locator()), 0

    def answer_headers(self, _, headers):
        lack, refused = self.take_headers(headers)
        return line(line(f"heads {refused or '-'} lack", lack) + " locator", self.locator_for(refused)), 0

    def locator_for(self, refused):
        return self.chain.locator() if refused == "F23 NoParent" else []

    def answer_want(self, _, entries):
        wanted = self.needed(entries)
        blocks = [name for kind, name in wanted if kind == BLOCK]
        told = "".join(f" {kind} {shown(name)}" for kind, name in wanted)
        near = str(self.is_near(blocks)).lower()
        return line(f"need{told} near {near} locator", self.chain.locator() if blocks else []), len(wanted)

    def answer_tx(self, _, tx):
        refused = self.refusal(tx)
        if refused is None:
            self.pool.append((tx, self.next))
            self.next += 1
        return f"tx {refused or '-'}", int(refused is None)

    def refusal(self, tx):
        """Why the pool doesn't take a transaction."""
        if tx.broken_rule():
            return f"F5 BadTx {tx.broken_rule()}"
        if tx.is_coinbase():
            return "F10 BadCoinbase"
        if len(tx.text) == 64:
            return "F8 Size64"
        if tx.name in [other.name for other, _ in self.pool]:
            return "F18 Known"
        fault, _ = applied(self.unspent_behind(), tx)
        return fault or ("F20 PoolFull" if len(self.pool) >= POOL else None)

    def unspent_behind(self):
        """What is unspent behind the pool."""
        unspent = self.unspent()
        for tx, _ in self.pool:
            _, unspent = applied(unspent, tx)
        return unspent

    def answer_block(self, connection, block, capable):
        before = dict(self.chain.kept)
        ended = self.chain.take_block(block)
        refused = "-" if isinstance(ended, tuple) else ended
        if isinstance(ended, tuple) and ended[1]:
            self.refold([tx for name in reversed(ended[0]) for tx in before[name].txs if not tx.is_coinbase()])
            if connection is not None and capable:
                self.announcers = ([other for other in self.announcers if other != connection] + [connection])[-ANNOUNCERS:]
        return line(f"block {refused} locator", self.locator_for(refused)), int(refused == "-")

    def refold(self, first):
        """The pool anew: transactions of blocks that were put off, and then its own, as far as they apply in turn."""
        offered = [(tx, None) for tx in first] + self.pool
        self.pool, unspent = [], self.unspent()
        for tx, number in offered:
            fault, behind = applied(unspent, tx)
            if fault or tx.name in [other.name for other, _ in self.pool] or len(self.pool) == POOL:
                continue
            unspent = behind
            self.pool.append((tx, self.next if number is None else number))
            self.next += number is None

    def answer_items(self, _, entries):
        pieces = [self.piece(kind, name) for kind, name in entries if kind in (TX, BLOCK, COMPACT)]
        return "served" + "".join(pieces), len(pieces)

    def piece(self, kind, name):
        word, found = self.served(kind, name)
        return f" {word} {shown(name)} {len(found.text)}" if found else f" lacking {kind} {shown(name)}"

    def answer_places(self, _, name, differences):
        """The transactions at places of a block, or all of it where it is deep down."""
        try:
            block, txs = self.places(name, differences)
        except Fault:
            return "places F16 BadIndex", 0
        if block is None:
            return "absent", 0
        if txs is None:
            return f"whole {shown(name)} {len(block.text)}", 0
        return f"part {shown(name)}" + "".join(f" tx {shown(tx.name)} {len(tx.text)}" for tx in txs), 0

    def answer_match(self, _, header, nonce, ids):
        return "pairs" + "".join(f" {number} {shown(tx.name)}" for number, tx in self.pairs(header, nonce) if number in ids), 0

    def answer_after(self, _, locator, stop):
        return line("following", self.chain.after(locator, stop)), 0

    def answer_news(self, connection, tip, number, whole):
        way, txids = self.news(tip, number)
        is_long, only = len(way) > ANNOUNCED, len(way) == 1
        block = f" block {shown(self.tip())} {len(self.chain.kept[self.tip()].text)}" if whole and only else ""
        told = line(line("news", [self.tip()]) + " path", way[-1:] if is_long else way) + f" long {str(is_long).lower()}{block}"
        high = str(connection in self.announcers).lower()
        return line(told + " txids", txids) + f" next {self.next} high {high}", len(txids)

    # ---- what is seen

    def look(self):
        return line(f"look height {self.height()} pool {len(self.pool)} tip", [self.tip()])

    def mined(self, mark):
        """The block of the next height: the longest beginning of the pool that fits."""
        height = self.height() + 1
        txs = [Tx([(NULL_POINT, struct.pack("<I", height) + bytes([mark]))], [5_000_000_000])]
        size = 80 + len(txs[0].text)
        for tx, _ in self.pool:
            size += len(tx.text)
            if size + len(compact_size(len(txs) + 1)) > BLOCK_BYTES:
                break
            txs.append(tx)
        return MinedBlock(self.tip(), height, txs)


def mined_line(block, height):
    script = block.txs[0].inputs[0][1].hex()
    count, size = len(block.txs), len(block.txs[0].text)
    return f"mined {shown(block.header.name)} {len(block.text)} txs {count} time {GENESIS_TIME + height} script {script} size {size}"


# ---- the hall


def weight(entry):
    """For how many bytes an entry counts in the journal."""
    kind, *rest = entry
    content = 0
    if kind in ("asked", "submitted"):
        word, *content_of = rest[-1]
        if word in ("tx", "block"):
            content = len(content_of[0].text)
        elif word in ("headers", "want", "items", "after"):
            content = LISTED_WEIGHT * len(content_of[0])
        elif word in ("match", "places"):
            content = LISTED_WEIGHT * len(content_of[-1])
    return ENTRY_WEIGHT + content


class PlainHall:
    """All calls, where the journal began anew, and the connections in the order in which they were opened."""

    def __init__(self):
        self.calls, self.start = [], 0
        self.connections = [(peer, 1) for peer in range(PEERS)]
        # The pairs that were told last.
        self.pairs = "no pairs"
        # So many calls lead to what is kept here, and all of them to the other.
        self.kept = (0, Shared())
        self.now = Shared()

    def folded(self, count):
        """To what so many calls lead, from the beginning."""
        shared = Shared()
        for entry in self.calls[:count]:
            shared.step(entry)
        return shared

    def note(self, entry):
        """A call more: the line of what is answered, and how much it tells."""
        weights = sum(weight(other) for other in self.calls[self.start:])
        if len(self.calls) - self.start >= JOURNAL_ENTRIES or weights + weight(entry) > JOURNAL_WEIGHT:
            self.start = len(self.calls)
        self.calls.append(entry)
        count, shared = self.kept[0], self.kept[1].copy()
        for other in self.calls[count:]:
            told = shared.step(other)
        self.now = shared
        if len(self.calls) - count >= FOLDED:
            self.kept = (len(self.calls), shared.copy())
        return told

    # ---- calls; each gives a line and how much it tells

    def ask(self, connection, question):
        told = self.note(("asked", connection, question))
        if told[0].startswith("pairs"):
            self.pairs = told[0]
        return told

    def submit(self, question):
        return self.note(("submitted", question))

    def open(self, peer):
        connection = (peer, self.now.generations[peer] + 1)
        self.note(("opened", connection))
        self.connections.append(connection)
        return f"opened {connection[0]}.{connection[1]}", 0

    def kick(self, peer):
        self.note(("kick", self.now.latest(peer)))
        return f"kick {peer}", 0

    def mine(self, mark):
        return mined_line(self.now.mined(mark), self.now.height() + 1), 0

    def extend(self, mark):
        return self.submit(("block", self.now.mined(mark), False))

    def checkpoint(self):
        self.start = len(self.calls)
        return "checkpoint", 0

    # ---- what is seen

    def look(self):
        return self.now.look(), 0

    def last_pairs(self):
        """Whatever became of the pool."""
        return self.pairs, 0

    def asked(self, entries):
        return Counter(entry[1] for entry in entries if entry[0] == "asked")

    def counts(self):
        """How long the journal is, and how often who has asked: before it, and by now, which a badge tells too."""
        before, by_now = self.asked(self.calls[:self.start]), self.asked(self.calls)
        text = f"journal {len(self.calls) - self.start}"
        for peer, generation in self.connections:
            connection = (peer, generation)
            if by_now[connection]:
                kicked = str(("kick", connection) in self.calls).lower()
                text += f" {peer}.{generation} {before[connection]} {by_now[connection]} {by_now[connection]} {kicked}"
        return text, 0

    def again(self):
        journal = self.calls[self.start:]
        return f"again journal {len(journal)} answers {sum(self.asked(journal).values())} same true", 0

    def replay(self):
        if self.start:
            return "replay of a part", 0
        return f"replay journal {len(self.calls)} {self.folded(len(self.calls)).look()}", 0
