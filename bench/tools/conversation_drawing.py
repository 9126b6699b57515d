"""Draws conversations with one session: a handshake, and then what a peer tells and asks, faulty messages among it.

A plain session (bench/models/plain_session.py) hears each message as it is drawn. What it keeps steers what comes next: a chain that
grows, transactions that can be spent, and compact blocks of what its pool has.
"""

import random
import struct

from bench.models import plain_wire as wire
from bench.models.plain_block import Block, paying
from bench.models.plain_compact import WORD, differences, key_of, missing, short_id
from bench.models.plain_hall import Shared
from bench.models.plain_session import MOST_FLIGHT, MOST_WANTED, Closed, Line, PlainSession, Settings
from bench.tools.basics import GENESIS, envelope, hash_twice, header_text, random_bytes
from bench.tools.hall_drawing import tx_of_64_bytes

LONGEST, BLOCKS = 40, 24
NOBODY, NO_TX = bytes(32), bytes([1]) * 32


def hello(relay):
    """A version with this relay byte, which may be missing."""
    return wire.version(7, relay=relay)


def differs(told, wanted):
    """Where two outputs part."""
    place = next((place for place, (one, other) in enumerate(zip(told, wanted)) if one != other), min(len(told), len(wanted)))
    return f"{len(told)} bytes for {len(wanted)}, the first that differs at {place}"


class Spoken:
    """The stream of one peer, what the plain session answers, and why it ends."""

    def __init__(self, session=None):
        self.session = session or PlainSession(Settings(), Shared())
        self.line = Line(self.session)
        self.stream, self.answered, self.why = b"", b"", "Bye"
        self.closed = False

    def say(self, message):
        self.stream += message
        if not self.closed:
            try:
                for told in self.line.hear(message):
                    self.answered += told
            except Closed as closed:
                self.why, self.closed = str(closed), True


class Conversation(Spoken):
    """A handshake in any order, and messages of all kinds about the blocks of a few branches, in no order."""

    def __init__(self, seed, session=None):
        super().__init__(session)
        self.rng, self.marks = random.Random(seed), 0
        self.blocks, self.txs = [], []
        for _ in range(self.rng.randrange(BLOCKS)):
            self.grow()
        self.handshake()
        for _ in range(self.rng.randrange(LONGEST)):
            self.turn()

    def mark(self):
        self.marks += 1
        return self.marks

    def parent(self):
        near = self.blocks[-4:] if self.rng.random() < 0.9 else self.blocks
        return self.rng.choice(near) if near and self.rng.random() < 0.95 else None

    def grow(self):
        """One block more, mostly on one of the last; some spend what an earlier one made."""
        parent, spent = self.parent(), []
        if parent is not None and self.rng.random() < 0.3:
            spent = [paying(self.mark(), [(parent.txs[0].name, 0)], [self.rng.choice([40, 50, 60])])]
            self.txs += spent
        prev = GENESIS if parent is None else parent.header.name
        if self.rng.random() < 0.02:
            prev = bytes(random_bytes(self.rng, 32))
        self.blocks.append(Block(prev, [paying(self.mark(), [], [50]), *spent]))

    def handshake(self):
        number = self.rng.choice([70014] * 8 + [70012, 70001, 70000, 60000, 80000])
        nonce = self.rng.choice([7] * 20 + [1])
        version = wire.version(nonce, relay=self.rng.choice([b"", b"\1", b"\1", b"\0", b"\7"]))[24:]
        version = envelope(b"version", struct.pack("<i", number) + version[4:] + b"\7" * self.rng.randrange(2))
        parts = [version, envelope(b"verack", b"")]
        if self.rng.random() < 0.15:
            self.rng.shuffle(parts)
        if self.rng.random() < 0.1:
            parts.pop()
        for part in parts:
            if self.rng.random() < 0.1:
                self.turn()
            self.say(part)

    def turn(self):
        kinds = [self.ping, self.wishes, self.headers, self.headers, self.block, self.block, self.block, self.block, self.tx, self.inv,
                 self.getdata, self.getheaders, self.notfound, self.odd, self.compact_of_any, self.txs_of_any, self.places_of_any]
        self.say(self.rng.choice(kinds)())

    # ---- messages

    def ping(self):
        return envelope(self.rng.choice([b"ping", b"ping", b"pong"]), struct.pack("<Q", self.rng.getrandbits(64)))

    def wishes(self):
        return envelope(b"sendheaders", b"") if self.rng.random() < 0.6 else wire.sendcmpct(self.rng.randrange(2), self.rng.choice([1, 1, 2]))

    def some(self, things, most):
        start = self.rng.randrange(len(things) + 1)
        return things[start : start + self.rng.randrange(most)]

    def headers(self):
        texts = [block.header.text for block in (self.blocks if self.rng.random() < 0.5 else self.some(self.blocks, 20))]
        if self.rng.random() < 0.05:
            texts.append(header_text(GENESIS, NOBODY, self.rng.random() < 0.5))
        return wire.headers(texts)

    def block(self):
        if not self.blocks:
            return self.ping()
        text = self.rng.choice(self.blocks).text
        if self.rng.random() < 0.04:
            place = self.rng.randrange(80, len(text))
            text = text[:place] + bytes([text[place] ^ 1]) + text[place + 1 :]
        return envelope(b"block", text)

    def tx(self):
        tx = self.rng.choice(self.txs) if self.txs and self.rng.random() < 0.7 else paying(self.mark(), [], [50])
        if self.blocks and self.rng.random() < 0.4:
            tx = paying(self.mark(), [(self.rng.choice(self.blocks).txs[0].name, 0)], [self.rng.choice([40, 50, 60])])
            self.txs.append(tx)
        return envelope(b"tx", tx.text)

    def names(self):
        return [block.header.name for block in self.blocks] + [GENESIS, NOBODY]

    def entries(self):
        txids = [tx.name for tx in self.txs] + [NO_TX]
        return [(kind, self.rng.choice(txids if kind == 1 else self.names())) for kind in self.rng.choices([1, 2, 4, 3], [4, 4, 1, 1], k=self.rng.randrange(8))]

    def inv(self):
        return wire.entries(b"inv", self.entries())

    def getdata(self):
        return wire.entries(b"getdata", self.entries())

    def notfound(self):
        return wire.entries(b"notfound", self.entries())

    def getheaders(self):
        return wire.getheaders(self.rng.choices(self.names(), k=self.rng.randrange(4)), self.rng.choice(self.names()))

    def compact_of_any(self):
        """A block as a compact one, in which only the first transaction is whole."""
        return self.compact(self.rng.choice(self.blocks)) if self.blocks else self.ping()

    def compact(self, block, places=(0,), change=lambda ids, prefilled: None, header=None):
        """A block as a compact one, in which the transactions at these places are whole. Its ids and whole transactions may be changed."""
        nonce = self.rng.choice([0, 7, WORD, self.rng.getrandbits(64)])
        text = header or block.header.text
        self.key = key_of(text, nonce)
        ids = [short_id(self.key, tx.name) for place, tx in enumerate(block.txs) if place not in places]
        prefilled = [(step, block.txs[place].text) for step, place in zip(differences(list(places)), places)]
        change(ids, prefilled)
        return wire.cmpctblock(text, nonce, ids, prefilled)

    def txs_of_any(self):
        """Transactions of a block for which nobody asked."""
        block = self.rng.choice(self.blocks) if self.blocks else None
        return wire.blocktxn(block.header.name, [tx.text for tx in block.txs[1:]]) if block else wire.blocktxn(NOBODY, [])

    def places_of_any(self):
        """Places of a block, mostly its first one."""
        return wire.getblocktxn(self.rng.choice(self.names()), self.rng.choice([[0], [0], [0], [], [0, 0], [1], [WORD], [0, WORD]]))

    def odd(self):
        """What isn't known, is damaged, or can't be read."""
        text = self.rng.choice([self.ping, self.inv, self.headers, self.getheaders, self.wishes, self.compact_of_any, self.txs_of_any, self.places_of_any])()
        place = self.rng.random()
        if place < 0.5:
            return envelope(b"hello", bytes(random_bytes(self.rng, 5)))
        if place < 0.8:
            return text[:20] + bytes([text[20] ^ 1]) + text[21:]
        if place < 0.95:
            payload = text[24:]
            return envelope(text[4:16].rstrip(b"\0"), payload[:-1] if payload else b"\0")
        return bytes(24)


class Relay(Conversation):
    """A chain that grows, transactions of a pool, and compact blocks of these, rebuilt or not, both ways."""

    def handshake(self):
        self.blocks, self.txs = [], []
        self.say(hello(self.rng.choice([b"", b"\1", b"\1", b"\1", b"\0", b"\0"])))
        self.say(envelope(b"verack", b""))
        wish = self.rng.choice(["none", "early", "early", "early", "late"])
        if wish == "early":
            self.wish()
        if self.rng.random() < 0.5:
            self.say(envelope(b"sendheaders", b""))
        for _ in range(self.rng.choice([1, 2, 3, 13])):
            self.give(self.made(self.tip()))
        if wish == "late":
            self.wish()
        self.coins_given()
        if self.rng.random() < 0.4:
            self.rng.choice([self.many_headers, self.headers_twice, self.overtaken, self.marked, self.asked_twice, self.children_first,
                             self.put_back])()
        if self.rng.random() < 0.03:
            self.crowded()

    def crowded(self):
        """Headers of more blocks than there is room for, one that falls back beside them, and then no block of all these."""
        names, texts = [self.tip()], []
        for _ in range(MOST_FLIGHT + MOST_WANTED + 2):
            texts.append(header_text(names[-1], bytes(random_bytes(self.rng, 32))))
            names.append(hash_twice(texts[-1]))
        some = MOST_FLIGHT + MOST_WANTED + self.rng.choice([0, 0, 0, 1, 2])
        self.say(wire.headers(texts[: wire.MOST_HEADERS]))
        self.say(wire.headers(texts[wire.MOST_HEADERS : some]))
        self.rng.choice([lambda: None, lambda: self.listed_again(texts[:some]), lambda: self.give(self.bare(names[self.rng.choice([9, some - 1])]))])()
        self.say(wire.headers(texts[some - 1 :]))
        self.say(wire.cmpctblock(texts[-1], 0, [1, 1], []))
        self.say(wire.entries(b"inv", [(2, NOBODY)]))
        while self.session.flight and not self.closed:
            self.say(wire.entries(b"notfound", [(2, name) for name in self.session.flight]))
        self.say(wire.headers(texts[wire.MOST_HEADERS :]))

    def listed_again(self, texts):
        """Headers of blocks that are wanted, mostly behind those of others that aren't."""
        branch = [header_text(self.tip(), bytes(random_bytes(self.rng, 32))) for _ in range(self.rng.randrange(3))]
        self.say(wire.headers(branch + texts[-self.rng.randrange(1, 40) :]))

    # ---- what the session knows

    @property
    def shared(self):
        return self.session.shared

    def tip(self):
        return self.shared.tip()

    def known(self):
        """The names of the blocks from the first one up to the tip."""
        return self.shared.chain.way(self.tip())

    def pool(self):
        return [tx for tx, _ in self.shared.pool]

    def coins(self):
        """What is unspent at the tip and isn't spent by the pool."""
        spent = {point for tx in self.pool() for point in tx.spent}
        return [(point, value) for point, value in self.shared.unspent().items() if point not in spent]

    # ---- blocks and transactions

    def paid(self, coin):
        point, value = coin
        self.txs.append(paying(self.mark(), [point], self.rng.choice([[value], [value // 2, value - value // 2]])))
        return self.txs[-1]

    def coins_given(self):
        """A few transactions for the pool."""
        coins = self.coins()
        for coin in self.rng.sample(coins, min(len(coins), self.rng.randrange(5))):
            self.say(envelope(b"tx", self.paid(coin).text))

    def made(self, prev, fresh=None):
        """A block with some of the pool's transactions, and some that the pool doesn't have."""
        pool, rng = self.pool(), self.rng
        txs = pool[: rng.randrange(len(pool) + 1)] if rng.random() < 0.8 else [tx for tx in pool if rng.random() < 0.7]
        coins = self.coins()
        for coin in rng.sample(coins, min(len(coins), rng.randrange(4) if fresh is None else fresh)):
            txs.insert(rng.randrange(len(txs) + 1), self.paid(coin))
        self.blocks.append(Block(prev, [paying(self.mark(), [], [50] * rng.randrange(1, 4)), *txs]))
        return self.blocks[-1]

    def bare(self, prev):
        """A block of a coinbase alone."""
        self.blocks.append(Block(prev, [paying(self.mark(), [], [50])]))
        return self.blocks[-1]

    def faulty(self, prev):
        """A block that can't be connected."""
        point, value = self.rng.choice(self.coins() or [((NO_TX, 0), 50)])
        bad = self.rng.choice([paying(self.mark(), [(NO_TX, self.mark())], [1]), paying(self.mark(), [point], [value + 1]), paying(self.mark(), [], [1])])
        self.blocks.append(Block(prev, [paying(self.mark(), [], [50]), bad]))
        return self.blocks[-1]

    def give(self, block):
        self.say(wire.block(block.text))

    # ---- turns

    def turn(self):
        dice = self.rng.random()
        if self.session.partial is not None and dice < 0.75:
            self.answer_places()
        elif self.session.flight and dice < 0.5:
            self.answer_request()
        elif dice < 0.15:
            super().turn()
        else:
            self.rng.choices([self.announce, self.coins_given, self.ask_compact, self.ask_places, self.head_on_the_tip, self.wish, self.raised],
                             [10, 5, 2, 2, 2, 1, 1])[0]()

    def wish(self):
        self.say(wire.sendcmpct(self.rng.randrange(2), 1))

    def raised(self):
        for _ in range(self.rng.randrange(4)):
            self.give(self.bare(self.tip()))

    def announce(self):
        self.tell_compact(self.announced())

    def announced(self):
        """The block that is told: mostly a new one on the tip."""
        rng = self.rng
        kinds = [lambda: self.made(self.tip()), lambda: self.made(rng.choice(self.known()[-3:])), lambda: self.made(bytes(random_bytes(rng, 32))),
                 self.on_a_header, lambda: self.faulty(self.tip()), lambda: rng.choice(self.blocks)]
        return rng.choices(kinds, [12, 2, 1, 1, 1, 2])[0]()

    def on_a_header(self):
        """A block on one whose header alone was told."""
        below = self.bare(self.tip())
        self.say(wire.headers([below.header.text]))
        return self.made(below.header.name)

    def tell_compact(self, block):
        """A block as a compact one, in many forms, some of which are wrong."""
        rng, count = self.rng, len(block.txs)
        forms = [(14, (0,), None), (3, tuple(sorted({0, rng.randrange(count)})), None), (1, (), None), (1, tuple(range(count)), None),
                 (1, (0,), self.repeat_an_id), (1, (0,), self.another_id), (1, (0,), self.id_of_the_pool), (1, (0,), self.past_the_end),
                 (1, (0,), self.past_64_bits), (1, (0,), self.another_whole), (1, (0,), self.whole_of_64_bytes)]
        _, places, change = rng.choices(forms, [form[0] for form in forms])[0]
        header = header_text(block.header.prev, NOBODY, False) if rng.random() < 0.02 else None
        self.say(self.compact(block, places, change or (lambda ids, prefilled: None), header))

    def repeat_an_id(self, ids, prefilled):
        ids += [5] * (2 - len(ids))
        ids[-1] = ids[0]

    def another_id(self, ids, prefilled):
        if ids:
            ids[self.rng.randrange(len(ids))] = self.rng.getrandbits(48)

    def id_of_the_pool(self, ids, prefilled):
        """An id is that of a transaction of the pool that may be another one."""
        if ids and self.pool():
            ids[self.rng.randrange(len(ids))] = short_id(self.key, self.rng.choice(self.pool()).name)

    def past_the_end(self, ids, prefilled):
        prefilled[0] = (len(ids) + len(prefilled), prefilled[0][1])

    def past_64_bits(self, ids, prefilled):
        prefilled.append((WORD, prefilled[0][1]))

    def another_whole(self, ids, prefilled):
        prefilled[0] = (0, paying(self.mark(), [], [50]).text)

    def whole_of_64_bytes(self, ids, prefilled):
        prefilled[0] = (0, tx_of_64_bytes(self.mark()).text)

    # ---- what the session asked for

    def answer_places(self):
        """The transactions that are missing, or others."""
        rng, partial = self.rng, self.session.partial
        name = partial.header.name
        block = next((block for block in self.blocks if block.header.name == name), None)
        if block is None:
            return
        right = [block.txs[place].text for place in missing(partial.slots) if place < len(block.txs)]
        if rng.random() < 0.25:
            self.say(wire.headers([rng.choice(self.blocks).header.text]))
        wrong = [(1, name, right[1:]), (1, name, right + right[:1]), (1, name, [paying(self.mark(), [], [50]).text] * len(right)),
                 (1, name, right[::-1]), (1, rng.choice(self.names()), right), (1, name, None)]
        _, told, texts = rng.choices([(12, name, right), *wrong], [12, 1, 1, 1, 1, 1, 1])[0]
        self.say(wire.block(block.text) if texts is None else wire.blocktxn(told, texts))
        if texts is None or rng.random() < 0.15:
            # Nobody asks for these any more.
            self.say(wire.blocktxn(name, rng.choice([right, right[1:], right[:1] * len(right)])))

    def answer_request(self):
        """A block that is in flight, whole or as a compact one."""
        name = self.rng.choice(self.session.flight)
        block = next((block for block in self.blocks if block.header.name == name), None)
        if block is None or self.rng.random() < 0.05:
            self.say(wire.entries(b"notfound", [(self.rng.choice([2, 4, 1]), name)]))
        elif self.rng.random() < 0.4:
            self.tell_compact(block)
        else:
            self.give(block)

    def head_on_the_tip(self):
        """One header on the tip: its block is asked for, as a compact one of a peer that knows these."""
        block = self.made(self.tip())
        self.say(wire.headers([block.header.text]))

    # ---- what it is asked for

    def ask_compact(self):
        """Blocks near the tip and deeper as compact ones, and one that isn't there."""
        way = self.known()[::-1]
        names = [way[depth] for depth in self.rng.sample(range(9), 3) if depth < len(way)] + [NOBODY] * self.rng.randrange(2)
        self.say(wire.entries(b"getdata", [(4, name) for name in names]))

    def ask_places(self):
        """Places of a block near the tip or deeper, or of one that isn't there."""
        rng, way = self.rng, self.known()[::-1]
        name = way[min(rng.choice([0, 1, 2, 9, 10, 11, 12]), len(way) - 1)]
        count = len(self.shared.kept(name).txs)
        places = sorted(rng.sample(range(count), rng.randrange(1, count + 1)))
        steps = differences(places)
        if rng.random() < 0.06:
            steps = rng.choice([[count], [*steps, WORD], [0] * (count + 1)])
        self.say(wire.getblocktxn(NOBODY if rng.random() < 0.1 else name, steps))

    # ---- stories

    def many_headers(self):
        """Headers of more blocks than may be in flight, and compact blocks that fall back: one in flight, one wanted, and another."""
        blocks = [self.bare(self.tip())]
        for _ in range(18):
            blocks.append(self.bare(blocks[-1].header.name))
        self.say(wire.headers([block.header.text for block in blocks]))
        for block in (blocks[0], blocks[17], self.bare(self.tip())):
            if self.rng.random() < 0.7:
                self.say(self.compact(block, (0,), self.repeat_an_id))

    def headers_twice(self):
        """A block in flight and one wanted, which is told as a compact one: it falls back, or the first is rebuilt."""
        first = self.made(self.tip(), 0)
        second = self.bare(first.header.name)
        self.say(wire.headers([first.header.text]))
        self.say(wire.headers([first.header.text, second.header.text]))
        if self.rng.random() < 0.5:
            self.say(self.compact(second, (0,), self.repeat_an_id))
        else:
            self.say(self.compact(first))

    def overtaken(self):
        """A branch beside the chain, whose last block comes in two parts, while another block is heard of."""
        depth = self.rng.choice([1, 2, 7, 8])
        for _ in range(depth - self.shared.height()):
            self.give(self.bare(self.tip()))
        if self.closed:
            return
        prev = self.known()[-1 - depth]
        for _ in range(depth):
            prev = self.bare(prev).header.name
            self.give(self.blocks[-1])
        last = self.bare(prev)
        self.say(self.compact(last, ()))
        self.say(wire.headers([self.blocks[0].header.text]))
        self.say(wire.blocktxn(last.header.name, [last.txs[0].text]))

    def marked(self):
        """A block that can't be connected is rebuilt, which isn't held against its sender; then it comes again, and one on it."""
        bad = self.faulty(self.tip())
        above = self.bare(bad.header.name)
        places = tuple(range(len(bad.txs)))
        if self.rng.random() < 0.5:
            self.say(wire.headers([bad.header.text, above.header.text]))
        self.say(self.compact(bad, places))
        self.say(self.compact(bad, places))
        self.say(self.compact(above))

    def asked_twice(self):
        """Blocks on one that isn't known are told in all ways. The headers that are asked for come between, or none do, or those of others."""
        known, below = self.made(self.tip(), 0), self.bare(self.tip())
        above = [self.bare(below.header.name)]
        above.append(self.bare(above[0].header.name))
        for _ in range(self.rng.randrange(2, 9)):
            block = self.rng.choice(above)
            ways = [lambda: self.compact(block), lambda: wire.headers([block.header.text]), lambda: wire.block(block.text),
                    lambda: wire.entries(b"inv", [(2, block.header.name)]), lambda: wire.headers([]), lambda: wire.headers([known.header.text]),
                    lambda: hello(self.rng.choice([b"\0", b"\1"]))]
            self.say(self.rng.choices(ways, [4, 2, 2, 2, 1, 1, 1])[0]())

    def children_first(self):
        """Headers of some blocks, which then come in no order, whole or as compact ones, while some are listed again and others fall back."""
        blocks = [self.bare(self.tip())]
        for _ in range(self.rng.choice([1, 2, 3, 18])):
            blocks.append(self.bare(blocks[-1].header.name))
        other = self.bare(self.tip())
        self.say(wire.headers([block.header.text for block in blocks]))
        for _ in range(2 * len(blocks)):
            block, start = self.rng.choice(blocks), self.rng.randrange(len(blocks))
            ways = [lambda: wire.block(block.text), lambda: self.compact(block), lambda: self.compact(block, (0,), self.repeat_an_id),
                    lambda: wire.headers([it.header.text for it in blocks[start : start + 4]]), lambda: wire.headers([other.header.text])]
            self.say(self.rng.choices(ways, [4, 4, 1, 1, 1])[0]())

    def put_back(self):
        """A block whose transactions go back to the pool, since a branch that hasn't them becomes longer."""
        first = self.tip()
        self.give(self.made(first, 2))
        for _ in range(2):
            first = self.bare(first).header.name
            self.give(self.blocks[-1])
