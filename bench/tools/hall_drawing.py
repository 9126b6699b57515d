"""Draws calls of all kinds for one hall: headers, blocks and transactions, what peers ask, kicks and openings."""

import random
import struct

from bench.models.plain_block import MOST_MONEY, NULL_POINT, Block, Header, Tx, paying
from bench.models.plain_compact import differences, key_of, short_id
from bench.tools.basics import GENESIS, header_text
from bench.tools.chain_drawing import Drawing
from bench.tools.made_blocks import NOBODY

# Blocks aren't longer than this where calls are stored.
SHORT = 1_500
# The connections that ask are mostly of so many peers. Blocks are on one branch alone up to this height, and the journal has so many
# entries before it first begins anew.
ASKING, HIGH, EARLY = 6, 12, 100


def tx_of_64_bytes(mark=0x04030201):
    """A transaction of 64 bytes."""
    return Tx([((bytes([0x11]) * 32, 0), struct.pack("<I", mark))], [1], b"")


class Calls(Drawing):
    """Draws calls for one hall."""

    def __init__(self, play, seed, is_short):
        super().__init__(random.Random(seed))
        self.play, self.is_short = play, is_short
        self.stories.story = self.stories.raised(GENESIS, lambda: HIGH)
        self.pooled, self.odd = [], 0

    # ---- who asks

    def connection(self):
        """One that isn't kicked, mostly the latest of one of a few peers."""
        hall = self.play.hall
        ones = hall.connections if self.rng.random() < 0.1 else [hall.now.latest(peer) for peer in range(ASKING)]
        return self.rng.choice([one for one in ones if one not in hall.now.kicked] or [hall.now.latest(ASKING)])

    def any_connection(self):
        """Now and then a kicked one."""
        kicked = sorted(self.play.hall.now.kicked)
        return self.rng.choice(kicked) if kicked and self.rng.random() < 0.1 else self.connection()

    # ---- transactions

    def coin(self):
        """A point and its value, unspent behind the pool."""
        unspent = self.play.hall.now.unspent_behind()
        return self.near(list(unspent.items()), 20) if unspent else ((NOBODY, 0), 50)

    def odd_tx(self):
        """A transaction that breaks a rule, each time another one."""
        mark, (point, value) = self.mark(), self.coin()
        script = struct.pack("<I", mark)
        makers = [lambda: Tx([], [50]), lambda: Tx([(point, script)], []), lambda: paying(mark, [point], [-1]),
                  lambda: paying(mark, [point], [MOST_MONEY, 1]), lambda: paying(mark, [point, point], [1]),
                  lambda: Tx([(NULL_POINT, script[:1])], [50]), lambda: Tx([(point, script), (NULL_POINT, script)], [1]),
                  lambda: tx_of_64_bytes(mark), lambda: paying(mark, [], [50]), lambda: paying(mark, [(NOBODY, mark)], [1]),
                  lambda: paying(mark, [point], [value + 1])]
        if not self.is_short:
            makers.append(lambda: Tx([(point, script)], [1], bytes(1_000_000)))
        self.odd += 1
        return makers[(self.odd - 1) % len(makers)]()

    def tx(self):
        dice, pool = self.rng.random(), self.play.hall.now.pool
        if dice < 0.35:
            return self.odd_tx()
        if dice < 0.45 and pool:
            return self.rng.choice(pool)[0]
        if dice < 0.5 and self.pooled:
            return self.near(self.pooled, 30)
        coins = dict(self.coin() for _ in range(self.rng.choice([1, 1, 2])))
        worth = max(sum(coins.values()), 1)
        self.pooled.append(paying(self.mark(), list(coins), [worth] if self.rng.random() < 0.5 else [worth // 2, worth - worth // 2]))
        return self.pooled[-1]

    # ---- blocks

    def txs(self, prev):
        """As ever, and sometimes some of the pool's."""
        txs, pool = super().txs(prev), [tx for tx, _ in self.play.hall.now.pool]
        while self.is_short and sum(len(tx.text) for tx in txs) > SHORT:
            txs = super().txs(prev)
        if pool and self.rng.random() < 0.3:
            txs = [paying(self.mark(), [], [50])] + pool[:self.rng.randrange(1, 4)]
        return txs

    # ---- names

    def entries(self):
        """Entries of all types, some of them twice."""
        now, rng = self.play.hall.now, self.rng
        names = [(2, rng.choice(self.names() + [NOBODY])) for _ in range(rng.randrange(4))]
        names += [(4, self.near(self.plain.way(now.tip()), 9)) for _ in range(rng.randrange(3))]
        names += [(1, tx.name) for tx, _ in now.pool[:rng.randrange(3)]] + [(1, NOBODY)] * rng.randrange(2)
        names += [(rng.choice([0, 3, 5, 0x4000_0002]), rng.choice(self.names()))] * rng.randrange(2)
        rng.shuffle(names)
        return names + names[:rng.randrange(2)]

    def told_tip(self):
        """A tip that was told: none, one so far below the tip, or one of a branch."""
        way = self.plain.way(self.play.hall.now.tip())
        dice = self.rng.randrange(10)
        if dice == 0:
            return None
        if dice < 5:
            return way[-1 - min(self.rng.choice([0, 1, 1, 2, 8, 8, 9, 9]), len(way) - 1)]
        return self.rng.choice(self.names() + [NOBODY])


class Generated:
    """Generated calls of one hall."""

    def __init__(self, play, seed, is_short):
        self.play, self.rng = play, random.Random(f"kinds {seed}")
        self.calls, self.odd = Calls(play, seed, is_short), 0
        self.kinds = [(30, self.give), (15, self.give_tx), (4, self.extend), (1, self.mine), (7, self.news), (4, self.want), (5, self.serve), (4, self.places), (4, self.match), (1, self.pairs),
                      (3, self.after), (2, self.locator), (2, self.admit), (4, self.heads), (1, self.kick), (2, self.open), (1, self.remade),
                      (1, self.overspent), (2, self.odd_block), (1, self.orphaned), (2, self.overtake), (2, self.checkpoint), (1, self.again), (2, self.replay), (1, self.counts), (2, self.repeat)]

    def meet(self, name, is_met=True):
        self.play.met[name] += bool(is_met)

    def turn(self):
        """A call, and how the hall stands then."""
        weights, kinds = zip(*self.kinds)
        self.calls.plain = self.calls.stories.plain = self.play.hall.now.chain
        self.rng.choices(kinds, weights)[0]()
        self.play.call("look")

    def ask(self, *question):
        """A question; a block comes from nobody that is kicked, since others build on it."""
        connection = self.calls.connection() if question[0] in ("block", "headers") else self.calls.any_connection()
        now = self.play.hall.now
        self.meet("a question of a kicked connection", connection in now.kicked)
        self.meet("of an older connection", connection != now.latest(connection[0]) and connection not in now.kicked)
        return self.play.ask(connection, *question)

    # ---- blocks and headers

    def give(self):
        what = self.calls.call()
        if isinstance(what, Header):
            self.tell_heads([what])
        else:
            self.give_block(what)

    def give_block(self, block):
        old = self.play.hall.now
        if self.rng.random() < 0.1:
            told = self.play.submit("block", block)
            self.meet("handed in")
        else:
            capable = self.rng.random() < 0.5
            told = self.ask("block", block, capable)
        now = self.play.hall.now
        if not told.startswith("block -"):
            self.meet(told.split(" locator")[0])
            return
        self.meet("a block taken")
        if now.tip() != old.tip():
            self.meet("a capable peer's tip" if now.announcers != old.announcers else "another peer's tip")
            self.meet("an announcer that leaves", set(old.announcers) - set(now.announcers))
            self.meet("a reorganisation", now.chain.headers[now.tip()].prev != old.tip())
            before, after = ({tx.name for tx, _ in shared.pool} for shared in (old, now))
            self.meet("a transaction back in the pool", after - before)
            self.meet("a transaction out of the pool", before - after)

    def extend(self):
        self.play.call("extend", self.rng.randrange(256))
        self.meet("mined and handed in")

    def mine(self):
        self.play.call("mine", self.rng.randrange(256))
        self.meet("mined")

    def heads(self):
        """Some headers that are known or new, one of a new block among them."""
        calls = self.calls
        headers = [calls.near(calls.headers, 20) for _ in range(self.rng.randrange(4)) if calls.headers]
        if self.rng.random() < 0.7:
            headers.append(calls.drawn(Block(self.play.hall.now.tip(), [paying(calls.mark(), [], [50])])).header)
        if self.rng.random() < 0.1:
            headers.append(Header(header_text(self.play.hall.now.tip(), NOBODY, False)))
        self.tell_heads(headers + [calls.near(calls.headers, 5)] if calls.headers else headers)

    def tell_heads(self, headers):
        told = self.ask("headers", headers)
        if told.startswith("heads"):
            refused = told.removeprefix("heads ").split(" lack")[0]
            self.meet("headers taken" if refused == "-" else f"headers {refused}")

    # ---- transactions

    def give_tx(self):
        tx = self.calls.tx()
        told = self.play.submit("tx", tx) if self.rng.random() < 0.1 else self.ask("tx", tx)
        if told.startswith("tx"):
            self.meet("a transaction taken" if told == "tx -" else told)

    def remade(self):
        """A coinbase whose output is spent comes once more, and then what spent it, and the coinbase a third time."""
        calls = self.calls
        first, point = paying(calls.mark(), [], [50]), None
        point = (first.name, 0)
        spending = paying(calls.mark(), [point], [50])
        for txs in ([first], [paying(calls.mark(), [], [50]), spending], [first]):
            self.give_block(calls.drawn(Block(self.play.hall.now.tip(), txs)))
        self.meet(self.play.submit("tx", spending))
        self.give_block(calls.drawn(Block(self.play.hall.now.tip(), [first])))

    def overtake(self):
        """One block more than stands above a block near the tip, one on another."""
        calls, depth = self.calls, self.rng.randrange(1, 4)
        way = calls.plain.way(self.play.hall.now.tip())
        prev = way[max(len(way) - 1 - depth, 0)]
        for _ in range(depth + 1):
            block = calls.drawn(Block(prev, [paying(calls.mark(), [], [50])]))
            self.give_block(block)
            prev = block.header.name

    def odd_block(self):
        """A block on the tip that breaks a rule by itself, each time another one."""
        calls = self.calls
        first, (point, _) = paying(calls.mark(), [], [50]), calls.coin()
        kinds = [[first, paying(calls.mark(), [], [50])], [paying(calls.mark(), [], [-1])], [first, paying(calls.mark(), [point, point], [1])]]
        if not calls.is_short:
            kinds.append([paying(calls.mark(), [], [50], bytes(1_000_000))])
        self.odd += 1
        self.give_block(calls.drawn(Block(self.play.hall.now.tip(), kinds[self.odd % len(kinds)])))

    def orphaned(self):
        """A block whose parent isn't there, and its header."""
        block = self.calls.drawn(Block(NOBODY, [paying(self.calls.mark(), [], [50])]))
        self.give_block(block)
        self.tell_heads([block.header])

    def overspent(self):
        """A block on the tip that spends more than there is, and then a header and a block on it."""
        calls = self.calls
        first = paying(calls.mark(), [], [50])
        faulty = calls.drawn(Block(self.play.hall.now.tip(), [first, paying(calls.mark(), [(first.name, 0)], [51])]))
        self.give_block(faulty)
        above = Block(faulty.header.name, [paying(calls.mark(), [], [50])])
        self.tell_heads([above.header])
        self.give_block(above)

    # ---- what peers ask

    def news(self):
        now, tip = self.play.hall.now, self.calls.told_tip()
        told = self.ask("news", tip, self.rng.randrange(now.next + 2), self.rng.random() < 0.7)
        if told.startswith("news"):
            way = now.chain.path(tip) if tip is not None else []
            self.meet("a way of 8", len(way) == 8)
            self.meet("a way of 9", len(way) == 9)
            self.meet("a block told whole", " block " in told)

    def want(self):
        """Now and then a block is wanted alone whose header stands on the tip."""
        calls, entries = self.calls, self.calls.entries()
        if self.rng.random() < 0.4:
            block = calls.drawn(Block(self.play.hall.now.tip(), [paying(calls.mark(), [], [50])]))
            self.tell_heads([block.header])
            entries = [entry for entry in entries if entry[0] != 2] + [(2, block.header.name)]
        told = self.ask("want", entries)
        self.meet("near", " near true" in told)

    def serve(self):
        now = self.play.hall.now
        way = now.chain.way(now.tip())
        entries = self.calls.entries()
        for depth, name in ((5, "short at 5"), (6, "whole at 6")):
            if len(way) > depth and self.rng.random() < 0.5:
                entries.append((4, way[-1 - depth]))
                self.meet(name)
        self.ask("items", entries)

    def places(self):
        """Of a block near the tip, of one ten or eleven below it, or of one of a branch; now and then one place too many."""
        now, rng = self.play.hall.now, self.rng
        way = now.chain.way(now.tip())
        name = rng.choice([self.calls.near(way, 9), rng.choice(self.calls.names() + [NOBODY])])
        depth = rng.choice([10, 11, None, None])
        if depth is not None and len(way) > depth:
            name = way[-1 - depth]
        count = len(now.chain.kept[name].txs) if name in now.chain.kept else 1
        places = sorted(rng.sample(range(count), rng.randrange(count + 1)))
        told = self.ask("places", name, differences(places) + [0] * (rng.random() < 0.2))
        word = "refused" if told.startswith("places") else told.split()[0]
        self.meet(f"places told as {word}")
        self.meet(f"places {word} at {depth}", depth is not None and len(way) > depth)

    def match(self):
        """Some of the pool by their ids, and an id that is none's."""
        now, rng = self.play.hall.now, self.rng
        nonce = rng.randrange(1 << 64)
        header = self.calls.near(self.calls.headers, 5).text if self.calls.headers else bytes(80)
        key = key_of(header, nonce)
        ids = [short_id(key, tx.name) for tx, _ in now.pool if rng.random() < 0.6] + [rng.randrange(1 << 48)]
        rng.shuffle(ids)
        told = self.ask("match", header, nonce, ids + ids[:rng.randrange(2)])
        self.meet("pairs of several", len(told.split()) > 3)

    def pairs(self):
        self.meet("pairs of a pool that was", len(self.play.call("last_pairs").split()) > 2)

    def after(self):
        names = self.calls.names() + [NOBODY]
        self.ask("after", [self.rng.choice(names) for _ in range(self.rng.randrange(4))], self.rng.choice(names))

    def locator(self):
        self.ask("locator")

    def admit(self):
        self.ask("admit")

    # ---- peers, and the journal

    def kick(self):
        self.play.call("kick", self.rng.randrange(ASKING))

    def open(self):
        peer, now = self.rng.randrange(ASKING), self.play.hall.now
        self.meet("an opened announcer", now.latest(peer) in now.announcers)
        self.play.call("open", peer)

    def checkpoint(self):
        """Not at first, since then there is nothing to replay any more."""
        if len(self.play.hall.calls) >= EARLY:
            self.play.call("checkpoint")
            self.meet("a journal that begins anew")

    def again(self):
        self.play.call("again")
        self.meet("computed again")

    def replay(self):
        self.meet("replayed", self.play.call("replay") != "replay of a part")

    def counts(self):
        self.play.call("counts")

    def repeat(self):
        """A call a few times, of which no line is printed."""
        now, calls = self.play.hall.now, self.calls
        questions = [("admit",), ("locator",), ("tx", calls.tx()), ("want", calls.entries()), ("items", calls.entries()), ("news", None, 0, False), ("match", bytes(80), 1, [2]), ("places", now.tip(), [0]),
                     ("block", calls.drawn(Block(now.tip(), [paying(calls.mark(), [], [50])])), True)]
        self.play.ask_often(self.rng.randrange(4), calls.any_connection(), *self.rng.choice(questions))
        self.meet("repeated")
