"""Draws headers and blocks for one chain, most of which it takes, and stories of blocks that belong together; and plays them as records of
bench_chain, with the lines that a plain chain wants of them."""

import random
import struct
from collections import Counter

from bench.models.plain_block import MOST_MONEY, Block, Header, paying
from bench.models.plain_chain import PlainChain, connected
from bench.tools.basics import GENESIS, header_text, line
from bench.tools.made_blocks import NOBODY
from bench.tools.records import record

# So many blocks go off in a deep reorganisation.
DEEP = 25
# After so many calls all that came is compared, and after so many what follows a locator and the way to a block.
SWEEP, WAYS = 50, 8


class Drawing:
    """Draws calls for one chain, mostly such that they are taken: on the tip, and on a branch that leaves it deeper down."""

    def __init__(self, rng):
        self.rng = rng
        self.plain = PlainChain()
        self.blocks = []
        self.headers = []
        self.points = []
        self.branch = GENESIS
        self.marks = 0
        self.stories = Stories(self)

    def near(self, things, count):
        return self.rng.choice(things[-count:])

    def names(self):
        return [GENESIS] + [header.name for header in self.headers]

    def is_open(self, name):
        """Whether a block can stand on it; now and then it isn't asked."""
        return self.plain.has_block(name) and name not in self.plain.marked or self.rng.random() < 0.1

    def parent(self):
        dice = self.rng.randrange(40)
        if dice < 2:
            return self.near(self.names(), 30)
        if dice == 2:
            return NOBODY
        way = self.plain.way(self.plain.tip())
        if dice < 5 or not self.is_open(self.branch):
            self.branch = self.near(way, 1 + self.rng.choice([0, 2, 4, 12]))
        return self.branch if dice < 30 else way[-1]

    def point(self, prev):
        """An output to spend: mostly one that is unspent after the parent."""
        unspent = self.plain.unspent(prev)[0] if self.plain.has_block(prev) else None
        if unspent and self.rng.random() < 0.9:
            return self.near(list(unspent.items()), 30)
        return (self.near(self.points, 60), 50) if self.points else ((NOBODY, 0), 50)

    def spending(self, prev, mark):
        """A transaction that spends one or two outputs, and makes one or two of the same sum; now and then of more."""
        drawn = dict(self.point(prev) for _ in range(self.rng.choice([1, 1, 2])))
        worth = max(sum(drawn.values()), 1) + (1 if self.rng.random() < 0.04 else -self.rng.choice([0, 0, 1]))
        values = [worth] if self.rng.random() < 0.6 else [worth // 2, worth - worth // 2]
        return paying(mark, list(drawn), values)

    def mark(self):
        self.marks += 1
        return self.marks

    def txs(self, prev):
        mark, dice = self.mark(), self.rng.randrange(60)
        if dice == 0:
            return [paying(mark, [], [50]), paying(mark + 1_000_000, [], [50])]
        if dice == 1:
            return [paying(mark, [(NOBODY, 0)], [50])]
        if dice == 2:
            return [paying(mark, [], [self.rng.choice([-1, MOST_MONEY + 1])])]
        if dice == 3:
            return [paying(mark, [], [50]), paying(mark, [self.point(prev)[0]] * 2, [50])]
        if dice == 4 and self.rng.random() < 0.3:
            return [paying(mark, [], [50], bytes(1_000_000))]
        first = paying(max(mark - self.rng.randrange(6), 1) if dice < 10 else mark, [], [50])
        txs = [first]
        if dice >= 25:
            txs.append(self.spending(prev, mark))
        if dice >= 45:
            txs.append(paying(mark, [self.rng.choice(txs[-1].points())], [txs[-1].values[0]]))
        return txs

    def drawn(self, block):
        self.blocks.append(block)
        self.headers.append(block.header)
        self.points += [point for tx in block.txs for point in tx.points()]
        return block

    def made(self):
        """A block that is new, mostly."""
        prev = self.parent()
        block = self.drawn(Block(prev, self.txs(prev), self.rng.randrange(40) > 0))
        if prev == self.branch and self.rng.random() < 0.95:
            self.branch = block.header.name
        return block

    def call(self):
        """A header or a block: a story's next, a new one, a header before its block, a header alone, or one that was made before."""
        if self.rng.random() < 0.5:
            return self.drawn(self.stories.next())
        dice = self.rng.randrange(20)
        if dice == 0:
            header = Header(header_text(self.parent(), bytes([self.rng.randrange(256)]) * 32, self.rng.randrange(10) > 0))
            self.headers.append(header)
            return header
        if dice == 1 and self.headers:
            return self.near(self.headers, 40)
        if dice == 2 and self.blocks:
            return self.near(self.blocks, 40)
        return self.made().header if dice == 3 else self.made()


class Stories:
    """Blocks that belong together, with other calls between them. A story looks at the chain before each of its blocks."""

    def __init__(self, drawing):
        self.drawing, self.rng, self.plain = drawing, drawing.rng, drawing.plain
        self.story = self.raised(GENESIS, lambda: 2 * DEEP)
        # The ends of side branches of the stories so far.
        self.ends = []

    def next(self):
        for block in self.story:
            return block
        self.story = self.rng.choice([self.late_faults, self.faulty_ends, self.turns])()
        return next(self.story)

    def top(self):
        return self.plain.height(self.plain.tip())

    def fork(self, depths):
        """A block of the best chain, so deep; now and then an end of before."""
        if self.ends and self.rng.random() < 0.4:
            return self.drawing.near(self.ends, 6)
        way = self.plain.way(self.plain.tip())
        return way[-1 - min(self.rng.choice(depths), len(way) - 1)]

    def moved(self, prev, unspent):
        """The transactions of a block elsewhere, if they can be connected here, too."""
        block = Block(prev, self.drawing.near(self.drawing.blocks, 60).txs)
        can = block.fault() is None and connected(dict(unspent), block) is None
        return block if can and not self.plain.is_known(block.header.name) else None

    def whole(self, prev):
        """A block that can be connected where its parent can: such as stands elsewhere, or one that spends what is unspent."""
        mark, unspent = self.drawing.mark(), self.plain.unspent(prev)[0]
        block = self.moved(prev, unspent) if unspent and self.rng.random() < 0.3 else None
        if block is not None:
            return block
        txs = [paying(mark, [], [50])]
        if unspent and self.rng.random() < 0.7:
            point, value = self.drawing.near(list(unspent.items()), 30)
            txs.append(paying(mark, [point], [value // 2, value - value // 2]))
        return Block(prev, txs)

    def faulty(self, prev):
        """A block that can't be connected: it spends what isn't there, or the same twice, or more than there is."""
        mark, unspent = self.drawing.mark(), self.plain.unspent(prev)[0] or {}
        first = paying(mark, [], [50])
        spent, value = self.rng.choice([*unspent.items()][-30:] + [(first.points()[0], 50)])
        dice = self.rng.randrange(3)
        if dice == 0:
            return Block(prev, [first, paying(mark, [(NOBODY, mark)], [1])])
        if dice == 1:
            return Block(prev, [first, paying(mark, [spent], [value]), paying(mark + 1_000_000, [spent], [value])])
        return Block(prev, [first, paying(mark, [spent], [value + 1])])

    def raised(self, end, height):
        """Blocks on a branch until it is so high, and then its end."""
        while self.plain.height(end) < height():
            block = self.whole(end)
            yield block
            end = block.header.name
        return end

    def late_faults(self):
        """Faulty blocks low down, and on each so many that its branch is higher than the tip, unless it is met before."""
        low = self.fork([2, 5, 12])
        ends = []
        for _ in range(self.rng.randrange(1, 5)):
            block = self.faulty(low)
            yield block
            ends.append(block.header.name)
        for end in ends:
            while end not in self.plain.marked:
                block = self.whole(end)
                yield block
                end = block.header.name

    def faulty_ends(self):
        """Faulty blocks on ends that share a branch, each as high as the tip, which goes up between them."""
        stem = yield from self.raised(self.fork([2, 6, 12, 25]), lambda: self.top() - self.rng.randrange(12))
        ends = [stem] * self.rng.randrange(1, 4)
        for _ in range(self.rng.randrange(4, 10)):
            if self.rng.random() < 0.3:
                yield self.whole(self.plain.tip())
            i = self.rng.randrange(len(ends))
            ends[i] = yield from self.raised(ends[i], self.top)
            yield self.faulty(ends[i])
        self.ends += ends

    def turns(self):
        """Branches that overtake each other."""
        end = self.fork([2, 8, 30])
        for _ in range(self.rng.randrange(2, 6)):
            end = yield from self.raised(end, self.top)
            left = self.plain.tip()
            yield self.whole(end)
            end = left
        self.ends.append(end)


class ChainPlay:
    """One chain's records, the lines that are wanted of them, and what each line is an answer to."""

    def __init__(self, seed):
        self.drawing = Drawing(random.Random(seed))
        self.plain = self.drawing.plain
        self.records = [record(b"t")]
        self.wanted = []
        self.ended = Counter()
        self.deepest = 0

    def ask(self, kind, payload, wanted):
        self.records.append(record(kind, payload))
        self.wanted.append(wanted)

    def call(self):
        what = self.drawing.call()
        if isinstance(what, Header):
            ended = self.plain.take_header(what)
            self.ask(b"h", what.text, ended)
            self.ended[ended] += 1
        else:
            self.call_block(what)

    def call_block(self, block):
        tip, marked = self.plain.tip(), len(self.plain.marked)
        ended = self.plain.take_block(block)
        if isinstance(ended, tuple):
            off, on = ended
            self.deepest = max(self.deepest, len(off))
            self.ended["a deep reorganisation"] += len(off) >= DEEP
            ended = "a reorganisation" if off else "a higher tip" if on else "a block aside"
            self.ask(b"b", block.text, line("off", off) + line(" on", on))
        else:
            self.ask(b"b", block.text, ended)
            is_new = len(self.plain.marked) > marked
            self.ended["a fault beside the tip"] += is_new and block.fault() is None and block.header.prev != tip
            self.ended["a fault below"] += len(self.plain.marked) > marked + 1
        self.ended[ended] += 1

    def ask_tip(self):
        tip = self.plain.tip()
        self.ask(b"i", b"", line("tip", [tip]) + f" height {self.plain.height(tip)}")
        self.ask(b"l", b"", line("locator", self.plain.locator()))

    def ask_name(self, name):
        plain = self.plain
        height = f"height {plain.height(name)}" if plain.is_known(name) else "unknown"
        kept = plain.has_block(name) and name not in plain.marked
        lacks = not plain.has_block(name) and name not in plain.marked
        self.ask(b"n", name, line("", [name])[1:] + f" {height} kept {str(kept).lower()} lacks {str(lacks).lower()}")

    def ask_values(self, points):
        unspent = self.plain.unspent(self.plain.tip())[0]
        for txid, index in points:
            self.ask(b"v", txid + struct.pack("<I", index), f"value {unspent.get((txid, index), -1)}")

    def ask_ways(self, names):
        rng = self.drawing.rng
        locator, stop = [rng.choice(names) for _ in range(rng.randrange(4))], rng.choice(names)
        self.ask(b"f", stop + b"".join(locator), line("after", self.plain.after(locator, stop)))
        name = rng.choice(names)
        self.ask(b"p", name, line("path", self.plain.path(name)))

    def turn(self, number):
        """A call, and what is asked after it."""
        self.call()
        self.ask_tip()
        names, points = self.drawing.names() + [NOBODY], self.drawing.points
        if number % WAYS == WAYS - 1:
            self.ask_ways(names)
        sweep = number % SWEEP == SWEEP - 1
        for name in names if sweep else names[-4:]:
            self.ask_name(name)
        self.ask_values(points if sweep else points[-4:])

    def differences(self, ended):
        """The first line of the program's chain that isn't what is wanted."""
        told = ended.printed.decode("ascii", "replace").split("\n")
        if ended.failure:
            return [ended.failure]
        for place, wanted in enumerate(self.wanted):
            if place >= len(told) or told[place] != wanted:
                asked = self.records[place + 1]
                return [f"record {place + 1}, {asked[:1].decode()} {asked[5:85].hex()}: {told[place:place + 1]} for {wanted!r}"]
        return []
