"""Scripts for `cbrelay run`, drawn at random, with what has to come of each line.

A script is played beside a plain model of what its nodes know. Where the order of threads decides whether a node refuses something, the
model tells both.
"""

from collections import Counter

from bench.models.plain_block import Block, paying
from bench.tools.basics import GENESIS
from bench.tools.made_blocks import GIVEN, coinbase, mined

# The first slot with which a node connects.
OUTBOUND = 32
# A transaction of 64 bytes.
SIZE_64 = "0100000001" + "11" * 32 + "000000000401020304ffffffff010100000000000000" + "00" * 5
SHAPES = ("line", "ring", "star", "tree")


def edges(rng, shape, count):
    """The links of so many nodes in this shape, each in a direction that is drawn."""
    pairs = {
        "line": [(node, node + 1) for node in range(count - 1)],
        "ring": [(node, (node + 1) % count) for node in range(count)],
        "star": [(0, node) for node in range(1, count)],
        "tree": [(rng.randrange(node), node) for node in range(1, count)],
    }[shape]
    return [pair if rng.random() < 0.5 else pair[::-1] for pair in pairs]


class Script:
    """The lines of a script, and beside each what may be printed for it."""

    def __init__(self, rng, count):
        self.rng, self.count = rng, count
        self.lines, self.wanted = [], []
        self.used = Counter()
        self.height = 0

    def add(self, line, *told):
        """One line more. One of these is told of it; nothing where there are none."""
        self.lines.append(line)
        self.wanted.append(told or (None,))

    def link(self, first, second):
        """Links two nodes. The link comes back: each node with its slot."""
        ends = [(first, OUTBOUND + self.used[first, "out"]), (second, self.used[second, "in"])]
        self.used[first, "out"] += 1
        self.used[second, "in"] += 1
        self.add(f"link {first} {second}")
        return ends

    def kick(self, link):
        """One of the two kicks the other."""
        node, slot = self.rng.choice(link)
        self.add(f"kick {node} {slot}")

    def mine(self, node, height):
        """A node mines a block, which has this height. Its coinbase comes back."""
        self.add(f"mine {node}")
        return coinbase(height, node)

    def give_tx(self, node, tx, *told):
        self.add(f"tx {node} {tx.text.hex()}", *told)

    def give_block(self, node, block, *told):
        self.add(f"block {node} {block.text.hex()}", *told)

    def text(self):
        return "".join(f"{line}\n" for line in self.lines).encode()


class Play(Script):
    """A script of linked nodes that come to one tip in the end."""

    STEPS = (
        "grow", "grow", "spend", "spend", "spend_twice", "part", "part", "relink", "relink", "checkpoint", "branch",
        "refuse_size", "refuse_work", "refuse_known", "refuse_orphan",
    )

    def __init__(self, rng):
        super().__init__(rng, rng.randrange(2, 9))
        self.links = [self.link(*pair) for pair in edges(rng, rng.choice(SHAPES if self.count > 2 else SHAPES[:1]), self.count)]
        self.outputs, self.given = [], []
        self.begin()
        for _ in range(rng.randrange(4, 12)):
            getattr(self, rng.choice(self.STEPS))()
        self.end()

    def node(self):
        return self.rng.randrange(self.count)

    def begin(self):
        """Some blocks that no node mined."""
        name, node = GENESIS, self.node()
        for height in range(1, self.rng.randrange(2, 6)):
            block = mined(name, height, GIVEN)
            self.give_block(node, block)
            self.given.append(block)
            self.outputs.append((block.txs[0], 0))
            name = block.header.name
        self.height = len(self.given)
        self.add("wait")

    def end(self):
        """A last block is mined alone, and waited for."""
        self.add("wait")
        self.height += 1
        self.mine(self.node(), self.height)
        self.add("wait")

    # ---- blocks

    def grow(self):
        """A block, which comes to all."""
        self.height += 1
        self.outputs.append((self.mine(self.node(), self.height), 0))
        self.add("wait")

    def branch(self):
        """A block beside the chain, which nobody takes for a tip."""
        name = self.rng.choice([GENESIS] + [block.header.name for block in self.given[:-1]])
        height = 1 + sum(block.header.name == name for block in self.given)
        self.give_block(self.node(), Block(name, [coinbase(height + self.rng.randrange(1 << 30), GIVEN)]))

    def part(self):
        """A node is cut off. Both sides grow, and the higher one is all nodes' in the end."""
        lone = self.node()
        cut = [link for link in self.links if lone in (link[0][0], link[1][0])]
        for link in cut:
            self.kick(link)
        side = self.rng.choice([node for node in range(self.count) if node != lone])
        near, far = self.rng.sample(range(1, self.rng.choice((4, 4, 25))), 2)
        tops = [[self.mine(node, self.height + step + 1) for step in range(size)] for node, size in ((lone, near), (side, far))]
        self.links = [link for link in self.links if link not in cut] + [self.again(link) for link in cut]
        self.height += max(near, far)
        self.outputs += [(tx, 0) for tx in max(tops, key=len)]
        self.add("wait")

    def again(self, link):
        """The same nodes, linked once more."""
        pair = [node for node, _ in link]
        return self.link(*(pair if self.rng.random() < 0.5 else pair[::-1]))

    def relink(self):
        """A link is cut and made again at once."""
        place = self.rng.randrange(len(self.links))
        self.kick(self.links[place])
        self.links[place] = self.again(self.links[place])

    def checkpoint(self):
        self.add(f"checkpoint {self.node()}")

    # ---- transactions

    def output(self):
        """An output that nobody spent, and its worth; a block is mined for it if there is none."""
        if not self.outputs:
            self.grow()
        tx, index = self.outputs.pop(self.rng.randrange(len(self.outputs)))
        return (tx.name, index), tx.values[index]

    def spend(self):
        """A chain of transactions, given to one node."""
        point, worth = self.output()
        node = self.node()
        for _ in range(self.rng.randrange(1, 4)):
            tx = paying(self.rng.randrange(1 << 32), [point], [worth - 2, 1])
            self.give_tx(node, tx)
            point, worth = (tx.name, 0), worth - 2

    def spend_twice(self):
        """Two transactions that spend one output: the second is refused where its node has the first."""
        point, worth = self.output()
        first, second = (paying(mark, [point], [worth - mark - 1]) for mark in range(2))
        one, other = self.node(), self.node()
        self.give_tx(one, first)
        self.give_tx(other, second, *(["F19 NoInput"] if one == other else [None, "F19 NoInput"]))

    # ---- what is refused

    def refuse_size(self):
        self.add(f"tx {self.node()} {SIZE_64}", "F8 Size64")

    def refuse_work(self):
        self.give_block(self.node(), Block(GENESIS, [coinbase(1, GIVEN + 1)], False), "F11 BadWork")

    def refuse_known(self):
        self.give_block(self.node(), self.rng.choice(self.given), "F18 Known")

    def refuse_orphan(self):
        self.give_block(self.node(), Block(bytes([7]) * 32, [coinbase(1, GIVEN)]), "F23 NoParent")


def complaints(play, status, printed):
    """What a run of a script printed otherwise than it should."""
    lines = printed.decode().splitlines()
    told = dict(line.split(" ", 1) for line in lines if line.split(" ", 1)[0].isdigit())
    got = [told.pop(str(number), None) for number in range(1, len(play.lines) + 1)]
    found = [f"line {number} ({play.lines[number - 1][:40]}): {it}, not {' or '.join(map(str, wanted))}"
             for number, (it, wanted) in enumerate(zip(got, play.wanted), 1) if it not in wanted]
    reports = [line.split() for line in lines if line.startswith("node ")]
    if told or [report[1] for report in reports] != [str(node) for node in range(play.count)]:
        return found + [f"{len(reports)} reports, {len(told)} lines that aren't there"]
    columns = list(zip(*reports))
    if set(columns[3]) != {str(play.height)}:
        found.append(f"heights {set(columns[3])}, not {play.height}")
    if len(set(columns[5])) != 1:
        found.append("more than one tip")
    if set(columns[9]) != {"yes"}:
        found.append("an audit says no")
    if status != (2 if any(got) else 0):
        found.append(f"status {status}")
    return found
