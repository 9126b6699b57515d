"""Stories in which a chain and its mempool change as they may, and conversations of them with `serve`: their growths are refused in
turn."""

from bench.models.plain_block import Block
from bench.tools.made_blocks import Marks
from bench.tools.relay_rows import block, compact, message, tx, worked

# How many transactions wait in the pool, of which the blocks that are put off have some.
POOL, PUT_OFF = 10, 2


# ---- stories; each gives what comes first, and then what is looked at


def overtaking(marks):
    """A block that extends the tip and spends, and three blocks that take the place of two."""
    low = marks.branch(None, 2)
    top = marks.on(low[-1], low[0].txs[0])
    second = marks.on(top)
    other = marks.branch(low[-1], 2)
    return low, [top, second, *other, marks.on(other[-1], low[1].txs[0], other[0].txs[0])]


def turning(marks):
    """Faulty blocks on a side branch's ends, the tip's extension between them, and turns to the branch and back. Which are faulty comes
    too."""
    main, side = marks.branch(None, 2), marks.branch(None, 1)
    side.append(marks.on(side[-1], side[0].txs[0]))
    first = marks.faulty_on(side[-1])
    main.append(marks.on(main[-1], main[0].txs[0]))
    ends = [marks.on(side[-1], side[1].txs[0]), marks.on(side[-1])]
    tried = [marks.faulty_on(end) for end in ends]
    turn = marks.on(ends[0], ends[0].txs[0])
    back = marks.branch(main[-1], 1)
    back.append(marks.on(back[-1], main[2].txs[0], back[0].txs[0]))
    again = marks.branch(turn, 2)
    last = marks.faulty_on(again[0])
    return [*main[:2], *side], [first, main[2], *ends, *tried, turn, *back, again[0], last, again[1]], [first, *tried, last]


def pool_put_off(marks):
    """Blocks that make coins, a pool that spends them, two blocks with two of the pool, two transactions that spend these, and three
    blocks that take the place of the two."""
    coins = marks.branch(None, POOL)
    pool = marks.paid(*(coin.txs[0] for coin in coins))
    off = []
    for spent in pool[:PUT_OFF]:
        off.append(Block((off or coins)[-1].header.name, [marks.coinbase(), spent]))
    return coins, pool, off, marks.paid(*pool[:PUT_OFF]), marks.branch(coins[-1], PUT_OFF + 1)


def put_off_later(marks):
    """A block that makes a coin, two transactions of which the second spends the first, a block with the first, and two blocks that put it
    off."""
    first = marks.on(None)
    [one] = marks.paid(first.txs[0])
    [other] = marks.paid(one)
    aside = marks.on(first)
    return first, (one, other), Block(first.header.name, [marks.coinbase(), one]), (aside, marks.on(aside))


# ---- conversations

ROWS = []


def whole(one):
    """A compact block of which nothing is missing. One that can't be connected isn't held against its sender."""
    return compact(one, ids=[], prefilled=[(0, it) for it in one.txs])


@worked("A block at the tip, and three blocks for two.", rows=ROWS)
def overtaken(row):
    low, others = overtaking(Marks())
    row.step("all of them", [block(it) for it in (*low, *others)])


@worked("Faulty blocks beside the tip, and turns to their branch and back.", rows=ROWS)
def faults_beside(row):
    low, others, faulty = turning(Marks())
    row.step("all of them", [whole(it) if it in faulty else block(it) for it in (*low, *others)])


@worked("Three blocks for two under a pool of ten.", rows=ROWS)
def pool_over_a_reorganisation(row):
    marks = Marks()
    coins, pool, off, spent, others = pool_put_off(marks)
    row.step("the blocks and the pool", [*map(block, coins), *map(tx, pool)])
    row.step("two blocks with two of the pool, and two transactions that spend these", [*map(block, off), *map(tx, spent)])
    row.step("three blocks for the two", [*map(block, others)])
    row.step("a compact block of the ten", [compact(Block(others[-1].header.name, [marks.coinbase(), *pool]))])


@worked("A block that is put off behind a checkpoint.", rows=ROWS)
def put_off_behind_a_checkpoint(row):
    """Large messages come between, before whose last the session's history begins anew, and the journal with it."""
    first, txs, second, others = put_off_later(Marks())
    row.step("a block, two transactions, and a block with one of them", [block(first), *map(tx, txs), block(second)])
    row.step("three large messages of no known command", [message("filler", bytes(4_000_000))] * 3)
    row.step("two blocks for the one", [*map(block, others)])
