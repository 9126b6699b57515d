#!/usr/bin/env python3
"""Plays generated calls into a hall, and compares what it answers with a plain hall in Python:
python3 bench/looks/hall_calls.py [COUNT] [SEED], or --store

Without words 1,200 calls from seed 1, in a checked build of bench_hall, which also plays its stored runs. The plain hall
(bench/models/plain_hall.py) was written apart from the program, from the rules in docs/PROTOCOL.md. Worked rows come first, and then
calls of all kinds: headers and blocks of branches that overtake each other, faulty ones, transactions, what peers ask, kicks and
openings; only those of the first 400 have large blocks. The same build tells what calls cost that may cost much, as ratios
(bench/tools/hall_costs.py): none may be above 5. With `--store` nothing is played: the examples and a few hundred calls are written
to bench/programs/bench_hall/stdin, and what the plain hall answers to bench/programs/bench_hall/stdout.
"""

import struct
import sys
from collections import Counter
from pathlib import Path

sys.path.insert(0, str(Path(__file__).resolve().parents[2]))

from bench.models.plain_block import Block, Header, paying
from bench.models.plain_compact import key_of, short_id
from bench.tools.basics import GENESIS, header_text, shown
from bench.tools.hall_costs import CHECKED, LIMIT, SMALL, all_rows, header_plays, shared, told, told_memory
from bench.tools.hall_drawing import Generated, tx_of_64_bytes
from bench.tools.hall_play import HallPlay, question_text, repeated
from bench.tools.made_blocks import NOBODY
from bench.tools.programs import Case, run_checked, stored_cases, usage, write_stored_run
from bench.tools.records import record

# So many calls go to one hall. So many are stored, from this seed.
CALLS, STORED, STORED_SEED = 400, 300, 69
# What a full run has.
COUNT = 3 * CALLS
# The first block's hash, as it is shown.
FIRST = "0f9188f13cb7b2c71f2a335e3a4fc328bf5beb436012afca590b1a11466e2206"
# Fewer processor seconds than these, or than this part of what comes before a call, can't be told from noise.
LEAST, PART = 0.2, 0.5
# The bytes of memory that a block which is asked for again and again may take beyond a small one: copies take 200 MB and more.
MORE = 50_000_000
# With this entry more a journal begins anew.
MOST_ENTRIES = 1_000_000
REFUSED_TXS = ["F5 BadTx 1", "F5 BadTx 2", "F5 BadTx 4", "F5 BadTx 5", "F5 BadTx 6", "F5 BadTx 7", "F5 BadTx 8", "F8 Size64",
               "F10 BadCoinbase", "F18 Known", "F19 NoInput", "F21 Overspent", "F22 Remade"]
REFUSED_BLOCKS = ["F11 BadWork", "F18 Known", "F19 NoInput", "F21 Overspent", "F22 Remade", "F23 NoParent", "F24 BadParent"]
# What a run has to meet, and what only a full run has to.
MET = {f"tx {fault}" for fault in REFUSED_TXS} | {f"block {fault}" for fault in REFUSED_BLOCKS} | {
    "a transaction taken", "a block taken", "a capable peer's tip", "another peer's tip", "a reorganisation", "a transaction back in the pool",
    "a transaction out of the pool", "headers F23 NoParent", "headers taken", "a way of 8", "a way of 9", "a block told whole", "short at 5",
    "whole at 6", "near", "a question of a kicked connection", "of an older connection", "an announcer that leaves", "an opened announcer",
    "a journal that begins anew", "computed again", "replayed", "mined", "mined and handed in", "handed in", "repeated", "places told as part", "places told as whole", "places told as absent",
    "places told as refused", "places part at 10", "places whole at 11", "pairs of several", "pairs of a pool that was"}
MET_IN_FULL = MET | {"tx F5 BadTx 3", "block F5 BadTx 4", "block F5 BadTx 6", "block F10 BadCoinbase", "block F13 Oversize", "headers F11 BadWork",
                     "headers F24 BadParent"}


# ---- worked examples


def expect(told, wanted):
    if told != wanted:
        sys.exit(f"the plain hall tells {told!r}, and should tell {wanted!r}")


def chained(play, prev, marks, connection=(0, 1), capable=False, spent=()):
    """Blocks one on another, given by a connection; the first one also has these transactions."""
    blocks = []
    for mark in marks:
        blocks.append(Block(prev, [paying(mark, [], [50]), *spent]))
        prev, spent = blocks[-1].header.name, ()
        expect(play.ask(connection, "block", blocks[-1], capable), "block - locator")
    return blocks


def pool_words(told):
    """What is told of the pool: the names, the next number and whether the peer is an announcer."""
    return told[told.index(" txids"):]


def names_text(txs):
    return "".join(f" {shown(tx.name)}" for tx in txs)


def row_a_pool_over_a_reorganisation(play):
    """t spends what the first block makes, and u what t makes. A block with t leaves u alone, and goes off again."""
    [first] = chained(play, GENESIS, [1])
    t = paying(1, [(first.txs[0].name, 0)], [50])
    u = paying(2, [(t.name, 0)], [50])
    for tx in (t, u):
        expect(play.ask((0, 1), "tx", tx), "tx -")
    expect(pool_words(play.ask((1, 1), "news", None, 0, False)), f" txids{names_text([t, u])} next 2 high false")
    chained(play, first.header.name, [2], spent=[t])
    expect(pool_words(play.ask((1, 1), "news", None, 0, False)), f" txids{names_text([u])} next 2 high false")
    chained(play, first.header.name, [3, 4])
    expect(pool_words(play.ask((1, 1), "news", None, 0, False)), f" txids{names_text([t, u])} next 3 high false")
    expect(pool_words(play.ask((1, 1), "news", None, 2, False)), f" txids{names_text([t])} next 3 high false")
    play.call("look")


def row_b_first_block_made(play):
    """A new hall makes a block with the mark 7."""
    told = play.call("mine", 7)
    expect(told[told.index(" 147"):], " 147 txs 1 time 1296688603 script 0100000007 size 66")
    expect(play.call("extend", 7), "block - locator")
    expect(play.call("look")[:20], "look height 1 pool 0")


def row_c_kicked(play):
    """A kicked peer is told so, and nobody else."""
    play.call("kick", 0)
    expect(play.ask((0, 1), "locator"), "kicked")
    expect(play.call("counts")[0:9], "journal 2")
    expect(play.ask((1, 1), "locator"), f"locator {FIRST}")
    expect(play.call("replay"), f"replay journal 3 {play.call('look')}")


def kicked_and_opened_again(play):
    """A kicked peer connects again, and all is the same if it is computed again, also behind a checkpoint."""
    expect(play.ask((1, 1), "admit"), "go")
    play.call("kick", 1)
    expect(play.ask((1, 1), "locator"), "kicked")
    expect(play.ask((0, 1), "locator"), f"locator {FIRST}")
    expect(play.call("open", 1), "opened 1.2")
    expect(play.ask((1, 2), "admit"), "go")
    expect(play.call("again"), "again journal 6 answers 4 same true")
    play.call("checkpoint")
    expect(play.call("counts"), "journal 0 0.1 1 1 1 false 1.1 2 2 2 true 1.2 1 1 1 false")
    expect(play.call("again"), "again journal 0 answers 0 same true")


def wanted_once(play):
    """An unknown transaction and an unknown block are wanted once, and a compact block isn't."""
    tx, block = (1, bytes([1]) * 32), (2, bytes([2]) * 32)
    told = play.ask((0, 1), "want", [tx, block, tx, (4, block[1]), block])
    expect(told, f"need 1 {'01' * 32} 2 {'02' * 32} near false locator {FIRST}")


def served_of_a_new_hall(play):
    """The first block whole, or as a compact one; nothing for another type; and what isn't there."""
    told = play.ask((0, 1), "items", [(2, GENESIS), (4, GENESIS), (9, GENESIS), (1, bytes([1]) * 32)])
    expect(told, f"served whole {FIRST} 285 short {FIRST} 285 lacking 1 {'01' * 32}")


def nothing_is_new(play):
    expect(play.ask((1, 1), "news", GENESIS, 0, True), f"news {FIRST} path long false txids next 0 high false")


def row_8_refused_for_its_size(play):
    expect(play.ask((0, 1), "tx", tx_of_64_bytes()), "tx F8 Size64")


def row_13_compact_near_the_tip(play):
    """At height 12 the block at height 7 is served as a compact one, the one at 6 whole."""
    blocks = chained(play, GENESIS, range(1, 13))
    for height, word in ((7, "short"), (6, "whole")):
        expect(play.ask((0, 1), "items", [(4, blocks[height - 1].header.name)])[6:12], f" {word}")


def row_13_parts_near_the_tip(play):
    """At height 12 the transactions of the block at height 2 are served alone, of the one at height 1 the whole block. A place that
    isn't one of the block's is refused at any height, and of a block that isn't there nothing is served."""
    blocks = chained(play, GENESIS, range(1, 13))
    for height, word in ((2, "part"), (1, "whole")):
        name = blocks[height - 1].header.name
        told = f"{word} {shown(name)} "
        expect(play.ask((0, 1), "places", name, [0])[:len(told)], told)
        for places in ([1], [0, 0], [0, (1 << 64) - 1]):
            expect(play.ask((0, 1), "places", name, places), "places F16 BadIndex")
    expect(play.ask((0, 1), "places", blocks[1].header.name, []), f"part {shown(blocks[1].header.name)}")
    expect(play.ask((0, 1), "places", NOBODY, [0]), "absent")


def places_of_a_block(play):
    """Of a block of four transactions those at the places 0, 2 and 3, whose differences are 0, 1 and 0."""
    [first] = chained(play, GENESIS, [1])
    spent = [paying(1, [(first.txs[0].name, 0)], [50])]
    for mark in (2, 3):
        spent.append(paying(mark, [(spent[-1].name, 0)], [50]))
    [block] = chained(play, first.header.name, [2], spent=spent)
    told = "".join(f" tx {shown(block.txs[place].name)} {len(block.txs[place].text)}" for place in (0, 2, 3))
    expect(play.ask((0, 1), "places", block.header.name, [0, 1, 0]), f"part {shown(block.header.name)}{told}")


def pairs_of_a_pool_that_was(play):
    """t waits, and is matched by its id. Then u is given, and a block takes t: the pairs are what they were, and a new match tells u."""
    [first] = chained(play, GENESIS, [1])
    t = paying(1, [(first.txs[0].name, 0)], [50])
    u = paying(2, [(t.name, 0)], [50])
    expect(play.call("last_pairs"), "no pairs")
    expect(play.ask((0, 1), "tx", t), "tx -")
    header, nonce = first.header.text, 5
    key = key_of(header, nonce)
    ids = [short_id(key, u.name), 7, short_id(key, t.name)]
    told = f"pairs {ids[2]} {shown(t.name)}"
    expect(play.ask((0, 1), "match", header, nonce, ids), told)
    expect(play.ask((0, 1), "tx", u), "tx -")
    expect(play.call("last_pairs"), told)
    both = f"{told} {ids[0]} {shown(u.name)}"
    expect(play.ask((0, 1), "match", header, nonce, ids), both)
    chained(play, first.header.name, [2], spent=[t])
    expect(pool_words(play.ask((1, 1), "news", None, 0, False)), f" txids{names_text([u])} next 2 high false")
    expect(play.call("last_pairs"), both)
    expect(play.ask((1, 1), "match", header, nonce, ids), f"pairs {ids[0]} {shown(u.name)}")
    expect(play.ask((1, 1), "match", header, nonce + 1, ids), "pairs")
    expect(play.call("again"), "again journal 9 answers 9 same true")


def row_14_announcers(play):
    """Which of the first five peers are announcers after each of these gave a tip."""
    tip = GENESIS
    for mark, (peer, announcers) in enumerate([(0, {0}), (1, {0, 1}), (2, {0, 1, 2}), (3, {1, 2, 3}), (1, {1, 2, 3}), (4, {1, 3, 4})]):
        tip = chained(play, tip, [mark], (peer, 1), True)[0].header.name
        high = {other for other in range(5) if play.ask((other, 1), "news", None, 0, False).endswith("high true")}
        expect(high, announcers)


def worked_examples(play):
    for example in (row_a_pool_over_a_reorganisation, row_b_first_block_made, row_c_kicked, row_8_refused_for_its_size, row_13_compact_near_the_tip,
                    row_13_parts_near_the_tip, places_of_a_block, pairs_of_a_pool_that_was, row_14_announcers, kicked_and_opened_again, wanted_once, served_of_a_new_hall, nothing_is_new):
        play.begin()
        example(play)


def row_b_leaves_of_one_badge():
    """A leave more than a journal holds: it begins anew with it, and all is the same if it is computed again."""
    count, (kind, text) = MOST_ENTRIES, question_text(("admit",))
    leave = struct.pack("<HQ", 0, 1) + text
    records = [repeated(count, kind, leave), record(kind, leave), record(b"j"), record(b"g")]
    wanted = f"go\njournal 1 0.1 {count} {count + 1} {count + 1} false\nagain journal 1 answers 1 same true\nsum {count}\n"
    return Case("leaves-of-one-badge", b"".join(records), wanted.encode("ascii"))


def headers_around_one_without_work():
    """Of 2,000 headers the one at place 1,000 has no work: those before it are accepted, and none behind it."""
    play, headers = HallPlay(), []
    for place in range(2_000):
        headers.append(Header(header_text(headers[-1].name if headers else GENESIS, bytes([place % 256]) * 32, place != 1_000)))
    told = play.ask((0, 1), "headers", headers).split()
    expect(told[:4] + told[-1:], ["heads", "F11", "BadWork", "lack", "locator"])
    expect(told[4:-1], [header.name[::-1].hex() for header in headers[:1_000]])
    expect(play.ask((0, 1), "headers", [headers[1_001]])[:17], "heads F23 NoParen")
    expect(play.ask((0, 1), "headers", headers[999:1_000]), f"heads - lack {told[1_003]} locator")
    play.call("look")
    return play


def served_of_50_000_entries():
    """The first block for each of as many entries as a message may list, of which the sum of the sizes is told, and for 1,000."""
    play = HallPlay()
    play.ask_often(1, (0, 1), "items", [(2, GENESIS)] * 50_000)
    told = play.ask((0, 1), "items", [(2, GENESIS)] * 1_000)
    expect(told, "served" + f" whole {FIRST} 285" * 1_000)
    return play


def generated(seed, count, is_short, play=None):
    """A play of so many calls of a new hall, whose halls all stand as their calls lead to from the beginning."""
    play = play or HallPlay()
    play.begin()
    drawing = Generated(play, seed, is_short)
    for _ in range(count):
        drawing.turn()
    play.call("counts")
    play.call("again")
    expect(play.hall.folded(len(play.hall.calls)).look(), play.hall.now.look())
    return play


# ---- what calls cost


def cost_cases():
    """The runs of each play by its bytes, since some rows share plays; then those of headers, and of no call."""
    plays = dict.fromkeys(data for row in all_rows(CHECKED) for play in (row.hostile, row.plain) for data in (play.whole, play.ground))
    cases = {data: Case(f"cost-{number}", data, None) for number, data in enumerate(plays)}
    of_memory = [Case(f"headers-{name}", data, None) for name, data in zip(("none", "alone", "checkpoint"), (b"", *header_plays(CHECKED)))]
    for name, *both in shared(CHECKED):
        of_memory += [Case(f"{name.replace(' ', '-')}-{size}", data, None) for size, data in zip(("large", "small"), both)]
    return cases, of_memory


def costs_too_much(cases, ran):
    """Tells what each call costs, and returns how many cost too much."""
    def seconds(data):
        return ran[cases[data].name].seconds

    within = []
    for row in all_rows(CHECKED):
        least = max(LEAST, *(PART * seconds(play.ground) for play in (row.hostile, row.plain)))
        within.append(told(row, *(seconds(play.whole) - seconds(play.ground) for play in (row.hostile, row.plain)), LIMIT, least))
    within.append(told_memory(CHECKED.headers, *(ran[f"headers-{it}"].memory - ran["headers-none"].memory for it in ("alone", "checkpoint"))))
    for name, *_ in shared(CHECKED):
        large, small = (ran[f"{name.replace(' ', '-')}-{it}"].memory for it in ("large", "small"))
        within.append(large - small <= MORE)
        words = "" if within[-1] else f": ABOVE {MORE / 1e6:,.0f} MB more"
        print(f"a block that is {name} {CHECKED.asked:,} times: {large / 1e6:,.1f} MB for {CHECKED.large:,} bytes, {small / 1e6:,.1f} for {SMALL}{words}")
    return within.count(False)


def unmet(met, wanted):
    names = sorted(name for name in wanted if not met[name])
    if names:
        print("never met:", ", ".join(names))
    return len(names)


def store():
    """Writes the stored run of bench_hall, as the plain hall answers it."""
    play = HallPlay()
    worked_examples(play)
    generated(STORED_SEED, STORED, True, play)
    write_stored_run("bench_hall", play.records, play.lines())
    sys.exit(1 if unmet(play.met, MET) else 0)


def main():
    reader = usage(__doc__, count="how many calls", seed="the first one's seed")
    reader.add_argument("--store", action="store_true", help="write the stored run")
    words = reader.parse_args()
    if words.store:
        store()
    count, first = int(words.count or COUNT), int(words.seed or 1)
    examples = HallPlay()
    worked_examples(examples)
    plays = {"examples": examples, "around-one-without-work": headers_around_one_without_work(), "served": served_of_50_000_entries()}
    for seed in range(first, first + -(-count // CALLS)):
        plays[f"seed-{seed}"] = generated(seed, min(CALLS, count - (seed - first) * CALLS), seed > first)
    of_costs, of_memory = cost_cases()
    cases = [*stored_cases("bench_hall"), row_b_leaves_of_one_badge(), *(play.case(name) for name, play in plays.items())]
    ran = run_checked("bench_hall", [*cases, *of_costs.values(), *of_memory])
    failures = [f"{name}: {ended.failure}" for name, ended in ran.items() if ended.failure]
    met = sum((play.met for play in plays.values()), Counter())
    for failure in failures:
        print(failure)
    print(", ".join(f"{name} {times}" for name, times in sorted(met.items())))
    missed = unmet(met, MET_IN_FULL) if count >= COUNT else 0
    print(f"{count} calls, {sum(len(play.lines()) for play in plays.values())} lines")
    dear = costs_too_much(of_costs, ran)
    print(f"{len(ran) - len(failures) - dear} passed, {len(failures) + missed + dear} failed")
    sys.exit(1 if failures or missed or dear else 0)


if __name__ == "__main__":
    main()
