#!/usr/bin/env python3
"""Measures the chain: headers and blocks accepted per second at two heights, questions, reorganisations, and memory:
python3 bench/figures/chain.py [PROGRAM] [--before PROGRAM]

It needs the built program bench/programs/bench_chain/out/bench_chain (as ./build bench_chain leaves it there) and python3, and takes
some two minutes. With `--before` it tells what faults, side branches and blocks at the tip cost beside a program of before.
Times are of the processor. What a play takes is the least time of some runs with it, less that of as many without it; plays and
programs whose times are compared take turns.
"""

import os
import struct
import subprocess
import sys
import tempfile
from pathlib import Path

sys.path.insert(0, str(Path(__file__).resolve().parents[2]))

from bench.tools.basics import header_text
from bench.tools.made_blocks import Marks
from bench.tools.programs import built, usage
from bench.tools.records import as_records, record
from bench.tools.turns import RUNS, Play, Runs, adopt, behind, ended, in_turns, seconds_of

LOW, HIGH = 100, 10_000
# Each question, and how often it is asked.
QUESTIONS = [("tip and tip_height", 100_000_000), ("height", 5_000_000), ("has", 5_000_000), ("block", 5_000_000), ("locator", 2_000_000)]
BLOCKS, HEADERS, SWITCHES = 5_000, 20_000, 1_000
# How many faulty blocks are told to be so, and behind how many headers.
FAULTS, FEW, MANY = 8_000, 8_000, 80_000
# How long side branches are, and how many faulty blocks are tried where one costs what it holds, and where one costs a whole branch.
SHORT, LONG, TRIES, STEPS = 1_000, 10_000, 8_000, 200_000
# How many ends share a branch, and how many blocks each of them has to itself: few, and more than the chain calls near.
ENDS, OWN = 4, (5, 50)
# How deep branches fork that overtake each other, how often such are made near the tip, and how often one overtakes far from it.
NEAR, FAR, ROUNDS, FAR_TURNS = 10, 4_000, 400, 40
# How often two blocks take the place of one at the tip, each time on the last ones: few times, and many.
SMALL_TURNS = (500, 8_000)
# How many blocks extend the tip, how many of them behind each side branch that is tried, and in how many turns of the programs.
EXTENDED, BEHIND, EXTENDED_TURNS = 20_000, 500, 3 * RUNS


def question(number, count):
    return record(b"q", struct.pack("<BI", number, count))


class ChainRuns(Runs):
    """Runs of the program, which tells at its end how many blocks and headers it refused."""

    def once(self, path, refused):
        """The processor time of one run that refuses so many."""
        with open(path, "rb") as source:
            process = subprocess.Popen([self.program], stdin=source, stdout=subprocess.PIPE)
            told = process.stdout.read()
            _, ended, used = os.wait4(process.pid, 0)
        process.stdout.close()
        process.returncode = os.waitstatus_to_exitcode(ended)
        if process.returncode != 0 or f" refused {refused}\n".encode() not in told:
            sys.exit(f"the program ended with status {process.returncode}, and told {told!r}")
        return used.ru_utime + used.ru_stime

    def memory(self, data):
        """The memory of a run at its greatest, in bytes."""
        path = self.write("whole", data)
        ended([self.program], path, 0)
        [cost] = in_turns(([self.program], path))
        return cost.memory


class Ground:
    """A chain of so many blocks, to play behind."""

    def __init__(self, height):
        self.marks = Marks()
        blocks = self.marks.branch(None, height)
        self.records = as_records(blocks)
        self.tip = blocks[-1]


class AtBoth:
    """The same play behind a low and a high chain."""

    def __init__(self, runs):
        self.runs = runs
        self.grounds = [Ground(LOW), Ground(HIGH)]

    def tell(self, name, count, play, turns=RUNS):
        low, high = self.runs.seconds([behind(ground.records, play(ground)) for ground in self.grounds], turns)
        print(f"{name}: {count / low:,.0f} a second at height {LOW}, {count / high:,.0f} at height {HIGH:,}: "
              f"{high / low:.2f} times as long")


def headers(ground):
    """Headers on the tip, each beside the others."""
    return b"".join(record(b"h", header_text(ground.tip.header.name, struct.pack("<I", mark) + bytes(28))) for mark in range(HEADERS))


def accepting(runs, both):
    """Blocks, each on the one before, so the height goes up from where it is named; and headers."""
    both.tell(f"{BLOCKS:,} blocks that extend the tip, with reading them", BLOCKS,
              lambda ground: as_records(ground.marks.branch(ground.tip, BLOCKS)), 4 * RUNS)
    both.tell(f"{HEADERS:,} headers, with reading them", HEADERS, headers, 4 * RUNS)
    count = 10 * BLOCKS
    [took] = runs.seconds([behind(b"", as_records(Marks().branch(None, count), b"s"))])
    print(f"blocks that are read and judged by themselves: {count / took:,.0f} a second")


def reorganisations(runs):
    """Ten blocks for eleven, again and again, beside as many blocks that extend the tip."""
    marks = Marks()
    main = marks.branch(None, LOW)
    ground = as_records(main)
    extended = as_records(marks.branch(main[-1], 11 * SWITCHES))
    switched = []
    for _ in range(SWITCHES):
        other = marks.branch(main[-11], 11)
        switched.append(as_records(other))
        main = main[:-10] + other
    took, beside = runs.seconds([behind(ground, b"".join(switched)), behind(ground, extended)], 2 * RUNS)
    print(f"a reorganisation of 10 blocks for 11: {took / SWITCHES * 1e6:,.0f} microseconds with reading its 11 blocks, "
          f"{took / beside:.2f} times as long as 11 blocks that extend the tip")


def faults(count):
    """Blocks beside the tip that can't be connected, so many headers behind them, and a block on each, whose fault marks both."""
    marks = Marks()
    main = marks.branch(None, LOW)
    faulty = [marks.faulty_on(main[-2]) for _ in range(FAULTS)]
    triggers = as_records([marks.on(block) for block in faulty])
    later = [record(b"h", header_text(main[-1].header.name, struct.pack("<I", mark) + bytes(28))) for mark in range(count)]
    return behind(as_records(main + faulty) + b"".join(later), triggers, FAULTS)


def tried_on(ends_of, length, count):
    """So many faulty blocks on the ends of side branches that are as high as the tip, behind one on each, in turns."""
    marks = Marks()
    main = marks.branch(None, length)
    blocks, ends = ends_of(marks, length)
    first = [marks.faulty_on(end) for end in ends]
    tried = [marks.faulty_on(ends[i % len(ends)]) for i in range(count)]
    return behind(as_records(main + blocks + first), as_records(tried), count, len(first))


def one_end(marks, length):
    side = marks.branch(None, length)
    return side, [side[-1]]


def shared_ends(own):
    """Branches that part so many blocks below their ends."""
    def ends_of(marks, length):
        stem = marks.branch(None, length - own)
        ends = [marks.branch(stem[-1], own) for _ in range(ENDS)]
        return sum(ends, stem), [end[-1] for end in ends]

    return ends_of


def two_sides(marks, length):
    """Branches that part at the first block."""
    sides = [marks.branch(None, length) for _ in range(2)]
    return sum(sides, []), [side[-1] for side in sides]


def overtaking(marks, sides, turns):
    """Two blocks on the lower of two branches, again and again; the first time it is one, since they are as high. The last is the tip."""
    ends = [side[-1] for side in sides]
    blocks = []
    for i in range(turns):
        pair = marks.branch(ends[(i + 1) % 2], 2 if i else 1)
        ends[(i + 1) % 2] = pair[-1]
        blocks += pair
    return blocks


def far_turns():
    """Branches from the first block that overtake each other."""
    marks = Marks()
    sides = [marks.branch(None, FAR) for _ in range(2)]
    return behind(as_records(sum(sides, [])), as_records(overtaking(marks, sides, FAR_TURNS)))


def near_turns():
    """Branches that overtake each other NEAR // 2 to NEAR + NEAR // 2 deep, and then others on the tip; beside branches that don't."""
    marks = Marks()
    whole, ground, tip, low = [], [], None, None
    for _ in range(ROUNDS):
        sides = [marks.branch(tip, NEAR // 2) for _ in range(2)]
        turns = overtaking(marks, sides, NEAR + 1)
        whole += sum(sides, []) + turns
        tip = turns[-1]
        still = [marks.branch(low, NEAR // 2) for _ in range(2)]
        ground += sum(still, [])
        low = still[0][-1]
    return Play(as_records(whole), as_records(ground))


def small_turns(count):
    """Two blocks on the tip, and then a second one on the later of them, which puts the first one off: so often, each on the last."""
    marks, tip, blocks = Marks(), None, []
    for _ in range(count):
        [first] = marks.branch(tip, 1)
        other = marks.branch(tip, 2)
        blocks += [first, *other]
        tip = other[-1]
    return behind(b"", as_records(blocks))


def extending(is_beside):
    """Blocks that extend the tip; now and then a branch of one block beside it is tried, so that one is kept all the time."""
    marks = Marks()
    main = marks.branch(None, LOW)
    ground, records, below, tip, refused = as_records(main), [], main[-2], main[-1], 0
    for _ in range(EXTENDED // BEHIND):
        if is_beside:
            side = marks.on(below)
            records += [side, marks.faulty_on(side)]
            refused += 1
        records += marks.branch(tip, BEHIND)
        below, tip = records[-2], records[-1]
    return behind(ground, as_records(records), refused)


class Beside:
    """Plays that are timed by the program, and by those of before."""

    def __init__(self, runs, before):
        self.programs = [runs] + before

    def tell(self, name, plays_of, turns=2 * RUNS):
        """What one of so many takes in each of two plays: they are given for each program, with their counts."""
        given = [(runs, play, count) for number, runs in enumerate(self.programs) for play, count in plays_of(number)]
        took = seconds_of([(runs, play) for runs, play, _ in given], turns)
        each = [seconds / count * 1e6 for seconds, (_, _, count) in zip(took, given)]
        print(f"{name}: {each[0]:,.2f} and {each[1]:,.2f} microseconds with reading, {each[1] / each[0]:,.2f} times as long")
        for number in range(2, len(each), 2):
            one, two = each[number : number + 2]
            print(f"  before: {one:,.2f} and {two:,.2f} microseconds, {one / each[0]:,.2f} and {two / each[1]:,.2f} times as long as now", flush=True)

    def tell_tried(self, name, ends_of, tries=TRIES):
        """What a faulty block takes on the ends of short and of long branches, by so many of them."""
        def plays_of(number):
            counts = [tries if tries and number == 0 else STEPS // length for length in (SHORT, LONG)]
            return [(tried_on(ends_of, length, count), count) for length, count in zip((SHORT, LONG), counts)]

        self.tell(f"a faulty block on {name}, {SHORT:,} and {LONG:,} blocks long", plays_of)

    def tell_faults(self):
        self.tell(f"a fault that marks 2 blocks, behind {FEW:,} and {MANY:,} later headers",
                  lambda _: [(faults(count), FAULTS) for count in (FEW, MANY)])
        self.tell_tried("the end of a side branch that was tried", one_end)
        for own in OWN:
            self.tell_tried(f"one of {ENDS} ends in turns, with {own} blocks of its own on a shared branch", shared_ends(own))
        self.tell_tried("one of two branches in turns, which part at the first block", two_sides, None)

    def tell_turns(self):
        self.tell(f"a turn of two branches that overtake each other, {NEAR} and {FAR:,} blocks deep",
                  lambda _: [(near_turns(), ROUNDS * (NEAR + 1)), (far_turns(), FAR_TURNS)])
        self.tell(f"two blocks that take the place of one at the tip, {SMALL_TURNS[0]:,} and {SMALL_TURNS[1]:,} times",
                  lambda _: [(small_turns(count), count) for count in SMALL_TURNS])
        self.tell("a block that extends the tip, beside no branch and beside one that was tried below it",
                  lambda _: [(extending(is_beside), EXTENDED) for is_beside in (False, True)], EXTENDED_TURNS)


def memory(runs):
    """What twice as many blocks take more: alone, and beside a branch of a block that was tried low down."""
    marks, count = Marks(), 2 * HIGH
    blocks = marks.branch(None, 2 * count)
    side = marks.on(None)
    tried = as_records([blocks[0], side, marks.faulty_on(side)])
    alone, beside = (runs.memory(low + as_records(blocks[1:count])) for low in (as_records(blocks[:1]), tried))
    twice, twice_beside = (runs.memory(low + as_records(blocks[1:])) for low in (as_records(blocks[:1]), tried))
    print(f"memory: {(twice - alone) / count:,.0f} bytes for each block of {len(blocks[0].text)} bytes, "
          f"{(twice_beside - beside) / count:,.0f} beside a branch that was tried; {twice / 1e6:,.0f} and {twice_beside / 1e6:,.0f} MB for {2 * count:,} blocks")


def main():
    reader = usage(__doc__, program="the program, if not bench/programs/bench_chain/out/bench_chain")
    reader.add_argument("--before", metavar="PROGRAM", help="a bench_chain to compare with")
    words = reader.parse_args()
    program = built(words.program, "bench_chain")
    before = [built(words.before, "bench_chain")] if words.before else []
    adopt()
    with tempfile.TemporaryDirectory() as folder:
        runs = ChainRuns(program, folder)
        beside = Beside(runs, [ChainRuns(other, folder) for other in before])
        beside.tell_faults()
        beside.tell_turns()
        both = AtBoth(runs)
        accepting(runs, both)
        for number, (name, count) in enumerate(QUESTIONS):
            both.tell(name, count, lambda ground: question(number, count))
        reorganisations(runs)
        memory(runs)


if __name__ == "__main__":
    main()
