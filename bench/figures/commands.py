#!/usr/bin/env python3
"""Measures the time and the memory of the built programs, beside `openssl dgst -sha256` and beside programs of before:
python3 bench/figures/commands.py [PROGRAM] [SOUND] [--before FOLDER]

It needs the program, the C library (./build --library), with which it makes a program that
tells whether a block is sound (bench/library/sound.c), cc, openssl, python3 and Linux, and takes some five minutes. First it prints a table of
time and memory, with `--before` for both sets of programs and how they compare; then what a block takes in memory, and then how
the time grows and compares with openssl's.

Times are of the processor; memory is what a run has at its greatest. Of both the program's start-up, and openssl's own, is taken
off. What is compared takes turns, the more the shorter it is; the least time of all turns counts, and the memory in the middle.
"""

import os
import sys
import tempfile
from pathlib import Path

sys.path.insert(0, str(Path(__file__).resolve().parents[2]))

from bench.tools.basics import envelope, pings, unknown
from bench.tools.c_library import compiled, prefix_of
from bench.tools.made_blocks import bare_block, block, usual_block
from bench.tools.programs import built, usage
from bench.tools.turns import HASHED, OPENSSL, SECONDS, Bench, Cost, adopt, ended, in_turns

# What the table compares takes turns as often as these seconds allow, if there are programs of before.
TABLE_SECONDS = 16
SERVED_PINGS = 100_000
# The length of a stream's pieces where nothing else is said.
PIECE = 65_536
# The width of the table's names.
NAMES = 56


def acts(count):
    """A run of `sim`: one peer's items, put a thousand at a time and then taken."""
    put = b"".join(b"put 0 %d\n" % item for item in range(1_000))
    return b"system 1 1 1024\nclaim 0\n" + (put + b"take 0\n" * 1_000) * (count // 2_000)


def as_lines(stream, piece):
    """The pieces of a stream in hex, one a line."""
    text = stream.hex().encode()
    return b"\n".join(text[i : i + 2 * piece] for i in range(0, len(text), 2 * piece)) + b"\n"


def sha_instructions():
    """Which instructions for SHA-256 the processor has, by /proc/cpuinfo."""
    with open("/proc/cpuinfo") as file:
        flags = {word for line in file if line.startswith(("flags", "Features")) for word in line.split()}
    found = sorted(flags & {"sha_ni", "sha2", "sha512_ni"})
    return ", ".join(found) if found else "none"


class Programs:
    """Programs that were built, and what each of their commands takes of no input."""

    def __init__(self, program, sound, empty):
        self.program = program
        self.sound = sound
        words = ("decode", "serve", "sim", "sound")
        self.starts = dict(zip(words, in_turns(*((self.command(word), empty) for word in words))))

    def command(self, word):
        """A command of the program, or the program that looks at a block."""
        return [self.sound] if word == "sound" else [self.program, word]

    def beyond(self, word, cost):
        """What a run took behind its start."""
        return Cost(cost.seconds - self.starts[word].seconds, cost.memory - self.starts[word].memory)


class Compared(Bench):
    """What is measured in one run: the programs, and the programs of before where they are given."""

    def __init__(self, programs, before, folder):
        super().__init__(None, folder)
        empty = self.write("empty")
        self.programs = Programs(*programs, empty)
        self.sets = [self.programs] + ([Programs(*before, empty)] if before else [])
        self.openssl_start, rate = self.openssl()
        self.zeros = os.path.join(folder, "zeros")
        print(f"SHA instructions of the processor: {sha_instructions()}")
        print(f"openssl dgst -sha256: {self.openssl_start * 1000:.1f} ms of start-up, and then {rate / 1e6:.0f} MB a second")
        starts = ", ".join(f"{word} {start.seconds * 1000:.1f}" for word, start in self.programs.starts.items())
        print(f"start-up in ms: {starts}", flush=True)

    def costs(self, word, data, seconds):
        """What an input takes in each set of programs; each run has to end with status 0."""
        path = self.write("first", data)
        for programs in self.sets:
            ended(programs.command(word), path, 0)
        costs = in_turns(*((programs.command(word), path) for programs in self.sets), seconds=seconds)
        return [programs.beyond(word, cost) for programs, cost in zip(self.sets, costs)]

    def run(self, word, name, data):
        """A command with its input, which has to end with status 0."""
        path = self.write(name, data)
        ended(self.programs.command(word), path, 0)
        return self.programs.command(word), path

    def speed(self, name, word, data, stream):
        took, zeros = in_turns(self.run(word, "first", data), (OPENSSL, self.zeros))
        seconds = self.programs.beyond(word, took).seconds
        hashed = (zeros.seconds - self.openssl_start) * len(stream) / HASHED
        rate = len(stream) / seconds / 1e6
        print(f"{name}: {seconds * 1000:.0f} ms, {rate:.1f} MB of stream a second; "
              f"{seconds / hashed:.1f} times the time of openssl dgst -sha256", flush=True)

    def compare(self, word, first, second):
        """The times of two inputs."""
        took = in_turns(self.run(word, "first", first), self.run(word, "second", second))
        return [self.programs.beyond(word, cost).seconds for cost in took]

    def growth(self, name, word, first, second):
        one, two = self.compare(word, first, second)
        print(f"{name}: {one * 1000:.0f} ms, and {two * 1000:.0f} ms for twice as much: {two / one:.2f} times as long", flush=True)


def cases():
    """What the table tells of: a name, the command, and its input."""
    yield "decode, 1,000,000 pings", "decode", as_lines(pings(1_000_000), PIECE)
    yield f"serve, {SERVED_PINGS:,} pings", "serve", pings(SERVED_PINGS)
    large = [
        ("10 unknown commands of 4,000,000 bytes", unknown(10)),
        ("20 blocks of 4,000 transactions of 250 bytes", envelope(b"block", usual_block(4_000)) * 20),
        ("50 blocks of 4,000 transactions of 60 bytes", envelope(b"block", block(4_000, 0)) * 50),
        ("6 blocks of 60,000 transactions of 60 bytes", envelope(b"block", block(60_000, 0)) * 6),
        ("10 blocks of 100,000 transactions of 10 bytes", envelope(b"block", bare_block(100_000)) * 10),
    ]
    for name, stream in large:
        yield f"decode, {name}", "decode", as_lines(stream, PIECE)
        yield f"serve, {name}", "serve", stream
    yield "sound, 16,000 transactions of 60 bytes", "sound", block(16_000, 0)


def table(bench):
    """Time and memory of each case; with programs of before theirs, and how they compare."""
    two = len(bench.sets) == 2
    columns = ["ms", "before", "ratio", "MB", "before", "ratio"] if two else ["ms", "MB"]
    print("\ntime and memory behind those of no input")
    print(" " * NAMES + "".join(f"{column:>9}" for column in columns))
    for name, word, data in cases():
        costs = bench.costs(word, data, TABLE_SECONDS if two else SECONDS)
        figures = []
        for parts, unit in zip(zip(*costs), (1e-3, 1e6)):
            figures += [f"{part / unit:9.1f}" for part in parts] + ([f"{parts[0] / parts[1]:9.2f}"] if two else [])
        print(f"{name:<{NAMES}}" + "".join(figures), flush=True)
    print()


def densities(bench, block, count):
    """What a block takes in memory for each byte of its text, in each set of programs: `serve` keeps what comes, up to 8,000,000 bytes."""
    message = envelope(b"block", block)
    some, twice = (bench.costs("serve", message * kept, 0) for kept in (count, 2 * count))
    return [(more.memory - less.memory) / (count * len(block)) for less, more in zip(some, twice)]


def kept_blocks(bench):
    usual, bare = densities(bench, usual_block(4_000), 3), densities(bench, bare_block(100_000), 3)
    for told, *each in zip(("memory of a block", "memory of a block before"), usual, bare):
        print("{}: {:.2f} bytes for each byte of its text at transactions of 250 bytes, {:.2f} at 10".format(told, *each), flush=True)


def block_speeds(bench):
    """The times of blocks near a million bytes, and of a tree over many transactions."""
    small, large = envelope(b"block", block(4_000, 188)), envelope(b"block", block(10, 99_930))
    for name, message in (("4,000 transactions", small), ("10 transactions", large)):
        bench.speed(f"decode, a block of 1,000,000 bytes with {name}, fifty times", "decode", as_lines(message, PIECE) * 50, message * 50)
    many = block(16_000, 0)
    bench.speed("sound, 16,000 transactions", "sound", many, many)


def message_speeds(bench):
    """The times of small and of large messages."""
    many = pings(1_000_000)
    bench.speed("decode, pings in pieces of 65,536 bytes", "decode", as_lines(many, PIECE), many)
    bench.speed("decode, one ping a line", "decode", as_lines(many, 32), many)
    large = unknown(20)
    bench.speed("decode, unknown commands of 4,000,000 bytes, one a line", "decode", as_lines(large, 4_000_024), large)
    bench.speed("decode, the same in pieces of 65,536 bytes", "decode", as_lines(large, PIECE), large)
    served = pings(SERVED_PINGS)
    bench.speed(f"serve, {SERVED_PINGS} pings", "serve", served, served)


def block_growths(bench):
    """What twice as large blocks and twice as many take."""
    small, large = envelope(b"block", block(30_000, 0)), envelope(b"block", block(60_000, 0))
    bench.growth("decode, ten blocks of 30,000 small transactions, then of 60,000", "decode", as_lines(small, PIECE) * 10, as_lines(large, PIECE) * 10)
    bench.growth("decode, ten blocks of 30,000 small transactions, then twenty", "decode", as_lines(small, PIECE) * 10, as_lines(small, PIECE) * 20)
    bench.growth("serve, ten blocks of 30,000 small transactions, then of 60,000", "serve", small * 10, large * 10)
    bench.growth("serve, ten blocks of 30,000 small transactions, then twenty", "serve", small * 10, small * 20)
    bench.growth("sound, 100,000 transactions", "sound", block(100_000, 0), block(200_000, 0))


def message_growths(bench):
    """What twice as many messages and twice as large ones take, and small pieces."""
    many = pings(1_000_000)
    first, second = many[: len(many) // 2], many
    bench.growth("decode, 500,000 pings in pieces of 65,536 bytes", "decode", as_lines(first, PIECE), as_lines(second, PIECE))
    bench.growth("decode, the same in one line", "decode", as_lines(first, len(first)), as_lines(second, len(second)))
    bench.growth(f"serve, {SERVED_PINGS // 2} pings", "serve", pings(SERVED_PINGS // 2), pings(SERVED_PINGS // 2 * 2))
    bench.growth("decode, 100,000 pings in pieces of one byte", "decode", as_lines(many[:3_200_000], 1), as_lines(many[:6_400_000], 1))
    whole, one = bench.compare("decode", as_lines(many[:6_400_000], PIECE), as_lines(many[:6_400_000], 1))
    print(f"decode, pieces of one byte beside pieces of 65,536: {one / whole:.1f} times as long")
    small, large = envelope(b"filler", bytes(2_000_000)), envelope(b"filler", bytes(4_000_000))
    bench.growth("decode, ten unknown commands of 2,000,000 bytes, then of 4,000,000", "decode", as_lines(small * 10, PIECE), as_lines(large * 10, PIECE))
    bench.growth("decode, two of 2,000,000 bytes in pieces of one byte, then of 4,000,000", "decode", as_lines(small * 2, 1), as_lines(large * 2, 1))
    bench.growth("serve, ten unknown commands of 2,000,000 bytes, then of 4,000,000", "serve", small * 10, large * 10)
    bench.growth("serve, ten unknown commands of 4,000,000 bytes, then twenty", "serve", large * 10, large * 20)


def sound_before(top, folder):
    """The program that tells whether a block is sound, over the library of before."""
    return compiled(os.path.join(top, "out/library"), os.path.join(folder, "sound-before"), "sound.c")


def main():
    reader = usage(__doc__, program="the program, if not that of ./build", sound="a program like bench/library/sound.c")
    reader.add_argument("--before", metavar="FOLDER", help="what to compare with: its cbrelay and its library, as ./build leaves them")
    words = reader.parse_args()
    with tempfile.TemporaryDirectory() as folder:
        sound = words.sound or compiled(prefix_of(), os.path.join(folder, "sound"), "sound.c")
        programs = built(words.program, "cbrelay"), os.path.abspath(sound)
        before = words.before and (built(None, "cbrelay", words.before), sound_before(words.before, folder))
        adopt()
        bench = Compared(programs, before, folder)
        for part in (table, kept_blocks, block_speeds, message_speeds, block_growths, message_growths):
            part(bench)
        bench.growth("sim, 4,000,000 acts", "sim", acts(4_000_000), acts(8_000_000))


if __name__ == "__main__":
    main()
