#!/usr/bin/env python3
"""Runs the built program on random and mutated byte strings, cut at random, and compares what it prints:
python3 bench/looks/fuzz.py [COUNT] [SEED] [PROGRAM]

Without words 10,000 strings from seed 1, in about a minute. It needs the program and python3. Each string goes through `decode` and
`serve`; what they print and their statuses have to be those of a plain reader (bench/models/plain_stream.py), which was written apart from
the program. First a word that isn't UTF-8 has to be refused.
"""

import concurrent.futures
import os
import random
import subprocess
import sys
from pathlib import Path

sys.path.insert(0, str(Path(__file__).resolve().parents[2]))

from bench.models.plain_stream import decoded, served
from bench.tools.programs import built, usage
from bench.tools.stream_drawing import random_stream


def cuts(rng, stream):
    pieces = []
    while stream:
        size = rng.choice([1, rng.randrange(1, 30), len(stream)])
        pieces.append(stream[:size])
        stream = stream[size:]
        if rng.random() < 0.05:
            pieces.append(b"")
    return pieces


def lines_of(rng, pieces):
    """Lines of hex, of either case, and now and then a line that isn't hex."""
    lines = []
    for piece in pieces:
        text = piece.hex()
        lines.append((text.upper() if rng.random() < 0.3 else text).encode())
    if rng.random() < 0.1:
        lines.insert(rng.randrange(len(lines) + 1), rng.choice([b"f", b"xy", b" ", b"fa ", b"0x00", b"\xff\xfe", b"+1"]))
    end = rng.choice([b"\n", b"\r\n"])
    text = end.join(lines)
    if lines and (rng.random() < 0.5 or not lines[-1]):
        text += end
    return lines, text


def one(program, seed):
    """The differences of one string; none where all is as it should be."""
    rng = random.Random(seed)
    stream = random_stream(rng)
    pieces = cuts(rng, stream)
    lines, text = lines_of(rng, pieces)
    found = []
    ran = subprocess.run([program, "decode"], input=text, capture_output=True, timeout=60)
    wanted, status = decoded(lines)
    if (ran.returncode, ran.stdout, ran.stderr) != (status, wanted.encode(), b""):
        found.append(f"seed {seed}: decode of {text!r}: status {ran.returncode} for {status}, {ran.stdout!r} for {wanted!r}, {ran.stderr!r}")
    ran = serve(program, pieces)
    written, closed, status = served(stream)
    if ran != (status, written, closed.encode()):
        found.append(f"seed {seed}: serve of {stream.hex()}: {ran!r} for {(status, written, closed)!r}")
    return found


def serve(program, pieces):
    process = subprocess.Popen([program, "serve"], stdin=subprocess.PIPE, stdout=subprocess.PIPE, stderr=subprocess.PIPE, bufsize=0)
    try:
        for piece in pieces:
            process.stdin.write(piece)
    except BrokenPipeError:
        pass
    written, errors = process.communicate(timeout=60)
    return process.returncode, written, errors


def foreign_words(program):
    """The differences of command lines that have a word which isn't UTF-8: one line on standard error, and status 1."""
    wanted = (1, b"", b"error: a word of the command line isn't UTF-8\n")
    found = []
    for words in ([b"\xff"], [b"decode", b"\xc3("], [b"--help", b"\xed\xa0\x80"]):
        ran = subprocess.run([os.fsencode(program)] + words, input=b"", capture_output=True, timeout=60)
        if (ran.returncode, ran.stdout, ran.stderr) != wanted:
            found.append(f"words {words!r}: status {ran.returncode}, {ran.stdout!r}, {ran.stderr!r}")
    return found


def main():
    words = usage(__doc__, count="how many strings", seed="the first one's seed", program="the program, if not that of ./build").parse_args()
    count, first = int(words.count or 10_000), int(words.seed or 1)
    program = built(words.program, "cbrelay")
    differences = foreign_words(program)
    with concurrent.futures.ThreadPoolExecutor(max_workers=os.cpu_count()) as workers:
        for found in workers.map(lambda seed: one(program, seed), range(first, first + count)):
            differences += found
    for line in differences[:20]:
        print(line)
    print(f"{count} strings through decode and serve, {len(differences)} differences")
    sys.exit(1 if differences else 0)


if __name__ == "__main__":
    main()
