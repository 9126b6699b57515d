#!/usr/bin/env python3
"""Measures a crew in threads: items per second by handlers, beside one loop and beside one queue under a lock, and what idling costs:
python3 bench/figures/crew.py [--stress RUNS]

It needs the built program bench/programs/bench_crew/out/bench_crew, as ./build bench_crew leaves it there, and takes about a minute.
The times are of the clock, as the program tells them of its own serving, each the least of some runs that take turns. They mean
something only where no one else works on the machine: four handlers and their readers want four idle cores.

With --stress nothing is measured, and every list is looked at, run after run: each serves 64 peers by 16 handlers, whose readers end and
open again 20 times, 100,800 items in all, once for each capacity of the inboxes: 1, 2 and 1,024. The program computes each list's running
number and hash anew, and tells whether they are right. A run that doesn't end within two minutes is a failure.
"""

import os
import subprocess
import sys
import time
from pathlib import Path

sys.path.insert(0, str(Path(__file__).resolve().parents[2]))

from bench.tools.programs import built, path_of, usage

PROGRAM = path_of("bench_crew")
RUNS = 3
PEERS, CAPACITY, HANDLERS = 64, 256, (1, 2, 4)
# What an item costs, and how many of them each reader puts.
FREE_ITEMS, DEAR_ITEMS, DEAR_MICROSECONDS = 5_000, 1_000, 10
# By how many items and rounds the cost of a round is found.
TRIED_ITEMS, TRIED_ROUNDS = 20_000, 20
IDLE_MILLISECONDS = 2_000
# Of the runs in which every list is looked at: handlers, capacities, connections of so many items each, and seconds.
MOST_HANDLERS, CAPACITIES, CONNECTIONS, ITEMS, SECONDS = 16, (1, 2, 1_024), 21, 75, 120


def ended(line):
    """The seconds that a line took, and the seconds of processor time of the whole run."""
    process = subprocess.Popen([PROGRAM], stdin=subprocess.PIPE, stdout=subprocess.PIPE, stderr=subprocess.PIPE)
    process.stdin.write(line.encode() + b"\n")
    process.stdin.close()
    printed, told = process.stdout.read(), process.stderr.read().decode()
    _, status, used = os.wait4(process.pid, 0)
    process.returncode = os.waitstatus_to_exitcode(status)
    if process.returncode != 0 or b"wrong" in printed:
        sys.exit(f"'{line}' ended with {process.returncode}")
    return int(told.split()[-1]) / 1e6, used.ru_utime + used.ru_stime


def at_once(number, line):
    """The seconds that the longest of so many runs took, each in a process of its own and all at the same time."""
    runs = [subprocess.Popen([PROGRAM], stdin=subprocess.PIPE, stdout=subprocess.DEVNULL, stderr=subprocess.PIPE) for _ in range(number)]
    for run in runs:
        run.stdin.write(line.encode() + b"\n")
        run.stdin.close()
    told = [run.stderr.read().decode() for run in runs]
    if any(run.wait() != 0 for run in runs):
        sys.exit(f"'{line}' ended with a fault")
    return max(int(text.split()[-1]) for text in told) / 1e6


def line(mode, handlers, items, rounds, pause=0):
    return f"{mode} {PEERS} {handlers} {CAPACITY} {items} 1 {rounds} 64 {pause}"


def cost_of(rounds):
    """The microseconds that an item of so many rounds takes, on a processor that has been at work before."""
    tried = f"loop 1 1 1 {TRIED_ITEMS} 1 {rounds}"
    ended(tried)
    return min(ended(tried)[0] for _ in range(RUNS)) * 1e6 / TRIED_ITEMS


def rounds_of(microseconds):
    """How many rounds of the hash take so long: found once roughly, and then by a work that is about as long."""
    rounds = TRIED_ROUNDS
    for _ in range(2):
        rounds = max(1, round(rounds * microseconds / cost_of(rounds)))
    return rounds


def compare(name, items, rounds):
    """Tells how many items a second each way serves."""
    ways = [("loop", 1)] + [(mode, handlers) for mode in ("crew", "mutex") for handlers in HANDLERS]
    turns = [[ended(line(mode, handlers, items, rounds))[0] for mode, handlers in ways] for _ in range(RUNS)]
    rates = {way: PEERS * items / min(times) for way, times in zip(ways, zip(*turns))}
    print(f"{name}: {rates['loop', 1]:,.0f} items a second in one loop on one thread")
    for mode, words in (("crew", "a crew"), ("mutex", "one queue under a lock")):
        told = ", ".join(f"{rates[mode, handlers]:,.0f} with {handlers}" for handlers in HANDLERS)
        print(f"  {words}: {told} handlers; 4 are {rates[mode, 4] / rates[mode, 1]:.2f} times 1")
    alone = PEERS * items / min(at_once(1, line("loop", 1, items, rounds)) for _ in range(RUNS))
    together = 4 * PEERS * items / min(at_once(4, line("loop", 1, items, rounds)) for _ in range(RUNS))
    print(f"  the machine itself: 4 loops at once, each in a process of its own, are {together / alone:.2f} times 1")


def idle(handlers):
    """Tells what an idle crew costs."""
    waiting = min(ended(line("crew", handlers, 0, 0, IDLE_MILLISECONDS))[1] for _ in range(RUNS))
    ground = min(ended(line("crew", handlers, 0, 0))[1] for _ in range(RUNS))
    cost = (waiting - ground) / (IDLE_MILLISECONDS / 1e3)
    print(f"idle, {PEERS} peers and {handlers} handlers: {cost * 1e3:.2f} ms of processor time a second, to about 1 ms")


def stressed(runs):
    """Looks at every list of so many runs. The exit status comes back."""
    lines = "".join(f"crew {PEERS} {MOST_HANDLERS} {capacity} {ITEMS} {CONNECTIONS} 1\n" for capacity in CAPACITIES)
    right = "".join(f"peer {peer} connections {CONNECTIONS} items {CONNECTIONS * ITEMS} right\n" for peer in range(PEERS)) * len(CAPACITIES)
    began = time.monotonic()
    for run in range(1, runs + 1):
        ran = subprocess.run([PROGRAM], input=lines, capture_output=True, text=True, timeout=SECONDS, check=False)
        if (ran.returncode, ran.stdout) != (0, right):
            wrong = [line for line in ran.stdout.splitlines() if not line.endswith(" right")]
            print(f"run {run} ended with {ran.returncode}: {wrong[:5]}")
            return 1
    lists = runs * len(CAPACITIES) * PEERS * CONNECTIONS
    print(f"{runs} runs, {lists:,} lists, each right, in {time.monotonic() - began:.0f} s")
    return 0


def main():
    reader = usage(__doc__)
    reader.add_argument("--stress", type=int, metavar="RUNS", help="look at every list of so many runs")
    given = reader.parse_args()
    built(PROGRAM, "bench_crew")
    if given.stress:
        return stressed(given.stress)
    print(f"{os.cpu_count()} processors, load {os.getloadavg()[0]:.2f} before the first run")
    rounds = rounds_of(DEAR_MICROSECONDS)
    compare("a work of no cost", FREE_ITEMS, 0)
    compare(f"a work of about {DEAR_MICROSECONDS} microseconds ({rounds} rounds of SHA-256)", DEAR_ITEMS, rounds)
    for handlers in HANDLERS:
        idle(handlers)
    return 0


if __name__ == "__main__":
    sys.exit(main())
