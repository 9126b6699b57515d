#!/usr/bin/env python3
"""Plays generated conversations through `cbrelay serve`, and compares what it sends with a plain session in Python:
python3 bench/looks/conversations.py [COUNT] [SEED] [PROGRAM] [--plain], or --store

Without words 2,000 conversations from seed 1, in some minutes. It needs the program and python3. The plain session
(bench/models/plain_session.py) was written apart from the program, from the rules in docs/PROTOCOL.md. Worked conversations come first
(bench/tools/relay_rows.py). Half of the others shake hands in all orders; then come headers, blocks and transactions of a few branches,
faulty ones among them, what a peer asks, and payloads that can't be read. In the other half a chain grows, and its blocks come as compact
ones, known to the mempool in whole or not, right or wrong. At the end it tells how often each case came, and it fails if one never did.
With --plain no program is run. With --store the worked conversations are written as stored runs of cbrelay (runs/cbrelay/serve-*.run) and
as an example (examples/relay.bin).
"""

import os
import subprocess
import sys
from collections import Counter
from concurrent.futures import ThreadPoolExecutor
from pathlib import Path

sys.path.insert(0, str(Path(__file__).resolve().parents[2]))

from bench.models import plain_wire as wire
from bench.tools import relay_rows
from bench.tools.conversation_drawing import Conversation, Relay, Spoken, differs
from bench.tools.programs import ROOT, built, usage

CONVERSATIONS = 2_000
# What many conversations have to meet: how sessions end, and what the plain session sends.
SENT = {"Bye", "BadStream", "BadMessage", "BadBlock", "BadRequest", "OldPeer", "SelfPeer", "version", "verack", "pong", "sendheaders",
        "sendcmpct", "getheaders", "getdata", "inv", "headers", "block", "tx", "notfound", "cmpctblock", "getblocktxn", "blocktxn",
        "16 asked for"}
# And the rules of compact blocks, of blocks without room, of what is unknown and of what isn't told that have to come up.
CASES = {
    "cmpctblock: no place", "cmpctblock: no work", "cmpctblock: known", "cmpctblock: F23 NoParent", "cmpctblock: F24 BadParent",
    "cmpctblock: repeated ids", "cmpctblock: places missing", "cmpctblock: places missing, in flight",
    "cmpctblock: another partial one's place", "cmpctblock: rebuilt at once", "cmpctblock: rebuilt at once of the pool",
    "a block drops the partial one", "a wrong list", "blocktxn: nobody asked", "blocktxn: of another block", "blocktxn: wrong count",
    "blocktxn: as many as are missing", "rebuilt: taken", "rebuilt: F10 BadCoinbase", "rebuilt: F19 NoInput", "rebuilt: F21 Overspent",
    "rebuilt: F23 NoParent", "rebuilt: F24 BadParent", "fallback", "fallback: in flight", "fallback: wanted", "fallback: later",
    "fallback: later, wanted already", "asked for: compact", "asked for: whole, near", "asked for: whole of a capable peer",
    "asked of us: compact", "asked of us: compact at 5", "asked of us: compact, sent whole", "asked of us: compact, whole at 6",
    "a compact block that isn't there", "getblocktxn: no block", "getblocktxn: no place", "getblocktxn: part", "getblocktxn: part at 10",
    "getblocktxn: several", "getblocktxn: whole", "getblocktxn: whole at 11", "told: compact", "told: headers",
    "told: headers, of several", "told: headers, of eight", "told: hash", "told: hash, of many", "no room", "fallback: no room",
    "lacking, and not wanted meanwhile", "headers are not asked for meanwhile", "asked again", "the unknown isn't asked for meanwhile",
    "unknown: headers", "unknown: cmpctblock", "unknown: block", "unknown: inv", "asked for already: headers", "asked for already: cmpctblock",
    "asked for already: block", "asked for already: inv", "cleared: headers", "cleared: no headers", "not cleared",
    "before its parent, which is in flight", "before its parent, which is wanted", "before its parent: wanted already",
    "before its parent: no room", "listed again: last", "listed again: its own room", "listed again: no room any more",
    "listed again: wanted, and in flight", "transactions that aren't told", "another relay byte that doesn't count",
    "the peer is asked for compact blocks: unasked", "six questions"}


def sent_in(text):
    """The names of the messages in a stream."""
    told = wire.read_all(text)
    return {name for name, _ in told} | {"16 asked for" for name, payload in told if name == "getdata" and payload[0] == 16}


def compared(program, seed):
    """How the program differs from the plain session, if it does, what was sent, and which rules came up."""
    spoken = (Relay if seed % 2 else Conversation)(seed)
    difference = served_differently(program, spoken.stream, spoken.answered, spoken.why)
    return difference and f"seed {seed}: {difference}", (Counter(sent_in(spoken.answered) | {spoken.why}), spoken.session.met)


def served_differently(program, stream, answered, why):
    """How the program serves a stream otherwise than it should."""
    if program is None:
        return None
    ran = subprocess.run([program, "serve"], input=stream, capture_output=True, timeout=300)
    told = (ran.stdout, ran.stderr.decode("ascii", "replace"), ran.returncode)
    wanted = (answered, f"closed {why}\n", {"Bye": 0, "Memory": 4}.get(why, 3))
    return None if told == wanted else f"{told[1:]} for {wanted[1:]}, {differs(told[0], wanted[0])}"


def row_differences(program, row):
    """Where a worked conversation goes otherwise: with the plain session step by step, and with the program as a whole."""
    spoken, found = Spoken(), []
    for remark, said, told in row.steps:
        before = len(spoken.answered)
        for message in said:
            spoken.say(message.bytes())
        if spoken.answered[before:] != b"".join(message.bytes() for message in told):
            found.append(f"{row.name}: {remark}: the plain session tells something else")
    if spoken.why != row.why:
        found.append(f"{row.name}: the plain session closes with {spoken.why}")
    difference = served_differently(program, row.said(), row.told(), row.why)
    return found + [f"{row.name}: {difference}"] * (difference is not None)


def store():
    """Writes the worked conversations as stored runs, and one as an example."""
    for kind, makers in (("serve-compact", relay_rows.ROWS), ("serve", relay_rows.OF_SESSIONS)):
        for row in (make() for make in makers):
            with open(os.path.join(ROOT, f"runs/cbrelay/{kind}-{row.name}.run"), "w", encoding="ascii") as file:
                file.write(relay_rows.run_text(row))
    row = relay_rows.relay()
    for ending, text in (("", row.said()), (".stdout", row.told()), (".args", b"serve\n")):
        with open(os.path.join(ROOT, f"examples/relay.bin{ending}"), "wb") as file:
            file.write(text)


def counted(counts):
    return ", ".join(f"{name} {times}" for name, times in sorted(counts.items()) if times)


def report(count, failures, rows, sent, cases):
    """Prints what came of it, and returns the exit status."""
    for failure in (rows + failures)[:10]:
        print(f"conversations: {failure}")
    print(f"conversations: {counted(sent)}")
    print(f"conversations: {counted(cases)}")
    missed = sorted(name for name in SENT | CASES if not (sent + cases)[name]) if count >= 1_000 else []
    print(f"conversations: {count - len(failures)} alike, {len(failures)} not, {len(rows)} differences in worked ones"
          + (f"; never met: {', '.join(missed)}" if missed else ""))
    return 1 if failures or rows or missed else 0


def main():
    parser = usage(__doc__, count="how many conversations", seed="the seed of the first", program="the program, if not that of ./build")
    parser.add_argument("--plain", action="store_true", help="run no program")
    parser.add_argument("--store", action="store_true", help="write the worked conversations")
    words = parser.parse_args()
    count, seed = int(words.count or CONVERSATIONS), int(words.seed or 1)
    program = None if words.plain or words.store else built(words.program, "cbrelay")
    rows = [difference for make in relay_rows.ROWS + relay_rows.OF_SESSIONS + relay_rows.OTHERS for difference in row_differences(program, make())]
    if words.store:
        print("\n".join(rows) or "conversations: stored")
        if not rows:
            store()
        return 1 if rows else 0
    sent, cases, failures = Counter(), Counter(), []
    with ThreadPoolExecutor(os.cpu_count()) as lanes:
        for failure, (some, rules) in lanes.map(lambda number: compared(program, number), range(seed, seed + count)):
            sent.update(some)
            cases.update(rules)
            failures += [failure] if failure else []
    return report(count, failures, rows, sent, cases)


if __name__ == "__main__":
    sys.exit(main())
