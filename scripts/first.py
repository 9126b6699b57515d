#!/usr/bin/env python3
"""Runs cbrelay without a proof: scripts/first.py [COMMAND [WORDS ..]]

Without words three nodes in a line play examples/network.txt, and get blocks and transactions. With words they are those of cbrelay, whose
command runs here, on this input and output: `scripts/first.py node` is a node, `scripts/first.py help` lists the others.

What runs is compiled with checks for bad accesses and overflows, and kept below out/unproved, so that only the first call, or one after a
change of the sources, takes its minutes and its memory: README.md tells them. The status is the program's own; 7 where the nodes of
examples/network.txt don't end as is stored beside it; 8 where the program can't be compiled.
"""

import os
import re
import signal
import subprocess
import sys

sys.dont_write_bytecode = True
from repository import ROOT  # noqa: E402
from unproved import Uncompiled, program  # noqa: E402

EXAMPLE = ROOT / "examples" / "network.txt"
COMMAND = re.compile(r'Command::new\(alloc, "(\w+)"\)')


def is_word(word):
    """Whether cbrelay has this command or option, which is known before it is compiled."""
    sources = [*ROOT.glob("crates/cb_command/src/*.rt"), *ROOT.glob("crates/cb_net_plan/src/*.rt")]
    return word.startswith("-") or word in {"help", *(name for it in sources for name in COMMAND.findall(it.read_text(encoding="utf-8")))}


def tell(words):
    print(f"first: {words}", file=sys.stderr, flush=True)


def play_network():
    """Plays the example, and returns a status."""
    with EXAMPLE.open("rb") as script:
        ran = subprocess.run([program("bench_first", tell)], stdin=script, capture_output=True, check=False)
    sys.stdout.buffer.write(ran.stdout)
    sys.stderr.buffer.write(ran.stderr)
    # the lines of connections count messages, which depends on when ticks come
    ends = b"".join(line for line in ran.stdout.splitlines(True) if b" height " in line)
    if not ran.returncode and ends != EXAMPLE.with_name("network.txt.stdout").read_bytes():
        tell("that isn't what examples/network.txt.stdout has")
        return 7
    return ran.returncode


def main(words):
    if words and words[0] in ("-h", "--help"):
        print(__doc__.strip())
        return 0
    if words and not is_word(words[0]):
        tell(f"cbrelay has no command {words[0]}: --help tells how this is called")
        return 2
    try:
        if not words:
            return play_network()
        os.execv(program("cbrelay", tell), ["cbrelay", *words])
    except Uncompiled as why:
        tell(why)
        return 8
    except KeyboardInterrupt:
        return 128 + signal.SIGINT


if __name__ == "__main__":
    sys.exit(main(sys.argv[1:]))
