#!/usr/bin/env python3
"""Runs nodes over loopback by scripts drawn at random, and looks at what they print: python3 bench/looks/nodes.py [COUNT] [SEED] [PROGRAM]

It needs the program, python3 and Linux. Each script has 2 to 8 nodes in a line,
a ring, a star or a tree, which are given and mine blocks and transactions, are cut off, grow on both sides and are linked again, spend
outputs twice, take checkpoints, and refuse what they must. At the end a last block is mined alone. Then each node must stand at the height
that a plain count has, all at one tip, and each audit must say yes. Each script is played by 1, 2 and 16 handlers. A script takes about a
second. COUNT is 20 where none is given. The status is 0 where all came out so.

Then eight nodes with 16 handlers each wait for a while: a second of that must cost at most 30 milliseconds of the processor.
"""

import random
import subprocess
import sys
import time
from pathlib import Path

sys.path.insert(0, str(Path(__file__).resolve().parents[2]))

from bench.tools.node_scripts import Play, complaints, edges
from bench.tools.process_talk import NodeTalk, ProcessLooks, command

COUNT, SEED, SECONDS = 20, 1, 120
HANDLERS = (1, 2, 16)
# How long nodes wait to be measured, after how long, and how many milliseconds a second of that may cost.
IDLE, REST, MOST = 5, 3, 30


class Nodes(ProcessLooks):
    """Runs of nodes."""

    def look_scripts(self):
        """Scripts that are drawn, each by 1, 2 and 16 handlers."""
        for number in range(int(self.options.count or COUNT)):
            play = Play(random.Random(f"{self.options.seed or SEED}-{number}"))
            for handlers in HANDLERS:
                ran = subprocess.run(command(self.program, play.count, handlers), input=play.text(), capture_output=True, timeout=SECONDS, check=False)
                self.look(f"script {number} by {handlers} handlers", (complaints(play, ran.returncode, ran.stdout), ran.stderr), ([], b""))

    def look_waiting(self):
        """Eight linked nodes with 16 handlers each that wait."""
        with NodeTalk(self.program, 8, 16) as nodes:
            for first, second in edges(random.Random(SEED), "ring", 8):
                nodes.say(f"link {first} {second}")
            nodes.say("mine 0")
            nodes.say("wait")
            time.sleep(REST)
            self.waits("they wait", MOST, IDLE, nodes)
            nodes.finish()


if __name__ == "__main__":
    sys.exit(Nodes.main(__doc__, count="how many scripts", seed="what the scripts are drawn by"))
