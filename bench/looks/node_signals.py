#!/usr/bin/env python3
"""Ends processes `cbrelay node` by signals, through scripts/run-node: python3 bench/looks/node_signals.py [PROGRAM] [--only LOOK]

It needs the program, python3, Linux, and unshare and nsenter of util-linux, and takes
some ten seconds. Where it isn't root, the namespaces are those of a user of their own. --help tells the looks. The status is 0 where all
came out so.
"""

import os
import shutil
import signal
import subprocess
import sys
import tempfile
import time
from pathlib import Path

sys.path.insert(0, str(Path(__file__).resolve().parents[2]))

from bench.tools.plain_peer import dialled
from bench.tools.process_talk import NodeProcess, ProcessLooks, closed_port
from bench.tools.programs import ROOT

RUN_NODE = str(Path(ROOT, "scripts/run-node"))
# A PID namespace of its own, whose process 1 is the command behind these words.
ALONE = ["unshare", *([] if os.geteuid() == 0 else ["--map-root-user"]), "--pid", "--fork", "--kill-child", "--mount-proc"]
SIGNALS = (signal.SIGTERM, signal.SIGINT, signal.SIGHUP)
# Shells that may be the one behind the script's first line. Those that aren't there are passed over.
SHELLS = (["sh"], ["dash"], ["bash"], ["busybox", "sh"])
# How many peers are connected when a signal comes, how many blocks are mined meanwhile, and how often a signal comes again.
PEERS, BLOCKS, AGAIN = 8, 200, 20
# How long a process that lost its parent lives, in seconds, and how long it may wait for its end to be noticed.
ORPHAN, NOTICED = 0.3, 10
KILLED = 128 + signal.SIGKILL


class Wrapped(NodeProcess):
    """A process that runs a node by scripts/run-node, with an operator who writes into the script's FIFO."""

    def __init__(self, program, *words, before=(), shell=()):
        self.folder = tempfile.mkdtemp(prefix="cbrelay-signals-")
        self.orders = os.path.join(self.folder, "orders")
        super().__init__(program, *words, before=(*before, *shell, RUN_NODE, "--orders", self.orders))

    def __exit__(self, *told):
        super().__exit__(*told)
        shutil.rmtree(self.folder)

    def say(self, line):
        """The answer to a line: its first line."""
        self.write(f"{line}\n")
        return self.line()

    def write(self, text):
        """Writes a text into the FIFO, which the script and the node have open."""
        with open(self.orders, "w", encoding="ascii") as orders:
            orders.write(text)

    def script(self, alone):
        """The number of the script's process: behind `unshare` its only child."""
        return children(self.process.pid)[0] if alone else self.process.pid


class Signals(ProcessLooks):
    """Ends by signals."""

    def started(self, *words, before=ALONE, shell=()):
        """A node that listens, behind the script; the number of the script's process comes with it."""
        node = self.enter(Wrapped(self.program, *words, before=before, shell=shell))
        return node, node.script(before is ALONE)

    def ends_well(self, node, asked=False, answers=0, status=0):
        """The node ends with this status and an audit that says yes, and printed so many answers before it."""
        return self.ended_so(node.rest(), status, asked, answers=answers)

    # ---- process 1

    def look_each_signal_asks_for_the_end(self):
        """SIGTERM, SIGINT and SIGHUP to process 1 of a PID namespace, by each shell, end the node by `quit`."""
        for shell in (words for words in SHELLS if shutil.which(words[0])):
            for number in SIGNALS:
                node, script = self.started(shell=shell)
                self.look("its number in its namespace", inner(script), 1)
                self.mines(node, 3, height=3)
                os.kill(script, number)
                self.ends_well(node)

    def look_peers_are_connected(self):
        """SIGTERM while peers are connected, another node is linked, and blocks are mined."""
        node, script = self.started()
        other = self.linked(node)
        for _ in range(PEERS):
            self.enter(dialled(node.port)).shake_hands()
        self.has_peers(node, PEERS + 1)
        self.mines(node, height=1)
        self.stands_at(node.tip(), other)
        node.write("mine 1\n" * BLOCKS)
        os.kill(script, signal.SIGTERM)
        told = self.ends_well(node, asked=True, answers=BLOCKS)
        self.look("the blocks that it was asked for before", [line.split()[:2] for line in told], [["mined", "1"]] * BLOCKS)
        # compact blocks are soon dropped by a checkpoint
        self.ends(other, asked=True, drops=None)

    def look_the_signal_comes_again(self):
        """SIGTERM twice at once, again and again, and SIGINT between."""
        for count in (2, AGAIN):
            node, script = self.started()
            node.say("mine 100")
            sent = sum(still(script, (signal.SIGTERM, signal.SIGINT)[it % 2] if count > 2 else signal.SIGTERM) for it in range(count))
            self.look("whether some came", sent > 0, True)
            self.ends_well(node)
            self.look("what isn't of the log", [line for line in node.logged if line and "cbrelay] " not in line], [])

    def look_orphans_are_reaped(self):
        """A process in the namespace whose parent ends before it."""
        node, script = self.started()
        before = children(script)
        enter = ["nsenter", f"--target={script}", "--user"] if os.geteuid() else ["nsenter", f"--target={script}"]
        subprocess.run([*enter, "--pid", "sh", "-c", f"(sleep {ORPHAN} &)"], check=True, timeout=NOTICED)
        self.look("whether process 1 has it", node.until(lambda: len(children(script)) > len(before), NOTICED), True)
        self.look("whether it is reaped", node.until(lambda: children(script) == before, NOTICED), True)
        os.kill(script, signal.SIGTERM)
        self.ends_well(node)

    # ---- beside other processes

    def look_an_operator_keeps_the_fifo_open(self):
        """The signal comes while an operator has the FIFO open, so the node's input doesn't end. The node does."""
        node, script = self.started(before=())
        self.enter(open(node.orders, "w", encoding="ascii"))
        os.kill(script, signal.SIGTERM)
        self.ends_well(node)

    def look_a_line_without_an_end(self):
        """A line that has no end yet spoils the `quit` behind it: the node ends once the operator closes the FIFO."""
        node, script = self.started(before=())
        orders = self.enter(open(node.orders, "w", encoding="ascii"))
        orders.write("tip")
        orders.flush()
        os.kill(script, signal.SIGTERM)
        self.look("whether it goes on while the FIFO is open", node.until(lambda: node.process.poll() is not None, 1), False)
        orders.close()
        self.ends_well(node, answers=1)

    def look_the_whole_group_is_signalled(self):
        """Signals to the group of the script and the node, as by Ctrl-C or by KillMode=control-group."""
        for number in SIGNALS:
            node, script = self.started(before=["setsid"])
            os.killpg(script, number)
            self.ends_well(node)

    def look_a_status_is_passed_on(self):
        """A node that is killed gives 137, one that never reached its peer 3, refused words 1, a program that isn't there 127."""
        node, script = self.started()
        os.kill(children(script)[0], signal.SIGKILL)
        self.look("the end of one that is killed", node.rest(), (KILLED, []))
        node, script = self.started("--connect", f"127.0.0.1:{closed_port()}")
        os.kill(script, signal.SIGTERM)
        self.ends_well(node, status=3)
        for words, status in (([self.program, "node", "--tick", "0"], 1), (["/nowhere/cbrelay", "node"], 127), ([], 1), (["--orders", "x"], 1),
                              (["--orders", __file__, self.program, "node"], 3)):
            ran = subprocess.run([RUN_NODE, *words], stdin=subprocess.DEVNULL, capture_output=True, text=True, timeout=60, check=False)
            self.look(f"the status of {words}", (ran.returncode, ran.stdout), (status, ""))
            self.look(f"whether {words} are told why", ran.stderr != "", True)

    def look_the_script_is_killed(self):
        """SIGKILL to the script alone: the node comes to the end of its input, and ends with its audit."""
        node, script = self.started(before=())
        self.mines(node, height=1)
        os.kill(script, signal.SIGKILL)
        self.ended_so(node.rest(), -signal.SIGKILL)


def children(process):
    """The numbers of a process's children."""
    return [int(it) for it in Path(f"/proc/{process}/task/{process}/children").read_text(encoding="ascii").split()]


def inner(process):
    """A process's number in its own namespace."""
    rows = Path(f"/proc/{process}/status").read_text(encoding="ascii").splitlines()
    return int(next(row for row in rows if row.startswith("NSpid:")).split()[-1])


def still(process, number):
    """Sends a signal, soon after the one before. Whether the process was there comes back."""
    try:
        os.kill(process, number)
    except ProcessLookupError:
        return False
    time.sleep(0.002)
    return True


if __name__ == "__main__":
    # A shell can't trap a signal that was ignored when it was started, as SIGINT is behind `./test &` in a script.
    for it in SIGNALS:
        signal.signal(it, signal.SIG_DFL)
    sys.exit(Signals.main(__doc__))
