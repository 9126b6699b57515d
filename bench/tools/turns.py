"""What runs take of the processor and of memory, where those that are compared take turns; and plays of records, whose time is the least
of some runs with them, less that of as many without them.
"""

import ctypes
import os
import statistics
import subprocess
import sys
from typing import NamedTuple

# What is compared takes turns as often as these seconds allow, within these bounds.
SECONDS, RUNS, MOST_RUNS = 3, 5, 100
# How much openssl hashes when it is measured: it hashes any bytes of a length in the same time.
HASHED = 600_000_000
OPENSSL = ["openssl", "dgst", "-sha256"]
# A process begins with the memory of the one that started it counted as its own. So a small program starts each run, and ends.
STARTER = ["setsid", "--fork"]
PR_SET_CHILD_SUBREAPER = 36


class Cost(NamedTuple):
    """What a run takes: seconds of the processor, and bytes of memory at its greatest."""

    seconds: float
    memory: int


def adopt():
    """From now on a process that another one started and left is this one's child."""
    if ctypes.CDLL(None, use_errno=True).prctl(PR_SET_CHILD_SUBREAPER, 1, 0, 0, 0) != 0:
        sys.exit(f"prctl: {os.strerror(ctypes.get_errno())}")


def once(command, path):
    """What one run with this file as standard input takes, and its exit status. `adopt` has to come before."""
    with open(path, "rb") as source:
        subprocess.run(STARTER + command, stdin=source, stdout=subprocess.DEVNULL, stderr=subprocess.DEVNULL, check=True)
    _, ended, used = os.wait3(0)
    return Cost(used.ru_utime + used.ru_stime, used.ru_maxrss * 1024), os.waitstatus_to_exitcode(ended)


def ended(command, path, wanted):
    """Ends this script where a run ends with another status than is wanted."""
    status = once(command, path)[1]
    if status != wanted:
        sys.exit(f"{' '.join(command)} ended with status {status}, and not with {wanted}")


def in_turns(*runs, seconds=SECONDS):
    """What a run of each of these commands with their files takes: the least time, and the memory in the middle."""
    took = [[once(*run)[0] for run in runs]]
    turns = int(seconds / sum(cost.seconds for cost in took[0]))
    took += [[once(*run)[0] for run in runs] for _ in range(1, min(max(RUNS, turns), MOST_RUNS))]
    return [Cost(min(cost.seconds for cost in costs), statistics.median(cost.memory for cost in costs)) for costs in zip(*took)]


class Bench:
    """Runs of a program, by these words, over files in a folder."""

    def __init__(self, program, folder, *words):
        self.program, self.folder, self.command = program, folder, [program, *words]

    def write(self, name, *parts):
        """Writes these bytes into a file, one part behind the other. Its path comes back."""
        path = os.path.join(self.folder, name)
        with open(path, "wb") as file:
            file.writelines(parts)
        return path

    def openssl(self, seconds=SECONDS):
        """How many seconds openssl takes to start, and how many bytes it hashes in one behind that. The file `zeros` stays."""
        zeros = self.write("zeros")
        os.truncate(zeros, HASHED)
        start, took = in_turns((OPENSSL, self.write("empty")), (OPENSSL, zeros), seconds=seconds)
        return start.seconds, HASHED / (took.seconds - start.seconds)


# ---- plays of records


class Play(NamedTuple):
    """Records, others whose time is taken off, and how many of each are refused."""

    whole: bytes
    ground: bytes
    refused: int = 0
    refused_below: int = 0


def behind(ground, records, refused=0, refused_below=0):
    """Records behind others whose time is taken off, and how many of each are refused."""
    return Play(ground + records, ground, refused_below + refused, refused_below)


class Runs(Bench):
    """Runs of a program that reads records."""

    def once(self, path, _refused):
        """The processor time of one run, whatever it refuses."""
        with open(path, "rb") as source:
            process = subprocess.Popen([self.program], stdin=source, stdout=subprocess.DEVNULL)
            _, status, used = os.wait4(process.pid, 0)
        process.returncode = os.waitstatus_to_exitcode(status)
        if process.returncode != 0:
            sys.exit(f"the program ended with status {process.returncode}")
        return used.ru_utime + used.ru_stime

    def seconds(self, plays, turns=RUNS):
        """What each play takes beyond its ground."""
        return seconds_of([(self, play) for play in plays], turns)

    def memory(self, data):
        """The memory of a run at its greatest beyond that of no input, in bytes."""
        whole, empty = self.write("whole", data), self.write("empty")
        ended([self.program], whole, 0)
        one, other = in_turns(([self.program], whole), ([self.program], empty))
        return one.memory - other.memory


def seconds_of(plays, turns=RUNS):
    """What each play takes beyond its ground, by the program that is named with it."""
    paths = [(runs.write(f"whole{i}", play.whole), runs.write(f"ground{i}", play.ground)) for i, (runs, play) in enumerate(plays)]
    took = [[(runs.once(whole, play.refused), runs.once(ground, play.refused_below))
             for (runs, play), (whole, ground) in zip(plays, paths)] for _ in range(turns)]
    return [min(whole for whole, _ in times) - min(ground for _, ground in times) for times in zip(*took)]
