"""Which proofs run side by side: those of ./build, of ./attack and of the gate.

The kit's own lanes give each check of the gate the memory that one of its size might take, and where several are ready one processor each.
That leaves processors idle: what decides how long all takes is the longest chain of crates, each of which waits for the one below. So the
proof with the longest chain behind it gets all processors, and as many others run beside it, at a lower priority; must-fail edits come
where that leaves a lane free. What is checked, and what that gives, stays the kit's.
"""

import contextlib
import os
import re
import threading
import time
from concurrent.futures import FIRST_COMPLETED, ThreadPoolExecutor, wait
from pathlib import Path

# by how much the other checks yield; after how many seconds the free memory is looked at again
YIELDS, LOOK = 3, 20
# What makes a crate a proved one. Where that has no lines, there is nothing to do; what else has none may take as long as a proof.
PROOFS = ("proof", "tests")
# the part of the longest chain from which on a proof is one that others wait for
URGENT = 0.8
# The kit's figure for a check counts all lines of the crates below it. A prover of these crates takes far less: 1.1 to 2.0 GB, with one job
# and with four (2026-12-01). So a check is taken to need these parts of the figure, where one job, and where all processors are at work.
# FREE stays free.
OF_NEED, OF_NEED_URGENT, FREE = 0.25, 0.4, 2_000_000_000


def processors():
    """How many processors this process may use, by its control group's quota too."""
    found = len(os.sched_getaffinity(0))
    with contextlib.suppress(OSError, ValueError):
        quota, period = Path("/sys/fs/cgroup/cpu.max").read_text(encoding="utf-8").split()
        found = min(found, max(int(quota) // int(period), 1))
    return found


def free_memory():
    """The memory in bytes that is free, by the control group's limit too."""
    found = [1024 * int(re.search(r"MemAvailable:\s+(\d+)", Path("/proc/meminfo").read_text(encoding="utf-8"))[1])]
    with contextlib.suppress(OSError, ValueError):
        group = Path("/sys/fs/cgroup")
        found.append(int((group / "memory.max").read_text(encoding="utf-8")) - int((group / "memory.current").read_text(encoding="utf-8")))
    return min(found)


def yield_to_others():
    """Lowers the priority of this thread, which what it starts inherits."""
    here = os.PRIO_PROCESS, threading.get_native_id()
    os.setpriority(*here, os.getpriority(*here) + YIELDS)


class Lanes:
    """Tasks as the kit gives them: by key, what it waits for, its work in lines, its memory, and what does it. With them comes for how many
    lines it counts that a crate's proof reads the libraries below it."""

    def __init__(self, tasks, reading, is_told=False):
        self.tasks, self.is_told, self.processors, self.memory = tasks, is_told, processors(), free_memory()
        self.left, self.running, self.given = list(tasks), {}, {}
        self.began, self.behind = time.monotonic(), dict.fromkeys(tasks, 0)
        # a task comes after those that it waits for
        for key in reversed([*tasks]):
            reads = key[1] == "proof" and tasks[key][1]
            self.behind[key] += tasks[key][1] + (reading.get(key[0], 0) if reads else 0)
            for it in tasks[key][0]:
                self.behind[it] = max(self.behind[it], self.behind[key])
        self.left.sort(key=lambda it: (it[1] not in PROOFS, -self.behind[it]))

    def run(self):
        """Runs all, each once those it waits for have ended. Returns what each gave."""
        most = max(len(self.tasks), 1)
        with ThreadPoolExecutor(most) as urgent, ThreadPoolExecutor(most, initializer=yield_to_others) as others:
            while self.left or self.running:
                for key in [it for it in self.left if all(below in self.given for below in self.tasks[it][0])]:
                    is_urgent = self.is_urgent(key)
                    if self.may_begin(key, is_urgent):
                        self.left.remove(key)
                        self.running[(urgent if is_urgent else others).submit(self.work, key, is_urgent)] = key, is_urgent
                for it in wait(self.running, LOOK, FIRST_COMPLETED).done:
                    key, _ = self.running.pop(it)
                    self.given[key] = it.result()
        return self.given

    def is_urgent(self, key):
        longest = max(self.behind[it] for it in [*self.left, *(key for key, _ in self.running.values())])
        return key[1] == "proof" and self.behind[key] >= URGENT * longest

    def may_begin(self, key, is_urgent):
        """Whether a task is urgent, or a lane is free, and the memory for it is. One begins in any case where none runs."""
        if not self.running:
            self.memory = free_memory()
            return True
        is_nothing = key[1] in PROOFS and not self.tasks[key][1]
        has_lane = is_urgent or is_nothing or [it for _, it in self.running.values()].count(False) < self.processors
        taken = sum(self.need(*it) for it in self.running.values())
        return has_lane and min(self.memory - taken, free_memory()) - FREE > self.need(key, is_urgent)

    def need(self, key, is_urgent):
        """About how much memory a task takes."""
        return (OF_NEED_URGENT if is_urgent else OF_NEED) * self.tasks[key][2]

    def work(self, key, is_urgent):
        """Runs a task. Of one of some length it says when it ended, for whoever finds the run cut off."""
        began = time.monotonic()
        gave = self.tasks[key][3](self.given, self.processors if is_urgent else 1)
        if self.is_told and self.tasks[key][1]:
            now = time.monotonic()
            print(f"lanes: after {now - self.began:.0f} s: {' '.join(map(str, key))}, which took {now - began:.0f} s", flush=True)
        return gave


def run_in_lanes(repository, crates, call, waits_for):
    """Calls `call(crate, jobs)` for each crate, lowest first, each once those it waits for have ended.

    Returns what each call gave, by crate; a crate behind one that gave None gives None.
    """

    def task(crate):
        waits = [(it.name, "proof") for it in waits_for(crate)]

        def run(given, jobs):
            return None if any(given[it] is None for it in waits) else call(crate, jobs)

        return waits, crate.count_lines(".rt"), repository.memory(crate), run

    given = Lanes({(it.name, "proof"): task(it) for it in crates}, repository.reading()).run()
    return {it: given[it.name, "proof"] for it in crates}
