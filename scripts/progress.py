"""How far ./build is, and how long things took on this machine.

The seconds are kept in out/seconds.json by names, with a checksum of what a crate was proved from. A crate without seconds is reckoned by
its lines and those that its proof reads, at the rate of the crates that have some.
"""

import json
import os
import sys
import threading
import time

from lanes import processors

# In seconds: what a crate takes whose proof is kept, and a line of one where nothing is known yet; how often a terminal's line is renewed.
OF_KEPT, OF_A_LINE, RENEWED = 4, 0.06, 5
CLEAR = "\r\x1b[K"


def ended_so(crate, done, seconds, said):
    """Returns how the proof of a crate ended, by what was done, or else what was said."""
    return ("" if done else f"{said}\n") + f"build: {crate.name}: {done or 'NOT PROVED'} in {seconds:.0f} s"


class Took:
    """The seconds that things took on this machine, by name."""

    def __init__(self, root):
        self.file, self.turn = root / "out" / "seconds.json", threading.Lock()
        self.known = self.read()

    def read(self):
        try:
            return json.loads(self.file.read_text(encoding="utf-8"))
        except (OSError, ValueError):
            return {}

    def seconds(self, name):
        return self.known.get(name, {}).get("seconds")

    def is_for(self, name, made_of):
        """Whether these seconds were of the same things."""
        return self.known.get(name, {}).get("sum") == made_of

    def note(self, name, seconds, made_of=None):
        with self.turn:
            self.known = self.read() | {name: {"seconds": round(seconds, 1), "sum": made_of}}
            new = self.file.with_name(f"{self.file.name}.{os.getpid()}")
            new.parent.mkdir(exist_ok=True)
            new.write_text(json.dumps(self.known, indent=0), encoding="utf-8")
            new.replace(self.file)


class Progress:
    """Which of these crates are done, which are being proved since when, and about how many seconds are left."""

    def __init__(self, repository, crates, stream=sys.stderr, now=time.monotonic):
        self.repository, self.crates, self.stream, self.now = repository, crates, stream, now
        self.took, reading = Took(repository.root), repository.reading()
        self.sizes = {it: it.count_lines(".rt") + reading[it.name] for it in crates}
        self.sums = {it: repository.sum_of(it) for it in crates}
        self.anew = {it for it in crates if not (it.folder / "out").exists()}
        self.proved, self.failed, self.running = set(), set(), {}
        self.turn, self.ended = threading.RLock(), threading.Event()

    def __enter__(self):
        if self.stream.isatty():
            threading.Thread(target=self.renew, daemon=True).start()
        else:
            print(f"build: {self.words()}", file=self.stream, flush=True)
        return self

    def __exit__(self, *_):
        self.ended.set()
        self.show()

    def renew(self):
        self.show()
        while not self.ended.wait(RENEWED):
            self.show()

    def show(self, above=None):
        """Shows on a terminal how far it is, in place of the line that is there; above it this text, which stays. Elsewhere both are one
        line."""
        with self.turn:
            if self.stream.isatty():
                line = "" if self.ended.is_set() else f"build: {self.words()}"
                print(f"{CLEAR}{above}\n{line}" if above else f"{CLEAR}{line}", end="", file=self.stream, flush=True)
            elif above:
                print(f"{above}; {self.words()}", file=self.stream, flush=True)

    def begin(self, crate):
        with self.turn:
            self.running[crate] = self.now()
            self.show()

    def end(self, crate, done, seconds, said):
        """Tells how the proof of a crate ended, and notes what it took, if that was from nothing or longer."""
        with self.turn:
            del self.running[crate]
            (self.proved if done else self.failed).add(crate)
            is_news = crate in self.anew or seconds > (self.took.seconds(crate.name) or 0)
            if done and is_news and not self.is_kept(crate):
                self.took.note(crate.name, seconds, self.sums[crate])
            self.show(ended_so(crate, done, seconds, said))

    def is_kept(self, crate):
        """Whether the crate's proof is one that was built here."""
        return crate not in self.anew and self.took.is_for(crate.name, self.sums[crate])

    def seconds(self, crate):
        """About how many seconds a crate takes."""
        if self.is_kept(crate):
            return OF_KEPT
        known = [(it, seconds) for it in self.crates if (seconds := self.took.seconds(it.name))]
        rate = sum(seconds for _, seconds in known) / sum(self.sizes[it] for it, _ in known) if known else OF_A_LINE
        return self.took.seconds(crate.name) or rate * self.sizes[crate]

    def left(self):
        """About how many seconds are left, but for what stands on a crate that failed: those of the longest chain, or of all by as many
        processors."""
        needs, behind, below = {}, {}, self.repository.below
        for it in reversed(self.crates):
            if it not in self.proved and not self.failed.intersection([it, *below(it)]):
                needs[it] = max(self.seconds(it) - (self.now() - self.running[it] if it in self.running else 0), 1)
                behind[it] = needs[it] + max((behind[above] for above in behind if it in below(above)), default=0)
        return max(sum(needs.values()) / processors(), *behind.values(), 0)

    def words(self):
        with self.turn:
            running, minutes = ", ".join(sorted(it.name for it in self.running)), self.left() / 60
        left = "" if not minutes else "less than a minute left" if minutes < 1 else f"some {minutes:.0f} minutes left"
        return "; ".join(filter(None, [f"{len(self.proved)} of {len(self.crates)} crates", running, left]))
