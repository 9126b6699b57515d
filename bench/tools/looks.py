"""How a look counts what came out as it should, and what didn't, and how a script makes its looks."""

import subprocess
import sys
import time
from pathlib import Path

from bench.tools.programs import built, usage

SHOWN = 200
# How the names of a class's looks begin.
LOOK = "look_"


class Looks:
    """A look's name, the program that it runs, and how many things came out otherwise than they should, and how many of those too late."""

    def __init__(self, name, program):
        self.name, self.program, self.count, self.failed, self.late = name, program, 0, 0, 0

    def look(self, what, got, wanted):
        """Counts a thing. One that came out otherwise is told."""
        self.count += 1
        if got != wanted:
            self.failed += 1
            print(f"{self.name}: {what}: {shown(got)} for {shown(wanted)}")

    def most(self, what, value, most, form=".1f"):
        """Counts a figure, which may not be more than this."""
        self.look(f"{what}: whether {value:{form}} isn't more than {most:{form}}", value <= most, True)

    def in_time(self, what, seconds, most):
        """Counts how long something took. A look in which nothing but that was missed is made once more."""
        self.late += seconds > most
        self.most(what, seconds, most, ".2f")

    def ran(self, *words, given=None):
        """A run of the program on an input, which ends at once where there is none: its status, its output and its standard error."""
        how = {"stdin": subprocess.DEVNULL} if given is None else {"input": given}
        run = subprocess.run([self.program, *words], capture_output=True, text=True, timeout=300, check=False, **how)
        return run.returncode, run.stdout, run.stderr

    def tell(self, words):
        print(f"{self.name}: {words}", flush=True)

    def told(self):
        """Tells how many there were. The exit status comes back."""
        print(f"{self.name}: {self.count - self.failed} as they should be, {self.failed} not")
        return 1 if self.failed else 0

    # ---- the looks of a script

    def make(self, look, *words):
        """Makes one look, and once more where it was only late, since what else the host does takes time too."""
        count, failed, late = self.count, self.failed, self.late
        self.make_once(look, *words)
        if 0 < self.failed - failed == self.late - late:
            self.tell("that was only late, and is tried again")
            self.count, self.failed = count, failed
            self.make_once(look, *words)

    def make_once(self, look, *words):
        """Makes one look, whose name is told with what came out otherwise. What isn't told or done in time counts too."""
        name, what, began, failed = self.name, look.__name__.removeprefix(LOOK), time.monotonic(), self.failed
        self.name = f"{name}: {what}"
        try:
            look(*words)
        except (OSError, TimeoutError, ValueError, AssertionError, subprocess.TimeoutExpired) as fault:
            self.look("what it ended with", f"{type(fault).__name__}: {fault}", None)
        self.name = name
        self.tell(f"{what}: {'as it should be' if self.failed == failed else 'NOT'}, {time.monotonic() - began:.1f} s")

    @classmethod
    def main(cls, doc, flags=(), **words):
        """Makes all looks of a class, in their order, or one alone. Each is a method whose name begins with `look_`.

        The script's words are these, then the program; flags are pairs of a name and a help. The exit status comes back.
        """
        script = Path(sys.modules[cls.__module__].__file__).stem
        found = {name.removeprefix(LOOK): look for name, look in vars(cls).items() if name.startswith(LOOK)}
        reader = usage(doc, **words, program="the program, if not that of ./build")
        reader.epilog = "Its looks:\n" + "\n".join(f"  {name}: {look.__doc__ or 'what its name says'}" for name, look in found.items())
        reader.add_argument("--only", metavar="LOOK", choices=found, help="make this look alone")
        reader.add_argument("--without", metavar="LOOK", choices=found, action="append", default=[], help="don't make this look")
        for name, text in flags:
            reader.add_argument(f"--{name}", action="store_true", help=text)
        given = reader.parse_args()
        looks = cls(script, built(given.program, "cbrelay"))
        looks.options = given
        for name, look in found.items():
            if given.only in (None, name) and name not in given.without:
                looks.make(getattr(looks, look.__name__))
        return looks.told()


def shown(value):
    """A value in at most 200 characters."""
    text = repr(value)
    return text if len(text) <= SHOWN else f"{text[:SHOWN]}.."
