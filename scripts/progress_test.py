#!/usr/bin/env python3
"""Tests what ./build tells of how far it is: scripts/progress_test.py"""

import io
import sys
import tempfile
import unittest
from pathlib import Path
from unittest import mock

sys.dont_write_bytecode = True
import progress  # noqa: E402
from repository import Repository  # noqa: E402

# two crates that stand on a third, with lines of their own
LINES = {"low": ("", 100), "left": ("low", 200), "right": ("low", 400)}


class Terminal(io.StringIO):
    def isatty(self):
        return True


class Told(unittest.TestCase):
    def setUp(self):
        folder = tempfile.TemporaryDirectory()
        self.addCleanup(folder.cleanup)
        self.root, self.time = Path(folder.name), 0
        for name, (_, lines) in LINES.items():
            (self.root / "crates" / name / "src").mkdir(parents=True)
            (self.root / "crates" / name / "src" / "lib.rt").write_text("\n" * lines)
        (self.root / "crates.txt").write_text("".join(f"{name}: {below}\n" for name, (below, _) in LINES.items()))
        for it in (mock.patch.object(progress, "processors", lambda: 2), mock.patch("repository.kit", lambda: self.root)):
            it.start()
            self.addCleanup(it.stop)
        (self.root / "KIT-ID").write_text("a kit")

    def begin(self, stream):
        repository = Repository(self.root)
        made = progress.Progress(repository, [*repository.crates.values()], stream, lambda: self.time)
        return made, *made.crates

    def test_seconds_left(self):
        told, low, left, right = self.begin(io.StringIO())
        told.begin(low)
        self.time = 100
        told.end(low, "proved", 100, "")
        # a line took a second: `right` is the longest chain, and once both run half of all is left
        self.assertEqual(told.left(), 400)
        told.begin(left)
        told.begin(right)
        self.time = 300
        self.assertEqual(told.left(), 200)
        told.end(left, "proved", 200, "")
        told.end(right, None, 200, "")
        self.assertEqual(told.left(), 0)
        # kept: what was proved from nothing, and not what failed
        self.assertEqual({name: it["seconds"] for name, it in progress.Took(self.root).known.items()}, {"low": 100, "left": 200})

    def test_what_is_known(self):
        took = progress.Took(self.root)
        took.note("low", 50, Repository(self.root).sum_of(Repository(self.root).crates["low"]))
        took.note("left", 300, "other sources")
        told, low, left, right = self.begin(io.StringIO())
        # by the 350 seconds of 300 lines
        self.assertEqual([told.seconds(it) for it in (low, left, right)], [50, 300, 400 * 350 / 300])
        (low.folder / "out").mkdir()
        self.assertEqual(self.begin(io.StringIO())[0].seconds(low), progress.OF_KEPT)

    def test_lines(self):
        stream = io.StringIO()
        told, low, *_ = self.begin(stream)
        with told:
            told.begin(low)
            told.end(low, "proved and built", 60, "")
        self.assertEqual(stream.getvalue().splitlines()[1], "build: low: proved and built in 60 s; 1 of 3 crates; some 4 minutes left")

    def test_a_terminal(self):
        stream = Terminal()
        told, low, *_ = self.begin(stream)
        told.begin(low)
        told.end(low, None, 6, "why")
        told.ended.set()
        told.show()
        # nothing is left, since all others stand on it
        shown = ["", "build: 0 of 3 crates; low; less than a minute left", "why\nbuild: low: NOT PROVED in 6 s\nbuild: 0 of 3 crates", ""]
        self.assertEqual(stream.getvalue().split(progress.CLEAR), shown)


if __name__ == "__main__":
    unittest.main()
