#!/usr/bin/env python3
"""Looks whether the lines of sources and definitions are short enough: scripts/width.py [FOLDER]

Wrong is a line of more than 100 characters, an import or an attribute aside, which rattle fmt keeps on one line; and an attribute before
the doc comment of its item. It prints each such line. The status is 0 where there is none. FOLDER is the repository to look at.
"""

import re
import sys
from pathlib import Path

WIDTH = 100
READ = ("crates/*/src/**/*.rt", "bench/programs/*/src/**/*.rt.in", "tests/src/*.rt.in", "crates/*/specs/**/*.antt")
# what stands on one line, however long
WHOLE = re.compile(r"\s*(?:(?:pub(?:\([^)]*\))? )?(?:ghost )?use |#!?\[)")
ATTRIBUTE = re.compile(r"\s*#\[.*\]$")
DOC = re.compile(r"\s*///(?!/)")


def faults(lines):
    """The number of each wrong line, from 1, and what is wrong."""
    for number, line in enumerate(lines, 1):
        if len(line) > WIDTH and not WHOLE.match(line):
            yield number, f"{len(line)} characters, more than {WIDTH}"
        if ATTRIBUTE.match(line) and number < len(lines) and DOC.match(lines[number]):
            yield number, "an attribute before the doc comment"


def main(root):
    wrong = 0
    for file in sorted({it for pattern in READ for it in root.glob(pattern)}):
        for number, fault in faults(file.read_text(encoding="utf-8").split("\n")):
            print(f"{file.relative_to(root)}:{number}: {fault}")
            wrong = 1
    return wrong


if __name__ == "__main__":
    sys.exit(main(Path(sys.argv[1] if len(sys.argv) > 1 else Path(__file__).parent.parent).resolve()))
