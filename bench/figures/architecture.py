#!/usr/bin/env python3
"""Draws the parts of a node, with the line between what is proved and what is trusted: python3 bench/figures/architecture.py [--out FILE]

The picture goes to docs/architecture.svg. Each part names its crate, which crates.txt must have; otherwise nothing is drawn and the status
is 1. It needs Python alone.
"""

import os
import sys
from pathlib import Path
from typing import NamedTuple

sys.path.insert(0, str(Path(__file__).resolve().parents[2]))

from bench.tools.lines import DARK, LEFT, LIGHT, WIDTH, stroke, text, whole
from bench.tools.programs import ROOT, usage

COLOURS = {**LIGHT, "proved": "#e3f5e7", "edge": "#1a7f37", "trusted": "#fdf0e1", "limit": "#a04100", "box": "#ffffff"}
DARKER = {**DARK, "proved": "#0e2a17", "edge": "#3fb950", "trusted": "#33210f", "limit": "#ffa657", "box": "#0d1117"}
RIGHT = WIDTH - LEFT
# the bands of what is trusted, above and below, and the ground of what is proved between them
ABOVE, PROVED, BELOW, HEIGHT = (56, 76), (172, 330), (530, 76), 622


class Part(NamedTuple):
    """A part of a node: where it stands, its name, what it is, and the crate to begin with."""

    left: float
    top: float
    width: float
    name: str
    told: str
    crate: str

    def middle(self):
        return self.left + self.width / 2

    def right(self):
        return self.left + self.width


PART_HEIGHT = 96
ROW, LOWER = 226, 386
READER = Part(44, ROW, 150, "Reader", "bytes to items", "cb_session")
INBOX = Part(226, ROW, 130, "Inbox", "a queue", "cb_crew")
HANDLER = Part(388, ROW, 150, "Handler", "of 1 to 16", "cb_crew")
SESSION = Part(570, ROW, 150, "Session", "pure machine", "cb_peer")
OUTBOX = Part(752, ROW, 144, "Outbox", "its writer", "cb_peers")
AUDIT = Part(44, LOWER, 270, "Audit, at the end", "journal beside sessions", "cb_audit")
HALL = Part(388, LOWER, 508, "Hall, behind a lock", "a journal over chain, UTXO set, mempool", "cb_hall")
PARTS = [READER, INBOX, HANDLER, SESSION, OUTBOX, AUDIT, HALL]


def said(x, y, words, size=20, anchor="middle", colour="ink", more=""):
    return text(x, y, words, size, anchor, colour, more, COLOURS)


def box(left, top, width, height, fill, edge, more=""):
    rect = f"<rect class='{fill}' x='{left}' y='{top}' width='{width}' height='{height}' rx='10' fill='{COLOURS[fill]}'/>"
    frame = f"<rect class='{edge}-line' x='{left}' y='{top}' width='{width}' height='{height}' rx='10' fill='none' stroke='{COLOURS[edge]}' stroke-width='3' {more}/>"
    return rect + frame


def arrow(start, end, colour="ink"):
    """A line from one point to another, straight up, down or across, with a head."""
    (x, y), (across, down) = start, end
    step = (10 if across > x else -10 if across < x else 0, 10 if down > y else -10 if down < y else 0)
    back = (across - step[0], down - step[1])
    side = (step[1] * 0.7, step[0] * 0.7)
    head = f"{across},{down} {back[0] + side[0]},{back[1] + side[1]} {back[0] - side[0]},{back[1] - side[1]}"
    return stroke([start, back], colour, width=3, light=COLOURS) + f"<polygon class='{colour}' points='{head}' fill='{COLOURS[colour]}'/>"


def drawn_part(part):
    parts = [box(part.left, part.top, part.width, PART_HEIGHT, "box", "edge", "stroke-opacity='0.6'")]
    parts.append(said(part.middle(), part.top + 30, part.name, 21, more="font-weight='bold'"))
    parts.append(said(part.middle(), part.top + 57, part.told, 19))
    return [*parts, said(part.middle(), part.top + 83, part.crate, 18, colour="faint")]


def band(place, what, words):
    top, height = place
    parts = [box(LEFT, top, RIGHT - LEFT, height, "trusted", "limit", "stroke-dasharray='10 7'")]
    parts.append(said(LEFT + 20, top + 31, "Trusted", 21, "start", "limit", "font-weight='bold'"))
    return [*parts, said(LEFT + 120, top + 31, what, 20, "start"), said(LEFT + 120, top + 59, words, 20, "start")]


def flow():
    """What goes from part to part."""
    middle, edge = ROW + PART_HEIGHT / 2, ABOVE[0] + ABOVE[1]
    parts = [arrow((a.right(), middle), (b.left, middle)) for a, b in zip(PARTS[:4], PARTS[1:5])]
    parts += [arrow((READER.middle(), edge), (READER.middle(), ROW)), arrow((OUTBOX.middle(), ROW), (OUTBOX.middle(), edge))]
    parts += [said(part.middle() + 12, edge + 27, "bytes", 19, "start") for part in (READER, OUTBOX)]
    down, up = SESSION.middle() - 26, SESSION.middle() + 26
    parts += [arrow((down, ROW + PART_HEIGHT), (down, LOWER)), arrow((up, LOWER), (up, ROW + PART_HEIGHT))]
    parts += [said(down - 10, LOWER - 24, "question", 19, "end"), said(up + 10, LOWER - 24, "answer", 19, "start")]
    return [*parts, arrow((HALL.left, LOWER + PART_HEIGHT / 2), (AUDIT.right(), LOWER + PART_HEIGHT / 2))]


def drawn():
    parts = [said(LEFT, 38, "A node: what is proved of it, and what is trusted", 26, "start", more="font-weight='bold'")]
    parts += band(ABOVE, "the system: its sockets, pipes, threads and clock,", "and what std's contracts say of them")
    parts.append(box(LEFT, PROVED[0], RIGHT - LEFT, PROVED[1], "proved", "edge"))
    parts.append(said(READER.right() + 16, PROVED[0] + 33, "Proved", 21, "start", "edge", "font-weight='bold'"))
    parts.append(said(READER.right() + 106, PROVED[0] + 33, "for every input and every schedule of threads", 20, "start"))
    for part in PARTS:
        parts += drawn_part(part)
    parts += flow()
    parts.append(said(READER.left, LOWER - 24, "one for each connection; handlers serve all", 19, "start", "faint"))
    parts += band(BELOW, "the kit's prover and compilers, clang, the linker, the C library;", "that the definitions say what you mean")
    return whole(HEIGHT, parts, COLOURS, DARKER)


def main():
    words = usage(__doc__)
    words.add_argument("--out", default=os.path.join(ROOT, "docs", "architecture.svg"), help="where the picture goes")
    given = words.parse_args()
    listed = {line.partition(":")[0].partition(" ")[0] for line in Path(ROOT, "crates.txt").read_text(encoding="utf-8").splitlines()}
    lacking = [part.crate for part in PARTS if part.crate not in listed]
    if lacking:
        print(f"crates.txt lacks {', '.join(lacking)}", file=sys.stderr)
        return 1
    Path(given.out).write_text(drawn(), encoding="utf-8")
    return 0


if __name__ == "__main__":
    sys.exit(main())
