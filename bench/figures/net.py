#!/usr/bin/env python3
"""Draws how long a block takes to all nodes of a simulated network: python3 bench/figures/net.py [PROGRAM] [--most NODES] [--draw]

It needs the program, python3 and Linux. `cbrelay net` plays networks of 100, 1,000
and 10,000 nodes, as far as --most NODES goes (10,000 take some 5 GB and minutes): five blocks of 100 transactions, with 10,000 nodes one, of
which 0, 25, 50, 75 and 100 % of the nodes lack two. All else is as usual, and no audits are made. Each row has the medians of the blocks:
milliseconds of virtual time until 50, 90 and 100 % of the nodes have a block, and how many bytes were sent meanwhile; and the processor
seconds and the most memory of the run. The rows, with machine and date, go to bench/figures/net_rows.txt; the picture, drawn from that
file, to docs/net.svg. With --draw nothing is played, and the picture is drawn
alone.
"""

import csv
import datetime
import io
import os
import re
import statistics
import subprocess
import sys
from pathlib import Path

sys.path.insert(0, str(Path(__file__).resolve().parents[2]))

from bench.relay import machine, whose
from bench.tools.lines import BETWEEN, HEIGHT, LEFT, LIGHT, LINE, TOP, WIDTH, stroke, text, whole
from bench.tools.programs import ROOT, built, usage

# Networks, by their nodes, with how many blocks each has.
NODES, SHARES, MISSING = {100: 5, 1_000: 5, 10_000: 1}, (0, 25, 50, 75, 100), 2
# The network whose shares are drawn, and the share at which networks are compared.
DRAWN, SHARE = 1_000, 50
# The columns of times: their colours, names, and how far below the first point its value stands, if it does.
TIMES = {"half": ("second", "half", 30), "most": ("ink", "90 %", 0), "all": ("first", "all", -30)}
# The room for names beside a panel.
ASIDE = 148
ROWS, PICTURE = Path(ROOT, "bench", "figures", "net_rows.txt"), Path(ROOT, "docs", "net.svg")
ROW = re.compile(r"^\| ([\d,]+) \| (\d+) % \| (\d+) \| (\d+) \| (\d+) \|", re.M)


def played(program, nodes, share):
    """The row of a network: medians of its blocks, and what the run took."""
    words = ["net", "--nodes", nodes, "--blocks", NODES[nodes], "--missing", MISSING, "--lacking", share, "--audit", "none", "--csv"]
    with subprocess.Popen([program, *map(str, words)], stdout=subprocess.PIPE, text=True) as running:
        printed = running.stdout.read()
        _, status, taken = os.wait4(running.pid, 0)
        running.returncode = os.waitstatus_to_exitcode(status)
    if running.returncode:
        raise ValueError(f"{nodes} nodes end with status {running.returncode}")
    blocks = list(csv.DictReader(io.StringIO(printed)))
    half, most, last = (statistics.median(int(block[name]) for block in blocks) for name in TIMES)
    sent = statistics.median(sum(int(count) for name, count in block.items() if name.endswith("_bytes")) for block in blocks)
    spent = taken.ru_utime + taken.ru_stime
    return f"| {nodes:,} | {share} % | {half:.0f} | {most:.0f} | {last:.0f} | {sent / 1e6:.2f} | {spent:.1f} | {taken.ru_maxrss / 1e3:,.0f} |"


def rows_of(program, given):
    """Plays all networks, printing each row, and returns the rows below what they are of."""
    today = datetime.date.today().isoformat()
    rows = [f"Blocks of 100 transactions, links of 20 to 200 ms, 1.25 MB a second; {today}.", machine(), whose(given.program), ""]
    rows += ["| nodes | lack two | ms to half | ms to 90 % | ms to all | MB sent | processor s | memory MB |", "|---|---|---|---|---|---|---|---|"]
    print("\n".join(rows), flush=True)
    for nodes in (it for it in NODES if it <= given.most):
        for share in SHARES if nodes <= DRAWN else [SHARE]:
            rows.append(played(program, nodes, share))
            print(rows[-1], flush=True)
    return "\n".join(rows) + "\n"


def panel(left, width, title, scale, marks, lines):
    """One panel: lines of values by their places, from 0 to 1. Each has its name and its last value at its end; the lowest and the highest
    have their first value too."""
    base, width = TOP + HEIGHT, width - ASIDE
    height = (HEIGHT - 30) / max(max(values) for values in lines.values())
    parts = [text(left, TOP - 20, title, 23, "start", more="font-weight='bold'")]
    parts += [stroke([(left, base), (left + width, base)], "ink", "stroke-opacity='0.5'")]
    for place, mark in marks:
        x = left + width * place
        parts += [stroke([(x, base), (x, base + 8)], "ink", "stroke-opacity='0.5'", 2), text(x, base + 30, mark, anchor="middle" if place else "start")]
    parts.append(text(left, base + 60, scale, 20, "start", colour="faint"))
    for name, values in lines.items():
        colour, word, below = TIMES[name]
        points = [(left + width * place, base - value * height) for (place, _), value in zip(marks, values)]
        parts.append(stroke(points, colour))
        parts += [f"<circle class='{colour}' cx='{x:.1f}' cy='{y:.1f}' r='6' fill='{LIGHT[colour]}'/>" for x, y in points]
        parts.append(text(points[-1][0] + 12, points[-1][1] + 8, f"{word}: {values[-1]:,}", 21, "start", colour, "font-weight='bold'"))
        if below:
            parts.append(text(points[0][0], points[0][1] + below, f"{values[0]:,}", 21, "start", colour))
    return parts


def drawn(rows):
    """The picture, from the rows of the file."""
    found = {(int(nodes.replace(",", "")), int(share)): [int(it) for it in times] for nodes, share, *times in ROW.findall(rows)}
    nodes = [it for it in NODES if (it, SHARE) in found]
    width = (WIDTH - 2 * LEFT - BETWEEN) / 2
    shares = [(share / 100, f"{share} %" if share == 100 else str(share)) for share in SHARES]
    sizes = [(place / (len(nodes) - 1), f"{it:,}") for place, it in enumerate(nodes)]
    by_share = {name: [found[DRAWN, share][place] for share in SHARES] for place, name in enumerate(TIMES)}
    by_nodes = {name: [found[it, SHARE][place] for it in nodes] for place, name in enumerate(TIMES)}
    parts = [text(LEFT, 38, "Milliseconds until half, 90 % and all nodes have a block", 26, "start", more="font-weight='bold'")]
    parts += panel(LEFT, width, f"{DRAWN:,} nodes", "nodes that lack 2 of its transactions", shares, by_share)
    parts += panel(LEFT + width + BETWEEN, width, f"{SHARE} % of the nodes lack 2", "nodes of the network", sizes, by_nodes)
    parts.append(text(LEFT, TOP + HEIGHT + 100, rows.splitlines()[0], 20, "start"))
    return whole(TOP + HEIGHT + 90 + LINE, parts)


def main():
    words = usage(__doc__, program="the program")
    words.add_argument("--most", type=int, default=max(NODES), help="how many nodes the largest network has")
    words.add_argument("--draw", action="store_true", help="play nothing, and draw what was played")
    given = words.parse_args()
    if not given.draw:
        ROWS.write_text(rows_of(built(given.program, "cbrelay"), given), encoding="utf-8")
    PICTURE.write_text(drawn(ROWS.read_text(encoding="utf-8")), encoding="utf-8")


if __name__ == "__main__":
    main()
