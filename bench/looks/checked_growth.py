#!/usr/bin/env python3
"""Refuses one growth of memory in a build of the program that also finds bad accesses: python3 bench/looks/checked_growth.py

`serve` hears examples/mixed.bin, and its 200th growth is refused. The run has to end with status 4 and without a bad access. It needs
`rt`, takes some 20 seconds, and proves nothing. All other growths are refused in the built program (refuse_growth.py).
"""

import subprocess
import sys
from pathlib import Path

ROOT = Path(__file__).resolve().parents[2]
REFUSED = 200
ENDED = "run=ended status=4 "


def main():
    with open(ROOT / "examples" / "mixed.bin", "rb") as heard:
        command = [sys.executable, ROOT / "scripts" / "rt.py", "try", "--fail-alloc", str(REFUSED), "--", "serve"]
        ran = subprocess.run(command, cwd=ROOT / "crates" / "cbrelay", stdin=heard, capture_output=True, text=True, errors="replace", check=False)
    lines = (ran.stdout + ran.stderr).strip().splitlines()
    last = lines[-1] if lines else "nothing was printed"
    print(last)
    return 0 if last.startswith(ENDED) else 1


if __name__ == "__main__":
    sys.exit(main())
