#!/usr/bin/env python3
"""Plays the stored runs of bench_crew, a crew in threads, in a checked build: python3 bench/looks/crew_runs.py

It needs no built program, and takes a minute. Each run has to print what is stored, and to end with the stored status.
"""

import sys
from pathlib import Path

if not __package__:  # called as a file
    sys.path.insert(0, str(Path(__file__).resolve().parents[2]))

from bench.tools.programs import run_checked, stored_cases, usage


def main():
    usage(__doc__).parse_args()
    ran = run_checked("bench_crew", stored_cases("bench_crew"))
    failures = [f"{name}: {it.failure}" for name, it in ran.items() if it.failure]
    for failure in failures:
        print(failure)
    print(f"{len(ran) - len(failures)} passed, {len(failures)} failed")
    return 1 if failures else 0


if __name__ == "__main__":
    sys.exit(main())
