"""Where built programs are, their stored runs, and runs of them in checked builds; and the words that a script is called with."""

import argparse
import os
import sys
from pathlib import Path

ROOT = str(Path(__file__).resolve().parents[2])
sys.path.insert(0, os.path.join(ROOT, "scripts"))

from checked import Case, run_checked
from repository import folder_of, path_of
from stored_runs import difference, read_run


def built(path, crate, top=ROOT):
    """The path of a program that was built: the one given, or where ./build leaves it below this folder."""
    path = os.path.abspath(path or path_of(crate, top))
    if not os.access(path, os.X_OK):
        sys.exit(f"{path} isn't built: ./build {crate}")
    return path


def stored_cases(program):
    """The stored runs of a program of bench/programs: that beside its sources, and those of runs/."""
    folder = folder_of(program)
    status = int((folder / "status").read_text(encoding="ascii")) if (folder / "status").is_file() else 0
    cases = [Case("stored", (folder / "stdin").read_bytes(), (folder / "stdout").read_bytes(), status)]
    for path in sorted(Path(ROOT, "runs", program).glob("*.run")):
        run = read_run(path)
        cases.append(Case(path.stem, run.given, run.printed, run.status))
    return cases


def write_stored_run(crate, records, lines):
    """Writes a program's stored run: its input, and what it has to print."""
    folder = folder_of(crate)
    (folder / "stdin").write_bytes(b"".join(records))
    (folder / "stdout").write_text("\n".join(lines) + "\n", encoding="ascii")
    print(f"{len(records)} records, {len(lines)} lines")


def usage(doc, **arguments):
    """A reader of the command line: `--help` prints the script's own text. Each argument has its help."""
    parser = argparse.ArgumentParser(description=doc, formatter_class=argparse.RawDescriptionHelpFormatter)
    for name, text in arguments.items():
        parser.add_argument(name, nargs="?", help=text)
    return parser
