#!/usr/bin/env python3
"""Runs the kit's command `rt` on these words: scripts/rt.py WORDS..

`rt` asks each crate again and again for the crates below it, and a crate asks each library that it names for the same. Here each crate
keeps the answer, which saves each call a second. Which checks of the gate run side by side is decided in lanes.py. All else is the kit's.
"""

import contextlib
import sys
from importlib.machinery import SourceFileLoader
from importlib.util import module_from_spec, spec_from_loader

sys.dont_write_bytecode = True
from lanes import Lanes  # noqa: E402
from repository import ROOT, Repository, kit  # noqa: E402


def rt_of_kit():
    """The kit's command, as a module."""
    loader = SourceFileLoader("rt_of_kit", str(kit() / "bin" / "rt"))
    module = module_from_spec(spec_from_loader(loader.name, loader))
    loader.exec_module(module)
    return module


def keep_below(kind):
    """Lets each crate keep the list of the crates below it, which its libraries make and which stays."""
    asked = kind.below

    def below(crate):
        if "kept_below" not in crate.__dict__:
            crate.kept_below = asked(crate)
        return list(crate.kept_below)

    kind.below = below


def in_lanes_of(command):
    """What runs tasks side by side: lanes.py, where the tasks have the form that it knows, or else the kit's own."""
    whole, ending = command.in_lanes, getattr(command, "ending", contextlib.nullcontext)

    def in_lanes(tasks):
        if not all(len(key) >= 2 and len(task) == 4 and callable(task[3]) for key, task in tasks.items()):
            return whole(tasks)
        with ending():
            return Lanes(tasks, Repository(ROOT).reading(), is_told=True).run()

    return in_lanes


def main(words):
    command = rt_of_kit()
    if kind := getattr(getattr(command, "rtlib", None), "Crate", None):
        keep_below(kind)
    if hasattr(command, "in_lanes"):
        command.in_lanes = in_lanes_of(command)
    return command.main(words)


if __name__ == "__main__":
    sys.exit(main(sys.argv[1:]))
