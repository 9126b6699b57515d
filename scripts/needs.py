"""What ./test needs of a machine: looked for in its first second, and installed where it may be."""

import os
import shutil
import subprocess
from typing import NamedTuple

from lanes import free_memory, processors
from progress import Took
from repository import ROOT, kit

# the one that Debian's packages are installed for
SYSTEM_PYTHON = "/usr/bin/python3"
# the commands that are called, and the packages of Debian that have them
COMMANDS = {SYSTEM_PYTHON: "python3", "curl": "curl", "cc": "clang", "git": "git", "objcopy": "binutils", "unshare": "util-linux"}
MODULE, OF_MODULE = "bitcoin", "python3-bitcoinlib"
INSTALL = ["apt-get", "install", "--yes", "--no-install-recommends"]


class Needs(NamedTuple):
    """What a run takes of memory and of disk, in MB, and its minutes on four processors."""

    memory: int
    disk: int
    minutes: int


def lacking():
    """Returns the packages that the machine lacks."""
    found = {package for command, package in COMMANDS.items() if not shutil.which(command)}
    words = [SYSTEM_PYTHON, "-c", f"import importlib.util as it; exit(not it.find_spec('{MODULE}'))"]
    if "python3" in found or subprocess.run(words, check=False).returncode:
        found.add(OF_MODULE)
    return sorted(found)


def install(packages):
    """Installs packages where that may be done. Returns whether they are there."""
    if os.geteuid() == 0 and shutil.which("apt-get"):
        tell(f"installing {' '.join(packages)}")
        how = {"stdin": subprocess.DEVNULL, "stdout": subprocess.DEVNULL, "env": {**os.environ, "DEBIAN_FRONTEND": "noninteractive"}}
        if all(subprocess.run(words, check=False, **how).returncode == 0 for words in (["apt-get", "update"], [*INSTALL, *packages])):
            packages = lacking()
    if packages:
        tell(f"it lacks what this installs: {'' if os.geteuid() == 0 else 'sudo '}apt-get install {' '.join(packages)}")
    return not packages


def tell(words):
    print(f"test: {words}", flush=True)


def are_met(name, needs):
    """Whether a run can begin. Tells what the machine lacks or is short of, and how long the run will take."""
    kit()
    packages = lacking()
    if packages and not install(packages):
        return False
    seconds = Took(ROOT).seconds(name)
    minutes, why = (seconds / 60, "as last time") if seconds else (needs.minutes * max(4 / processors(), 1), f"on {processors()} processors")
    tell(f"{name} takes some {minutes:.0f} minutes, {why}")
    for what, free, takes in (("memory", free_memory() >> 20, needs.memory), ("disk", shutil.disk_usage(ROOT).free >> 20, needs.disk)):
        if free < takes:
            tell(f"it takes up to {takes} MB of {what}, of which {free} are free")
    return True
