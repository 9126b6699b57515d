#!/usr/bin/env python3
"""Tells what proofs cost, in seconds of a processor: scripts/cost.py run COMMAND .., simulate FILE COUNT, rank [CRATE ..]  or  owners

`run` runs a command, as `scripts/rt.py ci`, and passes on what it prints. Before the last line it tells what each crate's proof and
must-fail edits took, and the command in all. It looks at the provers twice a second, so one that ends between two looks loses half a second
at most.

`simulate` tells how long the gate takes on COUNT processors, by what `run` printed into a file: the crates in the order of lanes.py, where
the reading of libraries takes one processor, the rest of the most urgent proof takes all that are free, and edits fill what is left.

`rank` lists the functions of crates that took longest in the check or build whose work lies in crates/NAME/out/incremental: the states of
their code (typing), the search for proofs and what else there is. It goes by the times at which the prover wrote its files, so it is too
high where other work ran beside it. Delete that folder and check with `--jobs 1` to have it right.

`owners` lists the types that derive `Drop`, unroll into more than a few destructors where a value ends, and are owned by types of other
crates: there an `impl Drop` by hand is one call. It reads the text of the sources alone, with a word for each type in a field.
"""

import os
import re
import subprocess
import sys
import threading
import time
from collections import Counter
from pathlib import Path

ROOT = Path(__file__).resolve().parent.parent
# how often the provers are looked at, in seconds
INTERVAL = 0.5
TICKS = os.sysconf("SC_CLK_TCK")
KINDS = ("proof", "edits")
# what a line of the gate shows to be through, and the words for it
PARTS = [
    (r"rt: \w+ (NOT )?PROVED|rt: \w+ proved$", "proofs of the crates"),
    (r"rt: must-fail ", "must-fail edits"),
    (r"rt: \w+ ran", "runs of programs"),
]
# what the folder is named in which the gate tries a must-fail edit
EDITED = "/rt-edit-"
# how many functions `rank` lists
MOST = 30
# how many destructors `owners` passes over in a type that derives its own
FEW = 3
# a type's attributes, its name and the sign behind it
TYPE = re.compile(r"^((?:#\[.*\]\n)*)(?:pub(?:\([^)]*\))? )?(?:struct|enum) (\w+)[^{(;]*([{(])", re.M)
BY_HAND = re.compile(r"^impl\b.* Drop for (\w+)", re.M)
# what a field names and doesn't own
LENT = re.compile(r"&(?:'\w+ )?(?:mut )?[\w<>, ]+|\b(?:Snapshot|PhantomData)<.*|\bghost \w+: \{.*")
# types of the kit that have a destructor
KIT = set(
    "Arc BTreeMap BinaryHeap Box BytesMut Condvar HashMap HashSet IndexMap IndexSet JoinHandle Mutex Parker Receiver Sender String "
    "TcpListener TcpStream Unparker Vec VecDeque".split()
)
VARIANT = re.compile(r"^ *[A-Z]\w*(?=[,( {]|$)", re.M)
IMPORT = re.compile(r"^(?:pub )?use (\w+)::([^;]*);", re.M)


def processes():
    """The numbers of all processes, as texts."""
    return [it.name for it in os.scandir("/proc") if it.name.isdecimal()]


def text_of(process, name):
    """What Linux tells of a process in a file, or nothing where it has ended."""
    try:
        return Path("/proc", str(process), name).read_text(encoding="utf-8", errors="replace")
    except OSError:
        return ""


def fields_of(process):
    """The words of a process's `stat` behind its name, the second of which is its parent's number; none where it has ended."""
    return text_of(process, "stat").rpartition(")")[2].split()


class Meter:
    """Reads what the provers below a process take, from its start to its stop."""

    def __init__(self, above):
        self.above, self.taken, self.ended = str(above), {}, threading.Event()
        self.thread = threading.Thread(target=self.watch, daemon=True)
        self.thread.start()

    def watch(self):
        while not self.ended.wait(INTERVAL):
            self.look()

    def look(self):
        """Notes what each prover has taken by now; a process number that is used again begins anew by its start."""
        parents, provers = {}, {}
        for it in processes():
            if fields := fields_of(it):
                parents[it] = fields[1]
                if of := purpose(it):
                    provers[it, fields[19]] = (*of, (int(fields[11]) + int(fields[12])) / TICKS)
        self.taken |= {it: found for it, found in provers.items() if self.is_below(it[0], parents)}

    def is_below(self, number, parents):
        while number in parents and number != self.above:
            number = parents[number]
        return number == self.above

    def stop(self):
        """Returns the seconds by crate and kind of work."""
        self.ended.set()
        self.thread.join()
        found = Counter()
        for crate, kind, seconds in self.taken.values():
            found[crate, kind] += seconds
        return found


def purpose(process):
    """Returns the crate that a prover is at work on and what it does, or None where the process is another program's."""
    words = text_of(process, "cmdline").split("\0")
    if len(words) < 4 or os.path.basename(words[0]) != "rattle" or "--crate-name" not in words:
        return None
    try:
        folder = os.readlink(f"/proc/{process}/cwd")
    except OSError:
        return None
    return words[words.index("--crate-name") + 1], "edits" if EDITED in folder else "proof"


def table(found, whole):
    """Returns the lines of a table by crate, the dearest first, with the sums."""
    crates = sorted({crate for crate, _ in found}, key=lambda crate: -sum(found[crate, kind] for kind in KINDS))
    rows = [(crate, [found[crate, kind] for kind in KINDS]) for crate in crates]
    rows.append(("all of these", [sum(row[1][place] for row in rows) for place in range(len(KINDS))]))
    lines = [f"{'seconds of a processor':24}" + "".join(f"{it:>8}" for it in (*KINDS, "all"))]
    lines += [f"{name:24}" + "".join(f"{it:8.0f}" for it in (*seconds, sum(seconds))) for name, seconds in rows]
    return [*lines, f"{'with all that ran':24}{whole:32.0f}"]


def spent():
    """Returns the seconds that the processes took which were started here and have ended."""
    times = os.times()
    return times.children_user + times.children_system


def run(command):
    """Runs a command and passes on what it prints; before its last line, says when each part of the gate was through, and what proofs
    took."""
    began, before, through, last = time.monotonic(), spent(), {}, ""
    process = subprocess.Popen(command, stdout=subprocess.PIPE, stderr=subprocess.STDOUT, text=True, errors="replace")
    meter = Meter(process.pid)
    for line in process.stdout:
        print(last, end="", flush=True)
        last = line
        through |= {name: time.monotonic() - began for pattern, name in PARTS if re.match(pattern, line)}
    status = process.wait()
    for name, seconds in through.items():
        print(f"cost: {name} through after {seconds:.0f} s")
    print(*table(meter.stop(), spent() - before), f"cost: all took {time.monotonic() - began:.0f} s", sep="\n")
    print(last, end="", flush=True)
    return status


def simulate(path, count):
    """Returns the seconds that proofs and edits take on so many processors, by the table of a run."""
    from repository import SECONDS_OF_A_LINE, Repository  # which reads this file

    repository = Repository(ROOT)
    reading = {name: lines * SECONDS_OF_A_LINE for name, lines in repository.reading().items()}
    taken = re.findall(r"^(\w+) +(\d+) +(\d+) +\d+$", Path(path).read_text(encoding="utf-8"), re.M)
    proofs = {name: int(proof) for name, proof, _ in taken if name in repository.crates}
    edits, behind = sum(int(it) for name, _, it in taken if name in proofs), {}
    for name in reversed([it for it in repository.crates if it in proofs]):
        above = [it for it in behind if name in repository.crate(it).uses]
        behind[name] = proofs[name] + max((behind[it] for it in above), default=0)
    read = {name: min(reading[name], seconds) for name, seconds in proofs.items()}
    rest = {name: seconds - read[name] for name, seconds in proofs.items()}
    now = 0.0
    while rest:
        ready = sorted((it for it in rest if not set(repository.crate(it).uses) & set(rest)), key=lambda it: -behind[it])[:count]
        free = count - len(ready)
        rates = {it: 1 + free * (it == ready[0] and not read[it]) for it in ready}
        step = min((read[it] or rest[it]) / rates[it] for it in ready)
        edits, now = max(edits - step * (count - sum(rates.values())), 0), now + step
        for it in ready:
            part = read if read[it] else rest
            part[it] -= min(step * rates[it], part[it])
        rest = {it: seconds for it, seconds in rest.items() if read[it] > 1e-6 or seconds > 1e-6}
        read = {it: seconds if seconds > 1e-6 else 0 for it, seconds in read.items()}
    return now + edits / count


def function_of(path, crate):
    """Returns the function, or the type or file of lemmas, that a file of kept work speaks of, and the part of its check that made it."""
    words = path.name.removeprefix(f"Rattle-{crate}-").removesuffix(".oantt").split(".")[1:]
    names = words[1:] if words[:1] in (["contracts"], ["declared"]) else words
    last = max((place for place, it in enumerate(names) if it[:1].islower()), default=0)
    return ".".join(names[: last + 1] if last else names), {"Lts": "typing", "Proof": "search"}.get(words[-1] if words else "", "else")


def rank(names):
    for name in names:
        found, seconds = Counter(), Counter()
        files = sorted((it.stat().st_mtime, it) for it in (ROOT / "crates" / name / "out" / "incremental").glob("*/*.oantt"))
        for (before, _), (now, path) in zip(files, files[1:]):
            function, part = function_of(path, name)
            found[function] += now - before
            seconds[function, part] += now - before
        if not files:
            print(f"{name}: nothing is kept: rt check in its folder", file=sys.stderr)
        for function, all_of_it in found.most_common(MOST):
            taken = [(part, seconds[function, part]) for part in ("typing", "search", "else")]
            parts = ", ".join(f"{part} {it:.1f}" for part, it in taken if it >= 0.05)
            print(f"{all_of_it:7.1f} {name} {function}: {parts}")


class Types:
    """The types of the crates' sources by crate and name: what each names in its fields, and how it is dropped."""

    def __init__(self):
        self.fields, self.drops, self.counts = {}, {}, {}
        for path in sorted((ROOT / "crates").glob("*/src/**/*.rt")):
            self.read(path.relative_to(ROOT / "crates").parts[0], re.sub(r" *//.*", "", path.read_text(encoding="utf-8")))

    def read(self, crate, text):
        """Notes a file's types. A word in a field is of the file's crate, unless an import has it from another."""
        from_others = {word: crate if it == "crate" else it for it, words in IMPORT.findall(text) for word in re.findall(r"\w+", words)}
        by_hand = set(BY_HAND.findall(text))
        for found in TYPE.finditer(text):
            attributes, name, opened = found.groups()
            body = text[found.end() : text.index("\n}" if opened == "{" and text[found.end()] == "\n" else "\n", found.end())]
            words = re.findall(r"\b[A-Z]\w*", LENT.sub("", VARIANT.sub("", body)))
            self.fields[crate, name] = [(from_others.get(it, crate), it) for it in words]
            derived = re.search(r"derive\(.*\bDrop\b", attributes) and "Copy" not in attributes
            self.drops[crate, name] = "by hand" if name in by_hand else "derived" if derived else None

    def unrolled(self, of):
        """Returns how many destructors stand where a value of a type ends."""
        if of not in self.fields:
            return int(of[1] in KIT)
        if of not in self.counts:
            self.counts[of] = int(self.drops[of] == "by hand")
            if self.drops[of] == "derived":
                self.counts[of] = sum(map(self.unrolled, self.fields[of]))
        return self.counts[of]

    def owners(self, of):
        """Returns the types that own a type, in a field or in a field of a field."""
        above, found = {of}, set()
        while above:
            above = {it for it, fields in self.fields.items() if above & set(fields)} - found
            found |= above
        return found


def owners():
    types = Types()
    found = {it: len([above for above in types.owners(it) if above[0] != it[0]]) for it, how in types.drops.items() if how == "derived"}
    print(f"{'destructors':>11}{'owners':>8}  type")
    for it, above in sorted(found.items(), key=lambda row: (-types.unrolled(row[0]) * row[1], row[0])):
        if types.unrolled(it) > FEW and above:
            print(f"{types.unrolled(it):11}{above:8}  {' '.join(it)}")


def main(words):
    if words[:1] == ["run"] and words[1:]:
        return run(words[1:])
    if words[:1] == ["simulate"] and len(words) == 3 and words[2].isdecimal() and int(words[2]):
        print(f"{simulate(words[1], int(words[2])):.0f} s on {words[2]} processors")
        return 0
    if words[:1] == ["rank"]:
        rank(words[1:] or sorted(it.parent.parent.name for it in ROOT.glob("crates/*/out/incremental")))
        return 0
    if words == ["owners"]:
        owners()
        return 0
    print(__doc__.strip(), file=sys.stderr)
    return 2


if __name__ == "__main__":
    sys.exit(main(sys.argv[1:]))
