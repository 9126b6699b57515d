#!/usr/bin/env python3
"""Prints the contracts of the crates from their sources.

    scripts/contracts.py [CRATE | NAME | Type::name ..] [--definitions] [--private]
    scripts/contracts.py --selftest

With no word each public call of each crate is printed: its signature, where it stands, the first sentence of its doc comment, and its
clauses; so are what traits ask for, laws (public functions that do nothing), and the ghost members of types, traits and impls. CRATE prints
that crate's calls alone, NAME each function of that name, private ones too, or all that a type or a trait of it has.

    --definitions   below each call the definitions that its clauses cite. Names of the kit and of the sources' types are told alone
    --private       private functions too

Of a name that no crate has standard error tells, and the status is 2. --selftest reads a small crate, and looks up the functions and
clauses that docs/GUARANTEES.md names.
"""

import argparse
import difflib
import os
import re
import shutil
import sys
import tempfile
import textwrap
from pathlib import Path

from repository import ROOT
from sources import WORD, Tree, without_generics

WIDTH, INDENT = 100, "    "
REMARK = re.compile(r"(--|//) ")
# a small repository, whose files have the ending .txt besides, and what is printed of it
SMALL, CRATES = Path(__file__).resolve().with_name("contracts_test_data"), "# lowest first\nlow:\nhigh: low\n"
# a table's row of GUARANTEES.md; what the cell of its calls has: a name, clauses, the end of a group
ROW = re.compile(r"^\| (?!promise|---)([^|]*) \| ([^|]*) \| ([^|]*) \| [^|]*\|$")
PART = re.compile(r"`([^`]+)`|\(([^()]*)\)|(;)")
NAME = re.compile(r"^(?:([A-Z]\w*)::)?(\w+)$")


def folded(text, indent="", further=INDENT):
    """The lines of a text, each within the width."""
    for line in text.split("\n"):
        own = indent + " " * (len(line) - len(line.lstrip()))
        if len(indent) + len(line) <= WIDTH:
            yield indent + line if line else ""
            continue
        remark = REMARK.match(line.strip())
        behind = own + (remark[0] if remark else further)
        how = {"initial_indent": own, "subsequent_indent": behind, "break_long_words": False, "break_on_hyphens": False}
        yield from textwrap.wrap(line.strip(), WIDTH, **how)


def named(others):
    """The names that aren't printed: those of the kit, and those of the sources' types."""
    of_kit, of_sources = [], []
    for path, name in others:
        if path[-1] == "TheVariants":
            of_sources.append("::".join(filter(None, (path[-2], name))))
        elif "declared" in path:
            of_sources.append(name or path[-1])
        else:
            of_kit.append(name or path[-1])
    parts = (("of the sources", of_sources), ("of the kit", of_kit))
    yield from (f"{words}: {', '.join(dict.fromkeys(it))}" for words, it in parts if it)


class Printer:
    """Prints entries below their crates and files."""

    def __init__(self, tree, with_definitions):
        self.tree, self.with_definitions = tree, with_definitions
        self.crate = self.file = None

    def lines(self, entry):
        yield from self.headings(entry)
        yield ""
        yield from folded(self.title(entry))
        yield f"{INDENT}{entry.place}"
        if entry.doc:
            yield from folded(entry.summary, INDENT, "")
        for clause in entry.clauses:
            yield from (line for it in clause.remarks for line in folded(it, INDENT, ""))
            yield from folded(clause.text, INDENT)
        yield from self.behind(entry)

    def headings(self, entry):
        """A line for a crate and for a file, where these are new."""
        if entry.crate != self.crate:
            self.crate = entry.crate
            yield from ["", f"# {entry.crate}"] if self.file else [f"# {entry.crate}"]
        if entry.file != self.file:
            self.file = entry.file
            yield from ["", f"## {entry.file}"]

    def title(self, entry):
        """An entry's signature, with the type before its name."""
        if entry.kind != "fn":
            return entry.head
        before = "law " if entry.is_law else "" if entry.is_public or entry.of_trait else "private "
        behind = f" of {entry.of_trait}" if entry.of_trait else ""
        owner = f"{entry.owner}::" if entry.owner else ""
        return f"{before}{owner}{entry.head.partition('fn ')[2]}{behind}"

    def behind(self, entry):
        """Where the clauses of a trait's function stand, and what the clauses cite."""
        if not entry.clauses and entry.kind == "fn":
            asked = self.asked_by_trait(entry)
            yield f"{INDENT}{'no clause' if asked is None else f'the clauses are those of {asked}'}"
        if not self.with_definitions:
            return
        definitions, others = self.tree.cited(entry)
        for it in definitions:
            yield from ["", f"{INDENT}{it.file}:{it.line}"]
            yield from folded(it.text, INDENT)
        if others:
            yield ""
        yield from (line for it in named(others) for line in folded(it, INDENT))

    def asked_by_trait(self, entry):
        """Where the clauses of a function stand that a trait asks for."""
        if not entry.of_trait:
            return None
        asked = (entry.of_trait, entry.name)
        for it in self.tree.entries:
            if it.kind == "fn" and (it.owner, it.name) == asked and it.clauses:
                return f"{it.title}, {it.place}"
        return f"the kit's {entry.of_trait}"


def is_shown(entry, private):
    """Whether an entry is among those of a crate: public, and its own or with clauses."""
    is_own = entry.kind == "fn" and not entry.of_trait
    return (entry.is_public or private) and (is_own or bool(entry.clauses))


def of_word(tree, word, private):
    """The entries that a word names."""
    if word in tree.crates:
        return [it for it in tree.entries if it.crate == word and is_shown(it, private)]
    owner, _, name = word.rpartition("::")
    of_owner = [it for it in tree.entries if owner in ("", it.owner, it.of_trait)]
    functions = [it for it in of_owner if it.kind == "fn" and it.name == name]
    members = [it for it in of_owner if it.kind != "fn" and it.named(name)]
    return [*functions, *members] or [it for it in tree.entries if it.owner == word and (it.kind == "fn" or it.clauses)]


def chosen(tree, words, private):
    """The entries to print, in the tree's order, and the words that name none."""
    if not words:
        return [it for it in tree.entries if is_shown(it, private)], []
    found = {word: of_word(tree, word, private) for word in words}
    asked = {id(it) for entries in found.values() for it in entries}
    return [it for it in tree.entries if id(it) in asked], [it for it in words if not found[it]]


def report(tree, words, definitions=False, private=False):
    """The lines to print, and the words that name nothing."""
    entries, unknown = chosen(tree, words, private)
    printer = Printer(tree, definitions)
    return [line.rstrip() for it in entries for line in printer.lines(it)], unknown


def differences(name, found):
    """What differs between what is stored and what was printed of the small repository."""
    wanted = (SMALL / f"{name}.txt").read_text(encoding="utf-8")
    if wanted == "\n".join(found).strip() + "\n":
        return []
    lines = difflib.unified_diff(wanted.splitlines(), found, "wanted", "found", lineterm="")
    return [f"a small repository, {name}: not as it should be", *lines]


def of_small_repository():
    """What is wrong of a small repository's contracts."""
    with tempfile.TemporaryDirectory(prefix="cbrelay-contracts-") as room:
        Path(room, "crates.txt").write_text(CRATES, encoding="utf-8")
        for path in (SMALL / "crates").rglob("*.txt"):
            file = Path(room, path.relative_to(SMALL)).with_suffix("")
            file.parent.mkdir(parents=True, exist_ok=True)
            shutil.copyfile(path, file)
        tree = Tree(room)
        wrong = differences("all", report(tree, [])[0])
        wrong += differences("definitions", report(tree, ["high"], definitions=True)[0])
        wrong += differences("names", report(tree, ["Tally::add", "hidden"])[0])
        if report(tree, ["of", "never", "Tally::never_less"])[1] != ["never", "Tally::never_less"]:
            wrong.append("a small repository: unknown names aren't told")
    return wrong


class Look:
    """Looks up the functions and the clauses that docs/GUARANTEES.md names."""

    def __init__(self, tree):
        self.tree, self.looked, self.wrong, self.by_name = tree, 0, [], {}
        self.traits = {(it.owner, it.name): it.of_trait for it in tree.entries if it.of_trait}
        for entry in tree.entries:
            for name in {entry.name, entry.owner, entry.of_trait, *self.ghost_names(entry)}:
                if entry.clauses:
                    self.by_name.setdefault(name, []).append(entry)

    def ghost_names(self, entry):
        """The names of ghost members; where they say the rule of a queue, those in it too."""
        ghosts = entry.clauses if entry.kind != "fn" else []
        return {it.name for it in ghosts} | self.cited(entry, [it for it in ghosts if it.name == "holds"])

    def cited(self, entry, clauses):
        """The words of definitions that clauses cite, and of those beside them that these name."""
        found = set()
        for it in self.tree.cited(entry, clauses)[0]:
            beside = self.tree.definitions(it.file).by_name
            named = [beside[word].text for word in WORD.findall(it.text) if word in beside]
            found |= {word for text in named for word in WORD.findall(re.sub(r"--.*", "", text))}
        return found

    def entries(self, is_told, owner, name):
        """What has a clause under a name: of its type if that is told, or else better of it."""
        found = self.by_name.get(name, [])
        owners = {owner, self.traits.get((owner, name), owner)}
        of_owner = [it for it in found if owners & {it.owner, it.of_trait}]
        return of_owner or ([] if is_told else found)

    def has_clause(self, entries, word):
        return any(it.named(word) or word in self.cited(it, it.clauses) for it in entries)

    def expect(self, is_so, words):
        self.looked += 1
        if not is_so:
            self.wrong.append(words)

    def cell(self, place, cell):
        """Looks up a cell's names, and for those of each group the clauses in parentheses."""
        owner, group = "", []
        for code, clauses, end in PART.findall(cell):
            found = NAME.match(without_generics(code))
            if found:
                owner = found[1] or owner
                entries = self.entries(bool(found[1]), owner, found[2])
                self.expect(entries, f"{place}: {code} has no clause")
                group += entries
            bare = re.split(r"[,;:]", re.sub(r"`[^`]*`", "`", clauses))
            for word in (it.strip() for it in bare if group):
                if re.fullmatch(r"[a-z_]+", word) and word not in ("all", *self.tree.crates):
                    self.expect(self.has_clause(group, word), f"{place}: no clause {word}")
            group = [] if end else group


def selftest():
    """Tells what is wrong, and returns the status."""
    wrong, look = of_small_repository(), Look(Tree(ROOT))
    for number, line in enumerate((ROOT / "docs" / "GUARANTEES.md").read_text(encoding="utf-8").splitlines(), 1):
        if row := ROW.match(line):
            look.cell(f"docs/GUARANTEES.md:{number}", row[2])
    print(*wrong, *look.wrong, f"contracts: {look.looked} names of GUARANTEES.md looked up, {len(look.wrong)} not there", sep="\n")
    return int(bool(wrong or look.wrong))


def main():
    parser = argparse.ArgumentParser(description=__doc__, formatter_class=argparse.RawDescriptionHelpFormatter)
    parser.add_argument("words", nargs="*", metavar="CRATE | NAME | Type::name")
    for name in ("definitions", "private", "selftest"):
        parser.add_argument(f"--{name}", action="store_true")
    asked = parser.parse_args()
    if asked.selftest:
        return selftest()
    lines, unknown = report(Tree(ROOT), asked.words, asked.definitions, asked.private)
    for word in unknown:
        print(f"contracts: no crate, function or type has the name {word}", file=sys.stderr)
    if unknown:
        return 2
    print("\n".join(lines))
    return 0


if __name__ == "__main__":
    try:
        sys.exit(main())
    except BrokenPipeError:
        # who reads has seen enough
        os.dup2(os.open(os.devnull, os.O_WRONLY), sys.stdout.fileno())
