#!/usr/bin/env python3
"""Looks whether what the documents name is in the tree, and what the program has in a document: scripts/documents.py [FOLDER]

README.md, CONTRIBUTING.md and docs/*.md are read. Looked up are links with their headings; paths from the top, from crates/, from a crate's
folder or from the document; crates; in code `Type::name`, `some_name()` and other words with an underscore, a capital letter inside or
brackets; in GUARANTEES.md definitions, which a file of specs/ must have, and wrong bodies. In the other direction each crate of crates.txt
has to stand in ARCHITECTURE.md, what SPOKEN finds (commands, options, lines, replies, methods of JSON-RPC) in the code of some document,
and each exit status in PROTOCOL.md. README.md and docs/*.md have their sizes. The status is 0 where nothing is wrong. FOLDER is the
repository to look at.
"""

import re
import sys
from pathlib import Path

from repository import ROOT, Repository
from sources import BLOCKS, STEP, TYPES, head_of, impl_names, items, members

# the greatest size of a document, and of all of docs/; of README also its lines
MOST_BYTES, ALL_BYTES, README_BYTES, README_LINES = 40_960, 163_840, 8_192, 110
# the document whose tables have a promise, its calls, its definitions and a wrong body in each row
PROMISES = "GUARANTEES.md"
# the files that have words of the program, how such a word looks there, and what stands before it on a command line
CODES = r'codes "([^"]*)"'
SPOKEN = [
    ("cb_command/src/*.rt", r'Command::new\(alloc, "(\w+)"\)', ""),
    ("cb_command/src/*.rt", r'\.long\("([\w-]+)"\)', "--"),
    ("cb_net_plan/src/options.rt", r'Command::new\(alloc, "(\w+)"\)', ""),
    ("cb_net_plan/src/options.rt", r'(?:_arg\(\s*alloc,\s*|\.long\()"([\w-]+)"', "--"),
    ("cb_control/specs/OrderLine.antt", CODES, ""),
    ("cb_control/specs/ScriptLine.antt", CODES, ""),
    ("cb_control/specs/ReplyText.antt", CODES, ""),
    ("cb_control/specs/PeerText.antt", CODES, ""),
    ("cb_control/specs/Counters.antt", CODES, ""),
    ("cb_control/specs/Refusals.antt", CODES, ""),
    ("cb_rpc_call/src/method.rt", r'"(\w+)" => Some', ""),
]
# a run of words in what is printed; an exit status
PRINTED = re.compile(r"[a-z](?:[a-z]|[ -](?=[a-z]))*")
STATUS = re.compile(r"^status_code \w+ = (\d)$", re.M)

# what stands for a name in a path or a word
PLACEHOLDERS = {"NAME", "PROGRAM", "CRATE", "FILE", "PATH", "F", "EDIT", "PID"}
# what is made by a build and not kept
BUILT = "/out"
# words that are the kit's alone
FOREIGN = {"IsSync"}

LINK = re.compile(r"\[[^\]]*\]\(([^)\s]+)\)")
CODE = re.compile(r"`([^`]+)`")
FENCED = re.compile(r"^    .*$")
# a path of one name or more with an ending, or of one folder or more
ENDING = r"\.(?:(?:rt|antt)(?:\.in)?|py|md|run|bin|hex|edit|txt|so|h|c|cpp|rs)(?![\w/])"
PATH = re.compile(rf"(?<![\w/.*-])(?:(?:\.{{1,2}}/)*(?:[\w*.-]+/)*[\w*.-]*\w{ENDING}|(?:\.{{1,2}}/)?(?:[\w*.-]+/)+[\w.*-]*)")
CRATE = re.compile(r"(?<![\w/.-])((?:cb|bench)_[a-z0-9_]+)(?![\w*])")
MEMBER = re.compile(r"^([A-Z]\w*)(?:<[^>]*>)?::(\w+)")
WORD = re.compile(r"^[A-Za-z_]\w*$")
FIELD = re.compile(rf"^{STEP}(?:pub(?:\([^)]*\))? )?(?:ghost )?(\w+)\s*(?:[({{,:=]|$)")
NAMES = re.compile(r"[A-Za-z_]\w*")


def kind_of(file):
    """The ending of a file, without the `.in` of one that no crate of the gate has."""
    return Path(file.name.removesuffix(".in")).suffix


class Tree:
    """The names that the repository has."""

    def __init__(self, root):
        self.root, repository = root, Repository(root)
        self.crates = {*repository.crates, *repository.apart}
        self.homes = [root / "crates", root / "bench" / "programs"]
        folders = ("crates", "tests", "bench", "scripts", "docs", "runs", "examples", "include", "bindings")
        files = [it for folder in folders for it in (root / folder).rglob("*") if "out" not in it.relative_to(root).parts]
        self.files = {it.name for it in files}
        self.folders = {part for file in files for part in file.relative_to(root).parent.parts}
        self.words = self.crates | FOREIGN
        for name in ("test", "build", "attack", "crates.txt"):
            self.words |= set(NAMES.findall((root / name).read_text(encoding="utf-8")))
        self.words |= {it.name.split(".")[0] for it in files if kind_of(it) in (".run", ".hex", ".bin", ".py", ".rt", ".antt")}
        self.definitions, self.members = set(), {}
        for file in (it for it in files if kind_of(it) in (".rt", ".antt", ".py", ".h") and it.name != Path(__file__).name):
            text = file.read_text(encoding="utf-8")
            self.words |= set(NAMES.findall(text))
            if "specs" in file.parts:
                self.definitions |= set(NAMES.findall(text))
            if kind_of(file) == ".rt":
                self.read_members(text.split("\n"))

    def read_members(self, lines):
        """Notes what each impl, trait, enum and struct of a source has."""
        for item in items(lines):
            if item.kind in BLOCKS:
                owners = [item.name] if item.kind == "trait" else filter(None, impl_names(head_of(lines, item)))
                found = {it.name for it in members(lines, item)}
            elif item.kind in TYPES:
                owners, found = [item.name], {it[1] for it in map(FIELD.match, lines[item.first : item.end]) if it}
            else:
                continue
            for owner in owners:
                self.members.setdefault(owner, set()).update(found)

    def has_path(self, path, document):
        """Whether a path leads somewhere from the top, from crates/, from a crate, or from the document's folder."""
        bare = re.sub(r"^(\.{1,2}/)+", "", path).rstrip(".")
        if BUILT in path or not bare.strip("./*"):
            return True
        bases = [self.root, *self.homes, document.parent, self.root / "bench", self.root / "runs", self.root / "runs" / "cbrelay"]
        if any(next(base.glob(bare.rstrip("/")), None) for base in bases):
            return True
        parts = bare.rstrip("/").split("/")
        if "/" not in bare or "*" in bare:
            return bare in self.files
        if len(parts) == 1:
            return parts[0] in self.folders or not parts[0][0].isalpha()
        if "." not in parts[-1] and parts[0] not in self.folders and not CRATE.match(parts[0]):
            # words with a stroke between them, as MB/s
            return True
        return (self.root / "runs" / f"{bare}.run").exists() or any(next(home.glob("*/" + "/".join(parts)), None) for home in self.homes)


def is_placeholder(path):
    """Whether a part of a path stands for a name."""
    return any(part.split(".")[0] in PLACEHOLDERS for part in path.split("/"))


def slug(heading):
    """The anchor of a heading."""
    return re.sub(r"[^\w\- ]", "", heading.strip().lower()).replace(" ", "-")


def anchors(document):
    """The anchors of a document."""
    return {slug(line.lstrip("#")) for line in document.read_text(encoding="utf-8").splitlines() if line.startswith("#")}


class Look:
    """What the documents name, and what is wrong of it."""

    def __init__(self, root):
        self.root, self.tree = root, Tree(root)
        self.documents = [root / "README.md", root / "CONTRIBUTING.md", *sorted((root / "docs").glob("*.md"))]
        self.looked, self.wrong = 0, []

    def expect(self, is_so, place, words):
        """Counts a name, and notes one that isn't there."""
        self.looked += 1
        if not is_so:
            self.wrong.append(f"{place}: {words}")

    def link(self, target, document, place):
        """A link leads to a file and to a heading."""
        if "://" in target:
            return
        path, _, anchor = target.partition("#")
        file = (document.parent / path) if path else document
        self.expect(file.exists(), place, f"the link leads nowhere: {target}")
        if anchor and file.is_file():
            self.expect(anchor in anchors(file), place, f"the link's heading isn't there: {target}")

    def code(self, span, place):
        """What stands between backticks: a name, a call, or words that are looked at one by one."""
        if found := MEMBER.match(span):
            owner, name = found.groups()
            self.expect(name in self.tree.members.get(owner, ()), place, f"there is no `{owner}::{name}`")
            return
        bare = span.removesuffix("()").removesuffix("!")
        if WORD.match(bare) and ("_" in bare or re.search(r"[a-z][A-Z]", bare) or span != bare):
            self.expect(bare in self.tree.words, place, f"there is no `{bare}`")

    def promise(self, line, place):
        """A row of GUARANTEES.md: each definition stands in a file of specs/, and each wrong body is an edit of a crate."""
        _, _, definitions, refused = (it.strip() for it in line.strip()[1:-1].split("|"))
        for name in CODE.findall(definitions):
            self.expect(name in self.tree.definitions, place, f"no file of specs/ has `{name}`")
        for name in filter(None, refused.split(", ")):
            edits = [it for room in ("attacks", "must-fail") for it in (self.root / "crates").glob(f"*/{room}/{name}.edit")]
            self.expect(edits or name == "refused", place, f"there is no wrong body {name}")

    def document(self, document):
        """Looks up what a document names."""
        name = str(document.relative_to(self.root))
        for number, line in enumerate(document.read_text(encoding="utf-8").splitlines(), 1):
            place = f"{name}:{number}"
            for target in LINK.findall(line):
                self.link(target, document, place)
            plain = LINK.sub(lambda it: it[0][: it[0].index("](")], line).replace("**", "")
            for path in PATH.findall(plain):
                if not is_placeholder(path):
                    self.expect(self.tree.has_path(path, document), place, f"there is no {path}")
            for crate in CRATE.findall(PATH.sub(" ", plain)):
                self.expect(crate in self.tree.words, place, f"there is no crate {crate}")
            if not FENCED.match(line):
                for span in CODE.findall(plain):
                    self.code(span, place)
            if document.name == PROMISES and line.startswith("| ") and line.count("|") == 5:
                self.promise(line, place)

    def program(self):
        """What the program has stands in a document."""
        texts = {it.name: it.read_text(encoding="utf-8") for it in self.documents}
        for crate in Repository(self.root).crates:
            self.expect(re.search(rf"\b{crate}\b", texts["ARCHITECTURE.md"]), "ARCHITECTURE.md", f"it lacks the crate {crate}")
        lines = [line for text in texts.values() for line in text.splitlines()]
        code = "\n".join(part for line in lines for part in ([line] if FENCED.match(line) else CODE.findall(line)))
        for files, form, before in SPOKEN:
            for file in (self.root / "crates").glob(files):
                for found in re.findall(form, file.read_text(encoding="utf-8")):
                    for word in [before + found] if before else PRINTED.findall(found.replace("\\n", "")):
                        self.expect(re.search(rf"(?<![\w-]){re.escape(word)}(?![\w-])", code), file.name, f"no document has `{word}`")
        told = next((line for line in lines if line.startswith("- **Status**")), "")
        for status in STATUS.findall((self.root / "crates/cb_control/specs/Ending.antt").read_text(encoding="utf-8")):
            self.expect(re.search(rf"[:;] {status}\b", told), "PROTOCOL.md", f"no status {status} is told")

    def sizes(self):
        """The documents are within their sizes. Returns the bytes of those of docs/."""
        sizes, readme = {it: it.stat().st_size for it in self.documents}, self.documents[0]
        total = sum(size for document, size in sizes.items() if document.parent == self.root / "docs")
        limits = [(it.name, size, MOST_BYTES, "bytes") for it, size in sizes.items()] + [("docs/*.md", total, ALL_BYTES, "bytes")]
        limits.append(("README.md", sizes[readme], README_BYTES, "bytes"))
        limits.append(("README.md", len(readme.read_text(encoding="utf-8").splitlines()), README_LINES, "lines"))
        for name, size, most, unit in limits:
            self.expect(size <= most, name, f"{size:,} {unit}, more than {most:,}")
        return total

    def run(self):
        """Looks at all documents, tells what is wrong, and returns the status."""
        for document in self.documents:
            self.document(document)
        self.program()
        total = self.sizes()
        print(*self.wrong, sep="\n", end="\n" * bool(self.wrong))
        print(f"documents: {self.looked} names and sizes looked up, {len(self.wrong)} wrong; {total:,} bytes in docs/")
        return 1 if self.wrong else 0


if __name__ == "__main__":
    sys.dont_write_bytecode = True
    sys.exit(Look(Path(sys.argv[1] if len(sys.argv) > 1 else ROOT).resolve()).run())
