"""The contracts of the crates, read from their sources: functions, traits and impls with their clauses, and the definitions that these
cite.

Nothing is compiled: a source is read by the layout that `rt fmt` gives it, where an item begins and ends as far in as its block.
"""

import functools
import re
from dataclasses import dataclass, field
from pathlib import Path
from typing import NamedTuple

from repository import Repository

STEP = "    "
ITEM = re.compile(
    r'(?P<pub>pub(?P<within>\([^)]*\))? )?(?:(?:const|unsafe|extern(?: "C")?) )*'
    r"(?P<kind>fn|impl|trait|struct|enum|mod|ghost|const|static|type|use)\b\s*(?P<name>\w+)?"
)
BLOCKS, TYPES = ("impl", "trait"), ("struct", "enum")
WITH_BODIES = ("fn", *BLOCKS, *TYPES)
CLAUSE = re.compile(r"\s*(requires|ensures\*?) (\w+)?")
DOC = re.compile(r"\s*/// ?(.*)$")
COMMENT = re.compile(r"\s*//.*$")
# a condition among the fields of a type
GHOST = re.compile(r"\bghost (\w+): \{")
WORD = re.compile(r"[^\W\d]\w*")
# a name, and the member that is asked of it
ASKED = re.compile(r"(?<![\w.])([^\W\d]\w*)(?:\.([^\W\d]\w*))?")
SENTENCE = re.compile(r"(.*?[.:?!])(?: [A-Z`*(-]|$)")

IMPORT = re.compile(r"\buse\s+Rattle\.([\w.]+?)(?:\.\{([^}]*)\}|\s+as\s+(\w+))")
# where a definition begins, a comment above one, or what is empty
KEYWORD = r"(?:abbrev|unfoldable|pub|record|data|use|infix\w*)\b"
CHUNK = re.compile(rf"^(?={KEYWORD}|(?:--[^\n]*\n)+(?:{KEYWORD}|\n)|\n)", re.M)
DEFINED = re.compile(r"(?:(?:abbrev|unfoldable|pub|record|data)\s+)+(\w+)")
CONSTRUCTOR = re.compile(r"^  (\w+) :", re.M)


class Clause(NamedTuple):
    """A condition, a promise or a ghost member: its text as it stands, and the remarks above it."""

    kind: str
    name: str
    text: str
    remarks: tuple = ()


@dataclass(eq=False)
class Entry:
    """A function, or what a type, a trait or an impl declares of its own in ghost members."""

    kind: str
    place: str
    owner: str
    name: str
    head: str
    is_public: bool
    doc: str = ""
    of_trait: str = ""
    clauses: list = field(default_factory=list)
    imports: dict = field(default_factory=dict)

    @property
    def file(self):
        return self.place.partition(":")[0]

    @property
    def crate(self):
        return self.file.split("/")[1]

    @property
    def title(self):
        return f"{self.owner}::{self.name}" if self.owner and self.kind == "fn" else self.name

    @property
    def summary(self):
        """The first sentence of the doc comment."""
        first = " ".join(self.doc.partition("\n\n")[0].split())
        found = SENTENCE.match(first)
        return found[1] if found else first

    @property
    def is_law(self):
        """Whether it is a public function that does nothing: its clauses are a theorem."""
        is_free = self.kind == "fn" and self.is_public and not self.owner
        return is_free and bool(self.clauses) and not ("->" in self.head or "&mut" in self.head)

    def named(self, name):
        return [it for it in self.clauses if it.name == name]


class Definition(NamedTuple):
    """A definition with the comment above it."""

    file: str
    line: int
    text: str


class Item(NamedTuple):
    """An item of a source, with its doc comment and its lines, from `first` to before `end`, counted from 0."""

    kind: str
    name: str
    is_public: bool
    doc: str
    first: int
    end: int


def items(lines, first=0, end=None, indent=""):
    """The items between two lines that stand so far in."""
    doc, place, end = [], first, len(lines) if end is None else end
    while place < end:
        found = ITEM.match(lines[place], len(indent)) if lines[place].startswith(indent) else None
        if found:
            behind = end_of(lines, place, found["kind"], indent)
            yield Item(found["kind"], found["name"], bool(found["pub"]) and not found["within"], "\n".join(doc).strip(), place, behind)
            doc, place = [], behind
        else:
            doc += [it[1] for it in [DOC.match(lines[place])] if it]
            place += 1


def end_of(lines, first, kind, indent):
    """The line behind an item: behind the bracket that closes it, as far in as itself, or else behind a semicolon outside of brackets."""
    has_body, has_clause, depth = False, False, 0
    for place in range(first, len(lines)):
        line = COMMENT.sub("", lines[place]).rstrip()
        has_clause = has_clause or bool(CLAUSE.match(line))
        depth += sum(line.count(it) for it in "({[") - sum(line.count(it) for it in ")}]")
        if line in (f"{indent}}}", f"{indent}{{}}"):
            return place + 1
        if not has_body and depth <= 0 and (line.endswith(";") or line.endswith("}") and not has_clause):
            return place + 1
        has_body = has_body or kind in WITH_BODIES and (line == f"{indent}{{" or not has_clause and line.endswith("{"))
    return len(lines)


def members(lines, block):
    """The items of a trait or an impl."""
    inside = next((it for it in range(block.first, block.end) if lines[it].endswith("{")), block.end)
    return items(lines, inside + 1, block.end, STEP)


def head_of(lines, item):
    """The signature of a function, or the header of a block, on one line."""
    taken = []
    for line in lines[item.first : item.end]:
        if CLAUSE.match(line) or line.strip() == "{":
            break
        taken.append(COMMENT.sub("", line))
        if line.rstrip().endswith(("{", ";")):
            break
    text = " ".join(" ".join(taken).split()).partition(" {")[0].rstrip(";")
    return re.sub(r",? (?=[)>](?!=))", "", re.sub(r"(?<=[(<]) ", "", text))


def clauses_of(lines, item, indent):
    """The clauses of a function, with the remarks above each."""
    found, remarks, text = [], [], []

    def close():
        if text:
            kind, name = CLAUSE.match(text[0]).groups()
            whole = dedented("\n".join(text).rstrip(), len(indent + STEP)).removesuffix(";")
            found.append(Clause(kind, name or "", whole, tuple(remarks)))
            remarks.clear()
            text.clear()

    for line in lines[item.first : item.end]:
        is_head = CLAUSE.match(line) and line.startswith(indent + STEP)
        if is_head or COMMENT.match(line) or line.strip() in ("{", "{}"):
            close()
        if line in (f"{indent}{{", f"{indent}{{}}") or (not is_head and not found and not text and line.endswith("{")):
            break
        if is_head or text:
            text.append(line)
        elif COMMENT.match(line) and not DOC.match(line):
            remarks.append(line.strip())
    close()
    return found


def dedented(text, column):
    """A text without the blanks in front of its lines that its first one has too."""
    return "\n".join(it[column:] if it[:column].isspace() else it for it in text.split("\n"))


def imports_of(text):
    """Where each imported name comes from, as its path and its name there."""
    found = {}
    for path, names, alias in IMPORT.findall(text):
        parts = path.split(".")
        if alias:
            found[alias] = (parts, "")
        for it in filter(None, (it.strip() for it in names.split(","))):
            name, _, other = (part.strip() for part in it.partition(" as "))
            found[other or name] = (parts, name)
    return found


def without_generics(text):
    """A text without what stands in angle brackets."""
    text = text.replace("->", "")
    while (less := re.sub(r"<[^<>]*>", "", text)) != text:
        text = less
    return text


def impl_names(head):
    """The type of an impl, and the trait that it is for, if there is one."""
    bare = without_generics(head).partition(" where ")[0].removeprefix("impl").strip()
    of_trait, is_of, owner = bare.partition(" for ")
    return tuple((WORD.findall(it) or [""])[-1] for it in ((owner, of_trait) if is_of else (bare, "")))


class Source:
    """The entries of one source."""

    def __init__(self, file, text, exported):
        self.file, self.lines, self.exported, self.entries, self.docs = file, text.split("\n"), exported, [], {}
        found = [*items(self.lines)]
        self.imports = self.imported(found)
        for it in found:
            if it.kind == "fn":
                self.function(it, None)
            elif it.kind in TYPES:
                self.type(it)
            elif it.kind in BLOCKS:
                self.block(it)

    def imported(self, found):
        """Where the names come from that these items import."""
        return imports_of("\n".join("\n".join(self.lines[it.first : it.end]) for it in found if (it.kind, it.name) == ("ghost", "use")))

    def entry(self, item, owner, name, head, is_public, **more):
        made = Entry(item.kind, f"{self.file}:{item.first + 1}", owner, name, head, is_public, **more)
        self.entries.append(made)
        return made

    def type(self, item):
        """Reads the conditions among a type's fields, which each value meets."""
        name, text = item.name, "\n".join(self.lines[item.first : item.end])
        self.docs[name] = item.doc
        made = self.entry(item, name, name, name, name in self.exported, doc=item.doc, imports=self.imports)
        for it in GHOST.finditer(text):
            last = it.end()
            while text.count("{", it.start(), last) != text.count("}", it.start(), last):
                last += 1
            made.clauses.append(Clause("ghost", it[1], dedented(text[it.start() : last], it.start() - text.rfind("\n", 0, it.start()) - 1)))

    def block(self, item):
        """Reads a trait or an impl."""
        head, inside = head_of(self.lines, item), [*members(self.lines, item)]
        owner, of_trait = (item.name, "") if item.kind == "trait" else impl_names(head)
        title = f"trait {owner}" if item.kind == "trait" else f"{owner} as {of_trait}" if of_trait else owner
        is_public, doc = bool({owner, of_trait} & self.exported), item.doc or self.docs.get(owner, "")
        made = self.entry(item, owner, title, title, is_public, doc=doc, of_trait=of_trait, imports=self.imports | self.imported(inside))
        for it in inside:
            if it.kind == "fn":
                self.function(it, made)
            elif it.kind == "ghost" and it.name != "use":
                text = dedented("\n".join(self.lines[it.first : it.end]), len(STEP))
                made.clauses.append(Clause("ghost", it.name, text.removesuffix(";")))

    def function(self, item, block):
        """Reads a function's signature and its clauses. Other crates can call it by its type, its trait or its own name."""
        owner, of_trait, imports = (block.owner, block.of_trait, block.imports) if block else ("", "", self.imports)
        head, clauses = head_of(self.lines, item), clauses_of(self.lines, item, STEP if block else "")
        is_public = item.is_public and (owner or item.name) in self.exported
        if block and (block.kind == "trait" or of_trait):
            is_public = block.is_public
        self.entry(item, owner, item.name, head, is_public, doc=item.doc, of_trait=of_trait, imports=imports, clauses=clauses)


def exported_names(folder):
    """The names that a crate hands on, those for C among them; of a program, which nothing stands on, all its own."""
    texts = {it: it.read_text(encoding="utf-8") for it in (folder / "src").rglob("*.rt")}
    whole, library = "\n".join(texts.values()), texts.get(folder / "src" / "lib.rt")
    if library is None:
        return set(re.findall(r"^\s*pub (?:fn|struct|enum|trait) (\w+)", whole, re.M))
    used = re.findall(r"^pub use ([^;]+);|^pub (?:fn|struct|enum|trait) (\w+)", library, re.M)
    to_c = re.findall(r'^pub extern "C" fn (\w+)', whole, re.M)
    return {word for it in (*(part for pair in used for part in pair), *to_c) for word in WORD.findall(it)}


class Definitions:
    """The definitions of one file, by the names of themselves and of their constructors."""

    def __init__(self, file, text):
        self.by_name, self.imports = {}, imports_of(text)
        above, line = "", 1
        for chunk in CHUNK.split(text):
            found = None if chunk.startswith("--") else DEFINED.match(chunk)
            if found:
                made = Definition(file, line - above.count("\n"), (above + chunk).rstrip())
                constructors = CONSTRUCTOR.findall(chunk) if " data " in f" {chunk[:20]}" else ()
                for name in (found[1], *constructors):
                    self.by_name.setdefault(name, made)
            above = above + chunk if chunk.startswith("--") else ""
            line += chunk.count("\n")


class Tree:
    """The crates that crates.txt lists, in its order, and what their sources have: entries in the order of files."""

    def __init__(self, root):
        self.root, self.entries = Path(root).resolve(), []
        self.crates = Repository(root).crates
        for crate in self.crates.values():
            exported = exported_names(crate.folder)
            for file in sorted((crate.folder / "src").rglob("*.rt")):
                self.entries += Source(str(file.relative_to(self.root)), file.read_text(encoding="utf-8"), exported).entries

    @functools.cache  # noqa: B019
    def definitions(self, file):
        """The definitions of a file of specs/, or None where there is no such file."""
        path = self.root / file
        return Definitions(file, path.read_text(encoding="utf-8")) if path.is_file() else None

    def definition(self, path, name):
        """What an imported name stands for: its definition, or None where none is of the tree's."""
        if path[0] not in self.crates or path[1:2] != ["specs"] or path[2:3] == ["declared"]:
            return None
        found = self.definitions(f"crates/{path[0]}/specs/{'/'.join(path[2:])}.antt")
        if found is None or name in found.by_name:
            return found and found.by_name[name]
        further = found.imports.get(name)
        return self.definition(*further) if further else None

    def cited(self, entry, clauses=None):
        """The definitions that an entry's clauses cite, or some, and the other names in them."""
        definitions, others = [], []
        texts = (it.text[it.text.find("{") :] for it in (entry.clauses if clauses is None else clauses))
        for alias, member in dict.fromkeys(found for text in texts for found in ASKED.findall(text)):
            if alias in entry.imports:
                path, name = entry.imports[alias]
                found = self.definition(path, name or member)
                if found and found not in definitions:
                    definitions.append(found)
                elif not found:
                    others.append((path, name or member))
        return definitions, others
