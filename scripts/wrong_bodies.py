"""Wrong bodies as edits: which functions each changes, and what a check says of these.

An edit stands in its function's place, or in a twin beside it: a copy of the function under another name, with the same contract and the
same answers, which nothing calls. So a twin is refused where the function itself would be, and no other function waits for it.

Answers are written for the function as it is. One that no longer applies to a wrong body says nothing of its contract, so it is left out,
and its goal left to the prover's search.
"""

import functools
import re
import shutil
from dataclasses import dataclass, field
from enum import Enum
from pathlib import Path

from sources import BLOCKS, TYPES, head_of, items, members

# the first line of a definition, a lemma or an answer
LEMMA = re.compile(r"^(?:(?:pub|abbrev|unfoldable|opaque|private) )*(?:(?:record|data) )?([^\s:(){},]+)[^=]*?:(?=\s|$)")


@dataclass(frozen=True)
class Function:
    """A function's place in a source file: lines from `first`, with its comments and attributes, to before `end`, counted from 0.

    It is free where it belongs to no trait and to no cycle of calls, so that a twin may stand beside it.
    """

    module: tuple
    owner: str
    name: str
    first: int
    end: int
    is_free: bool

    @property
    def key(self):
        return self.module, self.owner, self.name

    def is_at(self, path):
        """Returns whether a path that the prover prints below the crate is this function's or one of its closures'.

        A method stands at its type's module, as `chain::Chain::tip`; a closure is `envelope::fn::are_command_bytes::all`.
        """
        places = [f"{it}{self.name}" for it in ("", "fn::")]
        own, closure = [f"{self.owner}::{it}" if self.owner else "::".join((*self.module, it)) for it in places]
        if self.owner:
            return f"::{path}".endswith(f"::{own}") or f"::{closure}::" in f"::{path}"
        return path == own or path.startswith(f"{closure}::")


def module_of(file):
    """Returns the module of a source file below src/, as ("sim", "read") for src/sim/read.rt."""
    parts = Path(file).with_suffix("").parts[1:]
    return () if parts in (("lib",), ("main",)) else parts


def owner_of(header):
    """Returns how the prover names the impl with this header: `Type`, or type, trait and its arguments, as `FaultFromAllocError`.

    The impl's own parameters are left out, as `O` of `impl<O> Reader<Input, O> for Lines`, which is `LinesReaderInput`.
    """
    parameters, header = parted(header)
    trait, _, type_name = re.sub(r"\bwhere\b.*", "", header).rpartition(" for ")
    words = [*re.findall(r"\w+", re.sub(r"<.*", "", type_name))[-1:], *re.findall(r"\w+", re.sub(r"'\w+|\w+::", "", trait))]
    return "".join(it for it in words if it not in parameters)


def parted(header):
    """Returns the names of an impl's own parameters, and its header behind them."""
    header, depth, names = header.lstrip(), 0, set()
    for place, sign in enumerate(header):
        depth += {"<": 1, ">": -1}.get(sign, 0)
        if not depth:
            return names, header[place + 1 :] if place else header
        if depth == 1 and sign in "<," and (name := re.match(r"\s*(?:const\s+)?(\w+)", header[place + 1 :])):
            names.add(name[1])
    return names, header


@functools.cache
def functions_of(file, text):
    """Returns a source file's functions."""
    lines, found = text.split("\n"), []
    for item in items(lines):
        header = head_of(lines, item) if item.kind in BLOCKS else ""
        owner = owner_of(header.removeprefix("unsafe ").removeprefix("impl")) if item.kind == "impl" else ""
        for it in members(lines, item) if header else [item]:
            if it.kind == "fn":
                first = it.first
                while first and lines[first - 1].lstrip().startswith(("#[", "//")):
                    first -= 1
                is_of_trait = " for " in header or item.kind == "trait"
                is_free = not is_of_trait and not calls_itself("\n".join(lines[first : it.end]), owner, it.name)
                found.append(Function(module_of(file), owner, it.name, first, it.end, is_free))
    return found


def calls_itself(text, owner, name):
    """Returns whether a function may call itself, or is a part of a cycle of calls."""
    prefix = rf"(?:\bself\.|\bSelf::|\b{owner}::)" if owner else r"(?<![\w.:])(?<!fn )(?:(?:crate|super|self)::(?:\w+::)*)?"
    return "#[cycle" in text or bool(re.search(rf"{prefix}{name}\(", text))


class BadEdit(Exception):
    """Why an edit can't be applied."""


@dataclass(eq=False)
class Edit:
    """A wrong body: the texts of the source files that it changes, and in each the functions that it changes, with their new lines.

    What it changes between functions, as a constant or a type, may change what other edits mean.
    """

    path: Path
    folder: Path
    texts: dict
    bodies: dict = field(default_factory=dict)
    is_within_functions: bool = True
    # the functions that it stands in where it is tried: its own, or a twin
    standing: set = field(default_factory=set)
    # its function's answers that don't apply to it, by files
    left_out: dict = field(default_factory=dict)

    @property
    def name(self):
        return self.path.name

    @property
    def functions(self):
        return {function.key for changed in self.bodies.values() for function, _ in changed}

    @property
    def asked(self):
        """The functions that it stands in, as a check is asked for them."""
        return {f"{owner}::{name}" if owner else "::".join((*module, name)) for module, owner, name in self.standing}

    @functools.cached_property
    def twinned(self):
        """The function that it is of, where a twin beside it means the same: it is free, and no other file of the proofs speaks of its own
        ones."""
        own = [function for changed in self.bodies.values() for function, _ in changed]
        if not self.is_within_functions or len(own) != 1 or not own[0].is_free or own[0].name == "main":
            return None
        answers = answer_folders(self.folder, own[0])
        for file, text in proof_texts(self.folder).items():
            if any(names_own(text, path) and place not in file.parents for place, path in answers):
                return None
        return own[0] if answers else None


def read_edit(path, folder):
    """Reads an edit: lines `file: src/F.rt`, and pairs `old: TEXT` and `new: TEXT`, each old text standing once in what those before it
    made."""
    made, file, old = {}, None, None
    for line in path.read_text(encoding="utf-8").split("\n"):
        if line.startswith("file: "):
            file = line[len("file: ") :].strip()
            if not re.fullmatch(r"src/[\w/]+\.rt", file) or not (folder / file).is_file():
                raise BadEdit(f"there is no source file {file}")
            made.setdefault(file, text_of(folder, file))
        elif line.startswith("old: "):
            old = line[len("old: ") :]
        elif line.startswith("new:"):
            if file is None or not old:
                raise BadEdit("a line 'new:' stands before any 'file:' or 'old:' line")
            times = made[file].count(old)
            if times != 1:
                raise BadEdit(f"its old text stands {times} times in {file}, and not once: {old}")
            made[file], old = made[file].replace(old, line[len("new:") :].removeprefix(" ")), None
    edit = Edit(path, folder, {it: text for it, text in made.items() if text != text_of(folder, it)})
    if not edit.texts:
        raise BadEdit("it changes nothing")
    for it, text in edit.texts.items():
        edit.bodies[it], is_within = changed_functions(it, text_of(folder, it), text)
        edit.is_within_functions &= is_within
    return edit


def text_of(folder, file):
    return (folder / file).read_text(encoding="utf-8")


def changed_functions(file, old, new):
    """Returns the functions that differ in two texts of a file, with their new lines, and whether nothing else differs."""
    functions, others = functions_of(file, old), functions_of(file, new)
    old, new = old.split("\n"), new.split("\n")
    grown = len(new) - len(old)
    if [it.key for it in functions] == [it.key for it in others]:
        pairs = [(it, new[other.first : other.end]) for it, other in zip(functions, others)]
    else:
        # a function more stands within the lines of another one
        first = next((place for place, pair in enumerate(zip(old, new)) if pair[0] != pair[1]), 0)
        pairs = [(it, new[it.first : it.end + grown]) for it in functions if it.first <= first < it.end]
    changed = [(it, lines) for it, lines in pairs if lines != old[it.first : it.end]]
    return changed, with_lines(old, [(it.first, it.end, lines) for it, lines in changed]) == "\n".join(new)


def with_lines(lines, changes):
    """Returns a text in which these lines, from a first to before an end, are others."""
    lines = [*lines]
    for first, end, others in sorted(changes, key=lambda it: it[:2], reverse=True):
        lines[first:end] = others
    return "\n".join(lines)


def applied(edits, folder):
    """Returns the texts of the files that these edits, which don't meet, change together."""
    for edit in edits:
        edit.standing = edit.functions
    if len(edits) == 1:
        return edits[0].texts
    changes = {}
    for edit in edits:
        for file, changed in edit.bodies.items():
            changes.setdefault(file, []).extend((it.first, it.end, lines) for it, lines in changed)
    return {file: with_lines(text_of(folder, file).split("\n"), those) for file, those in changes.items()}


@functools.cache
def proof_texts(folder):
    """Returns the texts of the crate's definitions, proofs and answers, by their files."""
    return {it: it.read_text(encoding="utf-8") for part in ("specs", "proofs") for it in sorted((folder / part).rglob("*.antt"))}


@functools.cache
def modules_of_types(folder):
    """Returns the modules of the crate that have a type of a name, by names."""
    found = {}
    for file in (folder / "src").rglob("*.rt"):
        for it in items(file.read_text(encoding="utf-8").split("\n")):
            if it.kind in TYPES:
                found.setdefault(it.name, set()).add(module_of(file.relative_to(folder)))
    return found


def answer_folders(folder, function):
    """Returns the folders of proofs/ for a function's answers and for its closures', each with its path in words of the proofs.

    A method of a type of another crate has none.
    """
    module = function.module
    if function.owner:
        modules = modules_of_types(folder).get(function.owner, ())
        if len(modules) != 1:
            return []
        module = (*[*modules][0], function.owner)
    return [(folder / "proofs" / Path(*places), ".".join(places)) for places in ((*module, function.name), (*module, "fn", function.name))]


def names_own(text, path):
    """Returns whether a text of the proofs names what is of the function with this path alone, or may do so by a part of the path."""
    words = path.split(".")
    above = "|".join(re.escape("".join(f".{it}" for it in words[:place])) for place in range(len(words)))
    return bool(re.search(rf"\b(?:proofs|specs\.contracts)(?:\.{re.escape(path)}(?!\w)|(?:{above})(?:\.\{{| as\b))", text))


def with_twins(edits, folder):
    """Returns the texts of the files in which each of these edits stands in a twin beside its function, and the folders of answers to be
    copied for it, with the change of their text."""
    changes, answers = {}, []
    for number, edit in enumerate(edits):
        ((file, ((function, lines),)),) = edit.bodies.items()
        name = f"{function.name}_twin_{number}"
        twin = re.sub(rf"\bfn {function.name}\b", f"fn {name}", "\n".join(lines), count=1)
        changes.setdefault(file, []).append((function.end, function.end, ["", *twin.split("\n")]))
        edit.standing = {(function.module, function.owner, name)}
        for place, path in answer_folders(folder, function):
            words = re.compile(rf"(\bproofs|\bspecs\.contracts)\.{re.escape(path)}(?!\w)"), rf"\1.{path[: -len(function.name)]}{name}"
            answers += [(place, place.with_name(name), words, edit.left_out)] if place.is_dir() else []
    return {file: with_lines(text_of(folder, file).split("\n"), those) for file, those in changes.items()}, answers


def copy_answers(answers, folder, room):
    """Copies the answers of functions for their twins into a room, and returns the folders made."""
    made = []
    for old, new, (words, twin), left_out in answers:
        to = room / new.relative_to(folder)
        shutil.copytree(old, to)
        for file in to.rglob("*.antt"):
            names = left_out.get((old / file.relative_to(to)).relative_to(folder).as_posix(), ())
            write_answers(file, words.sub(twin, file.read_text(encoding="utf-8")), names)
        made.append(to)
    return made


def by_answer(text):
    """Returns the lines of a file of answers, each with the name of the answer that it is of, None for one of the imports."""
    found, name = [], None
    for line in text.split("\n"):
        name = it[1] if (it := LEMMA.match(line)) else name
        found.append((name, line))
    return found


def answer_at(text, line):
    """Returns the name of the answer that stands on a line of a file of answers, None where it is an import."""
    names = [name for name, _ in by_answer(text)]
    return names[line] if line < len(names) else None


def write_answers(file, text, names):
    """Writes a file of answers without those with these names; it goes where none is left."""
    left = [(name, line) for name, line in by_answer(text) if name not in names]
    if any(name for name, _ in left) or not names:
        file.write_text("\n".join(line for _, line in left), encoding="utf-8")
    else:
        file.unlink()


class Verdict(Enum):
    REFUSED = "refused"
    PROVED = "still proved"
    STALE = "refused only because proofs no longer apply to it"
    UNREAD = "the prover can't read it"
    SILENT = "its own function isn't refused"


# An error at a place of a file; the label, where there is one, is the declaration that antt refused.
PLACED = re.compile(r"^(?P<note>note: )?(?:\./)?(?P<file>\S+?):(?P<line>\d+):\d+: (?P<said>.*)", re.M)
UNREAD = re.compile(r"is not in scope|has no field|is no name|operand is missing|expected the end|cannot continue")
WAITS = re.compile(r"it calls (.*), which (?:is|are) not proved")


class Outcome:
    """What one check said: of each function, and at which places."""

    def __init__(self, said, texts, answers=None):
        # the texts of sources and of answers that were checked in place of the crate's own
        self.texts, self.answers = texts, answers or {}
        self.functions = dict(re.findall(r"^fn \w+::(\S+): (.*)$", said, re.M))
        self.placed = [(bool(it["note"]), it["file"], int(it["line"]) - 1, it["said"]) for it in PLACED.finditer(said)]
        only = re.search(r"^only=(\d+) proved=(\d+)", said, re.M)
        self.is_proved = only[1] == only[2] if only else bool(re.search(r"^logic=proved ", said, re.M))
        self.has_verdict = bool(only or re.search(r"^logic=", said, re.M))
        self.last = next((it for it in reversed(said.split("\n")) if it.strip()), "nothing was said")

    def unread(self):
        """Returns the places in the source that the prover could not read: each file, line and what was said."""
        found = []
        for _, file, line, words in self.placed:
            said = re.match(r"error(?:\[[^\]]*\])?: (?:(`[^`]*`): )?(.*)", words)
            if said and file.startswith("src/") and (not said[1] or UNREAD.search(re.sub(r"`[^`]*`", "", said[2]))):
                found.append((file, line, words))
        return found

    def unread_edits(self, edits):
        """Returns the edits in whose functions such a place lies; none where it lies in all or in no one's."""
        found = [it for it in edits if any(is_within(self.spans(it), *place[:2]) for place in self.unread())]
        return found if len(found) < len(edits) else []

    def spans(self, edit):
        """Returns the edit's functions with their files, where they stand in the texts that were checked."""
        return [(file, it) for file, text in self.texts.items() for it in functions_of(file, text) if it.key in edit.standing]

    def paths(self, edit):
        """Returns the paths under which the prover names the edit's functions."""
        return {path for path in self.functions if any(span.is_at(path) for _, span in self.spans(edit))}

    def goals_in(self, spans):
        """Returns what the check says of goals within these functions that it left open."""
        open_goals = [it[1:] for it in self.placed if it[0] and "it is not proved" in it[3]]
        return [said for file, line, said in open_goals if is_within(spans, file, line)]

    def refusals(self, paths):
        """Returns what the check refused in the functions' own files of proofs/: each file, line and what was said."""
        errors = [it[1:] for it in self.placed if not it[0] and it[3].startswith("error")]
        return [it for it in errors if "::".join(Path(it[0]).parts[1:-1]) in paths]

    def leave_out(self, edit):
        """Notes the edit's answers that the check refused, to be left out. Returns whether there are any that weren't left out before."""
        more = False
        for file, line, _ in self.refusals(self.paths(edit)):
            name, own = answer_at(self.answers.get(file, ""), line), self.own_file(edit, file)
            if name and name not in edit.left_out.get(own, ()):
                edit.left_out.setdefault(own, set()).add(name)
                more = True
        return more

    def own_file(self, edit, file):
        """Returns the file of the function's own answers that one of its twin's is a copy of."""
        for _, _, name in edit.standing - edit.functions:
            file = file.replace(f"/{name}/", f"/{edit.twinned.name}/")
        return file

    def judge(self, edit):
        """Returns the verdict on an edit of this check, and words on it."""
        where = self.unread()
        if where and not self.functions:
            return Verdict.UNREAD, placed_words(where[0])
        if not self.has_verdict:
            return Verdict.SILENT, f"the check gave no verdict: {self.last}"
        paths = self.paths(edit)
        said = [self.functions[path] for path in paths]
        goals = self.goals_in(self.spans(edit)) + [it for it in said if "did not prove" in it]
        if goals:
            return Verdict.REFUSED, goals[0]
        stale = [*map(placed_words, self.refusals(paths)), *(it for it in said if "expected a measure" in it)]
        if stale and not any(WAITS.search(text) for text in said):
            return Verdict.STALE, stale[0]
        if not edit.functions and not self.is_proved:
            return Verdict.REFUSED, "it lies in no function"
        if self.is_proved or (said and all(text.startswith("proved") for text in said)):
            told = ", ".join(f"{file} {' '.join(sorted(names))}" for file, names in sorted(edit.left_out.items()))
            return Verdict.PROVED, f"once these answers are left out: {told}" if told else ""
        return Verdict.SILENT, said[0] if said else "the check doesn't name it"


def is_within(spans, file, line):
    return any(file == name and span.first <= line < span.end for name, span in spans)


def placed_words(place):
    file, line, said = place
    return f"{file}:{line + 1}: {said}"
