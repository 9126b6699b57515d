#!/usr/bin/env python3
"""Compares the C library's header with what crate cb_c exports, and with the bindings: scripts/header.py [--selftest]

The prover doesn't read the header, so this does: each function of include/cbrelay.h has to be one `extern "C" fn` of crates/cb_c/src, with
the same parameters by order, name and type, and the same return type; and the other way round. A slice is a pointer and a length behind it,
a reference a pointer, a `Global` nothing. Structs with `#[repr(C)]` are compared field by field, constants by value, faults with those of
docs/PROTOCOL.md. What both bindings declare has to be the header's too. It prints what differs, and the status is 0 where nothing does.
With --selftest it is first tried on a small header with one mistake of each kind, each of which it has to tell.
"""

import ctypes
import importlib
import re
import sys
from dataclasses import dataclass, field
from pathlib import Path

ROOT = Path(__file__).resolve().parent.parent
HEADER, PROTOCOL, BINDINGS = ROOT / "include" / "cbrelay.h", ROOT / "docs" / "PROTOCOL.md", ROOT / "bindings"
# where the functions stand, and where the structs
SOURCES, SHAPES = ROOT / "crates" / "cb_c" / "src", ROOT / "crates" / "cb_relay" / "src"
# how the names of the header begin
PREFIX = "cbrelay_"
NUMBERS = {f"{sign}{bits}": f"{'u' if sign == 'u' else ''}int{bits}_t" for sign in "ui" for bits in (8, 16, 32, 64)}
NUMBERS |= {"usize": "size_t", "isize": "ptrdiff_t", "bool": "bool"}
# the first and the last fault that the header lists
HEADER_FAULTS = ("CBRELAY_MEMORY", "CBRELAY_WRONG_COUNT")
# a slice's length in C, until it is known what the header calls it
LENGTH = " of "

COMMENT = re.compile(r"/\*.*?\*/|//[^\n]*", re.S)
DIRECTIVE = re.compile(r"^[ \t]*#(?:[^\n\\]|\\\n)*", re.M)
DEFINE = re.compile(r"^[ \t]*#[ \t]*define[ \t]+(\w+)[ \t]+(0x[0-9a-fA-F]+|\d+)u?[ \t]*$", re.M)
# of the header: a struct, another name of a type, a function
DECLARED = re.compile(
    r"typedef\s+struct(?:\s+\w+)?\s*\{(?P<fields>[^}]*)\}\s*(?P<struct>\w+)\s*;|typedef\s+(?P<of>\w+)\s+(?P<alias>\w+)\s*;"
    r"|(?P<returned>\w[\w\s*]*?)\b(?P<function>\w+)\s*\((?P<parameters>[^()]*)\)\s*;"
)
STRUCT = re.compile(r"#\[repr\(C\)\](?:\s*#\[[^\]]*\])*\s*pub\s+struct\s+(\w+)\s*\{([^}]*)\}")
# a function that the sources export, and one that sys.rs declares
SIGNATURE = r"fn\s+(\w+)\s*(?:<[^>]*>)?\s*\(([^)]*)\)\s*(?:->\s*(\w+))?"
EXPORTED, DECLARED_IN_RUST = re.compile(rf'\bpub\s+(?:unsafe\s+)?extern\s+"C"\s+{SIGNATURE}'), re.compile(rf"\bpub\s+{SIGNATURE}")
CONSTANT = re.compile(r"\bconst\s+(\w+)\s*:\s*[ui]\w+\s*=\s*(0x[0-9a-fA-F_]+|[\d_]+)\s*;")
REFERENCE = re.compile(r"(&|\*const|\*mut)\s*(?:'\w+\s+)?(mut\s+)?(\[?)(\w+)\]?")


class Unread(Exception):
    """What this script doesn't know how to read."""


@dataclass
class Interface:
    """What a file declares, by name: of a function what it returns and its parameters, of a struct its fields, each a type and a name."""

    functions: dict = field(default_factory=dict)
    structs: dict = field(default_factory=dict)
    constants: dict = field(default_factory=dict)


def parted(text, sign=","):
    """The parts of a text between these signs."""
    return [it.strip() for it in text.split(sign) if it.strip()]


# ---- the header


def of_header(text):
    """What a header declares."""
    text = COMMENT.sub(" ", text)
    found, aliases = Interface(constants={name: int(value, 0) for name, value in DEFINE.findall(text)}), {}

    def named(it):
        """A parameter or a field; the size of an array belongs to its type."""
        words = re.fullmatch(r"(.*?[\s*])(\w+)\s*(\[\w+\])?", it, re.S)
        if not words:
            raise Unread(f"the header's {it}")
        return c_type(words[1]) + (words[3] or ""), words[2]

    def c_type(it):
        return " ".join(aliases.get(word, word) for word in re.findall(r"\w+|\*", it))

    def declare(it):
        if it["struct"]:
            found.structs[it["struct"]] = "struct", tuple(named(one) for one in parted(it["fields"], ";"))
        elif it["alias"]:
            aliases[it["alias"]] = aliases.get(it["of"], it["of"])
        else:
            listed = [] if it["parameters"].strip() == "void" else parted(it["parameters"])
            found.functions[it["function"]] = c_type(it["returned"]), tuple(map(named, listed))
        return ""

    text = re.sub(r'\bextern\s+"C"\s*\{', "", DIRECTIVE.sub("", text))
    if left := DECLARED.sub(declare, text).replace("}", "", 1).split():
        raise Unread(f"the header's {' '.join(left)[:80]}")
    return found


# ---- the sources, and the binding for Rust


def of_rust(texts, function=EXPORTED):
    """What sources export, or declare, as C has to declare it."""
    found = Interface()
    for text in (COMMENT.sub(" ", it) for it in texts):
        found.constants |= {name: int(value.replace("_", ""), 0) for name, value in CONSTANT.findall(text)}
        found.structs |= {c_name(name): ("struct", tuple(map(field_of, parted(fields)))) for name, fields in STRUCT.findall(text)}
        for name, parameters, returned in function.findall(text):
            listed = tuple(it for one in parted(parameters) for it in parameters_of(one))
            found.functions[name] = number(returned) if returned else "void", listed
    return found


def c_name(name):
    """A struct's name in C: `CbTxParts` is `cbrelay_tx_parts`."""
    return PREFIX + "_".join(re.findall(r"[A-Z][a-z0-9]*", name.removeprefix("Cb"))).lower()


def number(name):
    """A number's or a struct's type in C."""
    name = name.strip()
    if name not in NUMBERS and not re.fullmatch(r"[A-Z]\w*", name):
        raise Unread(f"the sources' type {name}")
    return NUMBERS.get(name) or c_name(name)


def name_and_kind(text):
    """The name of a parameter or a field, and its type in Rust."""
    name, _, kind = text.partition(":")
    return name.strip().removeprefix("pub ").removeprefix("mut ").removeprefix("r#"), kind.strip()


def field_of(text):
    name, kind = name_and_kind(text)
    array = re.fullmatch(r"\[\s*(\w+)\s*;\s*(\w+)\s*\]", kind)
    return f"{number(array[1])}[{array[2]}]" if array else number(kind), name


def parameters_of(text):
    """What a parameter is in C: none for an allocator, two for a slice."""
    name, kind = name_and_kind(text)
    if kind == "Global":
        return []
    reference = REFERENCE.fullmatch(kind)
    if not reference:
        return [(number(kind), name)]
    is_written = bool(reference[2]) or reference[1] == "*mut"
    pointer = f"{'' if is_written else 'const '}{number(reference[4])} *", name
    unit = "capacity" if is_written else "len" if reference[4] == "u8" else "count"
    return [pointer, ("size_t", f"{unit}{LENGTH}{name}")] if reference[3] else [pointer]


# ---- what differs


def is_alike(here, there):
    """Whether two functions or structs are the same. The length of `txids` is `count`, `txids_count` or `txid_count`."""
    if not here or not there or here[0] != there[0] or len(here[1]) != len(there[1]):
        return False
    return all(one[0] == other[0] and one[1] in names_of(other[1]) for one, other in zip(here[1], there[1]))


def names_of(name):
    """The names that a parameter may have in C."""
    unit, _, of = name.partition(LENGTH)
    return [unit, f"{of}_{unit}", f"{of.removesuffix('s')}_{unit}"] if of else [unit]


def differences(header, other, where):
    """What differs between a header and what another file declares, in words."""
    found = []
    for kind, word in (("functions", ""), ("structs", "struct ")):
        here, there = getattr(header, kind), getattr(other, kind)
        for name in sorted({*here, *there}):
            if not is_alike(here.get(name), there.get(name)):
                found.append(f"{word}{name}: the header has {here.get(name, 'none')}, {where} {there.get(name, 'none')}")
            if not name.startswith(PREFIX):
                found.append(f"{word}{name}: its name doesn't begin with {PREFIX}")
    for name, value in other.constants.items():
        of_c = header.constants.get(PREFIX.upper() + name, value)
        if of_c != value:
            found.append(f"{name}: the header has {of_c}, {where} {value}")
    return found


def faults_that_differ(header, protocol):
    """Which of the header's faults aren't those of docs/PROTOCOL.md: `F3 NotShortest` is CBRELAY_NOT_SHORTEST."""
    rows = re.findall(r"^\| F(\d+) (\w+)", protocol, re.M)
    named = {PREFIX.upper() + "_".join(re.findall(r"[A-Z][a-z]*|\d+", name)).upper(): int(it) for it, name in rows}
    first, last = HEADER_FAULTS
    listed = list(header.constants)
    told = listed[listed.index(first) : listed.index(last) + 1] if first in listed and last in listed else []
    wrong = [it for it in told if named.get(it) != header.constants[it]]
    return [f"{it}: {PROTOCOL.name} has another number, or lacks it" for it in wrong] + ([] if told else ["the header has no faults"])


# ---- the binding for Python


def of_python(module):
    """What the binding for Python declares, where a pointer says nothing of `const`, a parameter has no name, and a size is 64 bits."""
    found = Interface()

    def kind(it):
        if it is None:
            return "void"
        if it is ctypes.c_char_p:
            return "uint8_t *"
        if issubclass(it, ctypes._Pointer):
            return f"{kind(it._type_)} *"
        if issubclass(it, ctypes.Array):
            return f"{kind(it._type_)}[{it._length_}]"
        if issubclass(it, ctypes.Structure):
            found.structs[it.__name__] = "struct", tuple((kind(of), name) for name, of in it._fields_)
            return it.__name__
        return f"{'u' if it(-1).value > 0 else ''}int{8 * ctypes.sizeof(it)}_t"

    for name, taken in module.FUNCTIONS.items():
        found.functions[PREFIX + name] = kind(module.RETURNED.get(name, module.c_uint32)), tuple((kind(it), "") for it in taken)
    return found


def as_in_python(header):
    """A header as the binding for Python has it."""

    def plain(declared, is_named):
        head, listed = declared
        return head, tuple((it.removeprefix("const ").replace("size_t", "uint64_t"), name * is_named) for it, name in listed)

    functions = {name: plain(it, False) for name, it in header.functions.items()}
    return Interface(functions, {name: plain(it, True) for name, it in header.structs.items()})


# ---- the files


def read_header():
    return of_header(HEADER.read_text(encoding="utf-8"))


def read_sources():
    texts = [[it.read_text(encoding="utf-8") for it in sorted(folder.rglob("*.rt"))] for folder in (SOURCES, SHAPES)]
    found = of_rust(texts[0])
    found.structs |= of_rust(texts[1]).structs
    return found


def in_bindings(header):
    """What the bindings declare otherwise than the header."""
    sys.path.insert(0, str(BINDINGS / "python"))
    python = of_python(importlib.import_module("cbrelay"))
    rust = of_rust([(BINDINGS / "rust" / "src" / "sys.rs").read_text(encoding="utf-8")], DECLARED_IN_RUST)
    return differences(header, rust, "sys.rs") + differences(as_in_python(header), python, "cbrelay.py")


# ---- the test of this script

# a small header and the sources that agree with it
SMALL = Path(__file__).resolve().with_name("header_test_data")
# a mistake each, and the word that has to be told
MISTAKES = [
    ("uint64_t nonce", "uint32_t nonce", "cbrelay_one"),
    ("uint64_t nonce,\n", "\n", "cbrelay_one"),
    ("uint64_t nonce", "uint64_t seed", "cbrelay_one"),
    ("const uint8_t *bytes, size_t bytes_len, uint64_t nonce", "uint64_t nonce, const uint8_t *bytes, size_t bytes_len", "cbrelay_one"),
    ("const uint8_t *bytes", "uint8_t *bytes", "cbrelay_one"),
    ("size_t bytes_len", "uint32_t bytes_len", "cbrelay_one"),
    ("size_t bytes_len", "size_t length", "cbrelay_one"),
    ("size_t bytes_len", "size_t hash_len", "cbrelay_one"),
    ("size_t bytes_len", "size_t bytes_capacity", "cbrelay_one"),
    ("size_t out_capacity", "size_t out_len", "cbrelay_two"),
    ("cbrelay_status cbrelay_one", "void cbrelay_one", "cbrelay_one"),
    ("typedef uint32_t", "typedef uint64_t", "cbrelay_one"),
    ("size_t *len", "size_t len", "cbrelay_two"),
    ("const cbrelay_hash *hash", "cbrelay_hash *hash", "cbrelay_two"),
    ("void cbrelay_two", "void cbrelay_three", "cbrelay_two"),
    ("bytes[32]", "bytes[31]", "struct cbrelay_hash"),
    ("uint8_t bytes[32]; uint32_t mark;", "uint32_t mark; uint8_t bytes[32];", "struct cbrelay_hash"),
    ("uint32_t mark;", "uint32_t mark; uint8_t more;", "struct cbrelay_hash"),
    ("65536u", "65535u", "TOO_SMALL"),
]


def selftest():
    """The small header agrees with the small sources, and no longer with any of the mistakes. Returns what went otherwise."""
    small, wrong = (SMALL / "small.h").read_text(encoding="utf-8"), []
    sources = of_rust([(SMALL / "small.rt.txt").read_text(encoding="utf-8")])
    if told := differences(of_header(small), sources, "the sources"):
        wrong.append(f"the right header: {told}")
    for old, new, word in MISTAKES:
        assert small.count(old) == 1, old
        if not any(it.startswith(f"{word}:") for it in differences(of_header(small.replace(old, new)), sources, "the sources")):
            wrong.append(f"{old} for {new} isn't told")
    return wrong


def main(words):
    is_tried = "--selftest" in words
    wrong, header, sources = selftest() if is_tried else [], read_header(), read_sources()
    if not sources.functions:
        wrong.append(f"{SOURCES} exports nothing")
    wrong += differences(header, sources, "the sources") + in_bindings(header)
    wrong += faults_that_differ(header, PROTOCOL.read_text(encoding="utf-8"))
    for it in wrong:
        print(f"header: {it}")
    tried = f", {len(MISTAKES) + 1} small headers" if is_tried else ""
    print(f"header: {len(sources.functions)} functions, {len(sources.structs)} structs{tried}, {len(wrong)} wrong")
    return 1 if wrong else 0


if __name__ == "__main__":
    sys.dont_write_bytecode = True
    sys.exit(main(sys.argv[1:]))
