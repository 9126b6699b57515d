"""The C library for looks and figures: where it was built, programs that are linked with it, and its calls as records for these."""

import ctypes
import os
import struct
import subprocess
import sys
from pathlib import Path

from bench.tools.programs import ROOT

SOURCES, BINDINGS = Path(ROOT, "bench", "library"), Path(ROOT, "bindings")
sys.path.insert(0, str(BINDINGS / "python"))

import cbrelay  # noqa: E402

from library import folder_of  # noqa: E402  (scripts/library.py)
from repository import Repository  # noqa: E402

STRICT = ["-Wall", "-Wextra", "-Werror", "-pedantic"]
C99, CXX11 = ["cc", "-std=c99", "-D_POSIX_C_SOURCE=200809L", *STRICT], ["c++", "-std=c++11", *STRICT]
# the functions in the header's order, as bench/library/calls.h counts them
ORDER = list(cbrelay.FUNCTIONS)
# what a record has room for
MOST_OUT = 2


def prefix_of(compiler="llvm"):
    """Where ./build --library leaves the library that one of the kit's compilers makes. Ends the script where there is none."""
    prefix = folder_of(Repository(ROOT), compiler)
    if not (prefix / "lib" / "libcbrelay.a").exists():
        sys.exit(f"{prefix} isn't built: ./build --library{'' if compiler == 'llvm' else f' --compiler {compiler}'}")
    return prefix


def load(prefix):
    """Has the binding call the shared object below a prefix."""
    cbrelay.load(str(Path(prefix, "lib", "libcbrelay.so.0")))
    return cbrelay


def compiled(prefix, to, *words, compiler=C99):
    """Compiles sources of bench/library with the library's archive, at strict flags. Returns the program's path."""
    sources = [str(SOURCES / it) if it.endswith((".c", ".cpp")) and "/" not in it else it for it in words]
    # a later -O3 of the words wins
    command = [*compiler, "-g", "-O1", f"-I{Path(prefix, 'include')}", f"-I{SOURCES}", *sources, str(Path(prefix, "lib", "libcbrelay.a")), "-o", str(to)]
    ran = subprocess.run(command, capture_output=True, text=True, check=False)
    if ran.returncode or ran.stderr:
        raise RuntimeError(f"{' '.join(command)}: {ran.stderr}")
    return str(to)


class Recorder:
    """Keeps the calls that the binding makes, each as a record for the programs of bench/library, with what came of it."""

    def __init__(self, most_bytes=1 << 62):
        """One that keeps calls with at most so many bytes each."""
        self.records, self.results, self.most_bytes = [], [], most_bytes

    def __enter__(self):
        self.real, cbrelay._call = cbrelay._call, self.call
        return self

    def __exit__(self, *_):
        cbrelay._call = self.real

    def call(self, name, *words):
        status = self.real(name, *words)
        record, result = recorded(name, words, status)
        if len(record) <= self.most_bytes:
            self.records.append(record)
            self.results.append(result)
        return status

    def write(self, path):
        Path(path).write_bytes(struct.pack("<Q", len(self.records)) + b"".join(self.records))


def raw(it, size):
    """The bytes of a string, an array or a pointer into one."""
    if isinstance(it, bytes):
        return it
    return ctypes.string_at(it, size) if size else b""


def is_list(kind):
    """Whether a length follows a parameter of this type."""
    return kind is ctypes.c_char_p or isinstance(kind, type) and issubclass(kind, ctypes._Pointer)


def recorded(name, words, status):
    """A call as a record, and its result as bench/library/play.c writes it."""
    kinds, ins, rooms, number, tolds, lists, place = cbrelay.FUNCTIONS[name], [], [], 0, [], [], 0
    while place < len(kinds):
        kind, it = kinds[place], words[place]
        if is_list(kind) and place + 1 < len(kinds) and kinds[place + 1] is ctypes.c_size_t:
            room, unit = words[place + 1], 1 if kind is ctypes.c_char_p else ctypes.sizeof(kind._type_)
            if is_given(name, place, it):
                ins.append(raw(it, room * unit))
            else:
                rooms.append(room)
                lists.append((it, unit))
            place += 2
            continue
        if is_list(kind):
            (ins if is_given(name, place, it) else tolds).append(bytes(it._obj))
        else:
            number = it
        place += 1
    record = struct.pack("<QQ", ORDER.index(name), number) + struct.pack(f"<{MOST_OUT}Q", *rooms, *[0] * (MOST_OUT - len(rooms)))
    record += struct.pack("<Q", len(ins)) + b"".join(struct.pack("<Q", len(it)) + it for it in ins)
    return record, (name, status or 0, tolds, [(raw(it, ctypes.sizeof(it)), unit) for it, unit in lists])


# the functions that are given structs or lists of hashes, and the places of these among their words
GIVEN = {"sip24": (0,), "short_id": (0, 1), "header_write": (0,), "merkle_root": (0,), "rebuild_block_known": (4,)}


def is_given(name, place, it):
    """Whether a word is what a call is given, and not where it writes."""
    return place in GIVEN.get(name, ()) or isinstance(it, bytes) or isinstance(it, ctypes.c_char_p)


def played(output, results):
    """Reads what bench/library/play.c wrote for these results. Returns how many differ, with the first difference in words."""
    place, differing, told = 0, 0, None
    for name, status, tolds, lists in results:
        if place + 8 > len(output):
            return differing + 1, "what it wrote is cut short"
        got = struct.unpack_from("<Q", output, place)[0]
        place += 8
        wrong = got != status
        values = [output[place + sum(map(len, tolds[:k])) : place + sum(map(len, tolds[: k + 1]))] for k in range(len(tolds))]
        place += sum(map(len, tolds))
        if got == 0 and name in cbrelay.FUNCTIONS and name not in UNLIKE:
            wrong = wrong or values != tolds
        counts = counts_of(name, values) if got == 0 and lists else [0] * len(lists)
        for count, (text, unit) in zip(counts, lists):
            wrong = wrong or output[place : place + count * unit] != text[: count * unit]
            place += count * unit
        differing += wrong
        told = told or (f"{name}: status {got} for {status}" if wrong else None)
    return differing + (place != len(output)), told


# its values have gaps between them, which may be anything
UNLIKE = {"version_read"}


def counts_of(name, values):
    """How many items each list of a call has, by the values that it told."""
    if name == "tx_read":
        fields = cbrelay._Tx.from_buffer_copy(values[0])
        return [fields.inputs, fields.outputs]
    if name == "cmpctblock_read":
        fields = cbrelay._Compact.from_buffer_copy(values[0])
        return [fields.ids, fields.prefilled]
    return [struct.unpack_from("<Q", values[0])[0]] if values else []


def environment(**more):
    """The environment of a program that is run under a sanitizer."""
    return {**os.environ, "ASAN_OPTIONS": "detect_leaks=1:halt_on_error=1", "UBSAN_OPTIONS": "halt_on_error=1:print_stacktrace=1", **more}
