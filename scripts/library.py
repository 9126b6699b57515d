"""The C library: the archive of the proved crate cb_c, joined with the kit's allocator into files that a C program can link.

The crate's archive asks for three functions of the kit's own C code, which call malloc, realloc and free. Both become one object, in
which only the functions of the header are global. It is refused if it has another global name, lacks one, or needs more than NEEDED.
"""

import shutil
import subprocess
import sys
import tempfile
import time
from pathlib import Path

from header import read_header
from lanes import run_in_lanes
from proving import check_over_gate, prove_all, prove_by, stands_on_gate
from repository import RT, Workshop, kit

CRATE = "cb_c"
# the kit's compilers, and where below out/ the library lies that each makes
COMPILERS = {"llvm": "library", "rattle": "library-rattle"}
# what the object may need of a C library
NEEDED = {"malloc", "realloc", "free", "memcpy", "memmove", "memset"}
KIT_CODE = "c/liblibc_c.a"
PKG_CONFIG = """prefix=${{pcfiledir}}/../..
libdir=${{prefix}}/lib
includedir=${{prefix}}/include

Name: cbrelay
Description: Blocks, compact blocks (BIP 152) and messages of Bitcoin, by proved functions
Version: {version}
Libs: -L${{libdir}} -lcbrelay
Cflags: -I${{includedir}}
"""


class Unfit(Exception):
    """Why the objects don't make the library."""


def folder_of(repository, compiler="llvm"):
    """Where ./build leaves the library that one of the kit's compilers makes: lib/, include/ and lib/pkgconfig/ below it."""
    return repository.root / "out" / COMPILERS[compiler]


def call(*words):
    """Runs a tool and returns what it printed."""
    ran = subprocess.run([str(it) for it in words], capture_output=True, text=True, check=False)
    if ran.returncode:
        raise Unfit(f"{words[0]}: {ran.stderr.strip()}")
    return ran.stdout


def symbols(path):
    """The global names that an object or an archive defines, and those that it needs."""
    rows = [line.split() for line in call("nm", "--extern-only", "--format=posix", path).splitlines()]
    kinds = {row[0]: row[1] for row in rows if len(row) > 1}
    return {it for it, kind in kinds.items() if kind not in "Uw"}, {it for it, kind in kinds.items() if kind in "Uw"}


def joined(archive, names, to):
    """Writes one object of the crate's archive and the kit's allocator, in which these names alone are global."""
    whole = to.with_suffix(".whole.o")
    call("ld", "-r", "-o", whole, "--whole-archive", archive, kit() / KIT_CODE)
    call("objcopy", *(f"--keep-global-symbol={it}" for it in sorted(names)), whole, to)
    made, needed = symbols(to)
    if made != set(names):
        raise Unfit(f"the header's functions aren't those of the object: {', '.join(sorted(made ^ set(names)))}")
    if needed - NEEDED:
        raise Unfit(f"the object needs {', '.join(sorted(needed - NEEDED))}")


def version_of(header):
    """The number of the interface, as major and minor."""
    return divmod(header.constants["CBRELAY_VERSION"], 65536)


def write_library(repository, archive, prefix):
    """Writes the library of the crate's archive below a folder: lib/, include/ and lib/pkgconfig/."""
    header, prefix = read_header(), Path(prefix)
    major, minor = version_of(header)
    shared = f"libcbrelay.so.{major}"
    (prefix / "lib" / "pkgconfig").mkdir(parents=True, exist_ok=True)
    (prefix / "include").mkdir(parents=True, exist_ok=True)
    with tempfile.TemporaryDirectory(prefix="cbrelay-library-") as room:
        made, whole = Path(room, "cbrelay.o"), Path(room, "libcbrelay.a")
        joined(archive, header.functions, made)
        call("ar", "rcsD", whole, made)
        call("cc", "-shared", f"-Wl,-soname,{shared}", "-Wl,-z,defs,-z,relro,-z,now,-z,noexecstack", "-o", Path(room, shared), made)
        for it in (whole, Path(room, shared)):
            put(it, prefix / "lib" / it.name)
    link = prefix / "lib" / "libcbrelay.so"
    link.unlink(missing_ok=True)
    link.symlink_to(shared)
    put(repository.root / "include" / "cbrelay.h", prefix / "include" / "cbrelay.h")
    (prefix / "lib" / "pkgconfig" / "cbrelay.pc").write_text(PKG_CONFIG.format(version=f"{major}.{minor}"), encoding="utf-8")


def put(source, target):
    """Copies a file in the place of another, so that a program which has that one open keeps it."""
    part = target.with_name(f"{target.name}.part")
    shutil.copyfile(source, part)
    part.chmod(0o755 if ".so" in target.name else 0o644)
    part.replace(target)


def compile_static(workshop, crate, compiler, jobs, to):
    """Proves a static library over what it stands on, and writes its archive as one of the kit's compilers makes it. Returns whether it is
    proved, as True or None."""
    made = f"lib{crate.name}.a"

    def command(room):
        if stands_on_gate(workshop.repository, crate):
            return [*check_over_gate(workshop.repository, crate, room, jobs, "build"), "--backend", compiler, "-o", f"out/{made}"]
        return [*RT, "lib", "--jobs", str(jobs), "--backend", compiler]

    return prove_by(workshop, crate, command, f"proved and compiled by {compiler}", made, to)


def build_library(repository, compiler="llvm", prefix=None):
    """Proves the crate and all that it stands on, and writes the library, below a prefix too. Returns whether all is proved."""
    crate, began, to = repository.crates[CRATE], time.monotonic(), folder_of(repository, compiler)
    with Workshop(repository) as workshop, tempfile.TemporaryDirectory(prefix="cbrelay-archive-") as room:
        if not stands_on_gate(repository, crate) and not prove_all(workshop, repository.below(crate)):
            return False
        archive = Path(room, f"lib{CRATE}.a")
        # alone in its lanes, it gets all processors as jobs
        given = run_in_lanes(repository, [crate], lambda it, jobs: compile_static(workshop, it, compiler, jobs, archive), lambda _: ())
        if not given[crate]:
            return False
        for it in [to] + ([Path(prefix).absolute()] if prefix else []):
            write_library(repository, archive, it)
            print(f"build: library: below {it}", file=sys.stderr)
    print(f"build: library: made by {compiler} in {time.monotonic() - began:.0f} s", file=sys.stderr)
    return True
