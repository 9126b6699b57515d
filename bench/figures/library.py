#!/usr/bin/env python3
"""Measures calls of the C library beside plain C over libcrypto's low-level calls: python3 bench/figures/library.py [COMPILER]

It needs the library (./build --library; COMPILER may be rattle, for that of the kit's own compiler), cc, and libcrypto with its headers, and
takes some ten seconds. Times are of the processor, medians of 21 runs in turns within one run. The block has 997,399 bytes and 3,990
transactions. Plain C (bench/library/figures.c) cuts the same bytes and computes the same hashes, tables and roots; it takes the bytes to be
well-formed and checks no rules.
"""

import subprocess
import sys
import tempfile
from pathlib import Path

sys.path.insert(0, str(Path(__file__).resolve().parents[2]))

from bench.tools.c_library import C99, compiled, prefix_of
from bench.tools.made_blocks import FullChain
from bench.tools.programs import usage

NAMES = {
    "block_check": "cbrelay_block_check, the block",
    "block_sound": "cbrelay_block_sound, the block",
    "compact_block": "cbrelay_compact_block, the block",
    "rebuild_block_known": "cbrelay_rebuild_block_known, from 3,989 transactions",
    "rebuild_block": "cbrelay_rebuild_block, from the same",
    "short_id": "cbrelay_short_id",
    "txid": "cbrelay_txid of 250 bytes",
    "sha256d_32": "cbrelay_sha256d of 32 bytes",
    "a_call": "a call that does nothing: cbrelay_txid of no bytes",
}


def shown(nanoseconds):
    return f"{nanoseconds / 1e6:.2f} ms" if nanoseconds >= 1e5 else f"{nanoseconds:.0f} ns"


def main():
    words = usage(__doc__, compiler="whose library, llvm or rattle").parse_args()
    prefix = prefix_of(words.compiler or "llvm")
    with tempfile.TemporaryDirectory() as folder:
        block = Path(folder, "block")
        block.write_bytes(FullChain(1, 3_989).blocks[0].text)
        flags = ["-O3", "-DOPENSSL_API_COMPAT=10100", "-Wl,--no-as-needed", "-lcrypto"]
        program = compiled(prefix, Path(folder, "figures"), "figures.c", *flags, compiler=C99)
        ran = subprocess.run([program, str(block)], capture_output=True, text=True, check=False)
    if ran.returncode:
        sys.exit(ran.stderr)
    for line in ran.stdout.splitlines():
        name, own, plain = line.split()
        beside = f"{shown(float(plain)):>10}  {float(own) / float(plain):.2f} times" if float(plain) else ""
        print(f"{NAMES[name]:<56}{shown(float(own)):>10}{beside}")


if __name__ == "__main__":
    main()
