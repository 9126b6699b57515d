#!/usr/bin/env python3
"""Calls the C library as C, C++, Rust and Python do, as both of the kit's compilers make it: python3 bench/looks/c_library.py [--built]

First `./build --library` makes it by each compiler, unless `--built` says that what lies there is to be taken. It needs cc, and for one part
each a cc with sanitizers, valgrind, c++, cargo and Debian's package python3-bitcoinlib: a part whose tool isn't there is told and left out. It
takes a minute or two.

Calls of bindings/python/cbrelay.py are made beside plain ones in Python (bench/models/plain_library.py), and the same calls by C programs
at strict flags (bench/library), whose lists have exactly the size that is told, and begin as bytes that have to stay where nothing is
written. Then come programs in C++ and Rust, and examples/library. The status is 0 where all came out so.
"""

import hashlib
import json
import random
import re
import shutil
import struct
import subprocess
import sys
import tempfile
import time
from pathlib import Path

sys.path.insert(0, str(Path(__file__).resolve().parents[2]))

from bench.looks.compact_cases import played as compact_played
from bench.models import plain_library as plain
from bench.models import plain_wire as wire
from bench.models.plain_compact import key_of, short_id
from bench.models.plain_wire import Fault
from bench.tools import library_cases as cases
from bench.tools.basics import MAGIC, hash_twice, merkle_root
from bench.tools.c_library import BINDINGS, C99, CXX11, ORDER, Recorder, cbrelay, compiled, environment, load, played, prefix_of
from bench.tools.looks import Looks
from bench.tools.made_blocks import FullChain
from bench.tools.programs import ROOT, usage
from bench.tools.stream_drawing import DRAWN, changed, random_stream

COMPILERS = ("llvm", "rattle")
SYSTEM_PYTHON = "/usr/bin/python3"
NONCE = 0x1122_3344_5566_7788
# how many payloads, streams, trees and compact blocks are drawn, and how many calls with changed bytes C makes
PAYLOADS, STREAMS, TREES, COMPACT, CHANGED = 3_000, 1_000, 70, 2_000, 100_000
# the most bytes of a call that C programs play, and of all that are played under valgrind
PLAYED, SLOWLY = 1_100_000, 300_000
SANITIZED = ["-fsanitize=address,undefined", "-fno-sanitize-recover=all"]
NEEDED = {"malloc", "realloc", "free", "memcpy", "memmove", "memset"}


def outcome(call, *words):
    """What a call gives, or the status of its fault."""
    try:
        return call(*words)
    except cbrelay.Fault as fault:
        return f"status {fault.status}"
    except Fault as fault:
        return f"status {fault.number}"


class Calls(Looks):
    """Calls of the binding beside plain ones."""

    def __init__(self, compiler, rng):
        super().__init__(f"c_library, {compiler}", None)
        self.rng = rng

    def same(self, what, call, other, *words):
        self.look(what, outcome(call, *words), outcome(other, *words))

    def status(self, what, status, call, *words):
        """A call that gives nothing, or fails with this status."""
        self.look(what, outcome(call, *words), f"status {status}" if status else None)

    # ---- statuses and hashes

    def texts(self):
        """The names of all statuses, as docs/PROTOCOL.md has those of faults."""
        table = Path(ROOT, "docs", "PROTOCOL.md").read_text(encoding="utf-8")
        for number, name in re.findall(r"^\| F(\d+) (\w+)", table, re.M):
            if name == "BadTx":
                for rule in range(1, 9):
                    self.look("the text of a rule", cbrelay.fault_text(5 + 256 * rule), f"F5 BadTx {rule}")
            else:
                self.look("the text of a fault", cbrelay.fault_text(int(number)), f"F{number} {name}")
        others = {0: "OK", 65536: "TooSmall", 65537: "Partial", 65538: "Damaged", 29: "Unknown", 65539: "Unknown", 5: "Unknown", 2 + 256: "Unknown"}
        for status, text in others.items():
            self.look(f"the text of {status}", cbrelay.fault_text(status), text)
        self.look("the version", cbrelay.version(), (0, 1))

    def hashes(self):
        """Hashes beside hashlib, and the vectors of SipHash's authors."""
        for size in [*range(200), 1_000, 4_096, 65_535, 1_000_000]:
            data = self.rng.randbytes(size)
            self.look(f"sha256d of {size} bytes", cbrelay.sha256d(data), hashlib.sha256(hashlib.sha256(data).digest()).digest())
        key = struct.unpack("<QQ", bytes(range(16)))
        for size, wanted in enumerate(cases.SIPHASH):
            self.look(f"SipHash of {size} bytes", cbrelay.sip24(key, bytes(range(size))), int(wanted, 16))
        for _ in range(200):
            key, name, header = (self.rng.getrandbits(64), self.rng.getrandbits(64)), self.rng.randbytes(32), self.rng.randbytes(80)
            self.look("a short id", cbrelay.short_id(key, name), short_id(key, name))
            self.same("a key of short ids", cbrelay.short_id_key, key_of, header, self.rng.getrandbits(64))
            self.same("a block's hash", cbrelay.block_hash, plain.block_hash, header)
        for size in (0, 79, 81):
            for call in (cbrelay.block_hash, cbrelay.header_read, cbrelay.header_check):
                self.status(f"a header of {size} bytes", 2 if size < 80 else 14, call, bytes(size))
            self.status(f"a key of {size} bytes", 2 if size < 80 else 14, cbrelay.short_id_key, bytes(size), 0)

    def trees(self):
        for count in [*range(TREES), 1_000]:
            for width in (0, 1, 2, 4):
                names = [self.rng.randbytes(32) for _ in range(count)]
                if 0 < 2 * width <= count:
                    place = self.rng.randrange(count // (2 * width)) * 2 * width
                    names[place + width : place + 2 * width] = names[place : place + width]
                self.same(f"a tree over {count}", cbrelay.merkle_root, plain.root_and_mark, names)

    # ---- transactions and blocks

    def known_blocks(self):
        """Blocks that public sources tell."""
        first, other = cases.genesis(), cases.block_170()
        self.look("the hash of regtest's first block", cbrelay.block_hash(first[:80])[::-1].hex(), cases.REGTEST_GENESIS)
        self.look("its transaction", cbrelay.txid(first[81:])[::-1].hex(), cases.COINBASE)
        self.look("the hash of block 170", cbrelay.block_hash(other[:80])[::-1].hex(), cases.BLOCK_170)
        self.look("its payment", cbrelay.txid(cbrelay.block_transactions_at(other)[1])[::-1].hex(), cases.PAYMENT)
        self.status("regtest's first block", 0, cbrelay.block_check, first)
        self.status("its work", 0, cbrelay.header_check, first[:80])
        self.status("block 170", 0, cbrelay.block_check, other)
        self.status("its work, by regtest's bits", 11, cbrelay.header_check, other[:80])
        for cut in range(len(first)):
            self.status(f"its first {cut} bytes", 2, cbrelay.block_check, first[:cut])
        for place in range(36, 68):
            self.status("another root", 6, cbrelay.block_check, first[:place] + bytes([first[place] ^ 1]) + first[place + 1 :])

    def faults(self):
        """Blocks and transactions with each fault."""
        for what, text, status in cases.blocks_with_faults(self.rng):
            self.status(what, status, cbrelay.block_check, text)
            self.look(f"{what}, plainly", outcome(plain.block_check, text) if status else None, f"status {status}" if status else None)
            self.same(f"{what}: sound", cbrelay.block_sound, lambda it: plain.block_sound(it) and None, text)
        for tx, rule in cases.txs_with_faults(self.rng):
            self.status(f"rule {rule}", 5 + 256 * rule, cbrelay.tx_check, tx.text)
        for nonce in range(40):
            header = struct.pack("<i", 1) + bytes(64) + struct.pack("<III", 0, 0x207F_FFFF, nonce)
            self.same("the work of a header", cbrelay.header_check, plain.header_check, header)
        self.status("other bits", 11, cbrelay.header_check, header[:72] + struct.pack("<I", 0x207F_FFFE) + header[76:])

    def transactions(self):
        """Transactions that are drawn, and changed."""
        for _ in range(PAYLOADS // 4):
            text = changed(self.rng, DRAWN["tx"](self.rng))
            self.same("a txid", cbrelay.txid, plain.txid, text)
            self.same("the rules of a transaction", cbrelay.tx_check, plain.tx_check, text)
            self.same("a transaction's fields", lambda it: fields_of_tx(cbrelay.tx_read(it)), lambda it: fields_of_plain(plain.read_tx(it)), text)

    def headers(self):
        for _ in range(100):
            text = self.rng.randbytes(80)
            read = cbrelay.header_read(text)
            told = struct.unpack("<i32s32sIII", text)
            self.look("a header's fields", (read.version, read.prev, read.root, read.time, read.bits, read.nonce), told)
            self.look("a header written", cbrelay.header_write(read), text)

    # ---- messages

    def payloads(self):
        """Payloads of all commands, as they are drawn and changed."""
        for number in range(PAYLOADS):
            command = self.rng.choice(sorted(DRAWN))
            payload = changed(self.rng, DRAWN[command](self.rng))
            name = command if number % 20 else self.rng.choice(["", "hello", "a b", "thirteen chars", "\x7f", "pIng", "ping\0"])
            status = plain.message_fault(name.encode(), payload)
            self.status(f"a payload of {name}", status, cbrelay.message_check, name, payload)
            self.same(f"an envelope of {name}", cbrelay.message_write, lambda name, it: plain.message_write(name.encode(), it), name, payload)
            if name in cbrelay.READERS:
                self.same(f"the fields of {name}", *both_readers(name), payload)
            if name == "block":
                self.same("a block's transactions", cbrelay.block_transactions_at, lambda it: [tx.text for tx in wire.read("block", it).txs], payload)

    def limits(self):
        """Counts at their limits."""
        for command, payload, status in cases.counts_at_limits():
            self.status(f"a count of {command}", status, cbrelay.message_check, command, payload)
            self.same(f"a count of {command}, read", *both_readers(command), payload)
        self.status("a payload of 4,000,000 bytes", 0, cbrelay.message_check, "filler", bytes(4_000_000))
        self.status("a payload of 4,000,001 bytes", 13, cbrelay.message_check, "filler", bytes(4_000_001))

    def streams(self):
        """Streams as those of bench/looks/fuzz.py step by step, as they are and with other magic and lengths."""
        for number in range(STREAMS):
            stream, place = random_stream(self.rng), 0
            if number % 50 == 0:
                stream += MAGIC + b"ping".ljust(12, b"\0") + struct.pack("<I", self.rng.choice([4_000_000, 4_000_001])) + bytes(4)
            while place is not None:
                place = self.step(stream, place)

    def step(self, stream, place):
        """One message of a stream. Returns the place of the next one, or None."""
        status, size, told = plain.envelope_at(stream[place:])
        if status:
            wanted = None if status == plain.PARTIAL else f"status {status}"
            self.look("the end of a stream", outcome(cbrelay.envelope_at, stream, place), wanted)
            return None
        found = cbrelay.envelope_at(stream, place)
        got = (found.command, found.payload, found.fault.status if found.fault else 0)
        self.look("an envelope", got, (stream[place + 4 : place + 16], stream[place + 24 : place + 24 + size], told))
        return place + 24 + size

    # ---- compact blocks

    def compact(self):
        for count in (1, 2, 3, 5, 8, 300):
            self.compact_of(cases.block_of(self.rng, count))
        for what, text, status in cases.blocks_with_faults(self.rng):
            if status:
                self.status(f"the compact form of {what}", status, cbrelay.compact_block, text, 1)

    def compact_of(self, block):
        """A block's compact form byte by byte, rebuilt from all, lacking some, and completed."""
        form = cbrelay.compact_block(block.text, NONCE)
        self.look("a compact block", form, plain.compact_block(block.text, NONCE))
        others = [cases.spending(self.rng.randbytes(32)).text for _ in range(20)]
        pool = [tx.text for tx in block.txs[1:]] + others
        self.rng.shuffle(pool)
        self.look("rebuilt", cbrelay.rebuild_block(form, pool), cbrelay.Rebuilt(block=block.text))
        self.look("rebuilt with txids", cbrelay.rebuild_block(form, pool, [hash_twice(it) for it in pool]), cbrelay.Rebuilt(block=block.text))
        self.status("nothing to ask for", 0, lambda: cbrelay.block_transactions_request(form, pool) or None)
        for lacking in {1, min(2, len(block.txs) - 1), len(block.txs) - 1} - {0} if len(block.txs) > 1 else ():
            self.completed(block, form, pool, self.rng.sample([tx.text for tx in block.txs[1:]], lacking))
        self.refusals(block, form, pool)

    def completed(self, block, form, pool, lacking):
        left = [it for it in pool if it not in lacking]
        kind, request = plain.rebuild_block(form, wire.listed(left))
        self.look("the kind of what lacks", kind, "request")
        self.look("what lacks", cbrelay.rebuild_block(form, left), cbrelay.Rebuilt(request=request))
        self.look("the request", cbrelay.block_transactions_request(form, left), request)
        answer = cbrelay.block_transactions(block.text, request)
        self.look("the answer", answer, plain.block_transactions(block.text, request))
        self.look("completed", cbrelay.complete_block(form, left, answer), cbrelay.Rebuilt(block=block.text))
        given = [tx.text for tx in block.txs if tx.text in lacking]
        self.look("completed with others", cbrelay.complete_block(form, left, block.header.name + wire.listed([pool[0]] * len(given))).is_useless,
                  pool[0] not in given or len(given) > 1)
        self.status("one too few", 17, cbrelay.complete_block, form, left, block.header.name + wire.listed(given[1:]))
        self.status("one too many", 17, cbrelay.complete_block, form, left, block.header.name + wire.listed([*given, given[0]]))

    def refusals(self, block, form, pool):
        """Compact blocks, lists and requests that are hurt."""
        names = [hash_twice(it) for it in pool]
        self.status("one txid too few", 17, cbrelay.rebuild_block, form, pool, names[1:])
        self.status("cut short", 2, cbrelay.rebuild_block, form[:-1], pool)
        self.status("more behind it", 14, cbrelay.rebuild_block, form + b"\0", pool)
        self.status("a place behind the end", 16, cbrelay.rebuild_block, wire.compact(block, NONCE)[wire.FRONT :].replace(b"\1\0" + block.txs[0].text, b"\1\xfd\0\1" + block.txs[0].text)
                    if len(block.txs) < 256 else form[:88] + b"\0\1\1" + block.txs[0].text, pool)
        total = wire.spelled(len(block.txs))
        self.status("a request behind the end", 16, cbrelay.block_transactions, block.text, block.header.name + b"\1" + total)
        if len(block.txs) > 2:
            at = 88 + len(wire.spelled(len(block.txs) - 1))
            twice = form[: at + 6] + form[at : at + 6] + form[at + 12 :]
            self.look("two ids that are equal", cbrelay.rebuild_block(twice, pool).is_useless, True)
            self.look("another root", cbrelay.rebuild_block(form[:36] + bytes(32) + form[68:], pool), self.plain_rebuilt(form[:36] + bytes(32) + form[68:], pool))
            wrong = [names[1], names[0], *names[2:]]
            self.look("two txids exchanged", cbrelay.rebuild_block(form, pool, wrong), self.plain_rebuilt(form, pool, wrong))

    def plain_rebuilt(self, form, pool, names=None):
        kind, text = plain.rebuild_block(form, wire.listed(pool), names)
        return cbrelay.Rebuilt(block=text if kind == "block" else None, request=text if kind == "request" else None)

    def full(self):
        """A block of nearly a million bytes."""
        block = full_block()
        self.status("a full block", 0, cbrelay.block_check, block.text)
        form, pool = cbrelay.compact_block(block.text, NONCE), [tx.text for tx in block.txs[:0:-1]]
        self.look("its compact form", form, plain.compact_block(block.text, NONCE))
        self.look("it rebuilt", cbrelay.rebuild_block(form, pool), cbrelay.Rebuilt(block=block.text))
        self.look("its hashes", cbrelay.merkle_root([tx.name for tx in block.txs]), (merkle_root([tx.name for tx in block.txs]), False))

    def run(self):
        for part in (self.texts, self.hashes, self.trees, self.known_blocks, self.faults, self.transactions, self.headers, self.payloads, self.limits,
                     self.streams, self.compact):
            part()


def full_block():
    return FullChain(1, 3_989).blocks[0]


# ---- fields as tuples, of the binding's reader and of the plain one


def fields_of_tx(tx):
    return [((it.txid, it.index), it.script) for it in tx.inputs], [it.value for it in tx.outputs]


def fields_of_plain(tx):
    return tx.inputs, tx.values


def header_of(fields):
    return struct.pack("<i32s32sIII", fields.version, fields.prev, fields.root, fields.time, fields.bits, fields.nonce)


def address_text(address):
    return struct.pack("<Q", address.services) + address.ip + struct.pack(">H", address.port)


FIELDS = {
    "version": lambda it: (it.version, it.services, it.time, it.nonce, it.agent, it.height, it.relay, address_text(it.receiver) + address_text(it.sender)),
    **dict.fromkeys(("ping", "pong"), lambda it: it.nonce),
    "sendcmpct": lambda it: (int(it.high_bandwidth), it.version),
    **dict.fromkeys(wire.LISTS, lambda it: [(entry.kind, entry.hash) for entry in it]),
    "headers": lambda it: [header_of(header) for header in it],
    "getheaders": lambda it: (it.version, list(it.locator), it.stop),
    "tx": fields_of_tx,
    "cmpctblock": lambda it: (header_of(it.header), it.nonce, list(it.ids), [(tx.difference, tx.tx) for tx in it.prefilled]),
    "getblocktxn": lambda it: (it.block, list(it.differences)),
    "blocktxn": lambda it: (it.block, list(it.txs)),
}
# where the plain reader's fields have another form, by the payload too
PLAIN_FIELDS = {
    "version": lambda it, _: (it.version, it.services, it.time, it.nonce, it.agent, it.height, it.relay, it.addresses),
    "headers": lambda it, _: [header.text for header in it],
    "getheaders": lambda it, payload: (struct.unpack("<I", payload[:4])[0], *it),
    "tx": lambda it, _: fields_of_plain(it),
    "cmpctblock": lambda it, _: (it.header.text, it.nonce, it.ids, [(step, tx.text) for step, tx in it.prefilled]),
    "blocktxn": lambda it, _: (it[0], [tx.text for tx in it[1]]),
}


def both_readers(name):
    """What the binding reads of a payload, and what the plain reader does, in one form."""
    of_plain = PLAIN_FIELDS.get(name, lambda it, _: it)
    return lambda it: FIELDS[name](cbrelay.READERS[name](it)), lambda it: of_plain(wire.read(name, it), it)


# ---- programs


class Programs(Looks):
    """Programs that are linked with the library."""

    def __init__(self, compiler, prefix, folder, records):
        super().__init__(f"c_library, programs with {compiler}'s", None)
        self.compiler, self.prefix, self.folder, self.records = compiler, prefix, Path(folder), records

    def ran(self, what, words, wanted=None, **how):
        """A program that has to end with status 0, and to print this where it is told. Returns what it printed."""
        ran = subprocess.run([str(it) for it in words], capture_output=True, check=False, timeout=600, **how)
        self.look(f"{what}: its status", (ran.returncode, ran.stderr[-400:] if ran.returncode else b""), (0, b""))
        if wanted is not None:
            self.look(f"{what}: what it printed", ran.stdout, wanted)
        return ran.stdout

    def has(self, tool, is_there):
        """Whether a tool is there. One that isn't is told."""
        if not is_there:
            print(f"{self.name}: {tool} isn't there, so its part is left out")
        return is_there

    def made(self, name, *words, compiler=C99):
        return compiled(self.prefix, self.folder / f"{self.compiler}-{name}", *words, compiler=compiler)

    def symbols(self):
        """The names of the archive and of the shared object: those of the header alone are global, and few are needed of a C library."""
        wanted = {f"cbrelay_{it}" for it in ORDER}
        for file, words in (("libcbrelay.a", []), ("libcbrelay.so.0", ["-D"])):
            said = subprocess.run(["nm", *words, "--format=posix", "--extern-only", self.prefix / "lib" / file], capture_output=True, text=True, check=True).stdout
            rows = [line.split() for line in said.splitlines() if len(line.split()) > 1]
            self.look(f"the names of {file}", {row[0] for row in rows if row[1] in "TDBRVW"}, wanted)
            needed = {row[0].split("@")[0] for row in rows if row[1] == "U"}
            self.look(f"what {file} needs besides", needed - NEEDED, set())

    def plays(self):
        """The recorded calls by C, plain and under sanitizers and valgrind."""
        whole, small = self.folder / "calls", self.folder / "few"
        self.records.write(whole)
        self.play("plain", self.made("play-plain", "play.c", "calls.c"), whole, self.records)
        if self.has("a cc with sanitizers", has_sanitizers(self.folder)):
            program = self.made("play-sanitized", "play.c", "calls.c", *SANITIZED)
            self.play("sanitized", program, whole, self.records)
            self.ran("1 in 10 changed calls, sanitized", [program, whole, str(CHANGED // 10)], env=environment())
        if self.has("valgrind", shutil.which("valgrind")):
            few = some(self.records, SLOWLY)
            few.write(small)
            grind = ["valgrind", "--quiet", "--error-exitcode=9", "--leak-check=full", "--errors-for-leak-kinds=all"]
            self.play("under valgrind", self.folder / f"{self.compiler}-play-plain", small, few, grind)

    def play(self, what, program, file, records, before=()):
        """Plays calls: each has to give what the binding got."""
        output = self.ran(f"calls by C, {what}", [*before, program, file], env=environment())
        self.look(f"calls by C, {what}", played(output, records.results), (0, None))

    def changed(self):
        """What 100,000 calls with changed bytes come to, as a hash, which is the same by both compilers' libraries."""
        return self.ran("changed calls", [self.made("play-plain", "play.c", "calls.c"), self.folder / "calls", str(CHANGED)])

    def refused(self):
        """Each allocation of some calls of each function is refused in turn."""
        file = self.folder / "refused"
        chosen = of_each_function(self.records)
        chosen.write(file)
        program = self.made("refuse", "refuse.c", "calls.c", "-Wl,--wrap=malloc,--wrap=realloc,--wrap=free")
        lines = self.ran("refused allocations", [program, file]).decode().splitlines()
        rows = [tuple(map(int, line.split())) for line in lines[:-1]]
        met = {ORDER[function] for function, refusals in rows if refusals > 0}
        self.look("functions that don't allocate as they should", sorted(met ^ ALLOCATING), [])
        print(f"{self.name}: {lines[-1] if lines else ''}")

    def threads(self):
        file = self.folder / "shared"
        some(self.records, 10 * SLOWLY).write(file)
        self.ran("eight threads", [self.made("threads", "threads.c", "calls.c", "-pthread"), file])

    def others(self):
        """Programs in C++ and C, with the shared object too."""
        if not self.has("c++", shutil.which("c++")):
            return
        wanted = b"4f8b42c22dd3729b519ba6f68d2da7cc5b2d606d05daed5ad5128cc03e6c6358 F2 Truncated\n"
        self.ran("C++", [self.made("first.cpp", "first.cpp", compiler=CXX11)], wanted)
        shared = subprocess.run([*CXX11, f"-I{self.prefix / 'include'}", str(Path(ROOT, "bench/library/first.cpp")), f"-L{self.prefix / 'lib'}", "-lcbrelay",
                                 f"-Wl,-rpath,{self.prefix / 'lib'}", "-o", str(self.folder / "first-shared")], capture_output=True, text=True, check=False)
        self.look("C++ over the shared object: compiled", (shared.returncode, shared.stderr), (0, ""))
        self.ran("C++ over the shared object", [self.folder / "first-shared"], wanted)

    def examples(self):
        """The examples, as docs/LIBRARY.md calls them."""
        folder, shared = Path(ROOT, "examples", "library"), str(self.prefix / "lib" / "libcbrelay.so.0")
        self.ran("first.c", [self.made("first", str(folder / "first.c")), folder / "block-170.bin"], (folder / "first.stdout").read_bytes())
        if self.has("pkg-config", shutil.which("pkg-config")):
            told = subprocess.run(["pkg-config", "--cflags", "--libs", "cbrelay"], capture_output=True, text=True, check=False,
                                  env=environment(PKG_CONFIG_PATH=str(self.prefix / "lib" / "pkgconfig")))
            words = [*C99, str(folder / "first.c"), *told.stdout.split(), f"-Wl,-rpath,{self.prefix / 'lib'}", "-o", str(self.folder / "first")]
            made = subprocess.run(words, capture_output=True, text=True, check=False)
            self.look("first.c by pkg-config", (told.returncode, made.returncode, made.stderr), (0, 0, ""))
            self.ran("first.c by pkg-config", [self.folder / "first", folder / "block-170.bin"], (folder / "first.stdout").read_bytes())
        for name in ("messages", "rebuild"):
            words = [sys.executable, "-B", folder / f"{name}.py"]
            self.ran(f"{name}.py", words, (folder / f"{name}.stdout").read_bytes(), env=environment(CBRELAY_LIBRARY=shared), cwd=ROOT)

    def rust(self):
        """The crate of bindings/rust and its tests, in a copy."""
        if not self.has("cargo", shutil.which("cargo")):
            return
        folder = self.folder / "bindings" / "rust"
        shutil.copytree(BINDINGS / "rust", folder)
        shutil.copytree(Path(ROOT, "examples", "library"), self.folder / "examples" / "library")
        settings = environment(CBRELAY_PREFIX=str(self.prefix), CARGO_TARGET_DIR=str(self.folder / "target"), RUSTFLAGS="-D warnings")
        self.ran("the crate for Rust", ["cargo", "test", "--quiet", "--offline"], cwd=folder, env=settings)

    def bitcoinlib(self):
        """python3-bitcoinlib reads the same blocks, where it is installed."""
        if not self.has("python3-bitcoinlib", subprocess.run([SYSTEM_PYTHON, "-c", "import bitcoin"], capture_output=True, check=False).returncode == 0):
            return
        rng = random.Random(5)
        blocks = [cases.genesis(), full_block().text, *(cases.block_of(rng, count).text for count in (1, 2, 3, 9))]
        given = self.folder / "blocks.json"
        given.write_text(json.dumps([it.hex() for it in blocks]), encoding="ascii")
        self.ran("python3-bitcoinlib", [SYSTEM_PYTHON, "-B", Path(ROOT, "bench/library/beside_bitcoinlib.py"), given],
                 env=environment(CBRELAY_LIBRARY=str(self.prefix / "lib" / "libcbrelay.so.0")))


def has_sanitizers(folder):
    """Whether the C compiler can build and run a program under sanitizers."""
    source, program = Path(folder, "none.c"), Path(folder, "none")
    source.write_text("int main(void) { return 0; }\n", encoding="ascii")
    words = ["cc", *SANITIZED, str(source), "-o", str(program)]
    return subprocess.run(words, capture_output=True, check=False).returncode == 0 and subprocess.run([program], check=False).returncode == 0


# the functions that allocate: all but hashes, headers, statuses and what has fields of fixed sizes
NOT_ALLOCATING = {"version", "fault_text", "sha256d", "block_hash", "sip24", "short_id_key", "short_id", "header_read", "header_write", "header_check",
                  "version_read", "nonce_read", "sendcmpct_read"}
ALLOCATING = set(ORDER) - NOT_ALLOCATING


def picked(records, places):
    """A recorder of some of the calls of another."""
    found = Recorder()
    found.records, found.results = [records.records[it] for it in places], [records.results[it] for it in places]
    return found


def some(records, most_bytes):
    """Calls in turn over all that were recorded, and as many as their bytes allow."""
    places, size, step = [], 0, 0
    for step in range(7):
        for place in range(step, len(records.records), 7):
            if size + len(records.records[place]) <= most_bytes:
                places.append(place)
                size += len(records.records[place])
    return picked(records, sorted(places))


def of_each_function(records, most=6, bytes_of_one=20_000):
    """A few calls of each function, successes and others."""
    found = {}
    for place, (name, status, _, _) in enumerate(records.results):
        kind = (name, bool(status))
        if len(records.records[place]) <= bytes_of_one and len(found.setdefault(kind, [])) < most:
            found[kind].append(place)
    return picked(records, sorted(place for places in found.values() for place in places))


# ---- all


def built(compiler):
    """Builds the library. Returns whether that went well."""
    words = [str(Path(ROOT, "build")), "--library", *(["--compiler", compiler] if compiler != "llvm" else [])]
    return subprocess.run(words, cwd=ROOT, check=False).returncode == 0


def look_at(compiler, folder):
    """Looks at the library that a compiler made. Returns the status, and what the changed calls came to."""
    began, prefix = time.monotonic(), prefix_of(compiler)
    load(prefix)
    with Recorder(PLAYED) as records:
        calls = Calls(compiler, random.Random(1))
        calls.run()
    calls.full()
    calls.look("what compact blocks never met", compact_played(calls, COMPACT, 1), [])
    failed = calls.told()
    programs = Programs(compiler, prefix, folder, records)
    programs.symbols()
    programs.plays()
    changed = programs.changed()
    programs.refused()
    programs.threads()
    programs.others()
    programs.examples()
    programs.bitcoinlib()
    if compiler == "llvm":
        programs.rust()
    failed |= programs.told()
    print(f"c_library, {compiler}: {len(records.records)} calls recorded, {time.monotonic() - began:.0f} s", flush=True)
    return failed, changed


def main():
    reader = usage(__doc__)
    reader.add_argument("--built", action="store_true", help="take the libraries that lie there")
    reader.add_argument("--only", choices=COMPILERS, help="look at the library of this compiler alone")
    words = reader.parse_args()
    compilers = [words.only] if words.only else list(COMPILERS)
    if not words.built and not all(map(built, compilers)):
        sys.exit(1)
    failed, changed = 0, set()
    for compiler in compilers:
        # each in a process of its own room
        with tempfile.TemporaryDirectory(prefix="cbrelay-look-") as folder:
            status, hashed = look_at(compiler, folder)
        failed |= status
        changed.add(hashed)
    if len(changed) > 1:
        print(f"c_library: {CHANGED:,} changed calls came to {len(changed)} outcomes")
        failed = 1
    sys.exit(failed)


if __name__ == "__main__":
    main()
