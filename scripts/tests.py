#!/usr/bin/env python3
"""Runs the tests of tests/: scripts/tests.py [NAME ..]

They are built beside the crates in a copy, by `rt try --test`: that proves nothing, and each test runs in a process of its own, in a build
that stops at a bad access and an overflow. With names, as `row_4` or `messages::row_4`, only these run. The line `// EXAMPLE OF
docs/NAME.md` of a source stands for the first code of that document. Each test has a line, `passed NAME` or `failed NAME`; the last line is
`N passed, M failed`. A test of the sources, or a row of ROWS, that is missing, didn't run or ended otherwise has failed. The status is 0
only if none did.
"""

import re
import signal
import subprocess
import sys
import textwrap

from cost import spent
from repository import PIPED, ROOT, RT, Repository

CRATE = "tests"
# A test that runs longer has failed. The pings behind checkpoints take some 100 processor seconds in this build.
SECONDS = 1_800
# The worked rows, by the file that has them. Row 17 is `two_handlers_meet`.
ROWS = {
    "announcing": "row_14_three_peers_announce_by_compact_blocks row_a_blocks_are_told_by_compact_blocks_where_wanted"
    " row_b_another_version_of_compact_blocks_is_none",
    "audit": "row_18_in_an_inbox",
    "basics": "row_4 row_5",
    "blocks": "row_6 row_7 row_7_equal_neighbours row_8_in_a_block",
    "chain": "row_13 row_15 row_15_had_it_been_good",
    "compact_blocks": "row_9 row_10 row_11 row_12 row_c_three_pairs_of_one_id_are_missing",
    "crew": "row_b_nothing_served_before row_b_the_next_connection row_c_a_work_that_closes",
    "inbox": "row_23",
    "ledger": "row_15 rows_a_and_b",
    "messages": "row_1 row_2 row_3 row_4 row_8_as_a_message row_a_counts_that_lie row_a_of_large_pieces row_c_the_first_block",
    "pool": "row_8 row_a",
    "program": "row_16 row_19 row_20 row_21 row_22 row_24 row_a_a_ping_without_its_nonce row_a_a_transaction_of_64_bytes"
    " row_a_compact_blocks_of_nothing row_a_connection_after_connection row_a_too_many_peers row_c_a_checkpoint_before_a_block"
    " row_c_decode_tells_the_first_block",
    "service": "two_handlers_meet",
    "session_events": "row_b_blocks_are_told_by_headers_where_asked_for",
    "sessions": "row_a_a_trace_goes_on_behind_its_checkpoints row_b_all_but_the_ping_is_passed_over",
    "transactions": "row_6 row_8_has_64_bytes row_a_counts_that_lie row_a_no_inputs row_b_sum row_b_values",
    "works": "row_18_a_kick_after_the_first_ping row_18_a_kick_before_the_first_ping_is_given",
}
TEST = re.compile(r"#\[test\]\s*fn (\w+)")
# a test with what is said of it, up to the bracket that ends it
WHOLE_TEST = re.compile(r"^(?:///.*\n)*#\[test\]\nfn (\w+)(?:.*\n)*?\}\n", re.MULTILINE)
# where a document's example belongs, and the first code of a document
EXAMPLE = re.compile(r"^// EXAMPLE OF (\S+)\n", re.MULTILINE)
CODE = re.compile(r"^ {4}\S.*\n(?:(?: {4}.*)?\n)*", re.MULTILINE)
# a line of the run: a test and how it ended, and how many it had in all
ENDED = re.compile(r"test (\S+) \.\.\. (ok|FAILED)$")
SUMMARY = re.compile(r"test result: (?:ok|FAILED)\. (\d+) passed; (\d+) failed; (\d+) ignored; (\d+) filtered out$")


def tests_there(crate):
    """Returns the names of all tests that the sources have, as MODULE::FUNCTION."""
    found = ((it.name.partition(".")[0], TEST.findall(it.read_text(encoding="utf-8"))) for it in crate.files(".rt"))
    return [f"{module}::{name}" for module, names in found for name in names]


def prepare(sources, chosen):
    """Puts the first code of a document in the place of the line that names it, in a copy of the sources, and leaves only these tests
    there."""

    def code(found):
        document = (ROOT / found[1]).read_text(encoding="utf-8")
        return textwrap.dedent(CODE.search(document)[0]).strip() + "\n"

    for path in sources.glob("*.rt"):
        text = EXAMPLE.sub(code, path.read_text(encoding="utf-8"))
        left = WHOLE_TEST.sub(lambda found: found[0] if f"{path.stem}::{found[1]}" in chosen else "", text)  # noqa: B023
        path.write_text(left, encoding="utf-8")


def run(folder):
    """Runs the tests of a crate laid out in a folder. Returns how each ended, by its name, the summary's numbers, and the status."""
    ended, summary = {}, None
    words = [*RT, "try", "--test", "--seconds", str(SECONDS)]
    with subprocess.Popen(words, cwd=folder, **PIPED) as process:
        try:
            for line in process.stdout:
                found, total = ENDED.match(line), SUMMARY.match(line)
                if found:
                    name, is_ok = found[1], found[2] == "ok"
                    # one that comes twice has to pass twice
                    ended[name] = ended.get(name, True) and is_ok
                    print(f"{'passed' if is_ok else 'failed'} {name}", flush=True)
                else:
                    print(line, end="", flush=True)
                summary = tuple(map(int, total.groups())) if total else summary
        except BaseException:
            process.terminate()
            raise
    return ended, summary, process.returncode


def judged(chosen, ended, summary, status):
    """Returns what is wrong with a run of these tests besides those that ended with FAILED."""
    faults = [f"{name}: it did not run" for name in chosen if name not in ended]
    faults += [f"{name}: it is no test of the sources" for name in ended if name not in chosen]
    passed = sum(ended.values())
    if not faults and summary != (passed, len(ended) - passed, 0, 0):
        faults.append("the run: its own count is another")
    if not faults and status and passed == len(chosen):
        faults.append(f"the run: it ended with status {status}")
    return faults


def main():
    signal.signal(signal.SIGTERM, lambda number, _: sys.exit(128 + number))
    repository, words = Repository(ROOT), sys.argv[1:]
    before, there = spent(), tests_there(repository.apart[CRATE])
    by_word = {word: [name for name in there if word in (name, name.partition("::")[2])] for word in words}
    for word in (it for it, found in by_word.items() if not found):
        sys.exit(f"no test has the name {word}")
    chosen = [name for name in there if not words or any(name in found for found in by_word.values())]
    rows = [f"{module}::{name}" for module, names in ROWS.items() for name in names.split()]
    with repository.room(repository.apart[CRATE]) as folder:
        prepare(folder / "src", set(chosen))
        ended, summary, status = run(folder)
    faults = judged(chosen, ended, summary, status)
    faults += [f"{row}: the sources lack this row" for row in rows if row not in there]
    for fault in faults:
        print(f"failed {fault}")
    passed = sum(name in chosen and is_ok for name, is_ok in ended.items())
    failed = len(faults) + sum(not is_ok for is_ok in ended.values())
    print(f"the tests took {spent() - before:.0f} processor seconds")
    print(f"{passed} passed, {failed} failed")
    return int(failed > 0 or not passed)


if __name__ == "__main__":
    sys.exit(main())
