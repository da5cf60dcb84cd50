#!/usr/bin/env python3
"""Compares the stored rows of messages with what lib/outcome_reader.py, an independent reader, says of their inputs.

They are those of crates/test_outcome, crates/test_places and c/tests/tls13.tsv. It also compares the byte and the error of each rejection
of tlsdump in lib/rejections.py. `check_outcomes.py --row KIND HEX ..` prints rows for inputs of your own: KIND is a message, or a call of
test_places. Append them to stdout there, and their first two columns to stdin.
"""
from __future__ import annotations

import sys

from lib.dump_input import bytes_of, named, words_of
from lib.failed import ended
from lib.libraries import CRATES, TOP
from lib.message_reader import PROTOCOLS, Text
from lib.outcome_reader import TEXT_OF_LIBRARY, Outcome, Span, elements, first_rejected, located
from lib.rejections import REJECTIONS
from lib.words import rows_wanted

RUNS = CRATES / "tlsdump" / "runs"
TABLES = [CRATES / "test_outcome" / "stdout", CRATES / "test_places" / "stdout", TOP / "c" / "tests" / "tls13.tsv"]
# The message that is a list alone: no call finds its fields.
LIST_ALONE = "mls_ratchet_tree"
SENDER_DATA = "mls_sender_data\t0000000100000002a1a2a3a4"
EXTENSIONS = "mls_extension_next\t000302aabb00054001ee"
# What is changed of a row, to see that a wrong one is found: its input, a text after it, and what is put in its place.
PLANTS = [
    (SENDER_DATA, "0+4 4+4 8+4", "0+4 4+4 8+3"),
    (SENDER_DATA, "\t0 12 0 0\t0 12 0 0\t", "\t0 12 0 0\t0 11 0 0\t"),
    ("mls_sender_data\t00", "\t6 0 0 0\t6 0 0 0", "\t6 0 0 0\t5 0 0 0"),
    (EXTENSIONS, "\t2 0 2 0\t", "\t2 0 7 0\t"),
    (EXTENSIONS, "\t0+5", "\t0+6"),
    ("tls13_key_update\tc0", "8 0 0 192", "8 0 0 0"),
    ("mls_message_wire_format_prefix\t0001000201fa0000000000000007010001a102a2a3", "\t2", "\t1"),
]


def spans_of(spans: list[Span]) -> str:
    """Places as `OFFSET+SIZE`."""
    return " ".join(f"{first}+{last - first}" for first, last in spans)


def columns(name: str, data: bytes) -> list[str]:
    """The columns after a row's input: what the call says, and what it fills."""
    if name.endswith("_next"):
        outcome, spans = elements(name.removesuffix("_next"), data)
        return [str(outcome), spans_of(spans) or "-"]
    if name.endswith("_locate_prefix"):
        outcome, spans, _ = located(name.removesuffix("_locate_prefix"), data)
        return [str(outcome), spans_of(spans) or "-"]
    if name.endswith("_wire_format_prefix"):
        outcome, _, tags = located(name.removesuffix("_wire_format_prefix"), data)
        formats = {kind: number for number, _, kind in TEXT_OF_LIBRARY["mls"].enums["WireFormat"][0]}
        return [str(outcome), str(formats[tags["wire_format"]]) if tags else "-"]
    outcome, spans, _ = located(name, data)
    if name.startswith("tls13_"):
        return [str(outcome)]
    # the decoder names the same error, and no place
    decoded = Outcome(outcome.status, outcome.taken, 0, outcome.detail)
    fields = [spans_of(spans)] if outcome.status == 0 and name != LIST_ALONE else []
    return [str(outcome), str(decoded), *fields]


def row_of(name: str, digits: str) -> str:
    """A row as it is stored."""
    return "\t".join([name, digits, *columns(name, bytes.fromhex("" if digits == "-" else digits))])


def wrong(row: str) -> str | None:
    """What is wrong with a stored row, if anything is."""
    try:
        expected = row_of(*row.split("\t")[:2])
    except (LookupError, TypeError, ValueError) as error:
        return f"{row!r} can't be read: {error}"
    return None if row == expected else f"stored {row!r}, expected {expected!r}"


def unnoticed() -> list[str]:
    """The planted wrong rows that aren't found. A row without its plant has to pass."""
    found = []
    for given, old, new in PLANTS:
        row = row_of(*given.split("\t"))
        planted = given + row.removeprefix(given).replace(old, new)
        if wrong(row) or planted == row:
            found.append(f"the row of {given!r} is no row to plant a wrong one in: {row!r}")
        elif not wrong(planted):
            found.append(f"a wrong row isn't found: {planted!r}")
    return found


def wrong_rejection(name: str, said: str) -> str | None:
    """What is wrong with what tlsdump says of a stored input, as rejections.py has it."""
    words = words_of(RUNS / name)
    data = bytes_of((RUNS / name).read_bytes(), words)
    protocol, of = named(words, data)
    rejected = first_rejected(Text(PROTOCOLS[protocol]), of, data)
    if not rejected:
        return f"{name}: nothing is rejected, expected {said!r}"
    found = said.startswith(f"rejected at byte {rejected.at}, in ") and f": {rejected.error}: expected " in said
    return None if found else f"{name}: {rejected.error} at {rejected.at}, expected {said!r}"


def check() -> tuple[int, list[str]]:
    """How many rows and rejections pass, and what fails."""
    passed, failures = 0, unnoticed()
    for table in TABLES:
        rows = table.read_text(encoding="utf-8").splitlines()
        found = [it for row in rows if (it := wrong(row))]
        passed += len(rows) - len(found)
        failures += [f"{table.relative_to(TOP)}: {it}" for it in found]
        inputs = table.with_name("stdin")
        if inputs.exists() and ["\t".join(row.split("\t")[:2]) for row in rows] != inputs.read_text(encoding="utf-8").splitlines():
            failures.append(f"{inputs.relative_to(TOP)} isn't the first two columns of stdout")
    found = [it for name, said in REJECTIONS.items() if (it := wrong_rejection(name, said))]
    return passed + len(REJECTIONS) - len(found), failures + found


def main() -> int:
    if rows := rows_wanted(row_of, "a message, or a call of test_places"):
        print("\n".join(rows))
        return 0
    passed, failures = check()
    for it in failures:
        print(it)
    print(f"{passed} rows of messages and rejections of tlsdump are what an independent reader says")
    print(f"{passed} passed, {len(failures)} failed")
    return int(bool(failures))


if __name__ == "__main__":
    sys.exit(ended(main))
