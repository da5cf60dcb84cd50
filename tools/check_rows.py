#!/usr/bin/env python3
"""Compares the stored rows of crates/test_rows with what lib/row_reader.py, an independent reader, says of their inputs.

`check_rows.py --row KIND HEX ..` prints rows for inputs of your own as stdout has them. Append them to crates/test_rows/stdout, and their
first two columns to crates/test_rows/stdin.
"""
from __future__ import annotations

import sys

from lib.failed import ended
from lib.libraries import CRATES
from lib.row_reader import KINDS, answer
from lib.words import rows_wanted

FOLDER = CRATES / "test_rows"
# What is changed of a row, to see that a wrong one is found: a text there, and what is put in its place.
PLANTS = [
    ("option-u16\t010007ee", "some 7 rest", "some 8 rest"),
    ("option-u16\t010007ee", "reader ok some 7 rest ee", "reader ok some 7 rest -"),
    ("option-u16\t010007ee", "least 010007", "least 0107"),
    ("vlbytes\t050102", "slice refused DecodingError", "slice refused EndOfStream"),
    ("vlbytes\t050102", "reader refused EndOfStream", "reader refused DecodingError"),
    ("vlbytes\t050102", "\t1\t", "\t0\t"),
]


def row_of(kind: str, digits: str) -> str:
    """A row as it is stored: the kind, the hex of the input, the status and the lines, each line feed as `\\n`."""
    status, lines = answer(kind, bytes.fromhex("" if digits == "-" else digits))
    return f"{kind}\t{digits}\t{status}\t" + "".join(f"{line}\\n" for line in lines)


def wrong(row: str) -> str | None:
    """What is wrong with a stored row, if anything is."""
    kind, digits, *answers = row.split("\t")
    if kind not in KINDS:
        return f"there is no kind {kind}"
    if len(answers) != 2:
        return f"{kind} {digits}: {len(answers) + 2} columns, and not 4"
    try:
        expected = row_of(kind, digits)
    except ValueError as error:
        return f"{kind} {digits}: {error}"
    return None if row == expected else f"stored {row!r}, expected {expected!r}"


def unnoticed() -> list[str]:
    """The planted wrong rows that aren't found. A row without its plant has to pass."""
    found = []
    for input_of, old, new in PLANTS:
        row = row_of(*input_of.split("\t"))
        if wrong(row) or old not in row:
            found.append(f"the row of {input_of} is no row to plant a wrong one in")
        elif not wrong(row.replace(old, new)):
            found.append(f"a wrong row isn't found: {row.replace(old, new)}")
    return found


def check() -> tuple[int, list[str]]:
    """How many rows pass, and what fails."""
    rows = (FOLDER / "stdout").read_text(encoding="utf-8").splitlines()
    inputs = (FOLDER / "stdin").read_text(encoding="utf-8").splitlines()
    failures = [it for row in rows if (it := wrong(row))]
    passed = len(rows) - len(failures)
    if [row.split("\t")[:2] for row in rows] != [it.split("\t") for it in inputs]:
        failures.append("stdin isn't the first two columns of stdout")
    lacking = set(KINDS) - {row.split("\t")[0] for row in rows}
    failures += [f"no row has the kind {it}" for it in sorted(lacking)]
    failures += unnoticed()
    return passed, failures


def main() -> int:
    if rows := rows_wanted(row_of, f"one of {' '.join(KINDS)}"):
        print("\n".join(rows))
        return 0
    passed, failures = check()
    for it in failures:
        print(it)
    print(f"{passed} rows of test_rows are what an independent reader says")
    print(f"{passed} passed, {len(failures)} failed")
    return int(bool(failures))


if __name__ == "__main__":
    sys.exit(ended(main))
