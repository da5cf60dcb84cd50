#!/usr/bin/env python3
"""Refuses each request for memory that test_memory makes, one in each run, and compares what the program prints.

The program is built once, without proof (`rt try`). One build refuses only the request LAST. To refuse request n of the rows, the input
is n, and the program first makes LAST - n requests.
"""
from __future__ import annotations

import pathlib
import re
import sys
import tempfile

from lib import cases, words
from lib.failed import Failed, ended
from lib.libraries import CRATES

CRATE = CRATES / "test_memory"


def number(pattern: str, file: str) -> int:
    """The one number in this file of the crate, at the place that the pattern says."""
    found = re.findall(pattern, (CRATE / file).read_text(encoding="utf-8"), re.M)
    if len(found) != 1:
        raise Failed(f"crates/{CRATE.name}/{file} has {len(found)} texts {pattern!r}, and must have one")
    return int(found[0])


def run(last: int, lines: dict[int, str]) -> cases.Tried:
    """Runs the program once for each number of a request, with that request refused."""
    with tempfile.TemporaryDirectory() as folder:
        for refused, line in lines.items():
            case = pathlib.Path(folder, str(refused))
            case.write_text(str(refused))
            case.with_suffix(".stdout").write_text(line)
        return cases.run(CRATE.name, folder, flags=("--steps", "1", "--fail-alloc", str(last)))


def main() -> int:
    words.none()
    last = number(r"^const LAST: u64 = (\d+);$", "src/main.rt")
    count = number(r"\A(\d+) requests, none refused\n\Z", "stdout")
    lines = {refused: f"{count} requests, {refused} refused\n" for refused in range(1, count + 1)}
    tried = run(last, lines)
    reported = tried.names(0)
    passed = 0
    for refused in lines:
        is_reported = str(refused) in reported
        print(f"request {refused} refused: {'ok' if is_reported else 'FAILED'}")
        passed += is_reported
    if passed < count:
        print(tried.printed + tried.said)
    print(f"{passed} passed, {count - passed} failed")
    return int(passed < count)


if __name__ == "__main__":
    sys.exit(ended(main))
