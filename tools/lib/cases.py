"""Runs a program on many inputs by `rt try --cases`, and reads what that says of each.

The program is built once, without proof, and runs once for each file NAME of a folder, which is its input. NAME.args has its arguments, and
NAME.stdout what it must print: `rt --help` describes them. `rt try` writes nothing below crates/.
"""
from __future__ import annotations

import pathlib
import re
import subprocess
from collections.abc import Mapping
from typing import NamedTuple

from lib.libraries import CRATES

# The line of a case that ended, on standard error. One that faulted or hung has none.
CASE = re.compile(r"^case=(\w+) run=ended status=(\d+) (.*)$", re.M)


class Ended(NamedTuple):
    """How the program ended: its status, and whether it printed what NAME.stdout has."""

    status: int
    as_expected: bool


class Tried(NamedTuple):
    """What `rt try` says: how each case ended, by its name, and its standard output and standard error."""

    ended: dict[str, Ended]
    printed: str
    said: str

    def names(self, status: int, as_expected: bool = True) -> set[str]:
        """The cases that ended with a status, and, unless the output isn't compared, printed what they must."""
        return {name for name, it in self.ended.items() if it.status == status and (it.as_expected or not as_expected)}


def ended(said: str) -> dict[str, Ended]:
    """How each case ended, by the standard error of `rt try`."""
    return {name: Ended(int(status), "output=expected " in rest) for name, status, rest in CASE.findall(said)}


def run(crate: str, cases: pathlib.Path | str, data: Mapping[str, pathlib.Path] | None = None, flags: tuple[str, ...] = ()) -> Tried:
    """Runs a crate's program on the cases of a folder. It finds each file of `data` under its name."""
    words = ["rt", "try", *flags, "--cases", str(cases)]
    words += [word for name, file in (data or {}).items() for word in ("--data", f"{name}={file}")]
    ran = subprocess.run(words, cwd=CRATES / crate, stdin=subprocess.DEVNULL, capture_output=True, text=True)
    return Tried(ended(ran.stderr), ran.stdout, ran.stderr)


def files_in(folder: pathlib.Path) -> dict[str, pathlib.Path]:
    """The files of a folder, by their names."""
    return {path.name: path for path in sorted(folder.iterdir())}
