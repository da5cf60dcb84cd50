"""The words that a script is called with. On others it prints its usage, and ends with status 2."""
from __future__ import annotations

import argparse
from collections.abc import Callable


def none() -> None:
    """The script takes no words."""
    argparse.ArgumentParser(allow_abbrev=False).parse_args()


def is_to_write() -> bool:
    """Whether the script is to write what it compares."""
    parser = argparse.ArgumentParser(allow_abbrev=False)
    parser.add_argument("--write", action="store_true")
    return parser.parse_args().write


def rows_wanted(row_of: Callable[[str, str], str], kinds: str) -> list[str]:
    """The rows that the script is to print, of a kind and of inputs in hex: none, if it is to compare."""
    parser = argparse.ArgumentParser(allow_abbrev=False, usage=f"%(prog)s [--row KIND HEX ..], KIND is {kinds}")
    parser.add_argument("--row", nargs="+", default=[])
    kind, *inputs = parser.parse_args().row or [""]
    if kind and not inputs:
        parser.error("--row has no HEX")
    try:
        return [row_of(kind, digits) for digits in inputs]
    except (LookupError, ValueError) as error:
        parser.error(f"no row of {kind}: {error}")
