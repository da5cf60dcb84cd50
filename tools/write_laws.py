#!/usr/bin/env python3
"""write_laws.py CRATE: writes crates/CRATE_laws, which says of each type of the written crate CRATE what its text means.

crates.txt names both crates, and those whose texts are below this one (lib/libraries.py). What is written is proved as any other crate, and
tools/check_laws.py compares it with the text and the crate: nothing rests on this program.
"""
from __future__ import annotations

import re
import sys

from lib.failed import Failed, ended
from lib.laws.modules import modules
from lib.laws.pages import Files, pages
from lib.laws.says import Reading
from lib.libraries import CRATES, TEXT_OF_CRATE, written_below

IMPORT = re.compile(r"^(?:ghost )?use ([\w.:]+?)(?:\.|::)(?:\{([^}]*)\}|(\w+));?$", re.M)


def files_of(crate: str) -> Files:
    """The files of a crate of laws, by their paths in it."""
    if crate not in TEXT_OF_CRATE:
        raise Failed(f"crates.txt has no {crate}_laws")
    reading = Reading(crate, TEXT_OF_CRATE[crate], written_below(crate))
    return pages(reading) | modules(reading)


def without_layout(text: str) -> tuple[list[tuple[str, list[str]]], str]:
    """The imports of a file in an order of their own, and the rest without blanks."""
    found = [(page, sorted(re.findall(r"[^\s,]+(?: as \w+)?", names or name))) for page, names, name in IMPORT.findall(text)]
    return sorted(found), re.sub(r"\s", "", IMPORT.sub("", text))


def differences(crate: str) -> list[str]:
    """The files of the crate's laws that aren't as they would be written, except for blanks and the order of imports."""
    folder = CRATES / f"{crate}_laws"
    paths = [it for part in ("src", "specs", "proofs") for it in folder.glob(f"{part}/**/*") if it.is_file()]
    stored = {it.relative_to(folder).as_posix(): it.read_text() for it in paths}
    written = files_of(crate)
    both = stored.keys() & written.keys()
    return sorted((stored.keys() ^ written.keys()) | {it for it in both if without_layout(stored[it]) != without_layout(written[it])})


def main(words: list[str]) -> int:
    if len(words) != 1 or words[0].startswith("-"):
        print(__doc__, file=sys.stderr)
        return 2
    for name, page in files_of(words[0]).items():
        path = CRATES / f"{words[0]}_laws" / name
        path.parent.mkdir(parents=True, exist_ok=True)
        path.write_text(page)
    return 0


if __name__ == "__main__":
    sys.exit(ended(lambda: main(sys.argv[1:])))
