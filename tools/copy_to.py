#!/usr/bin/env python3
"""Copies the library into another repository, or updates the copy there: `tools/copy_to.py FOLDER [CRATE ..]`.

It copies the crates that messages use (LIBRARY), those that are named, such as `mls`, what these use, and those that an earlier run copied
to FOLDER. It replaces their folders in FOLDER/crates, with what `rt` built in them, and their lines of FOLDER/crates.txt, which come first.
The licences go into the folder of tls_codec. FOLDER/tls_codec.commit says what was copied: the commit, with `and changes` if the clone has
some, or that there is none, and in the second line the crates. What an earlier run copied, and is no longer here, is removed. Prints the
crates and the commit.
"""
from __future__ import annotations

import pathlib
import shutil
import sys
from collections.abc import Iterable

from lib.clone import commit
from lib.libraries import CRATES, TOP, Libraries

LIBRARY = ["tls_codec", "tls_codec_cases", "tls_codec_validate", "tls_codec_views"]
RECORD = "tls_codec.commit"


def copied_before(folder: pathlib.Path) -> list[str]:
    """The crates that an earlier run copied to the folder."""
    record = folder / RECORD
    lines = record.read_text().splitlines() if record.is_file() else []
    return lines[1].split() if len(lines) > 1 else []


def with_what_they_use(names: Iterable[str]) -> list[str]:
    """The crates with what they use, as crates.txt orders them."""
    libraries = Libraries()
    wanted = {more for it in names for more in [*libraries.below(it), it]}
    return [it for it in libraries.uses if it in wanted]


def name_of(line: str) -> str:
    """The crate whose line of a crates.txt this is; "" of other lines."""
    words = line.partition(":")[0].split()
    return words[0] if ":" in line and words and not line.startswith("#") else ""


def replace_lines(file: pathlib.Path, names: list[str], gone: set[str]) -> None:
    """Puts the lines of these crates before those of others in a crates.txt, without the lines that are gone."""
    ours = {name_of(line): line for line in (TOP / "crates.txt").read_text().splitlines()}
    theirs = file.read_text().splitlines() if file.is_file() else []
    kept = [line for line in theirs if name_of(line) not in gone.union(names)]
    file.write_text("".join(f"{line}\n" for line in [*(ours[it] for it in names), *kept]))


def copy(folder: pathlib.Path, names: list[str], gone: set[str]) -> None:
    """Copies these crates, removes those that are gone, and writes the record."""
    for name in [*gone, *names]:
        shutil.rmtree(folder / "crates" / name, ignore_errors=True)
    for name in names:
        shutil.copytree(CRATES / name, folder / "crates" / name)
    for licence in TOP.glob("LICENSE-*"):
        shutil.copy2(licence, folder / "crates" / "tls_codec")
    replace_lines(folder / "crates.txt", names, gone)
    (folder / RECORD).write_text(f"{commit()}\n{' '.join(names)}\n")


def main() -> None:
    if len(sys.argv) < 2 or sys.argv[1].startswith("-"):
        sys.exit(__doc__)
    folder, named = pathlib.Path(sys.argv[1]).resolve(), sys.argv[2:]
    known = set(Libraries().uses)
    wrong = [it for it in named if it not in known]
    if wrong:
        sys.exit(f"no crate of crates.txt: {' '.join(wrong)}")
    if not folder.is_dir() or folder == TOP:
        sys.exit(f"no folder of another repository: {folder}")
    before = set(copied_before(folder))
    names = with_what_they_use([*LIBRARY, *named, *(before & known)])
    copy(folder, names, before - known)
    print(f"{len(names)} crates of {commit()}: {' '.join(names)}")


if __name__ == "__main__":
    main()
