"""The runs of `tlsgen` that write the crates of messages, and the files that its stored output has."""
from __future__ import annotations

import pathlib
import re

from lib.libraries import CRATES, TEXT_OF_CRATE, written_below


def words(crate: str, text: str) -> list[str]:
    """The words for a crate: its notes, and those that it uses with theirs."""
    others = [f"{other}={TEXT_OF_CRATE[other]}.tls,{TEXT_OF_CRATE[other]}.notes" for other in written_below(crate)]
    return ["--notes", f"{text}.notes"] + [word for other in others for word in ("--with", other)]


# For each run: the crate whose files are compared, the text, and the words.
RUNS = {crate: (crate, text, words(crate, text)) for crate, text in TEXT_OF_CRATE.items()}


def add(folder: str, name: str, text: str, more: list[str], crate: str | None = None) -> None:
    """Adds a run of tlsgen to a folder of cases: from a text to a crate, which has the run's name if none is given."""
    pathlib.Path(folder, name).touch()
    pathlib.Path(folder, f"{name}.args").write_text("\n".join([f"{text}.tls", "--crate", crate or name, *more]) + "\n", encoding="utf-8")


def stored_files() -> dict[str, str]:
    """The files that the stored output has, by their paths."""
    printed = (CRATES / "tlsgen" / "stdout").read_text(encoding="utf-8")
    return dict(re.findall(r"^=== (\S+)\n(.*?)(?=^=== |\Z)", printed, re.M | re.S))
