"""The folders and pages of the repository, the crates of crates.txt with their texts, the words that let rattle find what `rt ci` built of
them, and the rows that callers try."""
from __future__ import annotations

import pathlib
import re
import shutil
import subprocess

from lib.failed import Failed

TOP = pathlib.Path(__file__).resolve().parents[2]
CRATES = TOP / "crates"
# The texts of messages, with their notes.
DATA = CRATES / "tlsgen" / "data"
PAGES = [*sorted(TOP.glob("*.md")), *sorted((TOP / "docs").glob("*.md"))]
# The pages of callers in other languages, which lie beside their code.
CALLER_PAGES = [TOP / name / "README.md" for name in ("c", "python", "rust")]
# The rows of messages that validators and decoders of callers are tried with.
ROWS = [CRATES / "test_outcome" / "stdout", TOP / "c" / "tests" / "tls13.tsv"]
# The crates that tlsgen wrote from a text, which have laws, and the text of each. It has the crate's name, if it isn't among these.
OTHER_NAMES = {"messages_of_each_shape": "each_shape"}
TEXT_OF_CRATE = {it: OTHER_NAMES.get(it, it) for it in re.findall(r"^(\w+)_laws:", (TOP / "crates.txt").read_text(), re.M)}
# The texts from RFCs: all but one.
TEXTS_OF_RFCS = [it for it in TEXT_OF_CRATE.values() if it != "each_shape"]


def files_of_clone() -> list[pathlib.Path]:
    """The files that a clone of this tree would have, from TOP on, in their order: those that git lists, or all that no build made."""
    words = ["git", "ls-files", "-z", "--cached", "--others", "--exclude-standard"]
    listed = subprocess.run(words, cwd=TOP, capture_output=True, text=True) if shutil.which("git") else None
    names = listed.stdout.split("\0") if listed and not listed.returncode else []
    found = [pathlib.Path(name) for name in names if name and (TOP / name).is_file()]
    if not found:
        paths = [it.relative_to(TOP) for it in TOP.rglob("*") if it.is_file()]
        found = [it for it in paths if not {".git", "out", "target", "__pycache__"} & set(it.parts)]
    return sorted(set(found))


def written_below(crate: str) -> list[str]:
    """The written crates that a written crate uses: its text is over theirs."""
    return [it for it in Libraries().uses[crate] if it in TEXT_OF_CRATE]


def texts_of(crate: str) -> list[str]:
    """The text of a written crate, and those that it is over, the lowest last."""
    return [TEXT_OF_CRATE[it] for it in (crate, *reversed(written_below(crate)))]


def run(words: list[str], folder: pathlib.Path) -> tuple[int, str]:
    """Runs a command in a folder, without an input: its status, and what it prints, with its errors."""
    how = {"stdin": subprocess.DEVNULL, "stdout": subprocess.PIPE, "stderr": subprocess.STDOUT}
    ran = subprocess.run(words, cwd=folder, text=True, errors="replace", **how)
    return ran.returncode, ran.stdout


class Libraries:
    """The crates, with the libraries that each uses, and those that are static libraries."""

    def __init__(self) -> None:
        lines = (TOP / "crates.txt").read_text().splitlines()
        named = [it.partition(":") for it in lines if ":" in it and not it.startswith("#")]
        self.uses = {name.split()[0]: uses.split() for name, _, uses in named}
        self.static = [name.split()[0] for name, _, _ in named if "staticlib" in name.split()]

    @property
    def kit(self) -> pathlib.Path:
        """The folder of the kit that `rt` is of."""
        found = shutil.which("rt")
        if not found:
            raise Failed("rt isn't on the path")
        return pathlib.Path(found).resolve().parent.parent

    def below(self, crate: str) -> list[str]:
        """The repository's libraries that a crate uses, directly or not."""
        found: list[str] = []
        for it in self.uses[crate]:
            if it in self.uses:
                found += [more for more in [*self.below(it), it] if more not in found]
        return found

    def rlib(self, crate: str) -> pathlib.Path:
        return CRATES / crate / "out" / "rlib" / f"{crate}.rlib"

    def is_stamped(self, crate: str) -> bool:
        """Whether a session's own command built the library: it has a stamp then. Those that `rt ci` built have none, and fit no others."""
        return (self.rlib(crate).parent / "stamp").is_file()

    def lacking(self, crate: str) -> list[str]:
        return [it for it in self.below(crate) if not (self.rlib(it) / "format").is_file()]

    def words(self, crate: str) -> list[str]:
        kit = self.kit
        root = "src/main.rt" if (CRATES / crate / "src" / "main.rt").is_file() else "src/lib.rt"
        words = ["--crate-name", crate, root, "--extern", f"std={kit}/rlibs/std.rlib", "-L", f"dependency={kit}/rlibs"]
        for it in self.uses[crate]:
            words += ["--extern", f"{it}={self.rlib(it) if it in self.uses else f'{kit}/rlibs/{it}.rlib'}"]
        for it in self.below(crate):
            words += ["-L", f"dependency={self.rlib(it).parent}"]
        logic = ["--antt-project", f"{kit}/rattle/logic/antt-project.json", "--logic-built", f"{kit}/logic_built"]
        crate_type = ["--crate-type", "staticlib"] if crate in self.static else []
        return [*words, *logic, "--links", f"{crate}=", "--jobs", "1", *crate_type]

    def rattle(self, command: str, crate: str, more: list[str], folder: pathlib.Path) -> tuple[int, str]:
        """Runs a command of the kit's rattle over a crate, whose files are in this folder: its status, and what it prints."""
        return run([f"{self.kit}/bin/rattle", command, *self.words(crate), *more], folder)
