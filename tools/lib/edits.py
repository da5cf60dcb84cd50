"""Edits that turn a body: the files crates/NAME/wrong/*.edit, and which of them one check of a copy can hold together.

An edit has the lines of an edit of must-fail/, which `rt --help` describes, and two of its own:

    fn: gather::gather          the function that the prover must refuse, as rattle names it below the crate
    alone: yes                  where it reaches other functions too: a constant, a type, a derive, what a member means
    file: src/gather.rt
    old: while came < len {
    new: while came + 1 < len {

Lines `after: TEXT` before an `old:` text say which one is meant, if its file has it more than once: the first that comes after these
texts, in their order.

A crate of laws has no code. There an edit turns what a law in `src/` is about, in files below `specs/`: a text, what it defines, or what it
says. It is tried alone.
"""
from __future__ import annotations

import dataclasses
import pathlib
import re

# The words with which a contract says something, which no edit changes.
CLAUSES = ("requires", "ensures")
# The word with which an impl says what a member of its trait means, which a law may hold it to.
MEANING = ("ghost ",)
# How the names of crates end that have laws alone.
LAWS = "_laws"
FUNCTION = re.compile(r"\bfn\s+(?:r#)?(\w+)")


class BadEdit(Exception):
    """An edit that can't be applied, and why."""


@dataclasses.dataclass(frozen=True)
class Change:
    """A text in a file, from one place to another, and what it becomes."""

    file: str
    start: int
    end: int
    new: str

    def meets(self, other: Change) -> bool:
        return self.file == other.file and self.start < other.end and other.start < self.end


@dataclasses.dataclass(frozen=True)
class Edit:
    name: str
    function: str
    is_alone: bool
    changes: tuple[Change, ...]

    def fits(self, others: list[Edit]) -> bool:
        """Whether one copy can hold this edit beside the others, so that each function has one wrong body at most."""
        if any(self.is_alone or it.is_alone or it.function == self.function for it in others):
            return False
        return not any(mine.meets(yours) for it in others for mine in self.changes for yours in it.changes)


def read(path: pathlib.Path, crate: pathlib.Path) -> Edit:
    """The edit of this file, held to the texts of the crate that it changes."""
    function, is_alone, file, old, after, changes = "", False, "", "", [], []
    for line in path.read_text(encoding="utf-8").split("\n"):
        word, _, text = line.partition(":")
        if word == "fn":
            function = text.strip()
        elif word == "alone":
            is_alone = text.strip() == "yes"
        elif word == "file":
            file = text.strip()
        elif word == "after":
            after.append(text.removeprefix(" "))
        elif word == "old":
            old = text.removeprefix(" ")
        elif word == "new":
            changes.append(change(crate, file, after, old, text.removeprefix(" ")))
            after = []
    if not re.fullmatch(r"\w[\w:+]*", function):
        raise BadEdit("it has no line 'fn: PATH'")
    if not changes:
        raise BadEdit("it has no lines 'old:' and 'new:'")
    if any(one.meets(other) for at, one in enumerate(changes) for other in changes[:at]):
        raise BadEdit("two of its 'old:' texts overlap")
    if crate.name.endswith(LAWS):
        return Edit(path.stem, function, True, tuple(changes))
    for it in changes:
        hold_to_code(crate, it, CLAUSES if is_alone else CLAUSES + MEANING)
        if not is_alone:
            hold_to_function(function, crate, it)
    return Edit(path.stem, function, is_alone, tuple(changes))


def change(crate: pathlib.Path, file: str, after: list[str], old: str, new: str) -> Change:
    top = "specs/" if crate.name.endswith(LAWS) else "src/"
    if not file.startswith(top) or ".." in file or not (crate / file).is_file():
        raise BadEdit(f"its line 'file:' names no file below {top}: {file}")
    if not old or old == new.split(" //")[0]:
        raise BadEdit("a line 'new:' changes nothing")
    text = (crate / file).read_text(encoding="utf-8")
    if not after and text.count(old) != 1:
        raise BadEdit(f"an 'old:' text is in {file} {text.count(old)} times, and not once: {old}")
    start = 0
    for it in [*after, old]:
        place = text.find(it, start)
        if not it or place < 0:
            raise BadEdit(f"a text is not in {file}, or not after those of 'after:': {it}")
        start = place + len(it)
    return Change(file, start - len(old), start, new)


def hold_to_code(crate: pathlib.Path, it: Change, stated: tuple[str, ...]) -> None:
    """Refuses an edit that changes what is stated, which might be refused whatever the code does."""
    old = (crate / it.file).read_text(encoding="utf-8")[it.start : it.end]
    if any(it.new.count(word) != old.count(word) or word in old and old not in it.new for word in stated):
        raise BadEdit(f"it changes what is stated, and not code alone: {it.new}")


def hold_to_function(function: str, crate: pathlib.Path, it: Change) -> None:
    """Refuses an edit that changes another function than the one that it names."""
    before = (crate / it.file).read_text(encoding="utf-8")[: it.end]
    code = "\n".join(line for line in before.split("\n") if not line.lstrip().startswith("//"))
    found = FUNCTION.findall(code)
    module = it.file.removeprefix("src/").removesuffix(".rt").replace("/", "::")
    prefix = "" if module in ("lib", "main") else f"{module}::"
    if not found or found[-1] != function.split("::")[-1] or not function.startswith(prefix):
        changed = f"{prefix}{found[-1]}" if found else it.file
        raise BadEdit(f"it changes {changed}, and not {function}")


def rounds(edits: list[Edit]) -> list[list[Edit]]:
    """The edits in few rounds: one copy can hold all of a round."""
    found: list[list[Edit]] = []
    for edit in edits:
        room = next((it for it in found if edit.fits(it)), None)
        if room is None:
            found.append([edit])
        else:
            room.append(edit)
    return found


def apply(edits: list[Edit], copy: pathlib.Path) -> None:
    """Makes the changes of one round in a copy of the crate, in each file from its end to its beginning."""
    changes = [change for edit in edits for change in edit.changes]
    for it in sorted(changes, key=lambda it: it.start, reverse=True):
        path = copy / it.file
        text = path.read_text(encoding="utf-8")
        path.write_text(text[: it.start] + it.new + text[it.end :], encoding="utf-8")
