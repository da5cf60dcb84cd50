#!/usr/bin/env python3
"""try_faults.py: crates that say other than their text, in code, specs and answers at once. Their laws must be refused.

crates/NAME_laws/faults/*.fault changes the text from which the crate NAME was written, as a wrong reader of it would:

    refused: Point values       the type whose law must be refused, and the clauses that refuse it
    old: opaque x<V>; opaque y<V>;
    new: opaque y<V>; opaque x<V>;

`tlsgen` writes the crate from the changed text, and write_laws.py its laws; the lines that are quoted, and their definitions, stay those of
the text. So all below the laws agrees with itself. One copy of a crate has all its faults. Just these laws must be refused, by just these
clauses, each for a goal of its own; all others must be proved. They are checked as a part of the copy, and nothing else of it is proved
anew: they are about its specs.

It runs after `rt ci`, over the libraries in crates/*/out/rlib. The last line is 'N passed, N failed'.
"""
from __future__ import annotations

import dataclasses
import pathlib
import re
import shutil
import subprocess
import sys
import tempfile

from lib import cases, generated, verdicts, words
from lib.failed import Failed, ended
from lib.libraries import CRATES, DATA, TEXT_OF_CRATE, TOP, Libraries

# Pages of the laws that are the text's, and stay.
OF_TEXT = ("Text", "Notes", "Definitions")
# How the names of pages begin that a crate takes over from its laws.
OF_LAWS = "OfLaws"


@dataclasses.dataclass(frozen=True)
class Fault:
    name: str
    refused: dict[str, set[str]]
    changes: list[tuple[str, str]]


def read(path: pathlib.Path) -> Fault:
    refused, changes, old = {}, [], ""
    for line in path.read_text().splitlines():
        word, _, text = line.partition(": ")
        if word == "refused":
            name, *clauses = text.split()
            refused[name] = set(clauses)
        elif word == "old":
            old = text
        elif word.startswith("new"):
            changes.append((old, text))
    if not refused or not changes:
        raise Failed(f"{path.relative_to(TOP)}: it has no line `refused:`, or no lines `old:` and `new:`")
    return Fault(path.stem, refused, changes)


def with_faults(text: str, faults: list[Fault]) -> str:
    for old, new in (change for fault in faults for change in fault.changes):
        if text.count(old) != 1:
            raise Failed(f"not once in the text: {old}")
        text = text.replace(old, new)
    return text


def written_from(data: pathlib.Path, crate: str, to: pathlib.Path) -> None:
    """What `tlsgen` writes for the texts of this folder, built without proof."""
    _, text, more = generated.RUNS[crate]
    with tempfile.TemporaryDirectory() as folder:
        generated.add(folder, "crate", text, more, crate)
        tried = cases.run("tlsgen", folder, cases.files_in(data))
    if tried.names(0, as_expected=False) != {"crate"}:
        raise Failed(f"tlsgen writes no crate {crate}:\n{tried.printed[-2000:]}{tried.said[-2000:]}")
    for path, code in re.findall(r"^=== (\S+)\n(.*?)(?=^=== |\Z)", tried.printed, re.M | re.S):
        file = to / path
        file.parent.mkdir(parents=True, exist_ok=True)
        file.write_text(code)


def move_laws_into(crate: str, room: pathlib.Path) -> list[str]:
    """Makes the laws modules of the crate itself; returns these modules' names."""
    below, above = room / "crates" / crate, room / "crates" / f"{crate}_laws"

    def moved(code: str) -> str:
        code = re.sub(rf"Rattle\.{crate}_laws\.(specs|proofs)\.([A-Z])", rf"Rattle.{crate}.\1.{OF_LAWS}\2", code)
        return code.replace(f"Rattle.{crate}_laws.", f"Rattle.{crate}.").replace(f"use {crate}::", "use crate::")

    modules = []
    for page in sorted(above.glob("src/laws*.rt")):
        modules.append(page.stem)
        (below / "src" / page.name).write_text(moved(page.read_text()))
    for page in sorted(above.glob("proofs/laws*/**/*.antt")):
        file = below / page.relative_to(above)
        file.parent.mkdir(parents=True)
        file.write_text(moved(page.read_text()))
    for part in ("specs", "proofs"):
        pages = [it for it in sorted((above / part).glob("*.antt")) if it.stem != "Lib"]
        for page in pages:
            (below / part / f"{OF_LAWS}{page.name}").write_text(moved(page.read_text()))
        with (below / part / "Lib.antt").open("a") as names:
            names.writelines(f"pub mod {OF_LAWS}{it.stem}\n" for it in pages)
    root = below / "src" / "lib.rt"
    root.write_text(root.read_text() + "".join(f"pub mod {it};\n" for it in modules))
    return modules


def checked(libraries: Libraries, crate: str, room: pathlib.Path, modules: list[str]) -> str:
    libraries.uses[crate] = list(dict.fromkeys([*libraries.uses[crate], *(it for it in libraries.uses[f"{crate}_laws"] if it != crate)]))
    only = [word for it in modules for word in ("--only", it)]
    return libraries.rattle("check", crate, only, room / "crates" / crate)[1]


def laws_tried(output: str, crate: str, room: pathlib.Path) -> dict[str, set[str]]:
    """Of each type whose law was tried the clauses for which an answer is no proof: none if it is proved, '?' for another reason."""
    found: dict[str, set[str]] = {}
    errors = [it.groups() for it in re.finditer(r"^\./proofs/(\S+):\d+:\d+: error: `([^`]+)`: (.*)", output, re.M)]
    open_goals = [(file, name) for file, name, text in errors if verdicts.NO_PROOF.match(text)]
    for page in sorted((room / "crates" / crate / "specs").glob("*.antt")):
        word = not page.stem.startswith(OF_LAWS) and re.search(r"^abbrev pub (\w+)_plain ", page.read_text(), re.M)
        law = word and re.search(rf"^fn {crate}::(\w+::{word[1]}_is_as_printed): (.*)", output, re.M)
        if not law:
            continue
        answers = f"{law[1].replace('::', '/')}/Answers.antt"
        clauses = {name.removeprefix("returns-clause-") for file, name in open_goals if file == answers}
        lemmas = {f"{word[1]}_saying": "values", f"{word[1]}_naming": "names"}
        clauses |= {lemmas[name] for _, name in open_goals if name in lemmas}
        found[page.stem] = clauses or (set() if law[2] == "proved" else {"?"})
    return found


def laws_in(crate: str, room: pathlib.Path, modules: list[str]) -> int:
    """How many laws these modules of the copy have."""
    pages = [room / "crates" / crate / "src" / f"{it}.rt" for it in modules]
    return sum(len(re.findall(r"^pub fn \w+_is_as_printed\(", it.read_text(), re.M)) for it in pages)


def prepared(crate: str, faults: list[Fault], room: pathlib.Path) -> list[str]:
    text = TEXT_OF_CRATE[crate]
    data = room / "crates" / "tlsgen" / "data"
    shutil.copytree(DATA, data)
    (data / f"{text}.tls").write_text(with_faults((data / f"{text}.tls").read_text(), faults))
    written_from(data, crate, room / "crates" / crate)
    shutil.copytree(TOP / "tools", room / "tools", ignore=shutil.ignore_patterns("__pycache__"))
    shutil.copy(TOP / "crates.txt", room)
    subprocess.run([sys.executable, room / "tools" / "write_laws.py", crate], check=True, stdout=subprocess.DEVNULL)
    for page in (CRATES / f"{crate}_laws" / "specs").glob("*.antt"):
        if any(it in page.stem for it in OF_TEXT):
            shutil.copy(page, room / "crates" / f"{crate}_laws" / "specs" / page.name)
    return move_laws_into(crate, room)


def main() -> int:
    words.none()
    libraries = Libraries()
    passed = failed = 0
    for folder in sorted(CRATES.glob("*_laws/faults")):
        crate = folder.parent.name.removesuffix("_laws")
        faults = [read(it) for it in sorted(folder.glob("*.fault"))]
        with tempfile.TemporaryDirectory(prefix="faults-") as it:
            room = pathlib.Path(it)
            modules = prepared(crate, faults, room)
            output = checked(libraries, crate, room, modules)
            tried, written_laws = laws_tried(output, crate, room), laws_in(crate, room, modules)
        refused = {name: clauses for name, clauses in tried.items() if clauses}
        proved = len(tried) - len(refused)
        for fault in faults:
            is_so = all([refused.pop(name, set()) == clauses for name, clauses in fault.refused.items()])
            clauses_of_laws = ", ".join(f"{name} by {' and '.join(sorted(clauses))}" for name, clauses in fault.refused.items())
            print(f"{crate}: {fault.name}: {'refused' if is_so else 'NOT REFUSED AS IT SAYS'}: {clauses_of_laws}")
            passed, failed = passed + is_so, failed + (not is_so)
        is_rest_proved = not refused and proved > 0 and len(tried) == written_laws
        not_so = f"{len(tried)} of {written_laws} laws were tried, refused too: {refused or output[-2000:]}"
        print(f"{crate}: {f'{proved} other laws are proved' if is_rest_proved else not_so}")
        passed, failed = passed + is_rest_proved, failed + (not is_rest_proved)
    print(f"{passed} passed, {failed} failed")
    return 1 if failed or not passed else 0


if __name__ == "__main__":
    sys.exit(ended(main))
