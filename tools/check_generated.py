#!/usr/bin/env python3
"""Compares each crate that tlsgen wrote with what the program writes today, except for layout, and its stored output byte for byte.

The program is built once, without proof (`rt try`), and run once a crate. Three more runs compare files that have one fault each, and must
end with status 1 and its line. The last line counts the runs that end as they must. With --write it writes the crates instead, and
removes files that aren't written.
"""
from __future__ import annotations

import pathlib
import re
import shutil
import sys
import tempfile

from lib import cases
from lib.failed import ended
from lib.generated import RUNS, add, stored_files
from lib.libraries import CRATES, DATA, run
from lib.words import is_to_write

STORED = "hello"


def files_of(crate: str) -> list[str]:
    """The files that are compared, by their paths in the crate."""
    folder = CRATES / crate
    found = [it for part in ("src", "specs", "proofs") for it in sorted(folder.glob(f"{part}/**/*"))]
    return [str(it.relative_to(folder)) for it in found if it.is_file()]


def faults() -> dict[str, tuple[dict[str, str], str]]:
    """Those files with one fault each, and what is printed of it."""
    files = stored_files()
    path, other = "src/lib.rt", "src/hello.rt"
    before, view, after = files[path].partition("View")
    changed = files | {path: f"{before}Vieu{after}"}
    line = before.count("\n") + 1
    lacking = {it: text for it, text in files.items() if it != other}
    return {
        "changed": (changed, f"{path}, line {line}: differs from what is written for the input"),
        "lacking": (lacking, f"{other}: can't be read"),
        "stale": (files | {"src/stale.rt": ""}, "src/stale.rt: isn't written for the input"),
    }


def add_faults(folder: str, room: str) -> dict[str, pathlib.Path]:
    """Adds a run for each fault. Returns their files, which are written into a room, by the names under which the runs find them."""
    data = {}
    for name, (files, printed) in faults().items():
        add(folder, name, STORED, ["--compare", f"of_{name}"], STORED)
        pathlib.Path(folder, f"{name}.stdout").write_text(f"of_{name}/{printed}\n")
        for path, text in files.items():
            file = pathlib.Path(room, name, path)
            file.parent.mkdir(parents=True, exist_ok=True)
            file.write_text(text)
            data[f"of_{name}/{path}"] = file
    return data


def printed_files(printed: str) -> dict[str, dict[str, str]]:
    """The files that each run of tlsgen prints, by their paths."""
    runs = [part.partition("\n") for part in re.split(r"^== (?=\w+$)", printed, flags=re.M)[1:]]
    parts = {name: re.split(r"^=== (?=\S+$)", files, flags=re.M)[1:] for name, _, files in runs}
    return {name: {path: content for path, _, content in (it.partition("\n") for it in files)} for name, files in parts.items()}


def write() -> int:
    """Writes each crate anew, and lays it out, if all runs ended as they must. Files that aren't written go. Returns the exit status."""
    with tempfile.TemporaryDirectory() as folder:
        for name, (_, text, more) in RUNS.items():
            add(folder, name, text, more)
        tried = cases.run("tlsgen", folder, cases.files_in(DATA))
    if tried.names(0, as_expected=False) != set(RUNS):
        print(f"nothing was written:\n{tried.said}")
        return 1
    failed = []
    for name, files in printed_files(tried.printed).items():
        for path in set(files_of(name)) - files.keys():
            (CRATES / name / path).unlink()
        for path, content in files.items():
            target = CRATES / name / path
            target.parent.mkdir(parents=True, exist_ok=True)
            target.write_text(content.rstrip("\n") + "\n" if content.strip() else "")
        status, said = run(["rt", "fmt"], CRATES / name)
        if status:
            failed.append(f"crates/{name} is written, but rt fmt ended with status {status}:\n{said}")
    print("".join(failed), end="")
    return int(bool(failed))


def compare() -> int:
    """Compares the crates and the stored output with what tlsgen writes. Returns the exit status."""
    data = cases.files_in(DATA)
    with tempfile.TemporaryDirectory() as folder, tempfile.TemporaryDirectory() as room:
        data |= add_faults(folder, room)
        for name, (crate, text, more) in RUNS.items():
            add(folder, name, text, [*more, "--compare", f"of_{name}"])
            data |= {f"of_{name}/{file}": CRATES / crate / file for file in files_of(crate)}
        # the run of rt ci, whose output is stored
        pathlib.Path(folder, STORED).touch()
        for kind in ("args", "stdout"):
            shutil.copy(CRATES / "tlsgen" / kind, pathlib.Path(folder, f"{STORED}.{kind}"))
        tried = cases.run("tlsgen", folder, data)
    same = (tried.names(0, as_expected=False) & set(RUNS)) | (tried.names(0) & {STORED})
    refused = tried.names(1) & set(faults())
    passed, wanted = len(same) + len(refused), len(RUNS) + 1 + len(faults())
    print(f"{len(same)} of {len(RUNS) + 1} texts are what tlsgen writes today, and {len(refused)} of {len(faults())} faults are reported")
    if passed < wanted:
        print(tried.printed + tried.said)
    print(f"{passed} passed, {wanted - passed} failed")
    return int(passed < wanted)


if __name__ == "__main__":
    sys.exit(ended(write if is_to_write() else compare))
