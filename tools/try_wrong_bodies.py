#!/usr/bin/env python3
"""try_wrong_bodies.py [-j N] [--incremental] [--output FOLDER] [NAME | NAME/EDIT ..]: tries the wrong bodies crates/NAME/wrong/EDIT.edit of
these crates, or of all: the prover must refuse each.

A function is proved over what its callees state, whatever their bodies are. So one check of a copy of a crate tries wrong bodies of
all its functions at once, one a function, and each must be refused for a goal of the function's own (lib/verdicts.py). An edit is a
file as in must-fail/, with the function that it turns (lib/edits.py). One that only waits for a callee is tried once more alone.

It runs after `rt ci`, over the libraries that this left in crates/*/out/rlib. That each crate is proved as it is, `rt ci`
says. -j: that many checks at a time; else as many as there are processors and half of the memory for. --incremental: begins with what `rt
check` kept, for who writes an edit and has little time. --output: writes there what rattle printed in each check. The last line is
'N passed, N failed', and the status is 1 if one failed.

Before that it reads the outputs of rattle in data/outputs/, and stops if it misreads one; --selftest does no more.
"""
from __future__ import annotations

import argparse
import concurrent.futures
import os
import pathlib
import shutil
import subprocess
import sys
import tempfile

from lib import edits, verdicts
from lib.edits import Edit
from lib.failed import Failed, ended
from lib.libraries import CRATES, TOP, Libraries
from lib.verdicts import Kind, Verdict

OUTPUTS = TOP / "tools" / "data" / "outputs"
# What a check of one crate holds in memory at most, in bytes (measured: 1.4 to 2.2 GB).
MEMORY = 2_500_000_000


def link_or_copy(one: str, other: str) -> None:
    """Gives a file of kept work a second name: a check replaces what was proved, and never writes into it."""
    (os.link if one.endswith(".oantt") else shutil.copy2)(one, other)


def check(libraries: Libraries, given: argparse.Namespace, crate: str, together: list[Edit]) -> tuple[int, str]:
    """Checks the edited functions of a copy of the crate, and what they call: the status, and what rattle says."""
    words = [word for it in together for word in ("--only", it.function)]
    with tempfile.TemporaryDirectory(prefix="wrong-bodies-") as room:
        for part in ("src", "specs", "proofs"):
            if (CRATES / crate / part).is_dir():
                shutil.copytree(CRATES / crate / part, f"{room}/{part}")
        edits.apply(together, pathlib.Path(room))
        work = CRATES / crate / "out" / "incremental"
        if given.incremental and work.is_dir():
            shutil.copytree(work, f"{room}/kept", copy_function=link_or_copy)
            words += ["--incremental", "kept"]
        return libraries.rattle("check", crate, words, pathlib.Path(room))


def tried(libraries: Libraries, given: argparse.Namespace, crate: str, together: list[Edit]) -> list[tuple[Edit, Verdict]]:
    """What a check says of each edit of a round; those that it says nothing of, beside others, are tried alone."""
    status, output = check(libraries, given, crate, together)
    if given.output:
        (given.output / f"{crate}-{together[0].name}.txt").write_text(output)
    found = [(it, verdicts.of(status, output, crate, it.function)) for it in together]
    if len(together) == 1:
        return found
    unsaid = (Kind.WAITS, Kind.NO_LINE)
    again = [tried(libraries, given, crate, [edit]) if verdict.kind in unsaid else [(edit, verdict)] for edit, verdict in found]
    return [one for those in again for one in those]


def planned(libraries: Libraries, crate: str, names: list[str]) -> tuple[list[list[Edit]], list[str]]:
    """The rounds in which a crate's edits of these names are tried, or all, and a line for each that can't be."""
    found, failed = [], []
    folder = CRATES / crate / "wrong"
    paths = [folder / f"{it}.edit" for it in names] or sorted(folder.glob("*"))
    lacking = libraries.lacking(crate) if paths else []
    for path in paths:
        try:
            if path.suffix != ".edit":
                raise edits.BadEdit("a file of wrong/ is named NAME.edit")
            found.append(edits.read(path, CRATES / crate))
            if lacking:
                raise edits.BadEdit(f"crates/{lacking[0]}/out/rlib is not there: run rt ci first")
        except (edits.BadEdit, OSError, UnicodeDecodeError) as error:
            failed.append(f"{crate}/{path.name}: BAD EDIT: {error}")
    return edits.rounds([] if lacking else found), failed


def refresh(libraries: Libraries, crates: list[str]) -> None:
    """Where a session's own commands built a library, all are built by `rt lib`."""
    below = list(dict.fromkeys(it for crate in crates for it in libraries.below(crate)))
    if not any(map(libraries.is_stamped, below)):
        return
    for it in below:
        ran = subprocess.run(["rt", "lib", "--jobs", "1"], cwd=CRATES / it, stdout=subprocess.DEVNULL)
        if ran.returncode:
            print(f"{it}: rt lib can't bring it up to date")
            shutil.rmtree(libraries.rlib(it).parent, ignore_errors=True)


def lanes() -> int:
    """How many checks the processors and half of the free memory allow at a time: .ci/run has other scripts beside it."""
    text = pathlib.Path("/proc/meminfo").read_text()
    free = next(int(line.split()[1]) * 1024 for line in text.splitlines() if line.startswith("MemAvailable"))
    return max(1, min(len(os.sched_getaffinity(0)), free // 2 // MEMORY))


def main() -> int:
    parser = argparse.ArgumentParser(usage=__doc__)
    parser.add_argument("-j", type=int, default=0)
    parser.add_argument("--incremental", action="store_true")
    parser.add_argument("--output", type=pathlib.Path)
    parser.add_argument("--selftest", action="store_true")
    parser.add_argument("names", nargs="*")
    given = parser.parse_args()
    misread = verdicts.selftest(OUTPUTS)
    if misread or given.selftest:
        failed = int(bool(misread))
        print(f"{1 - failed} passed, {failed} failed")
        return failed
    # (programs that run beside it have a limit of time: they go first)
    os.nice(10)
    libraries = Libraries()
    wanted: dict[str, list[str]] = {}
    for name in given.names or sorted(it.parent.name for it in CRATES.glob("*/wrong")):
        crate, _, edit = name.partition("/")
        if crate not in libraries.uses:
            raise Failed(f"crates.txt has no crate {crate}")
        wanted[crate] = [*wanted.get(crate, []), edit] if edit else []
    refresh(libraries, [it for it in wanted if (CRATES / it / "wrong").is_dir()])
    passed, failed, waiting = 1, 0, []
    for crate, names in wanted.items():
        rounds, bad = planned(libraries, crate, names)
        print("\n".join(bad), end="\n" if bad else "", flush=True)
        failed += len(bad)
        waiting += [(crate, it) for it in rounds]
    with concurrent.futures.ThreadPoolExecutor(given.j or lanes()) as pool:
        # (the longest first)
        running = {pool.submit(tried, libraries, given, *it): it[0] for it in sorted(waiting, key=lambda it: -len(it[1]))}
        for it in concurrent.futures.as_completed(running):
            for edit, verdict in it.result():
                print(f"{running[it]}/{edit.name}: {verdict}", flush=True)
                passed, failed = passed + (verdict.kind is Kind.REFUSED), failed + (verdict.kind is not Kind.REFUSED)
    print(f"{passed} passed, {failed} failed")
    return 1 if failed else 0


if __name__ == "__main__":
    sys.exit(ended(main))
