#!/usr/bin/env python3
"""Runs each program on the inputs in its folder runs/, and compares what it prints and its exit status.

A program is built once, without proof (`rt try`). A run is a file with the input; NAME.args has its words, NAME.stdout what it must print,
and NAME.status its exit status, if that isn't 0. rt ci runs a program on one input alone, and proves it again for another one.
Then tlsdump runs with a request for memory refused: it prints nothing and ends with status 3. The program that `rt ci` left in out/
runs so too, with the first request refused, the second, the fourth and so on (data/refused_request.c, by cc); with an output that is full,
which is status 3; and on each input that is rejected or can't be read: standard error has one line, that of lib/rejections.py or of UNREAD.
tlsgen, from out/ too, has runs that print nothing but what TLSGEN has for standard error: {} among
their words names a copy of the input.
"""
from __future__ import annotations

import collections.abc
import pathlib
import re
import shutil
import subprocess
import sys
import tempfile

from lib import cases, generated, rejections, words
from lib.failed import Failed, ended
from lib.libraries import CRATES, TOP, run

# Inputs that aren't stored: the most bytes that tlsdump takes, and one more. They are a length of 0, and then a content.
MOST = 16 << 20
MADE = {"at_limit": MOST, "over_limit": MOST + 1}
SHOWN = {
    "at_limit": f"message: HPKECiphertext\n  kem_output: 0 bytes\n  ciphertext: {MOST - 5} bytes {'aa' * 16}..\n",
    "over_limit": "",
}
MADE_STATUS = {"over_limit": 2}

# What standard error has of each input that can't be read, of those that are stored and of those that are made.
UNREAD = {**rejections.UNREAD, "over_limit": f"the input has more than {MOST} bytes"}

# What standard error has of each run of tlsgen, or how it begins before the system's words or clap's.
NO_NAME = "expected a crate's name, of small letters, digits and _, and no word of Rust\n"
TLSGEN = {
    # the line that docs/MESSAGES.md quotes
    "opaque_alone": (
        'opaque_alone: line 6, column 20: found "opaque", expected bytes in a vector, as `opaque NAME<V>` or `opaque NAME[16]`\n'
    ),
    "in_two_crates": (
        'in_two_crates: line 1, column 10: found "Hello", expected a name that one of the crates given by --with has alone\n'
        "of other crates, this name is in: one, other\n"
    ),
    "no_crate_name": f"--crate 9: {NO_NAME}",
    "no_text": "nowhere.tls: ",
    "to_folder": "",
    "to_no_folder": "hello.tls/src/lib.rt: ",
    "with_no_crate_name": f"--with Tls: {NO_NAME}",
    "with_no_name": "--with tls13.tls: expected NAME=FILE or NAME=FILE,NOTES\n",
    "wrong_flag": "error: unexpected argument '--into' found\n\n",
}
# The run whose files are those of the output of `rt ci`.
WRITES = "to_folder"

# The run of tlsdump whose requests for memory are refused, one that is refused in the checked build, and the status where memory or the
# output fails.
REQUESTS = "key_package"
REFUSED = 1000
NO_ROOM = 3
# The status and what standard error has after a refused request: one of the program's own, one for its arguments, or one of `clap`, which
# reads them.
AFTER_REFUSAL = {
    (NO_ROOM, "tlsdump: memory allocation failed\n"),
    (NO_ROOM, "tlsdump: out of memory\n"),
    (2, "error: out of memory\n"),
}
# Which requests are refused in the built program: the first, the second, the fourth, .., the 4,096th. The least of them that end it. How
# many seconds each run may take.
POWERS = 13
LEAST_REFUSALS = 8
SECONDS = 60


def status_in(path: pathlib.Path) -> int:
    """The exit status that a file has; 0 if it isn't there."""
    text = path.read_text(encoding="utf-8") if path.exists() else ""
    if not re.fullmatch(r"(?:[1-9]\d*\n)?", text):
        raise Failed(f"{path.name}: no exit status that isn't 0, on one line: {text!r}")
    return int(text or 0)


def runs_in(folder: pathlib.Path, *parts: str) -> dict[str, int]:
    """The runs in a folder with their exit statuses. Each has to have these files."""
    names = sorted({path.stem for path in folder.iterdir()})
    lacking = [f"{name}{part}" for name in names for part in parts if not (folder / f"{name}{part}").is_file()]
    if lacking:
        raise Failed(f"runs that lack a file: {', '.join(lacking)}")
    return {name: status_in(folder / f"{name}.status") for name in names}


def make(folder: pathlib.Path) -> None:
    """Writes the runs that aren't stored."""
    for name, count in MADE.items():
        content = count - 5
        (folder / name).write_bytes(b"\0" + (1 << 31 | content).to_bytes(4, "big") + b"\xaa" * content)
        (folder / f"{name}.args").write_text("--binary\n--short\nHPKECiphertext\n")
        (folder / f"{name}.stdout").write_text(SHOWN[name])
        if name in MADE_STATUS:
            (folder / f"{name}.status").write_text(f"{MADE_STATUS[name]}\n")


def copied(program: str, room: str) -> pathlib.Path:
    """A copy of a program's runs, with those that aren't stored."""
    folder = pathlib.Path(room, "runs")
    shutil.copytree(CRATES / program / "runs", folder)
    if program == "tlsdump":
        make(folder)
    return folder


def ends_well_if_refused() -> bool:
    """Whether tlsdump ends as it must, and prints nothing, if a request for memory is refused."""
    with tempfile.TemporaryDirectory() as folder:
        shutil.copy(CRATES / "tlsdump" / "runs" / REQUESTS, folder)
        pathlib.Path(folder, f"{REQUESTS}.stdout").touch()
        tried = cases.run("tlsdump", folder, flags=("--fail-alloc", str(REFUSED)))
    if tried.names(NO_ROOM) == {REQUESTS}:
        return True
    print(tried.printed + tried.said)
    return False


def with_refused(program: pathlib.Path, stored: pathlib.Path, environment: dict[str, str]) -> tuple[int, str, str]:
    """The status, the output and standard error of a built program on a stored run; those of `timeout`, if it doesn't end."""
    with stored.open("rb") as given:
        try:
            ran = subprocess.run([program], env=environment, stdin=given, capture_output=True, text=True, timeout=SECONDS)
        except subprocess.TimeoutExpired:
            return 124, "", f"it had not ended after {SECONDS} seconds"
    return ran.returncode, ran.stdout, ran.stderr


def with_one_refused(program: pathlib.Path, stored: pathlib.Path) -> tuple[bool, str]:
    """Whether a built program prints nothing but why it ended, or all that it must, if its first request for memory is refused, its second,
    its fourth and so on, and how it ended each time. Some it can do without."""
    ends: list[tuple[int, int, str, str]] = []
    with tempfile.TemporaryDirectory() as room:
        library = pathlib.Path(room, "refused_request.so")
        source = TOP / "tools" / "data" / "refused_request.c"
        status, said = run(["cc", "-O2", "-fno-builtin", "-shared", "-fPIC", "-o", str(library), str(source)], TOP)
        if status:
            raise Failed(f"{source.relative_to(TOP)}: cc ended with status {status}:\n{said}")
        for number in (1 << power for power in range(POWERS)):
            ends.append((number, *with_refused(program, stored, {"LD_PRELOAD": str(library), "REFUSED": str(number)})))
    whole = (0, stored.with_suffix(".stdout").read_text(encoding="utf-8"), "")
    refused = [it for _, *it in ends if tuple(it) != whole]
    are_so = all(not printed and (status, said) in AFTER_REFUSAL for status, printed, said in refused)
    return are_so and len(refused) >= LEAST_REFUSALS, "\n".join(map(str, ends))


def as_stored(program: str) -> tuple[int, int]:
    """How many runs of a program print what they must and end with their status, and how many it has."""
    data = CRATES / program / "data"
    with tempfile.TemporaryDirectory() as room:
        folder = copied(program, room)
        runs = runs_in(folder, "", ".stdout")
        # (they aren't inputs, and `rt try` doesn't know them by their names)
        for path in folder.glob("*.status"):
            path.unlink()
        tried = cases.run(program, folder, cases.files_in(data) if data.is_dir() else {})
    same = [name for name, status in runs.items() if name in tried.names(status)]
    if len(same) < len(runs):
        print(tried.printed + tried.said)
    return len(same), len(runs)


def run_built(words: list[str], path: pathlib.Path, output: str) -> tuple[int, str]:
    """The status of tlsdump as rt ci built it, on an input, and what it prints on standard error."""
    with path.open("rb") as given, open(output, "wb") as out:
        ran = subprocess.run([CRATES / "tlsdump" / "out" / "tlsdump", *words], stdin=given, stdout=out, stderr=subprocess.PIPE)
    return ran.returncode, ran.stderr.decode()


def ended_with(status: int, printed: str) -> str:
    """How a program ended."""
    return f"status {status}, standard error {printed!r}"


def is_as(printed: str, wanted: str) -> bool:
    """Whether just this is printed, or more lines that begin so, if it ends with a blank or an empty line."""
    has_more = wanted.endswith((" ", "\n\n")) and printed.startswith(wanted) and printed[len(wanted) :].endswith("\n")
    return has_more or printed == wanted


def runs_of_built_tlsdump() -> collections.abc.Iterator[tuple[str, bool, str]]:
    """Whether a run of tlsdump as rt ci built it ends as it must, and how it ended: an output without room, a request for memory that is
    refused, and each input that is rejected or can't be read."""
    with tempfile.TemporaryDirectory() as room:
        runs = copied("tlsdump", room)
        status, printed = run_built([], runs / "key_package", "/dev/full")
        yield "tlsdump, full", (status, printed.startswith("tlsdump: ")) == (NO_ROOM, True), ended_with(status, printed)
        is_so, ends = with_one_refused(CRATES / "tlsdump" / "out" / "tlsdump", runs / REQUESTS)
        yield "tlsdump, one request refused", is_so, f"each request, its status, output and standard error:\n{ends}"
        yield from rejections_of_built_tlsdump(runs)


def rejections_of_built_tlsdump(runs: pathlib.Path) -> collections.abc.Iterator[tuple[str, bool, str]]:
    """The same of each input in a folder of runs that is rejected or can't be read."""
    statuses = runs_in(runs, "", ".stdout")
    for wanted, lines in ((1, rejections.REJECTIONS), (2, UNREAD)):
        if differ := set(lines) ^ {name for name, status in statuses.items() if status == wanted}:
            raise Failed(f"tlsdump: runs with status {wanted} and no line, or lines and no such run: {', '.join(sorted(differ))}")
        for name, line in lines.items():
            words = runs / f"{name}.args"
            given = words.read_text().split() if words.exists() else []
            status, printed = run_built([word for word in given if word != "--json"], runs / name, "/dev/null")
            line = f"tlsdump: {line}" if line.endswith(" ") else f"tlsdump: {line}\n"
            yield f"tlsdump, {name}", status == wanted and is_as(printed, line), ended_with(status, printed)


def generated_runs() -> collections.abc.Iterator[tuple[str, bool, str]]:
    """Whether each run of tlsgen as rt ci built it writes what it must and prints no more, and how it ended."""
    folder = CRATES / "tlsgen"
    statuses = runs_in(folder / "runs", ".args")
    if differ := set(statuses) ^ set(TLSGEN):
        raise Failed(f"TLSGEN has not just the runs of tlsgen: {', '.join(sorted(differ))}")
    for name, wanted in TLSGEN.items():
        with tempfile.TemporaryDirectory() as room:
            for path in [*folder.glob("data/*"), *folder.glob(f"runs/{name}")]:
                shutil.copy(path, room)
            words = [name if word == "{}" else word for word in (folder / "runs" / f"{name}.args").read_text().splitlines()]
            ran = subprocess.run([folder / "out" / "tlsgen", *words], cwd=room, stdin=subprocess.DEVNULL, capture_output=True, text=True)
            made = pathlib.Path(room, "made")
            files = {path.relative_to(made).as_posix(): path.read_text() for path in made.rglob("*") if path.is_file()}
        is_so = (ran.returncode, ran.stdout) == (statuses[name], "") and is_as(ran.stderr, wanted)
        stored = generated.stored_files() if name == WRITES else {}
        differ = sorted(it for it in {*files, *stored} if files.get(it) != stored.get(it))
        how = f"{ended_with(ran.returncode, ran.stderr)}, output {ran.stdout!r}, files that differ: {differ}"
        yield f"tlsgen, {name}", is_so and not differ, how


def main() -> int:
    words.none()
    for name in ("tlsdump", "tlsgen"):
        if not (CRATES / name / "out" / name).is_file():
            raise Failed(f"crates/{name}/out/{name} is not there: rt ci or rt run builds it")
    passed = int(ends_well_if_refused())
    wanted = 1
    for name, is_so, printed in [*runs_of_built_tlsdump(), *generated_runs()]:
        wanted, passed = wanted + 1, passed + is_so
        if not is_so:
            print(f"{name}: {printed}")
    for folder in sorted(CRATES.glob("*/runs")):
        if folder.parent.name != "tlsgen":
            well, runs = as_stored(folder.parent.name)
            wanted, passed = wanted + runs, passed + well
    print(f"{passed} of {wanted} runs print what they must, with their exit status")
    print(f"{passed} passed, {wanted - passed} failed")
    return int(passed < wanted)


if __name__ == "__main__":
    sys.exit(ended(main))
