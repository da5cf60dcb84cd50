#!/usr/bin/env python3
"""check_exports.py [--write]: compares what callers in C, Rust and Python declare with what the static libraries export, or writes it.

Each static library of crates.txt is read, each function that it exports, of `tls_codec_outcome` the struct and the numbers of the errors,
and of the texts in crates/tlsgen/data a few enums. By these are written: c/include/tls_codec/*.h, c/tests/exports.inc, rust/src/exports.rs,
rust/tests/common/exports.rs and python/tls_codec_exports.py; the version of CHANGELOG.md and the names of the archives, in lines of files
that are written by hand otherwise (LINES, VERSIONS); and files that say which headers these are of (MARKS). By the version and a sum of
the headers callers in C (TLS_CODEC_HEADERS), C and Rust (MARKS) and in Python find out whether archives are of other headers.

Then docs/CALLERS.md is compared: its archives, messages, enums and statuses; and a row accepts each export. Before that faults are planted,
which have to be found. The last line is 'N passed, N failed', a file each, and as one each the page, the rows and the planted faults; the
status is 1 if one failed.
"""
from __future__ import annotations

import json
import pathlib
import re
import sys
from collections.abc import Callable, Iterator

from lib import exported
from lib.caller_inputs import PAGE, PLACES, SIGNED, answered, listed_archives, listed_enums, listed_messages, statuses_of
from lib.exports_c import INCLUDE, MARK, header, mark, minor, outcome_header, table, umbrella, version
from lib.exports_python import exports_python
from lib.exports_rust import exports_rust, linked, tests_rust
from lib.failed import Failed, ended
from lib.libraries import TOP
from lib.registries import ENUMS
from lib.words import is_to_write

# The folders that have a file MARK.
MARKS = ["c", "rust"]


def names(crates: list[str]) -> str:
    """What archives are called for targets of CMake."""
    return " ".join(map(exported.module_of, crates))


def flags(crates: list[str], *more: str) -> str:
    """The words of a linker for archives."""
    return " ".join(["-L${libdir}", *[f"-l{it}" for it in (*map(linked, crates), *more)]])


def strings(crates: list[str]) -> str:
    """Their files, as a constant of Rust has them."""
    return f"&{json.dumps([exported.archive_of(it) for it in crates])};"


# Lines in files that are written by hand otherwise: the file, how the line begins, and what comes then.
LINES: list[tuple[str, str, Callable[[], str]]] = [
    ("rust/Cargo.toml", 'version = "', lambda: f'{version()}"'),
    ("rust/build.rs", "const VALIDATORS: &[&str] = ", lambda: strings(exported.validators())),
    ("rust/build.rs", "const DECODERS: &[&str] = ", lambda: strings(exported.decoders())),
    ("c/CMakeLists.txt", "project(tls_codec VERSION ", lambda: f"{version()} LANGUAGES C)"),
    ("c/CMakeLists.txt", "set(names ", lambda: f"{names(exported.validators() + exported.decoders())})"),
    ("c/README.md", "find_package(tls_codec ", lambda: f"{minor()} REQUIRED)"),
    ("c/tls_codec.pc.in", "Version: ", version),
    ("c/tls_codec.pc.in", "Libs: ", lambda: flags(exported.validators())),
    ("c/tls_codec_decode.pc.in", "Version: ", version),
    ("c/tls_codec_decode.pc.in", "Libs: ", lambda: flags(exported.decoders(), "tls_codec_heap")),
]

# Other files that have the version, and what is before it there.
VERSIONS = {"README.md": "Version ", "crates/tlsdump/src/command_line.rt": '.version("', "crates/tlsdump/runs/version.stdout": "tlsdump "}


def with_version(file: str, text: str) -> str:
    """The text of a file of VERSIONS with the version."""
    text, count = re.subn(rf"({re.escape(VERSIONS[file])})\d+(?:\.\d+)+", lambda found: found[1] + version(), text)
    if count != 1:
        raise Failed(f"{count} versions come after {VERSIONS[file]!r}")
    return text


def with_lines(file: str, text: str) -> str:
    """The text of a file with the lines that LINES has of it."""
    for begin, rest in ((begin, rest) for it, begin, rest in LINES if it == file):
        line = begin + rest()
        text, count = re.subn(rf"^{re.escape(begin)}.*$", lambda _, line=line: line, text, flags=re.M)
        if count != 1:
            raise Failed(f"{count} lines begin with {begin!r}")
    return text


def read(file: str) -> str:
    return (TOP / file).read_text(encoding="utf-8")


def files() -> dict[pathlib.Path, Callable[[], str]]:
    """The files that are compared, and what makes the text of each."""
    found: dict[pathlib.Path, Callable[[], str]] = {INCLUDE / "outcome.h": lambda: outcome_header(mark()), INCLUDE / "all.h": umbrella}
    found |= {INCLUDE / f"{exported.module_of(it)}.h": lambda it=it: header(it) for it in exported.libraries()}
    found[TOP / "c" / "tests" / "exports.inc"] = table
    found[TOP / "rust" / "src" / "exports.rs"] = exports_rust
    found[TOP / "rust" / "tests" / "common" / "exports.rs"] = tests_rust
    found[TOP / "python" / "tls_codec_exports.py"] = exports_python
    found |= {TOP / it / MARK: lambda: f"{mark()}\n" for it in MARKS}
    found |= {TOP / it: lambda it=it: with_version(it, read(it)) for it in VERSIONS}
    return found | {TOP / it: lambda it=it: with_lines(it, read(it)) for it, _, _ in LINES}


def compare(found: str, wanted: str) -> None:
    if found != wanted:
        raise Failed("tools/check_exports.py --write writes another text")


def compare_file(path: pathlib.Path, make: Callable[[], str], write: bool) -> None:
    """Writes a file first, if the script is to."""
    text = make()
    if write:
        path.parent.mkdir(parents=True, exist_ok=True)
        path.write_text(text, encoding="utf-8")
    compare(path.read_text(encoding="utf-8") if path.is_file() else "", text)


def compare_page() -> None:
    if statuses_of(PAGE) != statuses_of(INCLUDE / "outcome.h"):
        raise Failed("it has other numbers of the statuses than outcome.h")
    if listed_archives() != {exported.archive_of(it): f"tls_codec/{exported.module_of(it)}.h" for it in exported.libraries()}:
        raise Failed(f"it lists other archives or headers than there are: {listed_archives()}")
    differ = listed_messages() ^ {it.subject for crate in exported.decoders() for it in exported.exports_of(crate)}
    if differ:
        raise Failed(f"it lists other messages than the archives have: {sorted(differ)}")
    if listed_enums() != {library: set(enums) for library, enums in ENUMS.items()}:
        raise Failed(f"it lists other enums than the headers have: {listed_enums()}")


def compare_rows() -> None:
    """The calls that a row accepts are just the exports."""
    differ = {it.name for crate in exported.libraries() for it in exported.exports_of(crate)} ^ answered(PLACES, SIGNED)
    if differ:
        raise Failed(f"exports that no row accepts, or rows of no export: {sorted(differ)}")


def planted() -> Iterator[tuple[str, Callable[[], object]]]:
    """Faults, each with what has to find it."""
    for file, begin, rest in LINES:
        line, text = begin + rest(), with_lines(file, read(file))
        # without its last word
        other = text.replace(line, re.sub(r"\w+(\W*)$", r"\1", line))
        yield f"another line {line!r} in {file}", lambda file=file, other=other: compare(other, with_lines(file, other))
        yield f"no line {line!r} in {file}", lambda file=file, text=text, line=line: with_lines(file, text.replace(line, ""))
    for file, before in VERSIONS.items():
        text = with_version(file, read(file))
        other = text.replace(before + version(), f"{before}0.0.1")
        yield f"another version in {file}", lambda file=file, other=other: compare(other, with_version(file, other))
        yield f"no version in {file}", lambda file=file, text=text, before=before: with_version(file, text.replace(before, ""))
    yield "an export with another ending", lambda: exported.Export("mls_message_measure", "", [], "Outcome").call
    yield "a parameter of another type", lambda: exported.in_c("bytes", "&str")
    yield "an unknown struct", lambda: exported.type_in_c("NoFields")
    call = exported.Export("mls_message_locate_prefix", "`MLSMessage`.", [("bytes", "&[u8]")], "Outcome")
    yield "a call that fills nothing", lambda: exported.taken_by(call)
    yield "a call whose text doesn't say what it finds", call.in_c


def find_planted() -> None:
    missed = []
    for name, find in planted():
        try:
            find()
            missed.append(name)
        except Failed:
            pass
    if missed:
        raise Failed(f"not found: {', '.join(missed)}")


def main() -> int:
    compared, write = files(), is_to_write()
    checks = {it.relative_to(TOP).as_posix(): lambda it=it: compare_file(it, compared[it], write) for it in compared}
    checks |= {PAGE.relative_to(TOP).as_posix(): compare_page, "rows": compare_rows, "planted faults": find_planted}
    failed = 0
    for name, check in checks.items():
        try:
            check()
            print(f"{name}: ok")
        except (Failed, OSError) as error:
            failed += 1
            print(f"{name}: FAILED: {error}")
    print(f"{len(checks) - failed} passed, {failed} failed")
    return 1 if failed else 0


if __name__ == "__main__":
    sys.exit(ended(main))
