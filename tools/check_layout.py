#!/usr/bin/env python3
"""Checks the layout of what isn't Rattle: all files in tools/, .ci/, c/, python/ and rust/. And crates/ has no foreign files, the crates
that are listed, and no long files.

A line has at most 140 columns, no tab, and no blank at its end. A file ends with one line feed. Python has at most two empty lines in a
row, and the backslashes of a macro of C are in one column. Rows (*.tsv) may have tabs and long lines, and a file whose first line says that
a script of tools/ wrote it, long lines. tools/data/outputs/ has lines of rattle, and isn't read.

A file of code or of proofs that is written by hand has fewer than 400 lines, in crates/ too: scripts of tools/ write those whose first line
says so, and the crates that have laws, with their laws.

A file below crates/ has a suffix that its folder has (SUFFIXES), or is an input or output of its crate (OF_PROGRAMS).

The folders below crates/ are the crates of crates.txt, and the first block of docs/MAP.md names each and no others: names before two
blanks, with commas between them, where a * is any part of a name.

The first lines of tools/lib/__init__.py name each module and folder there, outside of parentheses, where a * is any part of a name; and no
other name that has an underscore and no suffix.

Before that it tries each of these on a text, a path or a list with one fault. Prints a line for each fault; last 'N passed, N failed': a
file each, and one each for the paths below crates/, for the crates, for the modules, for the lengths and for what was tried.
"""
from __future__ import annotations

import fnmatch
import pathlib
import re
import sys
from collections.abc import Iterator

from lib import words
from lib.failed import ended
from lib.libraries import TEXT_OF_CRATE, TOP, Libraries, files_of_clone

FOLDERS = ("tools", ".ci", "c", "python", "rust")
OUTPUTS = pathlib.Path("tools/data/outputs")
COLUMNS = 140
LINES = 400
WRITTEN = re.compile(r"Written by tools/\w+\.py\b|, as tools/\w+\.py copies them\.$")
C = (".c", ".cc", ".h", ".inc")
CODE = (".rt", ".antt", ".py", ".rs", ".sh", *C)
# The suffixes of files in a crate's folders, where an input of a program has none, and what is right in a crate.
SUFFIXES = {
    "src": (".rt",),
    "specs": (".antt",),
    "proofs": (".antt",),
    "wrong": (".edit",),
    "must-fail": (".edit",),
    "faults": (".fault",),
    "data": (".tls", ".notes", ""),
    "runs": (".args", ".stdout", ".status", ""),
}
OF_PROGRAMS = ("args", "stdin", "stdout", "status")


def faults_of_line(line: str, is_rows: bool, is_written: bool) -> Iterator[str]:
    """What is wrong with a line."""
    if len(line) > COLUMNS and not is_rows and not is_written:
        yield f"{len(line)} columns"
    if "\t" in line and not is_rows:
        yield "a tab"
    if line != line.rstrip():
        yield "a blank at the end"


def macros(lines: list[str]) -> Iterator[int]:
    """The lines whose backslash is in another column than that of the line before."""
    for number, (one, other) in enumerate(zip(lines, lines[1:]), 2):
        if one.endswith("\\") and other.endswith("\\") and len(one) != len(other):
            yield number


def faults(path: pathlib.PurePath, text: str) -> Iterator[tuple[int, str]]:
    """What is wrong with a file, by the numbers of its lines."""
    lines = text.split("\n")
    is_rows, is_written = path.suffix == ".tsv", bool(WRITTEN.search(lines[0]))
    for number, line in enumerate(lines, 1):
        yield from ((number, fault) for fault in faults_of_line(line, is_rows, is_written))
    if lines[-1] or not any(lines[-2:]):
        yield len(lines), "it doesn't end with one line feed"
    if path.suffix == ".py":
        yield from ((at, "a third empty line") for at in range(3, len(lines)) if not any(lines[at - 3 : at]))
    if path.suffix in C:
        yield from ((number, "a backslash in another column") for number in macros(lines))


def is_by_hand(path: pathlib.PurePath) -> bool:
    """Whether a file is code or proofs, or a script without a suffix, and in no crate that scripts write."""
    _, *inside = path.parts
    if path.parts[0] == "crates":
        return path.suffix in CODE and inside[0].removesuffix("_laws") not in TEXT_OF_CRATE
    return path.parts[0] in FOLDERS and path.suffix in ("", *CODE)


def is_too_long(text: str) -> bool:
    """Whether a file that is_by_hand has too many lines, and no script wrote it."""
    return text.count("\n") >= LINES and not WRITTEN.search(text.partition("\n")[0])


def is_foreign(path: pathlib.PurePath) -> bool:
    """Whether a file below crates/ is none that a crate has."""
    _, *inside = path.parts
    if len(inside) < 3:
        return len(inside) < 2 or path.name not in OF_PROGRAMS
    return path.name.startswith(".") or path.suffix not in SUFFIXES.get(inside[1], ())


def named_in(page: str) -> list[str]:
    """The names of crates that the first block of docs/MAP.md has."""
    block = re.search(r"^```text\n(.*?)^```", page, re.M | re.S)
    heads = re.findall(r"^([a-z].*?)(?:  .*)?$", block[1] if block else "", re.M)
    return [name for head in heads for name in head.split(", ")]


def faults_of_crates(folders: set[str], listed: set[str], page: str) -> list[str]:
    """How the folders below crates/, the crates of crates.txt and this text of docs/MAP.md differ."""
    names = named_in(page)
    unnamed = {it for it in listed if not any(fnmatch.fnmatchcase(it, name) for name in names)}
    found = [f"crates/{it}: crates.txt has no such crate" for it in sorted(folders - listed)]
    found += [f"crates.txt: {it}: there is no folder crates/{it}" for it in sorted(listed - folders)]
    found += [f"docs/MAP.md: its first block doesn't name {it}" for it in sorted(unnamed)]
    return found + [f"docs/MAP.md: no crate: {name}" for name in names if not fnmatch.filter(listed, name)]


def faults_of_modules(modules: set[str], text: str) -> list[str]:
    """How these names of tools/lib, those of scripts of bash with a suffix, and this text of its __init__.py differ."""
    words = set(re.findall(r"(?<![\w/])[\w*]+(?:\.\w+)?", re.sub(r"\([^()]*\)", "", text)))
    unnamed = {it for it in modules if not any(fnmatch.fnmatchcase(it, word) for word in words)}
    found = [f"tools/lib/__init__.py doesn't name {it}" for it in sorted(unnamed)]
    names = sorted(word for word in words if "_" in word and "." not in word)
    return found + [f"tools/lib/__init__.py: no module: {name}" for name in names if not fnmatch.filter(modules, name)]


def missed_modules() -> list[str]:
    """The planted faults of lists of modules that aren't found, and what is found in lists that have none."""
    modules = {"one", "two_one", "two_two", "three.sh", "four"}
    text = "One has one (of five, and six_one) and three.sh; two_* is of a_script.py; four/."
    planted = {
        "a module that isn't named": (modules | {"five"}, text),
        "a script of bash that isn't named": (modules | {"four.sh"}, text),
        "a module of no group": (modules | {"three_one"}, text),
        "a name of no module": (modules, f"{text} two_three"),
    }
    missed = [f"selftest: not found: {fault}" for fault, lists in planted.items() if not faults_of_modules(*lists)]
    return missed + [f"selftest: found: {it}" for it in faults_of_modules(modules, text)]


def missed_crates() -> list[str]:
    """The planted faults of lists of crates that aren't found, and what is found in lists that have none."""
    crates = {"one", "two", "test_one"}
    page = "# Map\n\n```text\nTHE CRATES     of all\none, two\n               are two\ntest_*  tests\n```\n\n```text\nthree  other\n```\n"
    planted = {
        "a folder without a crate": (crates | {"three"}, crates, page),
        "a crate without a folder": (crates - {"two"}, crates, page),
        "a crate that MAP lacks": (crates, crates, page.replace(", two", "")),
        "a crate of no group": (crates, crates, page.replace("test_*", "*_test")),
        "a crate that MAP alone has": (crates, crates, page.replace("two", "two, three")),
        "no block": (crates, crates, "# Map\n"),
    }
    missed = [f"selftest: not found: {fault}" for fault, lists in planted.items() if not faults_of_crates(*lists)]
    return missed + [f"selftest: found: {it}" for it in faults_of_crates(crates, crates, page)]


def missed_paths() -> list[str]:
    """The planted paths that aren't found to be foreign, and the others that are."""
    of_source = ("one/src/lib.antt", "one/src/notes", "one/specs/Lib.rt")
    planted = ("args", "one/out_one.stages", *of_source, "one/other/lib.rt", "one/runs/short.stages", "one/runs/.short")
    sound = ("one/src/two/lib.rt", "one/specs/Lib.antt", "one/stdin", "one/runs/short", "one/runs/short.args", "one/data/one.tls")
    missed = [f"selftest: not found: crates/{it}" for it in planted if not is_foreign(pathlib.PurePath("crates", it))]
    return missed + [f"selftest: found: crates/{it}" for it in sound if is_foreign(pathlib.PurePath("crates", it))]


def missed_lengths() -> list[str]:
    """The planted long files that aren't found, and the others that are."""
    line, written = "i = 1\n", "//! Written by tools/check_exports.py from crates/mls_c/src. Don't edit.\n"
    copied = "//! `ct.tls` and `ct.notes`, as tools/check_texts.py copies them.\n"
    planted = [line * LINES, f"//! As tools/check_texts.py.\n{line * LINES}", line + written + line * LINES]
    sound = [line * (LINES - 1), written + line * LINES, copied + line * LINES]
    missed = [f"selftest: not found: a long file: {text[:30]!r}" for text in planted if not is_too_long(text)]
    missed += [f"selftest: found: no long file: {text[:30]!r}" for text in sound if is_too_long(text)]
    by_hand = ("crates/tls_codec_wire/src/vlen.rt", "crates/mls_c/specs/Lib.antt", "tools/quick", "tools/lib/counts.sh", "rust/build.rs")
    others = ("crates/tls13/src/alert.rt", "crates/tls13_laws/proofs/Sayings.antt", "crates/tlsdump/runs/list.stdout", "c/tests/tls13.tsv")
    missed += [f"selftest: not found: {it}" for it in by_hand if not is_by_hand(pathlib.PurePath(it))]
    return missed + [f"selftest: found: {it}" for it in others if is_by_hand(pathlib.PurePath(it))]


def selftest() -> list[str]:
    """The planted faults that aren't found, and what is found in texts that have none."""
    long = "x" * (COLUMNS + 1)
    planted = {
        "a long line": ("it.py", f"{long}\n"),
        "a long line in a script without a suffix": ("run", f"a\n{long}\n"),
        "a tab": ("it.c", "\tint i;\n"),
        "a blank at the end": ("it.rs", "let i = 1; \n"),
        "no line feed": ("it.py", "i = 1"),
        "two line feeds": ("it.h", "int i;\n\n"),
        "nothing but a line feed": ("it.py", "\n"),
        "a third empty line": ("it.py", "i = 1\n\n\n\nj = 2\n"),
        "a backslash": ("it.inc", "#define I \\\n  1   \\\n  + 2\n"),
        "a blank in rows": ("it.tsv", "a\tb \n"),
        "a blank in what is written": ("it.h", "/* Written by tools/check_exports.py. */\nint i; \n"),
    }
    sound = {
        "it.py": f"{long[1:]}\n\n\ni = 1\n",
        "it.tsv": f"a\t{long}\n",
        "it.h": f"/* Written by tools/check_exports.py. */\n{long}\n",
        "it.c": "#define I \\\n  1       \\\n  + 2\n\n\n\nint i;\n",
    }
    missed = [f"selftest: not found: {fault}" for fault, (name, text) in planted.items() if not list(faults(pathlib.PurePath(name), text))]
    return missed + [f"selftest: found: {name}: {it}" for name, text in sound.items() for it in faults(pathlib.PurePath(name), text)]


def checks() -> dict[str, list[str]]:
    """The faults of each file, of each list and of the tried faults, as lines."""
    all_files = files_of_clone()
    inside = [path.relative_to("tools/lib").parts[0] for path in all_files if path.is_relative_to("tools/lib")]
    modules = {name.removesuffix(".py") for name in inside} - {"__init__"}
    of_crates = [path for path in all_files if path.parts[0] == "crates"]
    folders = {path.parts[1] for path in of_crates if len(path.parts) > 2}
    files = [path for path in all_files if path.parts[0] in FOLDERS and OUTPUTS not in path.parents]
    texts = {path: (TOP / path).read_text(encoding="utf-8", errors="replace") for path in {*files, *filter(is_by_hand, all_files)}}
    return {
        "selftest": [*selftest(), *missed_lengths(), *missed_paths(), *missed_crates(), *missed_modules()],
        "lengths": [f"{path}: {LINES} lines or more" for path in sorted(filter(is_by_hand, texts)) if is_too_long(texts[path])],
        "paths": [f"{path}: no crate has such a file there" for path in of_crates if is_foreign(path)],
        "crates": faults_of_crates(folders, set(Libraries().uses), (TOP / "docs/MAP.md").read_text(encoding="utf-8")),
        "modules": faults_of_modules(modules, (TOP / "tools/lib/__init__.py").read_text(encoding="utf-8")),
        **{str(path): [f"{path}:{number}: {fault}" for number, fault in faults(path, texts[path])] for path in files},
    }


def main() -> int:
    words.none()
    found = checks()
    print("".join(f"{line}\n" for lines in found.values() for line in lines), end="")
    failed = sum(map(bool, found.values()))
    print(f"{len(found) - failed} passed, {failed} failed")
    return 1 if failed or len(found) < 6 else 0


if __name__ == "__main__":
    sys.exit(ended(main))
