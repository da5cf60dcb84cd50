#!/usr/bin/env python3
"""Compares how many tests each crate has, the functions after `#[test]`, with its line `CRATE N` in tools/data/tests.txt.

Fewer fail: no test goes unseen. More fail too, with the line to write, as do a crate without a line and a line without a crate. And a line
`mod NAME;` names each file that has tests in the file above it, and that one too, up to lib.rt or main.rt, and it has no #[cfg(..)] but
#[cfg(test)]. The body of each test has a word that asserts something, or a `?`. Comments don't count.

Before that it tries itself on crates with one fault each, on counts tools/lib/counts.sh, with which .ci/run and quick compare what scripts
count, and on a clone whose files change tools/lib/state.sh, with which .ci/run notices that. Prints what isn't so; last 'N passed, N
failed', a crate each, and one for what was tried.
"""
from __future__ import annotations

import pathlib
import re
import subprocess
import sys
import tempfile
from collections.abc import Iterator

from lib import words
from lib.failed import ended
from lib.libraries import CRATES, TOP

LINES = TOP / "tools/data/tests.txt"
TEST = re.compile(r"^ *#\[test\] *\n(?: *(?:#\[.*)?\n)* *(?:pub )?fn \w", re.M)
# A test's name and its body, and what a body has that can fail.
BODY = re.compile(r"^( *)#\[test\] *\n(?: *(?:#\[.*)?\n)* *(?:pub )?fn (\w+)([^\n]*\}$|(?s:.*?)^\1\}$)", re.M)
CAN_FAIL = re.compile(r"assert|same|holds|expect_|matches|comes_back|one_layout|_calls!|\?")
# A comment, or a string or a character, in which nothing is one. A condition under which code isn't there.
COMMENT = re.compile(r'\'(?:[^\'\\\n]|\\.)\'|"(?:[^"\\]|\\.)*"|/\*.*?\*/|//[^\n]*', re.S)
CONDITION = re.compile(r"^ *#!?\[cfg\((?!test\)\])[^\n]*", re.M)
# The texts of a crate's files, by their paths below src/.
Files = dict[str, str]


def uncommented(text: str) -> str:
    """This text with blanks in place of its comments."""
    return COMMENT.sub(lambda it: it[0] if it[0][0] in "'\"" else re.sub(r"[^\n]", " ", it[0]), text)


def files_of_crates() -> dict[str, Files]:
    """The files of each crate."""
    folders = sorted(it for it in CRATES.glob("*/src") if it.is_dir())
    return {it.parent.name: {path.relative_to(it).as_posix(): path.read_text() for path in sorted(it.rglob("*.rt"))} for it in folders}


def conditional(files: Files) -> Iterator[str]:
    """The conditions in files with tests under which these may not be there."""
    for path, text in files.items():
        if TEST.search(text) or re.search(r"^ *(?:pub )?mod tests\b", text, re.M):
            yield from (f"{path}: {it.strip()}" for it in CONDITION.findall(text))


def tests_in(files: Files) -> int:
    """How many tests these files have."""
    return sum(len(TEST.findall(text)) for text in files.values())


def idle(files: Files) -> Iterator[str]:
    """The tests of these files whose bodies assert nothing."""
    for path, text in files.items():
        for _, name, body in BODY.findall(text):
            if not CAN_FAIL.search(body):
                yield f"{path}: the test {name} asserts nothing"


def unread(files: Files) -> Iterator[str]:
    """The files with tests that no lines `mod NAME;` name, up to the crate's first file."""
    for path, text in files.items():
        modules = path.removesuffix(".rt").split("/")
        for at, name in enumerate(modules if TEST.search(text) and path not in ("lib.rt", "main.rt") else []):
            above = ["/".join(modules[:at]) + ".rt"] if at else ["lib.rt", "main.rt"]
            if not any(re.search(rf"^ *(?:pub(?:\(\w+\))? )?mod {name};", files.get(it, ""), re.M) for it in above):
                yield f"{path} isn't read: {' and '.join(it for it in above if it in files)} has no line 'mod {name};'"


def wrong_count(crate: str, count: int, said: list[str]) -> Iterator[str]:
    """What is wrong with the lines of a crate that has this count of tests, which say these numbers."""
    if not said:
        yield f"{crate} {count}: this line is missing in tools/data/tests.txt"
    elif not count:
        yield f"{crate} has no tests, and a line in tools/data/tests.txt"
    elif len(said) > 1 or not said[0].isdecimal():
        yield f"tools/data/tests.txt has not one line '{crate} N'"
    elif count < int(said[0]):
        yield f"{crate} has {count} tests, and must have {said[0]}, as tools/data/tests.txt says"
    elif count > int(said[0]):
        yield f"{crate} {count}: write this line into tools/data/tests.txt, in place of {crate} {said[0]}"


def findings(crates: dict[str, Files], lines: str) -> dict[str, list[str]]:
    """What is wrong with each crate that has tests, or a line among these."""
    stated: dict[str, list[str]] = {}
    for line in lines.splitlines():
        if line and not line.startswith("#"):
            stated.setdefault(line.split(" ")[0], []).append(line.partition(" ")[2])
    crates = {crate: {path: uncommented(text) for path, text in files.items()} for crate, files in crates.items()}
    counts = {crate: tests_in(files) for crate, files in crates.items()}
    named = sorted({crate for crate, count in counts.items() if count} | stated.keys())
    found = {it: list(wrong_count(it, counts.get(it, 0), stated.get(it, []))) for it in named}
    return {
        it: lines + [f"crates/{it}/src/{line}" for asked in (unread, idle, conditional) for line in asked(crates.get(it, {}))]
        for it, lines in found.items()
    }


# A crate of three tests, one that has none, and a test that asserts nothing.
TESTS = "#[test]\nfn one(rt: HostRuntime) {\n    same(1, 1);\n}\n\n// three\n#[test]\n// (a comment)\n#[inline]\npub fn two() { it()? }\n"
IDLE = TESTS.replace("same(1, 1);", "")
INDENTED = "    #[test]\n    fn it() {\n        assert!(rt; true);\n    }\n"
SOUND = {
    "held": {"lib.rt": "#[cfg(test)]\nmod tests;\n", "tests.rt": f"mod one;\n{TESTS}", "tests/one.rt": INDENTED},
    "other": {"main.rt": "// #[test]\nfn main() {}\n", "unread.rt": ""},
}
LINE = "# a comment\nheld 3\n"


def selftest() -> list[str]:
    """The planted faults that aren't found, and what is found in crates that have none."""
    held = SOUND["held"]
    planted = {
        "a test that is gone": findings({"held": held | {"tests/one.rt": ""}}, LINE),
        "a test more": findings({"held": held | {"tests/one.rt": TESTS}}, LINE),
        "a folder of tests that is gone": findings({"held": {**held, "tests.rt": TESTS, "tests/one.rt": ""}}, LINE),
        "all tests that are gone": findings({"held": {"lib.rt": ""}}, LINE),
        "no line": findings(SOUND, "# none\n"),
        "two lines": findings(SOUND, f"{LINE}held 3\n"),
        "a line without a number": findings(SOUND, "held\n"),
        "a line without a crate": findings(SOUND, f"{LINE}gone 1\n"),
        "a line of a crate without tests": findings(SOUND, f"{LINE}other 0\n"),
        "a comment of a test": findings({"held": held | {"tests/one.rt": "// #[test]\nfn it() {}\n"}}, LINE),
        "no line of a module": findings({"held": held | {"tests.rt": f"mod other;\n{TESTS}"}}, LINE),
        "a test without an assertion": findings({"held": held | {"tests.rt": f"mod one;\n{IDLE}"}}, LINE),
        "a comment of an assertion": findings({"held": held | {"tests.rt": f"mod one;\n{TESTS.replace('same', '// same')}"}}, LINE),
        "a test in a comment": findings({"held": held | {"tests/one.rt": f"/*\n{INDENTED}*/\n"}}, LINE),
        "a module in a comment": findings({"held": held | {"tests.rt": f"/*\nmod one;\n*/\n{TESTS}"}}, LINE),
        "a condition of a module": findings({"held": held | {"tests.rt": f"#[cfg(any())]\nmod one;\n{TESTS}"}}, LINE),
        "a module of no crate": findings({"held": held | {"lib.rt": "// mod tests;\n"}}, LINE),
    }
    missed = [f"selftest: not found: {fault}" for fault, found in planted.items() if not any(found.values())]
    return missed + [f"selftest: found: {it}" for lines in findings(SOUND, LINE).values() for it in lines]

# Lines of counts, and what counts.sh says of scripts that count this much.
COUNTS = "# three 3\none 3\ntwo 3 5\ntwice 3\ntwice 3\nnone\n"
TOO_FEW, MORE = "FAILED: {} counts {}, and must count at least 3", "raise {} to {} in tools/data/counts.txt"
NO_LINE = "FAILED: tools/data/counts.txt has not one line for {}"
COMPARED = {
    ("one", 2): TOO_FEW, ("one", 3): "", ("one", 4): MORE, ("two", 2): TOO_FEW, ("two", 3): "", ("two", 5): "", ("two", 6): MORE,
    ("on", 3): NO_LINE, ("three", 3): NO_LINE, ("twice", 3): NO_LINE, ("none", 3): NO_LINE,
}


def wrong_comparisons() -> list[str]:
    """What COMPARED has, and counts.sh doesn't say."""
    calls = "".join(f'echo "{name} {count}: $(compare {name} {count})"\n' for name, count in COMPARED)
    with tempfile.TemporaryDirectory() as room:
        pathlib.Path(room, "tools/data").mkdir(parents=True)
        pathlib.Path(room, "tools/data/counts.txt").write_text(COUNTS)
        words = ["bash", "-c", f'fail() {{ echo "FAILED: $1"; }}\n. "$1"\n{calls}', "bash", TOP / "tools/lib/counts.sh"]
        said = subprocess.run(words, cwd=room, capture_output=True, text=True, check=False).stdout.splitlines()
    wanted = [f"{name} {count}: {form.format(name, count)}" for (name, count), form in COMPARED.items()]
    return [f"selftest: counts.sh doesn't say {it!r}" for it in wanted if it not in said]


# Commands in a clone with changes. After one `changes` of state.sh says something else, or the same; `commit` always says the same.
CHANGED = {
    "a change of a changed file": "echo two >changed",
    "a change of another file": "echo one >kept",
    "another mode": "chmod +x kept",
    "a change of a new file": "echo two >new",
    "a new file more": "echo one >'other new'",
    "another name": "mv new renamed",
    "a file that is gone": "rm kept",
}
UNCHANGED = {"an ignored file": "echo two >ignored", "a file that is written again": "echo one >changed.1; mv changed.1 changed"}


def unseen_changes() -> list[str]:
    """What CHANGED and UNCHANGED have, and state.sh doesn't say."""
    made = "git init -q; echo ignored >.gitignore; echo zero | tee changed >kept; git add ."
    made += "; git -c user.name=one -c user.email=one commit -qm one; echo one | tee changed >new"
    found = []
    for name, command in {**CHANGED, **UNCHANGED}.items():
        with tempfile.TemporaryDirectory() as room:
            compared = f"{made}; commit; changes; {command}; commit; changes"
            words = ["bash", "-c", f'. "$1"\n{compared}', "bash", TOP / "tools/lib/state.sh"]
            said = subprocess.run(words, cwd=room, capture_output=True, text=True, check=False).stdout.splitlines()
        one, before, other, after = said if len(said) == 4 else [""] * 4
        if not re.fullmatch(r"commit [0-9a-f]{40}, with changes", one) or one != other or (before == after) == (name in CHANGED):
            found.append(f"selftest: state.sh, after {name}: {said}")
    return found


def main() -> int:
    words.none()
    tried = selftest() + wrong_comparisons() + unseen_changes()
    results = {"selftest": tried} | findings(files_of_crates(), LINES.read_text(encoding="utf-8"))
    print("".join(f"{line}\n" for lines in results.values() for line in lines), end="")
    failed = sum(map(bool, results.values()))
    print(f"{len(results) - failed} passed, {failed} failed")
    return 1 if failed or len(results) < 2 else 0


if __name__ == "__main__":
    sys.exit(ended(main))
