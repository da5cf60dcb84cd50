#!/usr/bin/env python3
"""Runs the commands that the pages print, and compares what they print: each line after a `$` in a block `console`.

Each page has a fresh copy of the files that a clone would have, or an empty folder beside one, and one shell, so that `cd` and variables
last from block to block. A block after a line <!-- file: PATH --> is written to that file when its turn comes. A command must end with
status 0, and print the lines below it, if there are any (on standard output). tools/data/commands.txt says what is done otherwise, with
reasons:

    in an empty folder | PAGE | PATH                    PATH is replaced by that of the clone
    in place of | PAGE | TEXT | TEXT | REASON           a text of its commands is replaced
    not run | PAGE | COMMAND | REASON                   a command that is so, or begins with these words, is left out

A line that fits nothing fails: no command, no page with commands, or none of these three kinds. Before that it runs the commands of a page
of its own, and some of them must fail; and a line must leave out no command that begins with a longer word. Last 'N passed, N failed', a
command each, and that page as one; the exit status is 1 if one failed.
"""
from __future__ import annotations

import concurrent.futures
import pathlib
import subprocess
import sys
import tempfile

from lib.failed import ended
from lib.libraries import PAGES, TOP
from lib.page_commands import Rules, copy_of_clone, difference, lines_of_rules, script_of, steps

SECONDS = 3600
# The kinds of lines in tools/data/commands.txt, and how many cells a line of each has.
KINDS = {"in an empty folder": 3, "in place of": 5, "not run": 4}


def wrong_rules(pages: list[str]) -> list[str]:
    """The lines that have no kind, or whose page isn't one of these."""
    wrong = [row for row in lines_of_rules() if KINDS.get(row[0]) != len(row) or row[1] not in pages]
    return [f"tools/data/commands.txt: no such kind, or no commands on that page: {' | '.join(row)}" for row in wrong]


def has_commands(page: str) -> bool:
    return any(kind == "run" for kind, _, _ in steps(page))


def results(page: str) -> tuple[int, list[str]]:
    """How many commands of a page passed, and what each that failed did."""
    rules = Rules(page)
    with tempfile.TemporaryDirectory() as room:
        clone, answers = pathlib.Path(room, "clone"), pathlib.Path(room, "answers")
        clone.mkdir(), answers.mkdir()
        script, wanted = script_of(page, rules, copy_of_clone(clone), answers)
        if wanted:
            subprocess.run(["timeout", str(SECONDS), "bash", "-c", script], stdin=subprocess.DEVNULL, check=False)
        found = [(what, difference(answers, at, lines)) for at, (what, lines) in enumerate(wanted)]
    failed = [f"{page}: {what}: {why}" for what, why in found if why is not None]
    unused = [f"tools/data/commands.txt: fits nothing: {row}" for row in rules.unused()]
    return len(wanted) - len(failed), failed + unused


# A page of commands, with what must be said of those that fail.
PAGE = """\
<!-- file: lines -->
```text
one
two
```
```console
$ cat lines
one
two
$ cat lines
one
$ echo three
one
$ cd docs
$ test -f lines
$ exit 3
$ echo one
```
"""
FAILING = ["cat lines: it printed", "echo three: it printed", "test -f lines: status 1", "exit 3: it didn't end", "echo one: it didn't end"]
# Commands, and whether a line `not run` of "cc -c" leaves each out.
LEFT_OUT = {"cc -c": True, "cc -c one.c": True, "cc -c\none.c": True, "cc -check": False, "cc -c=one": False, "ccc -c": False}


def wrongly_left_out() -> list[str]:
    """The commands of LEFT_OUT that are left out, or aren't, otherwise than it says."""
    rules = Rules("")
    rules.rows = [["not run", "", "cc -c", "a reason"]]
    return [f"selftest: left out, or not: {it!r}" for it, is_out in LEFT_OUT.items() if rules.is_left_out(it) != is_out]


def selftest() -> list[str]:
    """What isn't said of the commands of PAGE as it must be."""
    with tempfile.TemporaryDirectory() as room:
        page = pathlib.Path(room, "PAGE.md")
        page.write_text(PAGE)
        passed, failed = results(str(page))
        found = [line.removeprefix(f"{page}: ").split("\n")[0] for line in failed]
    return wrongly_left_out() + ([] if (passed, found) == (2, FAILING) else [f"selftest: {passed} passed, and {found} failed"])


def main() -> int:
    files = [it.relative_to(TOP).as_posix() for it in PAGES]
    pages = [it for it in sys.argv[1:] or files if has_commands(it)]
    # (two builds take the memory that .ci/run has for a script)
    with concurrent.futures.ThreadPoolExecutor(2) as pool:
        found = list(pool.map(results, pages))
    failed = selftest()
    passed = sum(count for count, _ in found) + (not failed)
    failed += [line for _, lines in found for line in lines]
    failed += wrong_rules([it for it in files if has_commands(it)])
    print("".join(f"{line}\n" for line in failed), end="")
    print(f"the commands of {len(pages)} pages were run")
    print(f"{passed} passed, {len(failed)} failed")
    return 1 if failed or not passed else 0


if __name__ == "__main__":
    sys.exit(ended(main))
