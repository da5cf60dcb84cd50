"""The commands that a page prints, as a shell script, and what each did otherwise than the page says.

run_commands.py runs those of all pages, by the lines of tools/data/commands.txt; test_callers.py those of three READMEs.
"""
from __future__ import annotations

import pathlib
import re
import shlex
import shutil
import subprocess
from collections.abc import Iterator

from lib.libraries import TOP, files_of_clone

PART = re.compile(r"(?:<!-- file: (\S+) -->\n)?^```(\w*)\n(.*?)^```$", re.M | re.S)


def lines_of_rules() -> list[list[str]]:
    """The lines of tools/data/commands.txt, cell by cell."""
    lines = (TOP / "tools" / "data" / "commands.txt").read_text().splitlines()
    return [[cell.strip() for cell in line.split(" | ")] for line in lines if line and line[0] != "#"]


def begins(command: str, words: str) -> bool:
    """Whether a command is these words, or begins with them: `cc` is no word of `ccccc --no`."""
    return bool(re.match(re.escape(words) + r"(?!\S)", command))


class Rules:
    """The lines of tools/data/commands.txt for a page."""

    def __init__(self, page: str) -> None:
        self.rows = [row for row in lines_of_rules() if row[1:2] == [page]]
        self.used: set[int] = set()

    def of(self, kind: str) -> Iterator[tuple[int, list[str]]]:
        """The lines of a kind, by their places, without the kind and the page."""
        for at, row in enumerate(self.rows):
            if row[0] == kind:
                yield at, row[2:]

    def is_left_out(self, command: str) -> bool:
        found = [at for at, row in self.of("not run") if begins(command, row[0])]
        self.used.update(found)
        return bool(found)

    def in_place(self, command: str, clone: str) -> str:
        """The command as it is run, where the clone has this path."""
        texts = [(at, row[0], row[1]) for at, row in self.of("in place of")]
        texts += [(at, row[0], clone) for at, row in self.of("in an empty folder")]
        for at, old, new in texts:
            if old in command:
                self.used.add(at)
                command = command.replace(old, new)
        return command

    def unused(self) -> list[str]:
        return [" | ".join(row) for at, row in enumerate(self.rows) if at not in self.used]


def steps(page: str) -> Iterator[tuple[str, str, str | list[str]]]:
    """What a page prints in order: ('file', path, text), or ('run', command, lines that it prints)."""
    for path, kind, text in PART.findall((TOP / page).read_text()):
        if path:
            yield "file", path, text
        if kind == "console":
            for block in re.split(r"^\$ ", text, flags=re.M)[1:]:
                lines = block.rstrip("\n").split("\n")
                more = next((n for n, line in enumerate(lines) if n and not line.startswith("> ")), len(lines))
                command = [re.sub(r"\s{2,}# .*", "", lines[0])] + [line[2:] for line in lines[1:more]]
                yield "run", "\n".join(command), lines[more:]


def copy_of_clone(folder: pathlib.Path) -> pathlib.Path:
    """The files that a clone of this tree would have."""
    for name in files_of_clone():
        (folder / name).parent.mkdir(parents=True, exist_ok=True)
        shutil.copy2(TOP / name, folder / name)
    subprocess.run(["git", "init", "-q", folder], check=True)
    return folder


def script_of(page: str, rules: Rules, clone: pathlib.Path, answers: pathlib.Path) -> tuple[str, list[tuple[str, list[str]]]]:
    """A shell script with the page's steps, and its commands with what each has to print."""
    words = [f"cd {shlex.quote(str(clone))}"]
    for _ in rules.of("in an empty folder"):
        words = [f"cd {shlex.quote(str(answers))} && mkdir empty && cd empty"]
    wanted = []
    for kind, what, lines in steps(page):
        if kind == "file":
            words.append(written(what, lines))
        elif not rules.is_left_out(what):
            command, at = rules.in_place(what, shlex.quote(str(clone))), len(wanted)
            words.append(f"{{ {command}\n}} >{answers}/{at}.out 2>{answers}/{at}.err\necho $? >{answers}/{at}.status")
            wanted.append((what, lines))
    return "\n".join(words) + "\n", wanted


def written(path: str, text: str) -> str:
    return f"cat >{shlex.quote(path)} <<'END OF FILE'\n{text}END OF FILE"


def difference(answers: pathlib.Path, at: int, lines: list[str]) -> str | None:
    """What a command did otherwise than its page says."""
    status = answers / f"{at}.status"
    if not status.is_file():
        return "it didn't end"
    printed = (answers / f"{at}.out").read_text(errors="replace")
    output = printed + (answers / f"{at}.err").read_text(errors="replace")
    if status.read_text().strip() != "0":
        return f"status {status.read_text().strip()}\n{output[-2000:]}"
    if lines and printed.rstrip("\n").split("\n") != lines:
        return f"it printed\n{printed[-2000:]}"
    return None
