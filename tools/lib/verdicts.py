"""What rattle says of one function in the output of a check: whether it refuses its body, and by what.

A body is refused where a goal of the function's own stays open: `search` did not prove it, or an answer that the function's
Answers.antt has for it is no proof of it any more. Nothing else counts. A function that only calls what isn't proved may be right; an
answer that names what the edit took away says nothing of the body; and what doesn't compile has met no contract.
"""
from __future__ import annotations

import dataclasses
import enum
import pathlib
import re

# How an error begins that says of an answer that it is no proof of its goal. Others say that its text is wrong, as a name that isn't there.
NO_PROOF = re.compile(
    r"`(?:search|grind|omega)`: |`grind` stopped at its own limit |as printed, the two (?:types|sides) |"
    r"computed as far as they go, the two (?:types|sides) |computed as a goal is, one side reads |expected type "
)
ERROR = re.compile(r"(\S+):\d+:\d+: error: `([^`]+)`: (.*)")
OPEN = re.compile(r"`search` did not prove ((?:`[^`]+`(?:, | and )?)+)")
CALLS = re.compile(r"it calls `.*, which (?:is|are) not proved$")
# The statuses of a check that ended: all is proved, something isn't, and antt came to no answer.
ENDED = (0, 1, 3)


class Kind(enum.Enum):
    REFUSED = "refused"
    PROVED = "NOT REFUSED: it is still proved"
    WAITS = "NOT REFUSED: it only waits for what it calls"
    LOST = "NOT REFUSED: an answer names what the edit took away, or can't be read"
    UNREAD = "NOT REFUSED: no goal of its own"
    NO_LINE = "NOT TRIED: the check says nothing of this function"


@dataclasses.dataclass(frozen=True)
class Verdict:
    kind: Kind
    text: str

    def __str__(self) -> str:
        return f"{self.kind.value}: {self.text}"


def of(status: int, output: str, crate: str, function: str) -> Verdict:
    """What a check that ended so says of this function of the crate."""
    lines = output.split("\n")
    start = f"fn {crate}::{function}: "
    own = [it.removeprefix(start) for it in lines if it.startswith(start)]
    if status not in ENDED or len(own) != 1:
        return Verdict(Kind.NO_LINE, compiler_line(status, lines))
    if own[0] == "proved":
        return Verdict(Kind.PROVED, own[0])
    if not own[0].startswith(("no proof", "not proved")):
        return Verdict(Kind.UNREAD, own[0])
    refused, lost = answers(lines, function)
    if refused:
        return Verdict(Kind.REFUSED, refused[0])
    if lost:
        return Verdict(Kind.LOST, lost[0])
    found = OPEN.search(own[0])
    if found:
        return Verdict(Kind.REFUSED, f"`search` did not prove {found[1]}")
    return Verdict(Kind.WAITS if CALLS.search(own[0]) else Kind.UNREAD, own[0])


def answers(lines: list[str], function: str) -> tuple[list[str], list[str]]:
    """The errors in a function's own proof files: those that say that an answer is no proof of its goal, and all others."""
    place = "./proofs/" + function.replace("::", "/") + "/"
    refused, lost = [], []
    for line in lines:
        if line.startswith(place) and ": error: " in line:
            found = ERROR.match(line)
            is_goal = found is not None and found[1] == f"{place}Answers.antt" and NO_PROOF.match(found[3])
            (refused if is_goal else lost).append(line.removeprefix(place)[:200])
    return refused, lost


def compiler_line(status: int, lines: list[str]) -> str:
    """The first error of what compiles the crate, or else the last line."""
    errors = [it for it in lines if re.search(r"\berror(\[[\w-]+\])?: ", it)] or [it for it in lines[::-1] if it.strip()]
    return errors[0][:300] if errors else f"it ended with status {status}, and printed nothing"


def selftest(folder: pathlib.Path) -> int:
    """Whether each saved output, whose first lines say what must be read in it, is read so."""
    failed = 0
    paths = sorted(folder.glob("*.txt"))
    for path in paths:
        head, _, output = path.read_text(encoding="utf-8").partition("\n\n")
        crate, status, *wanted = head.split("\n")
        for line in wanted:
            function, kind = line.split()
            verdict = of(int(status), output, crate, function)
            if verdict.kind is not Kind[kind]:
                print(f"{path.name}: {function} is {kind}, and read as {verdict.kind.name}: {verdict.text}")
                failed += 1
    print(f"{len(paths)} outputs of rattle in tools/data/outputs/ were read, and {failed} functions in them misread")
    return 1 if failed or not paths else 0
