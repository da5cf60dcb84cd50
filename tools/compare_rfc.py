#!/usr/bin/env python3
"""compare_rfc.py RFC.txt ..: compares the texts in crates/tlsgen/data with published RFCs, as rfc-editor.org has them.

Each definition of our texts is searched by its name in its RFC, which is the one that the heading above it names (`// ---- RFC 5246, ..`),
or else an earlier heading, or the first line of the text. It is compared token by token, without comments, white space and page breaks.
A line for each definition of an RFC that is given, in the order of our texts:

    NAME: same
    NAME: differs: RFC has ".." (line N), the text has ".." (line N of mls.tls)
    NAME: not in the RFC (line N of mls.tls)

A line that differs has the first difference; all lines that changed places, if nothing else differs. An RFC can have a definition several
times: one that is the same is enough, and the line says where each other one differs; if none is, it has the nearest. Two differences are
accepted, and printed: a name with a capital after a select is for the enum that we write, and the RFC may have none (docs/MESSAGES.md,
"Selects"); and a struct of one field, as `RatchetTree`, may be that field alone. No comment of our texts states another.

Last 'N passed, N failed'; the exit status is 1 if one failed, or none was compared.

Not compared: what an RFC has in tables or in prose, and our texts in notes, as the numbers of WireFormat and the other registries of MLS
(RFC 9420, section 17); comments, and the sections that they name; definitions that our texts lack.
"""
from __future__ import annotations

import collections
import itertools
import pathlib
import re
import sys
from typing import NamedTuple

from lib.failed import Failed, ended
from lib.libraries import DATA, TEXTS_OF_RFCS
from lib.presentation import Parser, name_of, tokens

COMMENT = re.compile(r"/\*.*?\*/|//[^\n]*", re.S)
FOOTER = re.compile(r"\[Page \d+\]\s*$")
HEADER = re.compile(r"RFC \d+ .*\d{4}\s*$")
TYPE = re.compile(r"opaque|uint(?:8|16|24|32|64)|[A-Z][\w.-]*")


class Word(NamedTuple):
    """A token, or several in a row, and the line where they begin."""

    text: str
    line: int


class Definition(NamedTuple):
    name: str
    rfc: str
    file: str
    words: list[Word]


class Verdict(NamedTuple):
    passed: bool
    line: str


# ---- reading

def words_of(text: str) -> list[Word]:
    """The tokens of a text without comments."""
    text = COMMENT.sub(lambda found: " " + "\n" * found[0].count("\n"), text)
    return [Word(word, number) for number, line in enumerate(text.split("\n"), 1) for word in tokens(line)]


def without_pages(text: str) -> str:
    """An RFC with form feeds, footers and the headers after them blanked, line for line."""
    lines, after_footer = [], False
    for line in text.replace("\f", "").split("\n"):
        is_footer = bool(FOOTER.search(line))
        is_header = after_footer and bool(HEADER.match(line))
        after_footer = is_footer or after_footer and not line.strip()
        lines.append("" if is_footer or is_header else line)
    return "\n".join(lines)


def rfc_above(text: str, line: int) -> str:
    """The RFC of a definition in this line of one of our texts."""
    first, *lines = text.split("\n")[:line]
    heads = [first, *(it for it in lines if it.startswith("// ----"))]
    return [found[1] for found in (re.search(r"RFC (\d+)", it) for it in heads) if found][-1]


def definitions(name: str) -> list[Definition]:
    """All definitions of one of our texts."""
    text = (DATA / f"{name}.tls").read_text(encoding="utf-8")
    words, parser, found = words_of(text), Parser(text), []
    if texts(words) != parser.words:
        raise Failed(f"{name}.tls: the parser reads other words than are compared")
    while parser.peek() is not None:
        start = parser.at
        title = name_of(parser.definition())
        found.append(Definition(title, rfc_above(text, words[start].line), f"{name}.tls", words[start : parser.at]))
    return found


def opening(words: list[Word], at: int) -> int:
    """The place of the brace that is closed here, or -1."""
    depth = 0
    for place in range(at, -1, -1):
        depth += {"}": 1, "{": -1}.get(words[place].text, 0)
        if depth == 0:
            return place
    return -1


class Rfc:
    """A published text: its number and tokens."""

    def __init__(self, path: pathlib.Path) -> None:
        text = path.read_text(encoding="utf-8-sig", errors="replace")
        number = re.search(r"Request for Comments: *(\d+)", text)
        if not number:
            raise Failed(f"{path}: no RFC, which has a line 'Request for Comments: ..'")
        self.number = number[1]
        self.words = words_of(without_pages(text))
        self.places = collections.defaultdict(list)
        for at, word in enumerate(self.words):
            self.places[word.text].append(at)

    def prints(self, name: str) -> list[list[Word]]:
        """The definitions of this name: `struct { .. } NAME;`, `enum { .. } NAME;`, or a line as `opaque NAME<V>;`."""
        found = (self.in_braces(at) or self.in_a_line(at) for at in self.places[name])
        return [words for words in found if words]

    def alone(self, field: list[Word]) -> list[Word]:
        """The field by itself, after the end of something else."""
        wanted = texts(field)
        for at in self.places[wanted[0]] if wanted else []:
            found = self.words[at : at + len(wanted)]
            is_line = len({word.line for word in found}) == 1 and (at == 0 or self.words[at - 1].line < found[0].line)
            if texts(found) == wanted and is_line:
                return found
        return []

    def in_braces(self, at: int) -> list[Word]:
        """The definition whose name, after a brace, is here, with the token after it: an RFC may lack the semicolon."""
        start = opening(self.words, at - 1) - 1
        if self.words[at - 1].text != "}" or start < 0 or self.words[start].text not in ("struct", "enum"):
            return []
        start -= texts(self.words[start - 1 : start]) == ["digitally-signed"]
        return self.words[start : at + 2]

    def in_a_line(self, at: int) -> list[Word]:
        """The line whose second token, after a type, is this name, if it has a semicolon at its end."""
        line = self.words[at].line
        around = self.words[max(at - 2, 0) : at + 20]
        words = [word for word in around if word.line == line]
        has_name = len(words) > 2 and words[1] is self.words[at] and TYPE.fullmatch(words[0].text)
        return words if has_name and words[2].text in "[<;" and words[-1].text == ";" else []


# ---- comparing

def texts(words: list[Word]) -> list[str]:
    return [it.text for it in words]


def own_names(words: list[Word]) -> list[Word]:
    """The names with a capital after the selects of a definition."""
    found = []
    for at in range(1, len(words) - 2):
        if words[at].text[0].isupper() and words[at - 1].text == "}" and words[opening(words, at - 1) - 1].text == ")":
            found.append(words[at])
    return found


def pieces(words: list[Word]) -> list[Word]:
    """The fields, values and labels of a definition, and its braces, with a blank between two tokens."""
    found, start = [], 0
    for end in range(1, len(words) + 1):
        if words[end - 1].text in "{};,:" or end == len(words) or words[end].text == "}":
            found.append(Word(" ".join(texts(words[start:end])), words[start].line))
            start = end
    return found


def spelled(piece: str) -> str:
    """A piece without the blanks that no text has."""
    return re.sub(r" (?=[\])>;:,.(<\[])|(?<=[\[(<.]) ", "", piece)


def quoted(them: list[Word], file: str = "") -> str:
    return ", ".join(f'"{spelled(it.text)}" (line {it.line}{file})' if it.text else "nothing more" for it in them)


def difference(printed: list[Word], ours: list[Word], file: str) -> str:
    """The first pieces that differ; all of them, if the same ones are in another order."""
    theirs, mine = pieces(printed), pieces(ours)
    pairs = [pair for pair in itertools.zip_longest(theirs, mine, fillvalue=Word("", 0)) if pair[0].text != pair[1].text]
    is_moved = sorted(texts(theirs)) == sorted(texts(mine))
    pairs = pairs if is_moved else pairs[:1]
    order = "the order: " if is_moved else ""
    return f"{order}RFC has {quoted([it[0] for it in pairs])}, the text has {quoted([it[1] for it in pairs], f' of {file}')}"


def alike(one: list[Word], other: list[Word]) -> int:
    """How many tokens are the same, from the first one on."""
    return sum(1 for _ in itertools.takewhile(lambda pair: pair[0] == pair[1], zip(texts(one), texts(other))))


def held_to(it: Definition, printed: list[Word]) -> tuple[bool, int, str]:
    """Whether a definition in the RFC is ours, how many tokens are alike, and what to print of it."""
    names = own_names(it.words)
    forms = [it.words, [word for word in it.words if word not in names]]
    ours = max(forms, key=lambda form: (sorted(texts(printed)) == sorted(texts(form)), alike(printed, form)))
    if texts(printed) != texts(ours):
        return False, alike(printed, ours), difference(printed, ours, it.file)
    without = "" if ours == it.words else f" without {quoted(names, f' of {it.file}')}"
    return True, len(ours), f"same{without}"


def only_field(words: list[Word]) -> list[Word]:
    """The field of a struct that has no other."""
    inside = words[2:-3]
    is_struct = texts(words[:2]) == ["struct", "{"]
    return inside if is_struct and texts(inside).count(";") == 1 and inside[-1].text == ";" else []


def verdict(it: Definition, rfc: Rfc) -> Verdict:
    """The line for a definition, by all that its RFC has under its name."""
    found, field = rfc.prints(it.name), rfc.alone(only_field(it.words))
    if not found and field:
        return Verdict(True, f"{it.name}: same, as {quoted([Word(' '.join(texts(field)), field[0].line)])} alone")
    if not found:
        return Verdict(False, f"{it.name}: not in the RFC (line {it.words[0].line} of {it.file})")
    held = [held_to(it, printed) for printed in found]
    passed, _, best = max(held)
    if not passed:
        return Verdict(False, f"{it.name}: differs: {best}")
    others = [text for is_same, _, text in held if not is_same]
    return Verdict(True, "; elsewhere ".join([f"{it.name}: {best}", *others]))


def compare(rfcs: dict[str, Rfc]) -> list[Verdict]:
    return [verdict(it, rfcs[it.rfc]) for name in TEXTS_OF_RFCS for it in definitions(name) if it.rfc in rfcs]


def left_out(rfcs: dict[str, Rfc]) -> list[str]:
    """What a reader could believe to be compared: RFCs that no text of ours is from, and definitions of other RFCs in the same texts."""
    counts = {name: collections.Counter(it.rfc for it in definitions(name)) for name in TEXTS_OF_RFCS}
    found = [f"not compared: RFC {rfc}: our texts have no definition of it" for rfc in rfcs if not any(rfc in it for it in counts.values())]
    for name, of in counts.items():
        if of.keys() & rfcs.keys():
            found += [f"not compared: {of[rfc]} definitions of {name}.tls, which are of RFC {rfc}" for rfc in of if rfc not in rfcs]
    return found


def main(files: list[str]) -> int:
    if not files:
        print(__doc__)
        return 2
    rfcs = {rfc.number: rfc for rfc in map(Rfc, map(pathlib.Path, files))}
    if len(rfcs) < len(files):
        raise Failed("two files are of one RFC")
    verdicts = compare(rfcs)
    for line in [*(it.line for it in verdicts), *left_out(rfcs)]:
        print(line)
    passed = sum(it.passed for it in verdicts)
    print(f"{passed} passed, {len(verdicts) - passed} failed")
    return 1 if passed < len(verdicts) or not verdicts else 0


if __name__ == "__main__":
    sys.exit(ended(lambda: main(sys.argv[1:])))
