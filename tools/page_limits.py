#!/usr/bin/env python3
"""Checks that the pages are short and that their lists and figures are right. It runs in check_pages.py, and by hand.

- All pages except docs/DECISIONS.md have at most MAX_WORDS words outside of their blocks: what is between blanks and has a letter, and
  each `code` once. And they have at most MAX_IN_BLOCKS in blocks after <!-- not quoted --> that are no code.
- Each record of docs/DECISIONS.md, from `### ` on, is a question, begins with its date and commit, and fits on a screen. The list at the
  top has them all.
- What is like a commit in `code`, or comes after `git show`, is a commit up to that of this clone. In a copy that is no clone, or without
  git, this isn't checked.
- Figures and lists of the pages, and answers, sentences and statuses of docs/ERRORS.md, are those of their files (lib/figures.py).
- The two short lists of "What to read" in docs/MAP.md are closed, and are as long as the page says. An item `1. **Formats**, 600 lines: ..`
  lists files under the short names of the crates; a file "to `word`" is read to the line before the first one that has the word. Each word
  that such a part takes from the specs or declarations of the repository's crates has to be in a part of the same list or of the list
  before, or among the words after "Skip".
- "**A day**, N lines of definitions and N clauses" are what these lists leave of the three crates, rounded.

Prints what isn't so; last 'N passed, N failed', which counts those words and lengths, records, commits, figures, errors and pages. With the
word `words`, it prints how many each page has, outside and in such blocks. Before that it tries itself on faults.
"""
from __future__ import annotations

import pathlib
import re
import sys

from lib import clone, figures
from lib.blocks import blocks
from lib.libraries import CALLER_PAGES, CRATES, PAGES, TOP

RECORDS = TOP / "docs/DECISIONS.md"
MAX_WORDS = 15_000
MAX_IN_BLOCKS = 4_100
# The kinds of blocks that are code.
CODE = ("c", "python", "rust")
SCREEN = 32
RECORD = re.compile(r"^### (.*)\n((?:(?!##).*\n)*)", re.M)
DATED = re.compile(r"\n\*20\d\d-\d\d-\d\d, `[0-9a-f]{8}`\*\n")
# A commit in `code`, those after `git show`, and bytes in `code` that are like one.
COMMIT = re.compile(r"`([0-9a-f]{8})`")
SHOWN = re.compile(r"\bgit show((?: \w{7,40}\b)+)")
BYTES = {"010007ee", "03000100", "03eda080"}
SHORT = {"wire": "tls_codec_wire", "grammar": "tls_codec_grammar", "base": "tls_codec_base"}
ITEM = re.compile(r"^\d\. \*\*(\w+)\*\*, (\d+) lines: (.*?)(?=^\d\. |^$)", re.M | re.S)
FILE = re.compile(r"`(wire|grammar|base)/([\w/]+\.(?:antt|rt))`(?:\s+to\s+`([^`]+)`)?")
LISTS = ["Formats", "Calls"]
SKIP = re.compile(r"^Skip (.*?)$\n\n", re.M | re.S)
DAY = re.compile(r"\*\*A day\*\*,\s+([\d,]+)\s+lines\s+of\s+definitions\s+and\s+([\d,]+)\s+clauses")
# What begins a clause that a day's list counts.
CLAUSE = re.compile(r"^\s*(?:ensures|requires|ghost (?!use))", re.M)
TAKEN = re.compile(r"^(?:ghost )?use Rattle\.tls_codec_\w+\.specs\.(?:declared\.)?(\w+)[\w.]*\.\{([^}]*)\}", re.M)


def part(crate: str, path: str, end: str) -> list[str]:
    """The lines of a file to the one that has the word."""
    lines = (CRATES / SHORT[crate] / path).read_text().rstrip("\n").split("\n")
    body = [n for n, line in enumerate(lines) if end and end in line and "use " not in line]
    return lines[: body[0]] if body else lines


def words(text: str) -> int:
    """How many words a text has outside of its blocks: what is between blanks and has a letter, and each `code` once."""
    text = re.sub(r"^ *```.*?^ *```", "", text, flags=re.M | re.S)
    text = re.sub(r"(`+).*?\1", "code", re.sub(r"<!--.*?-->", "", text, flags=re.S))
    return sum(any(sign.isalpha() for sign in word) for word in text.split())


def words_in_blocks(text: str) -> int:
    """How many words the blocks of a page have that are neither quotes nor code."""
    found = []
    for before, kind, lines in blocks(text.split("\n")):
        if kind not in CODE and "\n".join(before).rstrip().endswith("<!-- not quoted -->"):
            found += [line for _, line in lines]
    return words("\n".join(found))


def too_long(texts: list[str]) -> list[str]:
    """Which limits of words these pages pass."""
    limits = [("words", words, MAX_WORDS), ("words in blocks that are neither quotes nor code", words_in_blocks, MAX_IN_BLOCKS)]
    totals = [(what, sum(map(count, texts)), most) for what, count, most in limits]
    return [f"the pages have {total} {what}, and may have {most}" for what, total, most in totals if total > most]


def length_findings() -> tuple[list[str], int]:
    """Whether the pages are short enough, and how many were counted."""
    counted = [page.read_text() for page in PAGES if page != RECORDS]
    return too_long(counted), len(counted)


def no_commits(texts: dict[str, str], commits: list[str]) -> tuple[list[str], int]:
    """What is like a commit on these pages, and isn't one of these, and how many were checked; and what BYTES needn't have."""
    named = [(page, it) for page, text in texts.items() for it in COMMIT.findall(text)]
    named += [(page, it) for page, text in texts.items() for several in SHOWN.findall(text) for it in several.split()]
    short = {it[:size] for it in commits for size in map(len, {it for _, it in named})}
    found = [f"{page}: no commit of this clone: {it}" for page, it in named if it not in short | BYTES]
    found += [f"tools/page_limits.py: on no page: {it}: drop it from BYTES" for it in sorted(BYTES.difference(it for _, it in named))]
    return found, len(named)


def commit_findings() -> tuple[list[str], int]:
    """Which commits that pages name aren't there, and how many they name; nothing outside of a clone, or in one without a commit."""
    if clone.commit().startswith("no "):
        return [], 0
    return no_commits({it.relative_to(TOP).as_posix(): it.read_text() for it in (*PAGES, *CALLER_PAGES)}, clone.commits())


def record_findings() -> tuple[list[str], int]:
    """Which records of docs/DECISIONS.md are no question, have no date or are too long, and how many there are."""
    page = RECORDS.read_text()
    found, records = [], RECORD.findall(page)
    if re.findall(r"^- \[(.*)\]\(#", page, re.M) != [title for title, _ in records]:
        found.append("docs/DECISIONS.md: the list of records at its top isn't that of its headings")
    for title, text in records:
        if not title.endswith("?"):
            found.append(f"docs/DECISIONS.md: no question: {title}")
        if not DATED.match(text):
            found.append(f"docs/DECISIONS.md: no date and commit: {title}")
        if len(text.strip().split("\n")) > SCREEN:
            found.append(f"docs/DECISIONS.md: more than {SCREEN} lines: {title}")
    return found, len(records)


def findings() -> tuple[list[str], int]:
    """What isn't so, and how much was checked."""
    page = (TOP / "docs/MAP.md").read_text()
    section = page[page.index("## What to read") :]
    of_map = [selftest(section), list_findings(section), day_findings(section)]
    parts = [*of_map, record_findings(), commit_findings(), figures.findings(), length_findings()]
    return [line for found, _ in parts for line in found], sum(checked for _, checked in parts)


def ill_formed(items: list[tuple[str, str, str]]) -> list[str]:
    """What hides a list, or a file of one, from this script."""
    names = [name for name, _, _ in items]
    found = [] if names == LISTS else [f"docs/MAP.md: the lists that can be read are {names}, and should be {LISTS}"]
    for name, _, text in items:
        named, read = len(re.findall(r"\.(?:antt|rt)\b", text)), len(FILE.findall(text))
        if read != named:
            found.append(f"docs/MAP.md: {name} names {named} files, and {read} of them can be read")
    return found


def day_findings(section: str) -> tuple[list[str], int]:
    """Whether the day's list is as long as it says, to two in a hundred: without specs/laws/, and without the lists of Lib.antt."""
    stated = DAY.search(section)
    if not stated:
        return ["docs/MAP.md: no line **A day**, N lines of definitions and N clauses"], 1
    read = {(crate, path): len(part(crate, path, end)) for _, _, text in ITEM.findall(section) for crate, path, end in FILE.findall(text)}
    lines = clauses = 0
    for short, crate in SHORT.items():
        for path in sorted((CRATES / crate).glob("specs/*.antt")):
            at = short, path.relative_to(CRATES / crate).as_posix()
            lines += (len(part(*at, "")) - read.get(at, 0)) * (path.name != "Lib.antt")
        for path in sorted((CRATES / crate).glob("src/**/*.rt")):
            at = short, path.relative_to(CRATES / crate).as_posix()
            clauses += len(CLAUSE.findall("\n".join(path.read_text().split("\n")[read.get(at, 0) :])))
    said = zip(("lines of definitions", "clauses"), (lines, clauses), (int(it.replace(",", "")) for it in stated.groups()))
    return [f"docs/MAP.md: a day has {right:,} {what}" for what, right, number in said if 50 * abs(number - right) > right], 2


def in_block(kind: str, count: int) -> str:
    """A page with a block of this kind that is no quote and has this count of words. A stroke is none."""
    return f"word\n\n<!-- not quoted -->\n```{kind}\n{'word | `two words` ' * (count // 2)}{'word' * (count % 2)}\n```\n"


def selftest(section: str) -> tuple[list[str], int]:
    """Whether a list of another length, one that isn't closed, a day of another length, too many words and no commit are found."""
    name, stated, text = ITEM.search(section).groups()
    commits, most = [f"{number:08x}" + "0" * 32 for number in (0xB83B6E3F, 0xED520520)], MAX_IN_BLOCKS
    shown = "of `b83b6e3f`, git show b83b6e3f ed520520    and" + "".join(f" `{it}`" for it in BYTES)
    planted = {
        "a list's length": list_findings(section.replace(f"**{name}**, {stated} lines", f"**{name}**, {int(stated) + 1} lines")),
        "a list that isn't closed": list_findings(section.replace("`wire/specs/Digits.antt`,", "")),
        "a day's length": day_findings(DAY.sub("**A day**, 1 lines of definitions and 1 clauses", section)),
        "no day": day_findings(section.replace("**A day**", "**A week**")),
        "a word too many": (too_long(["word " * MAX_WORDS, "word"]), 1),
        "a word too many in blocks": (too_long([in_block("text", most - 1), in_block("text", 2)]), 1),
        "a word too many in a block of another kind": (too_long([in_block("", most + 1)]), 1),
        "no commit in a date": no_commits({"page": shown.replace("`b83b6e3f`", "`ddda0fc2`")}, commits),
        "no commit after another": no_commits({"page": shown.replace(" ed520520", " abd02866")}, commits),
        "no hash": no_commits({"page": shown.replace(" b83b6e3f ", " b83b6e3g ")}, commits),
        "bytes of no page": no_commits({"page": shown.replace(f"`{min(BYTES)}`", "")}, commits),
    }
    quoted = in_block("text", most + 1).replace("<!-- not quoted -->", "As in `src/lib.rt`")
    sound = [*too_long([in_block("text", most), in_block("rust", most + 1), quoted]), *no_commits({"page": shown}, commits)[0]]
    missed = [f"selftest: not found: {fault}" for fault, (found, _) in planted.items() if not found]
    return missed + [f"selftest: found: {it}" for it in sound], 1


def list_findings(section: str) -> tuple[list[str], int]:
    """What isn't as MAP says, and how many words and lengths were checked."""
    skipped = set(re.findall(r"`(\w+)`", SKIP.search(section)[1]))
    items, read = ITEM.findall(section), ""
    found, checked = ill_formed(items), 1
    for name, stated, text in items:
        parts = {(crate, path): part(crate, path, end) for crate, path, end in FILE.findall(text)}
        length = sum(map(len, parts.values()))
        checked += 1
        if length != int(stated):
            found.append(f"docs/MAP.md: {name} is {length} lines")
        bodies = {key: "\n".join(line for line in lines if "use Rattle." not in line) for key, lines in parts.items()}
        for (crate, path), lines in parts.items():
            uses = TAKEN.findall((CRATES / SHORT[crate] / path).read_text())
            taken = " ".join(words for module, words in uses if module != pathlib.Path(path).stem)
            for word in sorted(set(re.findall(r"\w+", taken)) - skipped):
                if not re.search(rf"\b{word}\b", bodies[crate, path]):
                    continue
                checked += 1
                elsewhere = read + "".join(body for key, body in bodies.items() if key != (crate, path))
                if not re.search(rf"\b{word}\b", elsewhere):
                    found.append(f"docs/MAP.md: {crate}/{path} uses {word}, which is in no file of the list")
        read += "".join(bodies.values())
    return found, checked


def main() -> int:
    if sys.argv[1:] == ["words"]:
        texts = {page: page.read_text() for page in PAGES}
        print("".join(f"{words(text):6} {words_in_blocks(text):6} {page.relative_to(TOP)}\n" for page, text in texts.items()), end="")
    found, checked = findings()
    print("".join(f"{line}\n" for line in found), end="")
    print(f"{checked - len(found)} passed, {len(found)} failed")
    return 1 if found or checked < 50 else 0


if __name__ == "__main__":
    sys.exit(main())
