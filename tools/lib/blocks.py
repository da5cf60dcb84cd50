"""A page's blocks of code, and its lines outside of them."""
from __future__ import annotations

import re
from collections.abc import Iterator

FENCE = re.compile(r"^ *```")
# The line before a block that is no quote.
NOT_QUOTED = re.compile(r"<!-- (?:not quoted|file: \S+) -->")


def blocks(lines: list[str]) -> Iterator[tuple[list[str], str, list[tuple[int, str]]]]:
    """Each block of a page: the words since the last one, what it is, and its lines by number."""
    words, kind, quote = [], None, []
    for number, line in enumerate(lines, 1):
        if FENCE.match(line):
            if kind is None:
                kind, quote = line.strip()[3:], []
            else:
                yield words, kind, quote
                words, kind = [], None
        elif kind is None:
            words.append(line)
        elif line.strip():
            quote.append((number, line.strip()))


def prose(lines: list[str]) -> Iterator[tuple[int, str]]:
    """The lines of a page outside of its blocks, by number."""
    inside = False
    for number, line in enumerate(lines, 1):
        if FENCE.match(line):
            inside = not inside
        elif not inside:
            yield number, line
