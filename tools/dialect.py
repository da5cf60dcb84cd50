#!/usr/bin/env python3
"""Lists words of this project's dialect, with what to write in their place: in the pages, those at the top, docs/*.md and callers', and in
the comments of the scripts, of what callers elsewhere are given, and of src/ of all crates. It doesn't read their specs/, proofs/ and
edits. KEPT has the words that stay.

Words in `code`, in blocks and in links' targets don't count. Prints a line for each; last 'N passed, N failed', which counts files; the
exit status is 1 if one failed. To find more, add a line to WORDS.
"""
from __future__ import annotations

import io
import pathlib
import re
import sys
import tokenize
from collections.abc import Iterator

from lib.libraries import CALLER_PAGES, PAGES, TOP

CALLERS = ("c/**/*.[ch]", "c/**/*.cc", "rust/**/*.rs", "python/**/*.py")
SCRIPTS = (".ci/run", "tools/*", "tools/lib/**/*.py", "tools/lib/*.sh", "tools/data/*")
SOURCES = (*SCRIPTS, *CALLERS, "crates/*/src/**/*.rt")
# Words that stay, by their file and line. Both come from crates/tlsgen/data, and another text there has `tls13`, `mls_tree` and all crates
# above them written and proved anew: they go with the next change of these texts.
KEPT = {("crates/tls13/src/lib.rt", 1, "but for"), ("crates/tlsdump/src/texts/of_mls_tree.rt", 57, "likewise")}
COMMENT = re.compile(r"\s*//[/!]?(.*)$")
# A line within a comment of C that goes over several, and the hash of scripts and data.
BLOCK = re.compile(r"\s*/?\*+(?!/)(.*?)(?:\*/)?\s*$")
HASH = re.compile(r"\s*#(?!!)(.*)$")
# The tokens after which a string alone is a docstring.
BEFORE_DOCSTRING = {tokenize.ENCODING, tokenize.NEWLINE, tokenize.NL, tokenize.COMMENT, tokenize.INDENT, tokenize.DEDENT}

WORDS = {
    r"(?:of|by|over|upon) (?:which|whom)": "a sentence of its own, or `whose`",
    r"so (?:many|much|few)": "the number's name: `n bytes`",
    r"as far as": "a condition: if",
    r"behind": "after",
    r"stands?(?! for\b)": "is, has",
    r"stood": "was, had",
    r"but for": "except, or without",
    r"what (?:came|comes|becomes) of": "the result of",
    r"whereupon|upon": "if, then, on",
    r"has none either": "a sentence with a subject",
    r"(?:is|are|was|were) looked at": "is checked",
    r"hands? on": "returns, passes",
    r"it is none": "there is no ..",
    r"of its kind|of their kind": "the same",
    r"is told": "is reported",
    r"one's own": "your own",
    r"lest|hence|thereby|therein|thereof": "so",
    r"likewise": "in the same way",
    r"aside": "except for, without",
    r"kin": "others, siblings",
    r"(?:if|where) (?:it is|they are) there": "if it is installed, given",
    r"lent": "borrowed",
    r"wants?": "needs; running out of",
    r"(?:tells?|told)(?! (?:apart|from))": "reports, says, shows",
    r"nowhere else": "only here",
    r"\w+, as `[.;:)]": "such as",
    r"(?-i:Of) (?:what|whom|your own|a|any)": "for, from, or a sentence with a subject",
}
PATTERN = re.compile("|".join(rf"(\b(?:{word})(?!\w))" for word in WORDS), re.I)
BETTER = list(WORDS.values())


def prose(text: str) -> str:
    """The text of a page with blocks, code and the targets of links blanked, line for line."""
    inside, lines = False, []
    for line in text.split("\n"):
        if line.strip().startswith("```"):
            inside, line = not inside, ""
        lines.append("" if inside else re.sub(r"\]\([^)]*\)", "]", re.sub(r"(`+).*?\1", "`", line)))
    return "\n".join(lines)


def comments(path: pathlib.Path, text: str) -> str:
    """The comments of a source, line for line, and the docstrings of Python."""
    if path.suffix == ".py":
        return comments_of_python(text)
    if path.suffix in (".rt", ".rs"):
        forms = [COMMENT]
    else:
        forms = [COMMENT, BLOCK] if path.suffix in (".c", ".h", ".cc") else [HASH]
    found = [next((it[1] for it in (form.match(line) for form in forms) if it), "") for line in text.split("\n")]
    return "\n".join(found)


def comments_of_python(text: str) -> str:
    """The comments and the docstrings of a script, line for line."""
    lines, before, depth = [""] * (text.count("\n") + 1), tokenize.ENCODING, 0
    for token in tokenize.generate_tokens(io.StringIO(text).readline):
        depth += {"(": 1, "[": 1, "{": 1, ")": -1, "]": -1, "}": -1}.get(token.string, 0)
        is_docstring = token.type == tokenize.STRING and before in BEFORE_DOCSTRING and not depth
        if token.type == tokenize.COMMENT or is_docstring:
            for at, line in enumerate(token.string.strip('#"').split("\n"), token.start[0] - 1):
                lines[at] = line
        before = token.type
    return "\n".join(lines)


def words_in(text: str) -> Iterator[tuple[int, str, str]]:
    """Each word of the dialect in a text: its line, the word, and what is better."""
    for found in PATTERN.finditer(re.sub(r"\n", " ", text)):
        line = text.count("\n", 0, found.start()) + 1
        yield line, found[0], BETTER[found.lastindex - 1]


def findings(page: pathlib.Path) -> Iterator[tuple[int, str, str]]:
    """Each word of the dialect in a page, or in a source's comments, and of KEPT that isn't there: its line, the word, what is better."""
    text = page.read_text()
    found = list(words_in(prose(text if page.suffix == ".md" else comments(page, text))))
    kept = {(line, word) for name, line, word in KEPT if TOP / name == page}
    yield from (it for it in found if it[:2] not in kept)
    yield from ((line, word, "it isn't there: drop it from KEPT") for line, word in kept.difference(it[:2] for it in found))


def files(forms: tuple[str, ...]) -> list[pathlib.Path]:
    """The files of these forms, in their order."""
    found = [file for form in forms for file in sorted(TOP.glob(form))]
    return [file for file in found if file.is_file() and not {"out", "target"} & set(file.relative_to(TOP).parts)]


def main() -> int:
    passed, failed = 0, 0
    for page in (*PAGES, *CALLER_PAGES, *files(SOURCES)):
        found = list(findings(page))
        for line, word, better in found:
            print(f"{page.relative_to(TOP)}:{line}: {word!r}: {better}")
        passed, failed = passed + (not found), failed + bool(found)
    print(f"{passed} passed, {failed} failed")
    return 1 if failed or not passed else 0


if __name__ == "__main__":
    sys.exit(main())
