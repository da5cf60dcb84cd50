"""The types of a crate that tlsgen wrote, by their pages in specs/ and their code."""
from __future__ import annotations

import pathlib
import re

from lib.libraries import CRATES

# A name, or the parts of an application.
Term = str | list["Term"]


def term(text: str) -> Term:
    """The application that a text is: a list of its parts."""
    words = re.findall(r"[()]|[^\s()]+", text)

    def read(at: int) -> tuple[list[Term], int]:
        """The parts from a word on to the next closing bracket, and the word after it."""
        out: list[Term] = []
        while at < len(words) and words[at] != ")":
            if words[at] == "(":
                inner, at = read(at + 1)
                out.append(inner)
            else:
                out.append(words[at])
                at += 1
        return out, at + 1

    return read(0)[0]


def shown(one: Term) -> str:
    """An application as a text, in brackets."""
    return one if isinstance(one, str) else "(" + " ".join(shown(part) for part in one) + ")"


def flat(one: Term) -> list[str]:
    """The trees of a row, of nested groups."""
    if isinstance(one, list) and len(one) == 1:
        return flat(one[0])
    if isinstance(one, str):
        return [] if one == "Empty" else [one]
    if one[0] in ("pair_tree", "triple_tree"):
        return [tree for part in one[1:] for tree in flat(part)]
    if one[0] == "Join":
        return flat(one[1]) + flat(one[2])
    return [shown(one)]


class Written:
    """A type of a written crate, by its page in specs/."""

    def __init__(self, crate: str, path: pathlib.Path) -> None:
        text = path.read_text()
        self.crate, self.name, self.text = crate, path.stem, text
        self.module = re.search(r"specs\.declared\.(\w+)\.", text)[1]
        self.word = re.search(r"^abbrev pub (\w+)_plain ", text, re.M)[1]
        self.is_values = f"abbrev pub {self.word}_code " in text
        self.is_sum = f"abbrev pub {self.word}_tag " in text
        self.is_in_context = f"{self.word}_format_for " in text
        code = (CRATES / crate / "src" / f"{self.module}.rt").read_text()
        self.context = re.search(r"impl SizeFor<(\w+)> for", code)[1] if self.is_in_context else None
        self.is_borrowed = f"pub struct {self.name}<'a>" in code or f"pub enum {self.name}<'a>" in code
        body = text[text.index(f"abbrev pub {self.word}_plain ") :].split("\n\n")[0].split("\n", 1)[1]
        self.clauses: list[tuple[str, Term]] = []
        for clause in re.split(rf"^{self.word}_plain ", body, flags=re.M)[1:]:
            left, right = clause.split("=", 1)
            self.clauses.append((left.strip(), term(right)))
        self.variants = re.search(rf"\.{self.name}\.TheVariants\.\{{(.*)\}}", text)

    @property
    def rust(self) -> str:
        """The type in Rust."""
        return self.name + ("<'static>" if self.is_borrowed else "")

    @property
    def format(self) -> str:
        """The name of its format."""
        return f"{self.word}_format_for" if self.is_in_context else f"{self.word}_format"

    @property
    def is_registry(self) -> bool:
        """Whether its numbers have names, and are all of its values."""
        return f"abbrev pub {self.word}_names :" in self.text

    def is_named_values(self, name: str | None) -> bool:
        """Whether it is an enum of numbers with this name in the text."""
        return self.is_values and bool(name)

    def uses(self) -> list[str]:
        """The words that its plain trees need, as lines of imports."""
        return [line for line in self.text.split("\n") if line.startswith("use ")]

    def names_of_variants(self) -> list[str]:
        """The variants that its page names."""
        return self.variants[1].split(", ") if self.variants else []

    def qualified(self, head: str) -> str:
        """A pattern whose variant is named with the type, since several types may have one of its name."""
        words = self.names_of_variants()
        return re.sub(r"^(\(?)(\w+)", lambda found: found[1] + (self.name if found[2] in words else "") + found[2], head) if words else head
