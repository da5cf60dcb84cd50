"""Which part of its text each type of a written crate is, and what its values say: their parts by the names in the text."""
from __future__ import annotations

import re
from typing import Any

from lib.laws.definitions import label_text, listed, quoted
from lib.laws.shapes import Shape, spread
from lib.laws.written import Written, flat
from lib.libraries import CRATES, DATA
from lib.presentation import Field, Parser, Part, field_name, name_of

# A clause of a definition by cases: a pattern, what is said, and the proof that a value says so.
Clause = tuple[str, str, str]


def alike(a: str, b: str) -> bool:
    """Whether two names have the same letters and digits, small or not."""
    return re.sub(r"[_.]", "", a).lower() == re.sub(r"[_.]", "", b).lower()


def members(names: list[str], trees: list[str]) -> str:
    """The parts of a value, each called by its name."""
    texts = [f"called {quoted(name)} {tree if ' ' not in tree or tree[0] == '(' else f'({tree})'}" for name, tree in zip(names, trees)]
    return listed(texts, " ∷\n    ")


class Reading:
    """A text, and the types that a crate has of it."""

    def __init__(self, crate: str, text_name: str, over: list[str]) -> None:
        self.crate, self.text_name, self.over = crate, text_name, over
        self.laws = f"{crate}_laws"
        self.lines = (DATA / f"{text_name}.tls").read_text().split("\n")[:-1]
        notes = DATA / f"{text_name}.notes"
        self.note_lines = notes.read_text().split("\n")[:-1] if notes.exists() else []
        self.definitions: list[Part] = Parser("\n".join(self.lines)).all()
        self.notes: list[Part] = Parser("\n".join(self.note_lines)).notes()
        self.shapes = [Shape(name, items, self.notes) for name, items in spread(self.definitions)]
        self.types = [Written(crate, path) for path in sorted((CRATES / crate / "specs").glob("*.antt")) if path.stem != "Lib"]

    def definition(self, one: Written) -> str | None:
        """The name in the text of what a type is, if it has one there."""
        for suffix in ("", "Type"):
            for each in self.definitions:
                if alike(name_of(each) + suffix, one.name):
                    return name_of(each)
        for shape in self.shapes:
            if alike(shape.name, one.name):
                return shape.name
        for note in self.notes:
            if note[0] == "Equals" and isinstance(note[2], int) and alike(note[1].split(".")[0], one.name):
                return note[1].split(".")[0]
        return None

    def is_named_values(self, one: Written) -> bool:
        """Whether a type is an enum of numbers that the text names."""
        return one.is_named_values(self.definition(one))

    def shape(self, name: str) -> Shape | None:
        """The struct of this name."""
        return next((shape for shape in self.shapes if shape.name == name), None)

    def holder(self, one: Written) -> tuple[Shape, tuple[str, str, Any]]:
        """The struct and the part whose type it is."""
        for other in self.types:
            name = self.definition(other)
            shape = self.shape(name) if name else None
            if shape is None or other.is_sum:
                continue
            trees = [tree for _, tree in other.clauses[:1] for tree in flat(tree)]
            for tree, part in zip(trees, shape.parts):
                if tree.startswith(f"({one.word}_plain "):
                    return shape, part
        raise SystemExit(f"{one.name}: no struct has it")

    def means(self, one: Written) -> str:
        """The meaning of a type's name in the text, or that of the part that it is."""
        name = self.definition(one)
        if name is not None:
            return f"means {self.crate} {quoted(name)} c"
        shape, part = self.holder(one)
        return f"part_means {self.crate} {quoted(shape.name)} {quoted(part[0])} c"

    def says(self, one: Written) -> list[Clause]:
        """The clauses that say what a type's values say."""
        name = self.definition(one)
        if one.is_values:
            return self.value_says(one, name)
        if one.is_sum:
            return self.sum_says(one, name)
        shape = self.shape(name)
        if shape is None:
            return [("v", f"number_says {self.crate} {quoted(name)} v.0", f"number_saying {self.crate} {quoted(name)} v.0 d b")]
        head, tree = one.clauses[0]
        trees = flat(tree)
        if len(trees) != len(shape.parts):
            raise SystemExit(f"{one.name}: {trees} for {shape.parts}")
        saying = "borrowed_saying" if one.is_borrowed and "then_format" not in one.text else "struct_saying"
        context = "c" if one.is_in_context else "Empty"
        args = f"{self.crate} {quoted(name)} {context} {members([part[0] for part in shape.parts], trees)}"
        return [(head, f"says {args}", f"{saying} {args} d b")]

    def value_says(self, one: Written, name: str | None) -> list[Clause]:
        """The clauses of an enum of numbers, or of a constant part."""
        if name is None:
            shape, part = self.holder(one)
            return [("v", f"constant_says {self.crate} {quoted(shape.name)} {quoted(part[0])}", "same_iff")]
        out: list[Clause] = []
        for line in one.text.split("\n"):
            if line.startswith(f"{one.word}_name ") and "=" in line:
                head, value = line[len(one.word) + 6 :].split("=")[0].strip(), re.search(r'codes ("[^"]*")', line)[1]
                out.append((head, f"value_says {self.crate} {quoted(name)} {value}", "same_iff"))
        return out

    def sum_says(self, one: Written, name: str | None) -> list[Clause]:
        """The clauses of an enum with parts, one for each case of the tag."""
        shape, part = (self.shape(name), self.shape(name).parts[0]) if name is not None else self.holder(one)
        _, kind, (tag, cases) = part
        if len(cases) != len(one.clauses):
            raise SystemExit(f"{one.name}: {one.clauses} for {cases}")
        context = "c" if one.is_in_context else "Empty"
        word = {"tag": "case", "outer": "choice"}[kind]
        out: list[Clause] = []
        for (head, tree), (label, fields) in zip(one.clauses, cases):
            members = self.case_members(one, flat(tree)[1:], fields)
            args = f"{self.crate} {quoted(shape.name)} {quoted(tag)} {label_text(label)} {context} {members}"
            out.append((head, f"{word}_says {args}", f"{word}_saying {args} d b"))
        return out

    def case_members(self, one: Written, trees: list[str], fields: list[Field]) -> str:
        """The parts of one case, each called by its name."""
        if len(trees) != len(fields):
            raise SystemExit(f"{one.name}: {trees} for {fields}")
        return members([field_name(field) for field in fields], trees)
