"""The presentation language of RFC 8446, section 3, and RFC 9420, section 2.1, and the notes beside it, as crates/tlsgen/data has them.

Definitions, their parts and notes are tuples that begin with their kind; fields and selects are dictionaries. All scripts read
texts by it. `tlsgen` has a reader of its own.
"""
from __future__ import annotations

import re
from typing import Any

# A field: `of` is its type, `name` what it is called or None, `optional` whether it may be absent, `vector` how many values it has,
# `constant` the one value that it may have or None.
Field = dict[str, Any]
# A select: the `path` of its tag, its `cases` as labels and fields, and its `ending`.
Select = dict[str, Any]
# A name of a value, or its number.
Label = str | int
# ("field", Field), ("select", Select), or of a struct also ("enum", values, name), ("struct", items, name) and ("signed", items, name).
Part = tuple[Any, ...]
# ("enum", is_open, values, name), ("struct", is_borrowed, parts, name), ("signed_struct", items, name) or ("alias", Field).
Definition = tuple[Any, ...]
# A named number of an enum, or the first and the last of a range.
Value = tuple[Label | None, int] | tuple[Label | None, int, int]


def tokens(text: str) -> list[str]:
    """The words and signs of a text, without comments."""
    text = re.sub(r"/\*.*?\*/", " ", text, flags=re.S)
    text = re.sub(r"//[^\n]*", " ", text)
    return re.findall(r"0x[0-9A-Fa-f]+|[0-9]+(?:\^[0-9]+)?(?:-[0-9]+)?|[A-Za-z_][A-Za-z0-9_.-]*|\S", text)


def number(word: str) -> int:
    """A number as the texts have it: `0x2a`, `42`, `2^14` or `2^16-1`."""
    if word.startswith("0x"):
        return int(word, 16)
    power, _, less = word.partition("-")
    base, _, exponent = power.partition("^")
    return int(base) ** int(exponent or 1) - int(less or 0)


def is_number(word: str) -> bool:
    """Whether a word is a number, and no name."""
    return word[0].isdigit()


class Parser:
    """The words of a text, and what is read of them: `all` are its definitions, and `notes` are those of a file of notes."""

    def __init__(self, text: str) -> None:
        self.words, self.at = tokens(text), 0

    def peek(self) -> str | None:
        """The next word, or None at the end."""
        return self.words[self.at] if self.at < len(self.words) else None

    def take(self, *wanted: str) -> str:
        """Takes the next word, which has to be one of these, if any are given."""
        word = self.words[self.at]
        self.at += 1
        if wanted and word not in wanted:
            raise SystemExit(f"found {word}, expected {wanted}: {self.words[self.at - 6:self.at + 4]}")
        return word

    def has(self, word: str) -> bool:
        """Takes the next word if it is this one. Returns whether it was."""
        if self.peek() == word:
            self.at += 1
            return True
        return False

    def label(self) -> Label:
        """A name, or a number."""
        word = self.take()
        return number(word) if is_number(word) else word

    def vector(self) -> tuple[Any, ...]:
        """How many values a field has: `[16]`, `[length]`, `<V>`, `<0..255>`, or one."""
        if self.has("["):
            word = self.take()
            self.take("]")
            return ("array", number(word)) if is_number(word) else ("counted", word)
        if self.has("<"):
            if self.has("V"):
                self.take(">")
                return ("variable",)
            least = number(self.take())
            self.take("."), self.take(".")
            most = number(self.take())
            self.take(">")
            return ("bounded", least, most)
        return ("one",)

    def field(self) -> Field:
        """A field, to its semicolon."""
        one = {"optional": False, "name": None, "constant": None}
        if self.has("optional"):
            self.take("<")
            one["of"] = self.take()
            self.take(">")
            one["optional"] = True
        else:
            one["of"] = self.take()
        if re.match(r"[A-Za-z_]", self.peek()):
            one["name"] = self.take()
        one["vector"] = self.vector()
        if self.has("="):
            if self.has("{"):
                numbers = [number(self.take())]
                while self.has(","):
                    numbers.append(number(self.take()))
                self.take("}")
                one["constant"] = ("bytes", numbers)
            else:
                one["constant"] = ("is", self.label())
        self.take(";")
        return one

    def values(self) -> list[Value]:
        """The values of an enum in their braces, where one without a name bounds the others."""
        self.take("{")
        values = []
        while not self.has("}"):
            label = None if self.peek() == "(" else self.label()
            self.take("(")
            least = number(self.take())
            if self.has("."):
                self.take(".")
                values.append((label, least, number(self.take())))
            else:
                values.append((label, least))
            self.take(")")
            self.has(",")
        return values

    def select(self) -> Select:
        """A select after its word, to its end."""
        self.take("(")
        one = {"path": self.take(), "cases": [], "ending": ("bare",)}
        self.take(")"), self.take("{")
        while not self.has("}"):
            labels = []
            while self.has("case"):
                labels.append(self.label())
                self.take(":")
            fields = []
            if self.has("struct"):
                self.take("{"), self.take("}"), self.take(";")
            else:
                while self.peek() not in ("case", "}"):
                    fields.append(self.field())
            one["cases"].append((labels, fields))
        if self.has(";"):
            one["ending"] = ("ended",)
        elif re.match(r"[A-Za-z_]", self.peek()):
            one["ending"] = ("called", self.take())
            self.take(";")
        return one

    def item(self) -> Part:
        """A field or a select."""
        return ("select", self.select()) if self.has("select") else ("field", self.field())

    def items(self) -> list[Part]:
        """Fields and selects in their braces."""
        self.take("{")
        items = []
        while not self.has("}"):
            items.append(self.item())
        return items

    def part(self) -> Part:
        """A part of a struct: an item, or an enum, a struct or a signed struct within it."""
        if self.has("enum"):
            return ("enum", self.values(), self.named())
        if self.has("struct"):
            return ("struct", self.items(), self.named())
        if self.has("digitally-signed"):
            self.take("struct")
            items = self.items()
            name = None if self.peek() == ";" else self.take()
            self.take(";")
            return ("signed", items, name)
        return self.item()

    def named(self) -> str:
        """The name that ends a definition."""
        name = self.take()
        self.take(";")
        return name

    def definition(self) -> Definition:
        """A definition of a text."""
        if self.has("digitally-signed"):
            self.take("struct")
            return ("signed_struct", self.items(), self.named())
        is_borrowed, is_open = self.has("borrowed"), self.has("open")
        if self.has("enum"):
            return ("enum", is_open, self.values(), self.named())
        if self.has("struct"):
            self.take("{")
            parts = []
            while not self.has("}"):
                parts.append(self.part())
            return ("struct", is_borrowed, parts, self.named())
        return ("alias", self.field())

    def all(self) -> list[Definition]:
        """The definitions of a text, to its end."""
        out = []
        while self.peek() is not None:
            out.append(self.definition())
        return out

    def notes(self) -> list[tuple[Any, ...]]:
        """The notes of a file, to its end: ("Equals", path, label) and others, by the words of the texts."""
        out = []
        while self.peek() is not None:
            path, word = self.take(), self.take()
            if word == "counts":
                self.take("rest")
                out.append(("CountsRest", path))
            elif word == "fills":
                self.take("rest")
                if self.has("with"):
                    self.take("zeros")
                    out.append(("FillsZeros", path))
                else:
                    out.append(("FillsRest", path))
            elif word == "ends":
                out.append(("Ends", path, self.take()))
            elif word == "=":
                out.append(("Equals", path, self.label()))
            elif word == "is":
                out.append(({"closed": "IsClosed", "open": "IsOpen", "borrowed": "IsBorrowed"}[self.take()], path))
            elif word == "called":
                out.append(("IsCalled", path, self.take()))
            else:
                self.take("out")
                out.append(("LeftOut", path))
            self.take(";")
        return out


def name_of(one: Definition) -> str:
    """The name of a definition."""
    return field_name(one[1]) if one[0] == "alias" else one[-1]


def snake(name: str) -> str:
    """`TLSPlaintext` as `tls_plaintext`, and `MLSMessage` as `mls_message`."""
    return re.sub(r"(?<=[a-z])(?=[A-Z])|(?<=[A-Z])(?=[A-Z][a-z])", "_", name).lower()


def field_name(field: Field) -> str:
    """What a field is called: the name of its type, if it has none."""
    return field["name"] or field["of"]


def plain(of: str, name: str) -> Field:
    """A field of one value."""
    return {"of": of, "name": name, "optional": False, "vector": ("one",), "constant": None}
