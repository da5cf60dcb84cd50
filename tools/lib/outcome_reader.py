"""Says of bytes what the validators of the static libraries say, by the texts and notes of crates/tlsgen/data.

It shares no code with the library or with what `tlsgen` writes. It follows RFC 8446, section 3, and the pages: docs/ERRORS.md (the slice
path), docs/MESSAGES.md (which numbers an enum has, and what a note says) and docs/CALLERS.md (statuses, places and spans).
"""
from __future__ import annotations

from dataclasses import dataclass
from typing import Any

from lib.libraries import TEXT_OF_CRATE, Libraries, texts_of
from lib.message_reader import WIDTHS, Text, end_of
from lib.presentation import snake
from lib.row_reader import VARIABLE, Input
from lib.row_reader import Rejected as Unread

# The texts of each library whose messages callers validate.
TEXT_OF_LIBRARY = {it: Text(texts_of(it)) for it in TEXT_OF_CRATE if f"{it}_c" in Libraries().static}
# The statuses of docs/CALLERS.md that a validator returns.
STATUSES = {"InvalidVectorLength": 2, "DecodingError": 5, "EndOfStream": 6, "TrailingData": 7, "UnknownValue": 8}
NOT_THERE = 'DecodingError("declared content is not there")'
# A field or a select as presentation.py has it; the first byte of a field, and that after its last one.
Part = dict[str, Any]
Span = tuple[int, int]


class Rejected(Exception):
    """A field is rejected: the error as `Display` prints it, and the byte at which the field begins."""

    def __init__(self, error: str, at: int, unknown: int = 0) -> None:
        self.error, self.at, self.unknown = error, at, unknown

    def outcome(self, start: int = 0) -> Outcome:
        """What a call returns whose bytes begin at `start`."""
        return Outcome(STATUSES[self.error.partition("(")[0]], 0, self.at - start, self.unknown)


@dataclass
class Outcome:
    """The four numbers of `tls_codec_outcome`. Status 0: the bytes begin with a message."""

    status: int
    taken: int
    at: int
    detail: int

    def __str__(self) -> str:
        return f"{self.status} {self.taken} {self.at} {self.detail}"


def accepted(taken: int) -> Outcome:
    """The bytes begin with a message of `taken` bytes."""
    return Outcome(0, taken, 0, 0)


class Reader:
    """Bytes that messages are read from. `known` has the names of the tags that were read, by their fields."""

    def __init__(self, text: Text, data: bytes) -> None:
        self.text, self.data = text, data
        self.at, self.end = 0, len(data)
        self.known: dict[str, str | None] = {}

    def left(self) -> int:
        return self.end - self.at

    def take(self, count: int, begun: int) -> int:
        """The next `count` bytes as a number, for a field that has begun at this byte."""
        if count > self.left():
            raise Rejected("EndOfStream", begun)
        self.at += count
        return int.from_bytes(self.data[self.at - count : self.at], "big")

    def struct(self, of: str) -> list[Span]:
        """The struct's fields, and where each is. A length that another part has by name is no field of its own."""
        spans, parts, at = [], self.text.structs[of], 0
        while at < len(parts):
            part, begun = parts[at], self.at
            after = parts[at + 1] if at + 1 < len(parts) else {}
            at += 1
            if "cases" in part:
                self.select(of, part)
                spans.append((begun, self.at))
            elif f"{of}.{part['name']}" in self.text.counts_rest:
                self.enclosed(of, part, after)
                spans.append((begun, self.at))
                at += 1
            elif after.get("vector", ())[:1] == ("counted",) and end_of(after["vector"][1]) == part["name"]:
                spans.append(self.field(of, after | {"vector": ("bounded", 0, (1 << 8 * WIDTHS[part["of"]]) - 1)}))
                at += 1
            else:
                spans.append(self.field(of, part))
        return spans

    def select(self, of: str, select: Part) -> None:
        """The fields of the case of a tag that was read, or that a note names."""
        tag = self.text.fixed.get((of, end_of(select["path"])), self.known.get(end_of(select["path"])))
        fields = next((fields for labels, fields in select["cases"] if tag in labels), None)
        if fields is None:
            raise LookupError(f"another message has the {select['path']} that says what is in a {of}")
        for field in fields:
            self.field(of, field)

    def enclosed(self, of: str, length: Part, select: Part) -> None:
        """A length, and what has just as many bytes."""
        begun, end = self.at, self.end
        count = self.take(WIDTHS[length["of"]], begun)
        if count > self.left():
            raise Rejected("EndOfStream", begun)
        self.end = self.at + count
        self.select(of, select)
        if self.left():
            raise Rejected("TrailingData", self.at)
        self.end = end

    def field(self, of: str, field: Part) -> Span:
        """Where a field is: of an `opaque` its bytes, of anything else all of it."""
        begun, kind = self.at, field["vector"][0]
        if field["optional"] and kind == "one":
            self.optional(field)
        elif kind == "one":
            return self.value(of, field)
        elif kind == "array":
            self.take(field["vector"][1], begun)
        elif kind == "counted":
            if f"{of}.{field['name']}" not in self.text.fills_rest:
                raise LookupError(f"{of}.{field['name']}: nothing says how many bytes it has")
            self.take(self.left(), begun)
        else:
            return self.vector(of, field)
        return begun, self.at

    def optional(self, field: Part) -> None:
        begun = self.at
        tag = self.take(1, begun)
        if tag > 1:
            raise Rejected('DecodingError("option tag is not 0 or 1")', begun)
        if tag:
            self.value("", field)

    def length(self, vector: tuple[Any, ...]) -> int:
        """The length of a vector: variable, or as wide as its upper bound needs, and within its bounds."""
        begun = self.at
        if vector[0] == "bounded":
            _, least, most = vector
            count = self.take((most.bit_length() + 7) // 8, begun)
            if not least <= count <= most:
                raise Rejected("InvalidVectorLength", begun)
            return count
        source = Input(self.data[begun : self.end], True)
        try:
            count = VARIABLE.read(source)
        except Unread as error:
            raise Rejected(str(error), begun) from None
        self.at += source.at
        return count

    def vector(self, of: str, field: Part) -> Span:
        begun = self.at
        count = self.length(field["vector"])
        first, last = self.at, self.at + count
        if field["of"] == "opaque":
            if count > self.left():
                raise Rejected(NOT_THERE if field["vector"] == ("variable",) else "EndOfStream", begun)
            self.at = last
            return first, last
        while self.at < last:
            element = self.at
            self.field(of, field | {"vector": ("one",), "name": None, "constant": None})
            if self.at == element:
                raise Rejected('DecodingError("vector element consumed 0 bytes")', element)
            if self.at > last:
                raise Rejected('DecodingError("elements do not fill the declared length")', element)
        return begun, last

    def value(self, of: str, field: Part) -> Span:
        begun, kind = self.at, field["of"]
        if kind in self.text.structs:
            self.struct(kind)
        elif width := self.text.width(kind):
            self.check(of, field, begun, self.take(width, begun))
        else:
            return self.field(kind, self.text.others[kind])
        return begun, self.at

    def check(self, of: str, field: Part, begun: int, number: int) -> None:
        """A number that is no value of its field: of a constant, of a tag whose select has no case for it, of a closed enum."""
        kind, label = field["of"], field["name"]
        name = self.text.name(kind, number)
        select = self.text.select_on(of, label) if of and label else None
        if select:
            known = any(name in labels for labels, _ in select["cases"])
        else:
            known = number == self.text.constants.get((of, label), number) and self.text.has(kind, number)
        if not known:
            raise Rejected(f"UnknownValue({number})", begun, number)
        if label:
            self.known[label] = name


def struct_of(name: str) -> tuple[Text, str]:
    """The struct that a name of the static libraries is of, and its texts: `MLSMessage` of mls_message, `KeyPackage` of mls_key_package."""
    library = name.partition("_")[0]
    for it in TEXT_OF_LIBRARY[library].structs if library in TEXT_OF_LIBRARY else ():
        if name == f"{library}_{snake(it).removeprefix(f'{library}_')}":
            return TEXT_OF_LIBRARY[library], it
    raise LookupError(f"no struct is called {name} in the static libraries")


def located(name: str, data: bytes) -> tuple[Outcome, list[Span], dict[str, str | None]]:
    """What the validator says of a message, where its fields are, and its tags. The last two are empty if it is rejected."""
    text, of = struct_of(name)
    reader = Reader(text, data)
    try:
        spans = reader.struct(of)
    except Rejected as error:
        return error.outcome(), [], {}
    return accepted(reader.at), spans, reader.known


def elements(name: str, data: bytes) -> tuple[Outcome, list[Span]]:
    """What the last call of NAME_next says of the elements of a list, and where each is. `at` counts from where the last one begins."""
    text, of = struct_of(name.replace("_optional_", "_", 1))
    element = {"of": of, "name": None, "optional": "_optional_" in name, "vector": ("one",), "constant": None}
    reader, spans = Reader(text, data), []
    while not spans or reader.left():
        begun = reader.at
        try:
            reader.field("", element)
        except Rejected as error:
            return error.outcome(begun), spans
        spans.append((begun, reader.at))
    first, last = spans[-1]
    return accepted(last - first), spans


def first_rejected(text: Text, of: str, data: bytes) -> Rejected | None:
    """What is rejected of messages in a row."""
    reader = Reader(text, data)
    try:
        while reader.left():
            reader.struct(of)
    except Rejected as error:
        return error
    return None
