"""Reads the kinds of `tlsview` by both paths, and gives the lines that it prints.

It shares no code with the library. It follows RFC 8446, section 3, and RFC 9000, section 16, as docs/DEFINITIONS.md (formats) and
docs/ERRORS.md (the error that each path names) have them; Kinds.antt and Texts.antt of tlsview_run say what the kinds are and how values
are printed. The paths differ in two rules, and in nothing else: from a reader a list ends for its elements where its length says, and a
content that isn't all there is `EndOfStream`.
"""
from __future__ import annotations

from dataclasses import dataclass
from typing import Any, Protocol

# RFC 9420, section 2.1.2: the lengths that a variable-length vector has are below this.
LENGTHS = 1 << 30


class Rejected(Exception):
    """The bytes begin with no encoding. The argument is the error's name."""


class Input:
    """Bytes that one of the two paths reads, from `at` up to `end`."""

    def __init__(self, data: bytes, is_slice: bool) -> None:
        self.data, self.is_slice = data, is_slice
        self.at, self.end = 0, len(data)

    def left(self) -> int:
        return self.end - self.at

    def take(self, count: int) -> bytes:
        if count > self.left():
            raise Rejected("EndOfStream")
        self.at += count
        return self.data[self.at - count : self.at]


class Type(Protocol):
    """A type of the presentation language: what is read, how a value is written, and its text."""

    def read(self, source: Input) -> Any: ...

    def write(self, value: Any) -> bytes: ...

    def show(self, value: Any) -> str: ...


@dataclass
class Number:
    """`uint8` to `uint64` (RFC 8446, section 3.3): the most significant byte first."""

    width: int

    def read(self, source: Input) -> int:
        return int.from_bytes(source.take(self.width), "big")

    def write(self, value: int) -> bytes:
        return value.to_bytes(self.width, "big")

    def show(self, value: int) -> str:
        return str(value)


@dataclass
class Varint:
    """A variable-length integer (RFC 9000, section 16) in the fewest bytes (RFC 9420, section 2.1.2), below a limit."""

    limit: int = 1 << 62

    def read(self, source: Input) -> int:
        first = source.take(1)[0]
        rest = source.take((1 << (first >> 6)) - 1)
        value = int.from_bytes(bytes([first & 0x3F]) + rest, "big")
        if value >= self.limit or len(self.write(value)) != 1 + len(rest):
            raise Rejected("InvalidVectorLength")
        return value

    def write(self, value: int) -> bytes:
        power = next(it for it in range(4) if value < 1 << (8 * (1 << it) - 2))
        width = 1 << power
        return (power << (8 * width - 2) | value).to_bytes(width, "big")

    def show(self, value: int) -> str:
        return str(value)


@dataclass
class Optional:
    """`optional<T>` (RFC 9420, section 2.1.1): 0, or 1 and the payload. A value is `()` or `(payload,)`."""

    payload: Type

    def read(self, source: Input) -> tuple[Any, ...]:
        tag = source.take(1)[0]
        if tag > 1:
            raise Rejected("DecodingError")
        return (self.payload.read(source),) if tag else ()

    def write(self, value: tuple[Any, ...]) -> bytes:
        return bytes([len(value)]) + b"".join(map(self.payload.write, value))

    def show(self, value: tuple[Any, ...]) -> str:
        return f"some {self.payload.show(value[0])}" if value else "none"


@dataclass
class Vector:
    """`T name<V>` or `T name<0..2^8k-1>` (RFC 8446, section 3.4): the bytes of the content, counted, and the content."""

    length: Number | Varint
    element: Type

    def read(self, source: Input) -> list[Any]:
        count = self.length.read(source)
        last, end = source.at + count, source.end
        if not source.is_slice:
            source.end = min(last, end)
        values = []
        while source.at < last:
            begun = source.at
            values.append(self.element.read(source))
            # an element without bytes fills nothing; one past the declared end fills too much
            if source.at == begun or source.at > last:
                raise Rejected("DecodingError")
        source.end = end
        return values

    def write(self, value: list[Any]) -> bytes:
        content = b"".join(map(self.element.write, value))
        return self.length.write(len(content)) + content

    def show(self, value: list[Any]) -> str:
        return f"[{','.join(map(self.element.show, value))}]"


@dataclass
class Opaque:
    """`opaque name<V>` or `opaque name<0..2^8k-1>`: counted bytes, printed as hex."""

    length: Number | Varint

    def read(self, source: Input) -> bytes:
        count = self.length.read(source)
        if count > source.left() and source.is_slice and isinstance(self.length, Varint):
            raise Rejected("DecodingError")
        return source.take(count)

    def write(self, value: bytes) -> bytes:
        return self.length.write(len(value)) + value

    def show(self, value: bytes) -> str:
        return digits_of(value)


class Utf8(Opaque):
    """The same, whose bytes are UTF-8 (RFC 3629)."""

    def read(self, source: Input) -> bytes:
        value = super().read(source)
        try:
            value.decode("utf-8", "strict")
        except UnicodeDecodeError:
            raise Rejected("DecodingError") from None
        return value


@dataclass
class Struct:
    """The fields in a row (RFC 8446, section 3.6)."""

    fields: tuple[Type, ...]

    def read(self, source: Input) -> list[Any]:
        return [it.read(source) for it in self.fields]

    def write(self, value: list[Any]) -> bytes:
        return b"".join(it.write(part) for it, part in zip(self.fields, value, strict=True))

    def show(self, value: list[Any]) -> str:
        return f"({','.join(it.show(part) for it, part in zip(self.fields, value, strict=True))})"


@dataclass
class Select:
    """A tag of one byte, and what its case has (RFC 8446, section 3.8). A case has its name and its field, if any."""

    cases: dict[int, tuple[str, Type | None]]

    def read(self, source: Input) -> tuple[int, Any]:
        tag = source.take(1)[0]
        if tag not in self.cases:
            raise Rejected("UnknownValue")
        field = self.cases[tag][1]
        return tag, field.read(source) if field else None

    def write(self, value: tuple[int, Any]) -> bytes:
        field = self.cases[value[0]][1]
        return bytes([value[0]]) + (field.write(value[1]) if field else b"")

    def show(self, value: tuple[int, Any]) -> str:
        name, field = self.cases[value[0]]
        return f"{name} {field.show(value[1])}" if field else name


U8, U16, U32 = Number(1), Number(2), Number(4)
VARIABLE = Varint(LENGTHS)
# The messages of tls_codec_vectors: a code and a name; a ping, a note or a jump; an identity, leaves and perhaps a last step.
LEAF = Struct((U16, Opaque(VARIABLE)))
STEP = Select({0: ("ping", None), 1: ("note", Utf8(VARIABLE)), 2: ("jump", U32)})
KINDS: dict[str, Type] = {
    "u16": U16,
    "varint": Varint(),
    "option-u16": Optional(U16),
    "vec-u8": Vector(VARIABLE, U8),
    "vec-u16": Vector(VARIABLE, U16),
    "vec-vec-u16": Vector(VARIABLE, Vector(VARIABLE, U16)),
    "string": Utf8(VARIABLE),
    "mixed": Struct((U8, Vector(VARIABLE, U16), Optional(Utf8(VARIABLE)))),
    "vlbytes": Opaque(VARIABLE),
    "vec-vlbytes": Vector(VARIABLE, Opaque(VARIABLE)),
    "vecu8-u16": Vector(U8, U16),
    "bytevecu32": Opaque(U32),
    "leaf": LEAF,
    "step": STEP,
    "log": Struct((Opaque(U8), Vector(U16, LEAF), Optional(STEP))),
}


def digits_of(data: bytes) -> str:
    """Hex, and `-` for no bytes."""
    return data.hex() or "-"


def read_by(path: str, kind: Type, data: bytes) -> tuple[str, Any]:
    """The line of a path, `slice` or `reader`, and the value in a list, which is empty if there is none."""
    source = Input(data, path == "slice")
    try:
        value = kind.read(source)
    except Rejected as error:
        return f"{path} refused {error}", []
    return f"{path} ok {kind.show(value)} rest {digits_of(data[source.at:])}", [value]


def answer(name: str, data: bytes) -> tuple[int, list[str]]:
    """The exit status of `tlsview`, and the lines that it prints of these bytes."""
    kind = KINDS[name]
    (by_slice, value), (by_reader, other) = (read_by(path, kind, data) for path in ("slice", "reader"))
    if value != other:
        raise AssertionError(f"{name} {data.hex()}: the paths read different values")
    lines = [by_slice, by_reader]
    if not value:
        return 1, lines
    return 0, [*lines, f"least {digits_of(kind.write(value[0]))}"]
