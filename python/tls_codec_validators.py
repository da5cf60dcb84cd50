"""Validates messages of TLS 1.3 and MLS by the static libraries of this repository, linked as one shared object, which
`tools/archives.py --shared` puts into c/out.

    validators = Validators("c/out/libtls_codec.so")
    fields = validators.locate("mls_key_package", data)
    content = validators.locate("tls_codec_opaque_v", fields["extensions"])["content"]
    for extension in validators.elements("mls_extension", content): ...

A number's field is its bytes: `int.from_bytes(fields["epoch"], "big")`. Bytes that are rejected raise `Rejected`, a `ValueError`. A
name that isn't in the headers raises a `LookupError`, which lists those that are.

docs/CALLERS.md says what is proved and what is trusted.
"""
from __future__ import annotations

import ctypes
import os
import pathlib
from collections.abc import Callable, Iterator
from typing import TypeVar, Union

from tls_codec_exports import CALLS, FIELDS, MARK, OTHER_STATUS, SENTENCES, STATUSES, VERSION, MlsWireFormat

__version__ = VERSION
Buffer = Union[bytes, bytearray, memoryview]
Found = TypeVar("Found")


def _plain(data: Buffer) -> bytes:
    """The bytes themselves, or a copy of those in a buffer, such as `recv_into` fills."""
    return data if isinstance(data, bytes) else bytes(memoryview(data))


def varint_value(varint: bytes) -> int:
    """The number that the bytes of a variable-length integer are, such as `validate_prefix("tls_codec_varint", ..)` returns."""
    if not varint or len(varint) != 1 << (varint[0] >> 6):
        raise ValueError(f"{varint.hex()!r} has not the width that it begins with")
    return int.from_bytes(varint, "big") & ((1 << (8 * len(varint) - 2)) - 1)


class Outcome(ctypes.Structure):
    """What a call says of bytes, as in tls_codec/outcome.h."""

    _fields_ = [("status", ctypes.c_uint32), ("taken", ctypes.c_size_t), ("at", ctypes.c_size_t), ("detail", ctypes.c_uint64)]


class Span(ctypes.Structure):
    """A place in some bytes, as in tls_codec/outcome.h."""

    _fields_ = [("offset", ctypes.c_size_t), ("size", ctypes.c_size_t)]

    def of(self, data: bytes) -> bytes:
        return data[self.offset : self.offset + self.size]


class Rejected(ValueError):
    """Why bytes are rejected: `error`, a name of STATUSES in tls_codec_exports, and `status`, its number; `sentence`, for a person to read;
    `at`, where the rejected field or the rest begins, and None of a field that the decoder rejects; and `detail`, the value of an
    UnknownValue, or 0."""

    def __init__(self, status: int, at: int | None, detail: int = 0) -> None:
        self.status, self.at, self.detail = status, at, detail
        self.error = STATUSES[status] if status < len(STATUSES) else str(status)
        self.sentence = SENTENCES.get(self.error, OTHER_STATUS)
        number = f" ({detail})" if self.error == "UnknownValue" else ""
        super().__init__(f"{self.error}{number}" + ("" if at is None else f" at byte {at}"))


def _whole(data: Buffer, found: Found, rest: bytes) -> Found:
    """What was found in the bytes, if there is no rest."""
    if rest:
        raise Rejected(STATUSES.index("TrailingData"), memoryview(data).nbytes - len(rest))
    return found


class Validators:
    """The calls of a shared object. tls_codec.version of its archives has to lie beside it, and to have the line MARK of tls_codec_exports:
    else an ImportError says what it has."""

    def __init__(self, path: str | os.PathLike[str]) -> None:
        # (a name without a folder would be looked for elsewhere than its mark)
        found_at = pathlib.Path(path).resolve()
        mark = found_at.with_name("tls_codec.version")
        if not mark.is_file():
            raise ImportError(f"{mark} is not there: tools/archives.py --shared puts it beside the shared object")
        found = mark.read_text(encoding="utf-8").strip()
        if found != MARK:
            raise ImportError(f"{mark} has {found!r}, and this module is of {MARK!r}")
        self.library = ctypes.CDLL(str(found_at))

    def _named(self, subject: str, ending: str = "") -> Callable[..., Outcome]:
        """The function of this name and its ending. A LookupError lists the names that have this ending."""
        if subject + ending not in CALLS:
            known = sorted(it[: len(it) - len(ending)] for it in CALLS if it.endswith(ending))
            raise LookupError(f"there is no {subject!r}, but {', '.join(known)}")
        return self._function(subject + ending)

    def _function(self, name: str) -> Callable[..., Outcome]:
        """The function of this name."""
        try:
            return self.library[name]
        except AttributeError:
            raise LookupError(f"this shared object has no {name!r}") from None

    def _outcome(self, name: str, data: Buffer, *filled: object) -> Outcome:
        """For tests: what a function of the headers says of the bytes. Pass just what it fills: fewer or smaller is undefined behaviour."""
        return self._outcome_of(self._named(name), data, *filled)

    def _outcome_of(self, call: Callable[..., Outcome], data: Buffer, *filled: object) -> Outcome:
        """The same of a function that `_named` found."""
        data = _plain(data)
        call.restype, call.argtypes = Outcome, [ctypes.c_char_p, ctypes.c_size_t, *[ctypes.c_void_p] * len(filled)]
        return call(data, len(data), *map(ctypes.byref, filled))

    def _accepted(self, call: Callable[..., Outcome], data: Buffer, *filled: object) -> Outcome:
        """The same of bytes that are accepted."""
        outcome = self._outcome_of(call, data, *filled)
        if outcome.status:
            raise Rejected(outcome.status, outcome.at, outcome.detail)
        return outcome

    def validate_prefix(self, message: str, data: Buffer) -> tuple[bytes, bytes]:
        """The message that the bytes begin with, and the rest. The message is named as in the headers, without `_validate_prefix`."""
        data = _plain(data)
        outcome = self._accepted(self._named(message, "_validate_prefix"), data)
        return data[: outcome.taken], data[outcome.taken :]

    def validate(self, message: str, data: Buffer) -> bytes:
        """The message, if nothing comes after it."""
        return _whole(data, *self.validate_prefix(message, data))

    def locate_prefix(self, message: str, data: Buffer) -> tuple[dict[str, bytes], bytes]:
        """Validates the message that the bytes begin with: its fields, by the names that its struct has in the headers, in that order, and
        the rest. WITH_LENGTH of tls_codec_exports has the fields whose bytes begin with a length, such as a list's."""
        call, data = self._named(message, "_locate_prefix"), _plain(data)
        names = FIELDS[message]
        spans = (Span * len(names))()
        outcome = self._accepted(call, data, spans)
        return {name: span.of(data) for name, span in zip(names, spans)}, data[outcome.taken :]

    def locate(self, message: str, data: Buffer) -> dict[str, bytes]:
        """The fields of the message, if nothing comes after it."""
        return _whole(data, *self.locate_prefix(message, data))

    def decode_check_prefix(self, message: str, data: Buffer) -> tuple[bytes, bytes]:
        """What `validate_prefix` returns, by the decoder. It may run out of memory: an OutOfMemory says nothing of the bytes."""
        data = _plain(data)
        outcome = self._outcome_of(self._named(message, "_decode_check_prefix"), data)
        if outcome.status:
            raise Rejected(outcome.status, None, outcome.detail)
        return data[: outcome.taken], data[outcome.taken :]

    def decode_check(self, message: str, data: Buffer) -> bytes:
        """What `validate` returns, by the decoder."""
        return _whole(data, *self.decode_check_prefix(message, data))

    def elements(self, element: str, content: Buffer) -> Iterator[bytes]:
        """The elements of a list, from the bytes after its length: named as in the headers, without `_next`."""
        call, content = self._named(element, "_next"), _plain(content)
        left, found = Span(0, len(content)), Span()
        while left.size:
            at = left.offset
            outcome = self._outcome_of(call, content, left, found)
            if outcome.status:
                raise Rejected(outcome.status, at + outcome.at, outcome.detail)
            yield found.of(content)

    def message_wire_format_prefix(self, data: Buffer) -> tuple[MlsWireFormat, bytes]:
        """The wire format of the MLSMessage that the bytes begin with, and the rest. Other numbers have names in tls_codec_exports, as
        MlsContentType."""
        wire_format, data = ctypes.c_uint16(), _plain(data)
        outcome = self._accepted(self._named("mls_message_wire_format_prefix"), data, wire_format)
        return MlsWireFormat(wire_format.value), data[outcome.taken :]

    def message_wire_format(self, data: Buffer) -> MlsWireFormat:
        """The wire format of an MLSMessage, if nothing comes after it."""
        return _whole(data, *self.message_wire_format_prefix(data))

    def framed_content_tbs(self, wire_format: int, content: Buffer, context: Buffer = b"") -> bytes:
        """What is signed of a message of MLS, by the encodings of its FramedContent and, if it is signed too, of its GroupContext."""
        if not 0 <= wire_format < 1 << 16:
            raise ValueError(f"a wire format is a number of 16 bits, which {wire_format} isn't")
        content, context = _plain(content), _plain(context)
        call, out = self._function("mls_framed_content_tbs_encode"), ctypes.create_string_buffer(4 + len(content) + len(context))
        call.restype, pair = Outcome, [ctypes.c_char_p, ctypes.c_size_t]
        call.argtypes = [ctypes.c_uint16, *pair, *pair, ctypes.c_void_p, ctypes.c_size_t]
        outcome = call(wire_format, content, len(content), context, len(context), out, len(out))
        if outcome.status:
            raise Rejected(outcome.status, outcome.at, outcome.detail)
        if outcome.taken != len(out):
            raise Rejected(STATUSES.index("TrailingData"), outcome.taken)
        return out.raw
