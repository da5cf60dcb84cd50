"""rows.py LIBRARY ROWS: what the module says of each row of `test_outcome`, or of c/tests/tls13.tsv, and of the first the fields."""
from __future__ import annotations

import ctypes
import pathlib
import re
import sys
from collections.abc import Callable
from typing import Optional

sys.dont_write_bytecode = True
sys.path.insert(0, str(pathlib.Path(__file__).resolve().parent.parent))
from tls_codec_validators import Rejected, Span, Validators, varint_value
from tls_codec_exports import FIELDS, STATUSES, WITH_LENGTH, MlsWireFormat

Numbers = tuple[int, int, Optional[int], int]
# The lists among the fields, and the calls that find their elements.
LISTS = {
    "mls": {it: "tls_codec_opaque_v_locate_prefix" for it in ("extensions", "proposals", "psks", "secrets")},
    "tls13": {it: "tls_codec_opaque_u16_locate_prefix" for it in ("extensions", "cipher_suites")},
}


def numbers(rejected: Rejected) -> Numbers:
    """What is rejected, as a row has it."""
    return rejected.status, 0, rejected.at, rejected.detail


def answer(call: Callable[[str, bytes], tuple[bytes, bytes]], name: str, data: bytes) -> Numbers:
    """What the validator or the decoder says."""
    try:
        return 0, len(call(name, data)[0]), 0, 0
    except Rejected as rejected:
        return numbers(rejected)


def fields(call: Callable[[str, bytes], dict[str, bytes]], name: str, data: bytes) -> list[bytes] | Numbers:
    """The fields of a message in their order, or what is rejected."""
    try:
        return list(call(name, data).values())
    except Rejected as rejected:
        return numbers(rejected)


def are_placed(validators: Validators, name: str, data: bytes, columns: list[str]) -> bool:
    """Whether the fields are where a row of `test_outcome` has them, or are rejected as the message is."""
    expected: Numbers = tuple(map(int, columns[2].split()))
    if name not in FIELDS or len(columns) == 3:
        return len(columns) < 5
    places = [tuple(map(int, it.split("+"))) for it in " ".join(columns[4:]).split()]
    found = fields(lambda *it: validators.locate_prefix(*it)[0], name, data)
    return found == (expected if expected[0] else [data[offset : offset + size] for offset, size in places])


def is_whole_alike(validators: Validators, name: str, data: bytes, expected: Numbers) -> bool:
    """Whether the calls that need all of the bytes say the same of them, or that some are left."""
    status, taken, _, detail = expected
    rejected = (STATUSES.index("TrailingData"), 0, taken, 0) if not status and taken < len(data) else None
    calls = {"validate": rejected or expected, "decode_check": rejected or (status, taken, None if status else 0, detail)}
    found = {it: answer(lambda *given, it=it: (getattr(validators, it)(*given), b""), name, data) for it in calls}
    if name not in FIELDS:
        return found == calls
    located = rejected or fields(lambda *it: validators.locate_prefix(*it)[0], name, data)
    return found == calls and fields(validators.locate, name, data) == located


def have_lengths(validators: Validators, name: str, data: bytes) -> bool:
    """Whether the lists among the fields of an accepted message have their lengths, as WITH_LENGTH says."""
    lists = LISTS[name.partition("_")[0]]
    found = {it: value for it, value in validators.locate_prefix(name, data)[0].items() if it in lists} if name in FIELDS else {}
    taken = {it: validators._outcome(lists[it], value, Span()).taken for it, value in found.items()}
    return all(taken[it] == len(value) and it in WITH_LENGTH[name] for it, value in found.items())


def is_as_expected(validators: Validators, columns: list[str]) -> bool:
    """Whether the calls answer a row. The decoder says the same as the validator, except for the place."""
    name, data = columns[0], b"" if columns[1] == "-" else bytes.fromhex(columns[1])
    status, taken, at, detail = map(int, columns[2].split())
    found, by_decoder = answer(validators.validate_prefix, name, data), answer(validators.decode_check_prefix, name, data)
    is_answered = found == (status, taken, at, detail) and by_decoder == (status, taken, None if status else 0, detail)
    is_answered = is_answered and is_whole_alike(validators, name, data, (status, taken, at, detail))
    if is_answered and are_placed(validators, name, data, columns) and (status or have_lengths(validators, name, data)):
        return True
    print(f"{name} {columns[1]}: {found}, by the decoder {by_decoder}, and not {columns[2:]}, or its fields or rests have another answer")
    return False


def rejection(call: Callable[[str, bytes], bytes], name: str, data: bytes) -> str:
    """Why bytes aren't one message."""
    try:
        return f"accepted: {call(name, data)!r}"
    except Rejected as rejected:
        return str(rejected)


def are_rejections_worded(validators: Validators) -> bool:
    """Whether what comes after an alert and an unknown number are rejected in these words. The decoder says no place of the number."""
    sentence = Rejected(7, 2).sentence
    if sentence != "Bytes come after the message, or after a part that was to fill a length.":
        return False
    calls = validators.validate, validators.decode_check
    left = [rejection(it, "tls13_alert", b"\1\0\7") for it in calls]
    unknown = [rejection(it, "tls13_key_update", b"\xc0") for it in calls]
    return left == ["TrailingData at byte 2"] * 2 and unknown == ["UnknownValue (192) at byte 0", "UnknownValue (192)"]


def is_rest_returned(validators: Validators) -> bool:
    """Whether an alert is returned by each call of the validator and the decoder, and what comes after it by those that accept that."""
    alone = [it("tls13_alert", b"\1\0") for it in (validators.validate, validators.decode_check)]
    split = [it("tls13_alert", b"\1\0\7") for it in (validators.validate_prefix, validators.decode_check_prefix)]
    return alone == [b"\1\0"] * 2 and split == [(b"\1\0", b"\7")] * 2


def is_rest_rejected(validators: Validators) -> bool:
    """Whether fields of a message that bytes come after are given only if they may, and else the place of those bytes is."""
    try:
        return not validators.locate("tls13_alert", b"\1\0\7")
    except Rejected as rejected:
        found = validators.locate_prefix("tls13_alert", b"\1\0\7")
        return str(rejected) == "TrailingData at byte 2" and found == (validators.locate("tls13_alert", b"\1\0"), b"\7")


def is_rest_of_a_message_rejected(validators: Validators) -> bool:
    """Whether the wire format of a message with a byte after it is found only if the byte may be there."""
    message = bytes.fromhex("0001000201fa0000000000000007010001a102a2a3")
    try:
        return not validators.message_wire_format(message + b"\0")
    except Rejected as rejected:
        found = validators.message_wire_format(message), *validators.message_wire_format_prefix(message + b"\0")
        expected = MlsWireFormat.PRIVATE_MESSAGE, MlsWireFormat.PRIVATE_MESSAGE, b"\0"
        return str(rejected) == f"TrailingData at byte {len(message)}" and found == expected


def are_buffers_taken(validators: Validators) -> bool:
    """Whether the message in a buffer is found, and what is no buffer is refused."""
    alert = bytearray(b"\1\0")
    is_taken = validators.validate("tls13_alert", alert) == validators.validate("tls13_alert", memoryview(alert)) == bytes(alert)
    try:
        validators.validate("tls13_alert", 2)
    except TypeError:
        return is_taken
    return False


def is_varint_read(validators: Validators) -> bool:
    """Whether a variable-length integer of each width has its value (RFC 9000, appendix A.1)."""
    examples = {"25": 37, "7bbd": 15293, "9d7f3e7d": 494878333, "c2197c5eff14e88c": 151288809941952652}
    found = {it: varint_value(validators.validate("tls_codec_varint", bytes.fromhex(it))) for it in examples}
    for digits in ("", "40", "25ee"):
        try:
            varint_value(bytes.fromhex(digits))
            return False
        except ValueError:
            continue
    return found == examples


def are_fields_named(validators: Validators) -> bool:
    """Whether fields have the names that the headers give them."""
    alert, opaque = validators.locate("tls13_alert", b"\1\0"), validators.locate_prefix("tls_codec_opaque_v", b"\2\7\x08\x09")
    return (alert, opaque) == ({"level": b"\1", "description": b"\0"}, ({"content": b"\7\x08"}, b"\x09"))


def lookup(call: Callable[[], object]) -> str:
    """What the LookupError of a call says; empty if there is none."""
    try:
        call()
    except LookupError as error:
        return str(error)
    return ""


def are_names_listed(validators: Validators) -> bool:
    """Whether a message, a list or a call that isn't there raises a LookupError with those that are."""
    said = [
        lookup(lambda: validators.validate("mls_keypackage", b"")),
        lookup(lambda: validators.locate("mls_ratchet_tree", b"")),
        lookup(lambda: list(validators.elements("mls_extensions", b""))),
        lookup(lambda: validators._outcome("mls_framed_content_tbs_encode", b"")),
        lookup(lambda: validators.decode_check("mls_extension", b"")),
    ]
    bare = Validators(sys.argv[1])
    bare.library = ctypes.CDLL(None)
    lacking = [lookup(lambda: bare.validate("mls_message", b"")), lookup(lambda: bare.framed_content_tbs(1, b""))]
    called = ["mls_message_validate_prefix", "mls_framed_content_tbs_encode"]
    is_lacking = lacking == [f"this shared object has no {it!r}" for it in called]
    words = [set(re.findall(r"\w+", it)) for it in said]
    listed = ["mls_ratchet_tree", "mls_key_package", "mls_extension", "mls_message_wire_format_prefix", "tls13_alert"]
    is_short = "mls_key_package_locate_prefix" not in words[1] and "mls_message" not in words[2]
    return is_lacking and is_short and all(one in it for one, it in zip(listed, words))


CHECKS = (
    are_rejections_worded,
    is_rest_returned,
    is_rest_rejected,
    is_rest_of_a_message_rejected,
    are_buffers_taken,
    is_varint_read,
    are_fields_named,
    are_names_listed,
)


def main() -> int:
    validators = Validators(sys.argv[1])
    with open(sys.argv[2], encoding="utf-8") as file:
        rows = [line.rstrip("\n").split("\t") for line in file]
    failed = [is_as_expected(validators, it) for it in rows].count(False)
    for check in CHECKS:
        if not check(validators):
            failed += 1
            print(f"{check.__name__}: not so")
    print(f"{len(rows)} rows, {failed} failed")
    return 1 if failed or len(rows) < 100 else 0


if __name__ == "__main__":
    sys.exit(main())
