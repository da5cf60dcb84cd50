"""places.py LIBRARY ROWS: what the module finds for each row of `test_places`, or of c/tests/lengths.tsv."""
from __future__ import annotations

import pathlib
import sys
from typing import Union

sys.dont_write_bytecode = True
sys.path.insert(0, str(pathlib.Path(__file__).resolve().parent.parent))
from tls_codec_validators import Rejected, Validators
from tls_codec_exports import STATUSES, MlsWireFormat, Tls13HandshakeType, Tls13KeyUpdateRequest, Tls13SignatureScheme

# What is found, and the numbers of what is rejected after it.
Found = tuple[Union[list[bytes], int], tuple[int, int, int]]


def found(validators: Validators, name: str, data: bytes) -> Found:
    """What is found, and the numbers of what is rejected after it."""
    parts: list[bytes] = []
    try:
        if name == "mls_message_wire_format_prefix":
            return validators.message_wire_format_prefix(data)[0], (0, 0, 0)
        if name.endswith("_locate_prefix"):
            return list(validators.locate_prefix(name.removesuffix("_locate_prefix"), data)[0].values()), (0, 0, 0)
        if name.endswith("_validate_prefix"):
            return [validators.validate_prefix(name.removesuffix("_validate_prefix"), data)[0]], (0, 0, 0)
        for element in validators.elements(name.removesuffix("_next"), data):
            parts.append(element)
        return parts, (0, 0, 0)
    except Rejected as rejected:
        return parts, (rejected.status, rejected.at, rejected.detail)


def found_in_all(validators: Validators, name: str, data: bytes) -> Found:
    """The same by the call that needs all of the bytes. A list has no other."""
    try:
        if name == "mls_message_wire_format_prefix":
            return validators.message_wire_format(data), (0, 0, 0)
        if name.endswith("_locate_prefix"):
            return list(validators.locate(name.removesuffix("_locate_prefix"), data).values()), (0, 0, 0)
        if name.endswith("_validate_prefix"):
            return [validators.validate(name.removesuffix("_validate_prefix"), data)], (0, 0, 0)
        return found(validators, name, data)
    except Rejected as rejected:
        return [], (rejected.status, rejected.at, rejected.detail)


def wanted_in_all(name: str, data: bytes, expected: str, filled: str) -> Found:
    """The same as the row has it: TrailingData if bytes are left."""
    status, taken, _, _ = map(int, expected.split())
    is_left = name.endswith("_prefix") and not status and taken < len(data)
    return ([], (STATUSES.index("TrailingData"), taken, 0)) if is_left else wanted(name, data, expected, filled)


def wanted(name: str, data: bytes, expected: str, filled: str) -> Found:
    """The same as the row has it: of an element that is rejected its place is after those before it. A validator finds what it takes."""
    status, taken, at, detail = map(int, expected.split())
    if name == "mls_message_wire_format_prefix" and not status:
        return int(filled), (0, 0, 0)
    if name.endswith("_validate_prefix") and not status:
        return [data[:taken]], (0, 0, 0)
    places = [tuple(map(int, it.split("+"))) for it in filled.split() if it != "-"]
    if name.endswith("_next"):
        at += sum(size for _, size in places)
    is_rejected = status and (data or not name.endswith("_next"))
    return [data[offset : offset + size] for offset, size in places], (status, at, detail) if is_rejected else (0, 0, 0)


def are_numbers_named(validators: Validators) -> bool:
    """Whether the wire format of a private message, a key update and the algorithm of a signature have their names."""
    message = bytes.fromhex("0001000201fa0000000000000007010001a102a2a3")
    handshake = validators.locate("tls13_handshake", bytes([24, 0, 0, 1, 1]))
    request = validators.locate("tls13_key_update", handshake["body"][3:])["request_update"]
    algorithm = validators.locate("tls13_certificate_verify", bytes.fromhex("0804000101"))["algorithm"]
    is_private = validators.message_wire_format(message) is MlsWireFormat.PRIVATE_MESSAGE
    is_update = handshake["msg_type"] == bytes([Tls13HandshakeType.KEY_UPDATE])
    is_requested = request == bytes([Tls13KeyUpdateRequest.UPDATE_REQUESTED])
    return is_private and is_update and is_requested and int.from_bytes(algorithm, "big") == Tls13SignatureScheme.RSA_PSS_RSAE_SHA256


def main() -> int:
    validators = Validators(sys.argv[1])
    failed = 0
    if not are_numbers_named(validators):
        failed += 1
        print("are_numbers_named: not so")
    with open(sys.argv[2], encoding="utf-8") as file:
        rows = [line.rstrip("\n").split("\t") for line in file]
    for name, digits, expected, filled in rows:
        data = b"" if digits == "-" else bytes.fromhex(digits)
        answer, in_all = found(validators, name, data), found_in_all(validators, name, data)
        if (answer, in_all) != (wanted(name, data, expected, filled), wanted_in_all(name, data, expected, filled)):
            failed += 1
            print(f"{name} {digits}: {answer}, of all of the bytes {in_all}, and not {expected}, {filled}")
    print(f"{len(rows)} rows, {failed} failed")
    return 1 if failed or len(rows) < 100 else 0


if __name__ == "__main__":
    sys.exit(main())
