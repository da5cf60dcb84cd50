#!/usr/bin/env python3
"""signed.py OBJECT FILE: what is written to be signed, for each row of c/tests/signed.tsv, by the module tls_codec_validators. The status
is 1 if a row differs.

A wire format that has more than 16 bits is refused.
"""
from __future__ import annotations

import pathlib
import sys

sys.dont_write_bytecode = True
sys.path.insert(0, str(pathlib.Path(__file__).resolve().parent.parent))
from tls_codec_validators import Rejected, Validators


def answer(validators: Validators, columns: list[str]) -> str:
    """What is written, or why it is rejected."""
    content, context = (bytes.fromhex("" if it == "-" else it) for it in columns[1:3])
    try:
        return validators.framed_content_tbs(int(columns[0]), content, context).hex()
    except Rejected as error:
        return str(error)


def wanted(columns: list[str]) -> str:
    status, taken, at, detail = map(int, columns[3].split())
    if status:
        return str(Rejected(status, at, detail))
    return columns[4] if taken == len(columns[4]) // 2 else f"TrailingData at byte {taken}"


def is_refused(validators: Validators, wire_format: int) -> bool:
    """Whether the module refuses a wire format, and so calls nothing."""
    try:
        validators.framed_content_tbs(wire_format, b"")
    except ValueError as error:
        return not isinstance(error, Rejected)
    return False


validators = Validators(sys.argv[1])
rows = [line.rstrip("\n").split("\t") for line in open(sys.argv[2], encoding="utf-8")]
failed = [it for it in rows if answer(validators, it) != wanted(it)]
failed += [[f"wire format {it}"] for it in (-1, 1 << 16, 0x10002) if not is_refused(validators, it)]
print(f"{len(rows)} rows, {len(failed)} failed", *failed, sep="\n")
sys.exit(bool(failed or not rows))
