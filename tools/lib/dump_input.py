"""The stored inputs of `tlsdump`: their words, the bytes that they encode, and the type of their messages. It shares no code with it."""
from __future__ import annotations

import base64
import pathlib
import re

from lib.message_reader import PROTOCOLS, Text


def words_of(run: pathlib.Path) -> list[str]:
    """The words that a stored run gives to the program."""
    path = run.with_suffix(".args")
    return path.read_text(encoding="utf-8").split() if path.exists() else []


def bytes_of(given: bytes, words: list[str]) -> bytes:
    """The bytes that an input encodes."""
    if "--binary" in words:
        return given
    text = given.decode()
    if re.match(r"[0-9a-f]{8}: ", text):
        text = "".join(line[10:].split("  ")[0] for line in text.splitlines())
    digits = re.sub(r"0x|[\s:,]", "", text)
    return bytes.fromhex(digits) if re.fullmatch(r"[0-9a-fA-F]*", digits) else base64.b64decode(text, validate=False)


def named(words: list[str], data: bytes) -> tuple[str, str]:
    """The protocol and the type that the words or the first bytes name."""
    names = [word for word in words if not word.startswith("--")]
    if not names or names[0] == "auto":
        return ("mls", "MLSMessage") if data[0] == 0 else ("tls", "TLSPlaintext")
    if "." in names[0]:
        protocol, _, of = names[0].partition(".")
        return protocol, of
    return next((protocol, names[0]) for protocol in reversed(PROTOCOLS) if names[0] in Text(PROTOCOLS[protocol]).structs)
