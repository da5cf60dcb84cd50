"""What test_callers.py tries beside the rows: a test vector of them, captured messages, and the C of docs/CALLERS.md; and what
check_exports.py compares: the calls that rows answer, and the lists of that page."""
from __future__ import annotations

import pathlib
import re

from lib.blocks import NOT_QUOTED, blocks
from lib.failed import Failed
from lib.libraries import CRATES, ROWS, TOP

PAGE = TOP / "docs" / "CALLERS.md"
PLACES = [CRATES / "test_places" / "stdout", TOP / "c" / "tests" / "lengths.tsv"]
SIGNED = TOP / "c" / "tests" / "signed.tsv"
CAPTURED = CRATES / "test_tls13" / "src" / "tests" / "captured"
# A test vector's names, by python/tests/vectors.py, and the row of each: its message, and what its hex begins with, except for a proposal.
VECTOR = {
    "public_message_commit": ("mls_message", "00010001"),
    "private_message": ("mls_message", "00010002"),
    "mls_welcome": ("mls_message", "00010003"),
    "mls_group_info": ("mls_message", "00010004"),
    "mls_key_package": ("mls_message", "00010005"),
    "ratchet_tree": ("mls_ratchet_tree", ""),
    "group_secrets": ("mls_group_secrets", ""),
    "commit": ("mls_commit", ""),
    "add_proposal": ("mls_proposal", "0001"),
    "remove_proposal": ("mls_proposal", "0003"),
    "pre_shared_key_proposal": ("mls_proposal", "0004"),
}
# What examples/sender.c prints of a public message, by what comes after its epoch: rows of `test_outcome`, and an external sender's
# proposal.
SENT = {
    "010000000202fbfc0102a1a201d101e1": "member 2\napplication data\nsignature of 1 bytes",
    "020000000501fb0200030000000901e1": "external sender 5\nproposal\nsignature of 1 bytes",
    "03000200030000000902d1d2": "new member, by a proposal\nproposal\nsignature of 2 bytes",
    "040003000001d101e1": "new member, by a commit\ncommit\nsignature of 1 bytes",
}
# What the blocks of C in docs/CALLERS.md use.
USED = """\
#include <stdlib.h>
#include <tls_codec/lengths.h>
#include <tls_codec/mls.h>
extern const uint8_t *bytes, *key, *message, *content, *context;
extern size_t length, content_length, context_length;
extern mls_key_package_fields fields;
void use(const uint8_t *bytes, size_t length);
void use_extension(unsigned type, const uint8_t *data, size_t size);
void sign_with_label(const uint8_t *key, const char *label, const uint8_t *bytes, size_t length);
int verify_with_label(const uint8_t *key, const char *label, const uint8_t *bytes, size_t length, const uint8_t *signature,
                      size_t signature_length);
"""


def rows_of(path: pathlib.Path) -> list[list[str]]:
    return [line.split("\t") for line in path.read_text(encoding="utf-8").splitlines()]


def answered(places: list[pathlib.Path], signed: pathlib.Path) -> set[str]:
    """The calls that accept a row's bytes. A message's row is of its validator and decoder, and with fields also of what finds them."""
    found = {"mls_framed_content_tbs_encode" for it in rows_of(signed) if it[3].startswith("0 ")}
    found |= {it[0] for path in places for it in rows_of(path) if it[2].startswith("0 ")}
    for columns in (it for path in ROWS for it in rows_of(path) if it[2].startswith("0 ")):
        found |= {f"{columns[0]}_{call}" for call in ("validate_prefix", "decode_check_prefix", *["locate_prefix"] * (len(columns) > 4))}
    return found


def vector() -> dict[str, str]:
    """A test vector: for each name the first row that is accepted as a whole."""
    whole = [(message, digits) for message, digits, outcome, *_ in rows_of(ROWS[0]) if outcome == f"0 {len(digits) // 2} 0 0"]
    found = {}
    for name, (message, begin) in VECTOR.items():
        digits = next((it for other, it in whole if other == message and it.startswith(begin)), None)
        if digits is None:
            raise Failed(f"no row of {message} begins with {begin!r}")
        found[name] = digits[len(begin) :] if message == "mls_proposal" else digits
    return found


def captured() -> list[bytes]:
    """All captured messages that TLS 1.3 has, which are each a whole Handshake: the others are in no `Row`."""
    texts = [path.read_text(encoding="utf-8") for path in sorted(CAPTURED.glob("*.rt"))]
    found = [digits for text in texts for digits in re.findall(r"\bRow \{\s+name: [^\n]*\s+digits: &\[(.*?)\]", text, re.S)]
    return [bytes.fromhex("".join(re.findall(r'"([0-9a-f]+)"', digits))) for digits in found]


def record(fragment: bytes, kind: int = 22) -> bytes:
    """A TLSPlaintext, of a handshake."""
    return bytes([kind, 3, 1, *len(fragment).to_bytes(2, "big")]) + fragment


def extension_lines(message: bytes) -> str:
    """What examples/hello.c prints of a ClientHello in a Handshake: its extensions come after three fields with lengths, and a length."""
    number = lambda at, width: int.from_bytes(message[at : at + width], "big")
    at, lines = 4 + 2 + 32, ""
    for width in (1, 2, 1):
        at += width + number(at, width)
    at += 2
    while at < len(message):
        lines += f"extension {number(at, 2)}: {number(at + 2, 2)} bytes\n"
        at += 4 + number(at + 2, 2)
    return lines


def hellos() -> list[tuple[bytes, str]]:
    """Records, and what examples/hello.c prints: each captured ClientHello, in one record and over three, where the last begins another
    message; records that are cut short, of another type, empty or too long; and messages that are no ClientHello."""
    whole = [it for it in captured() if it[0] == 1]
    found = [(record(it), extension_lines(it)) for it in whole]
    found += [(record(it[:2]) + record(it[2:90]) + record(it[90:] + it[:50]), extension_lines(it)) for it in whole]
    it, long = whole[0], b"\1\0\xff\xfc" + bytes(16379)
    cut = [b"", record(it)[:3], record(it)[:-1], record(it[:-1]), record(it[:3]), record(b"") + record(it), record(it, 23)]
    cut += [record(it + bytes(16385 - len(it))), record(b"\1\1" + bytes(99)) * 2]
    cut += [record(long) + record(bytes(16383)) * 3 + record(bytes(16384))]
    others = [it[:5] + b"\2" + it[6:], b"\2" + it[1:], b"\1\0\0\0", *[it for it in captured() if it[0] == 2]]
    return found + [(it, "no whole message\n") for it in cut] + [(record(it), "no ClientHello\n") for it in others]


def written_in_c() -> list[str]:
    """The blocks of C in docs/CALLERS.md that are no quotes, each as a function's definition."""
    lines = PAGE.read_text(encoding="utf-8").split("\n")
    found = []
    for words, kind, block in blocks(lines):
        if kind == "c" and NOT_QUOTED.fullmatch(next(it for it in reversed(words) if it)):
            body = "\n".join(f"    {line}" for _, line in block)
            found.append(f"int block_{len(found)}(void);\nint block_{len(found)}(void) {{\n  {{\n{body}\n  }}\n  return 1;\n}}\n")
    return found


def statuses_of(path: pathlib.Path) -> list[str]:
    """The numbers of the statuses that a page or a header has."""
    return sorted(set(re.findall(r"TLS_CODEC_\w+ = \d+", path.read_text(encoding="utf-8"))))


def listed_archives() -> dict[str, str]:
    """The archives that docs/CALLERS.md lists, with their headers: the first two cells of rows."""
    return dict(re.findall(r"^\| `(libtls_codec_\w+\.a)` \| `(tls_codec/\w+\.h)` \|", PAGE.read_text(encoding="utf-8"), re.M))


def listed_messages() -> set[str]:
    """The messages that docs/CALLERS.md lists: lines that begin with `mls_` or `tls13_` alone, and those after them with space before."""
    found, prefix = set(), ""
    for line in PAGE.read_text(encoding="utf-8").split("\n"):
        word, *names = line.split(None) if line[:1].strip() else [prefix, *line.split()]
        prefix = word if word in ("mls_", "tls13_") else ""
        found |= {f"{prefix}{it}" for it in names} if prefix else set()
    return found


def listed_enums() -> dict[str, set[str]]:
    """The enums that docs/CALLERS.md lists, by library: words after `enums of LIBRARY`."""
    found = re.findall(r"^enums of (\w+)((?:\s+[A-Z]\w+)+)", PAGE.read_text(encoding="utf-8"), re.M)
    return {library: set(names.split()) for library, names in found}
