#!/usr/bin/env python3
"""Compares the texts in `tlsdump` with those that the messages were written from (crates/tlsgen/data), and tries tools/compare_rfc.py.

With --write it writes those of `tlsdump`. A text has there one line for each line that isn't empty, without the blanks in front.

No RFC is here, so compare_rfc.py reads RFCs that are made from our texts: with other comments, on pages or without. All definitions must be
the same; after one change of the RFC the line of its definition must be the one below, and each other one as before.
"""
from __future__ import annotations

import contextlib
import io
import pathlib
import sys
import tempfile
from typing import NamedTuple

import compare_rfc
from lib.failed import Failed, ended
from lib.libraries import CRATES, DATA, TEXTS_OF_RFCS
from lib.presentation import Parser
from lib.words import is_to_write

# The texts with definitions of each RFC, and the RFCs that are made with page breaks.
RFCS = {"8446": ["tls13"], "6962": ["ct"], "5246": ["ct"], "9420": ["mls_tree", "mls_group", "mls"]}
ON_PAGES = ("8446", "6962", "5246")
# What is in a made RFC, and is no definition.
OTHER_COMMENT = "/* Another comment,\nstruct { } Lifetime; */"
PROSE = "A Lifetime; and a CipherSuite, as { .. } Alert; has it: <https://www.rfc-editor.org/>."


class Change(NamedTuple):
    """What is in our text, what an RFC has in its place, and the line that must be printed, with their lines `here` and `there`."""

    rfc: str
    text: str
    old: str
    new: str
    line: str


CHANGES = [
    Change(
        "9420", "mls", "uint32 generation;", "uint64 generation;",
        'SenderData: differs: RFC has "uint64 generation;" (line {there}), the text has "uint32 generation;" (line {here} of mls.tls)',
    ),
    Change(
        "8446", "tls13", "alert(21)", "alert(31)",
        'ContentType: differs: RFC has "alert(31)," (line {there}), the text has "alert(21)," (line {here} of tls13.tls)',
    ),
    Change(
        "8446", "tls13", "opaque Random[32];", "opaque Random[28];",
        'Random: differs: RFC has "opaque Random[28];" (line {there}), the text has "opaque Random[32];" (line {here} of tls13.tls)',
    ),
    Change(
        "5246", "ct", "Algorithm signature;", "Algorithm sign;",
        'SignatureAndHashAlgorithm: differs: RFC has "SignatureAlgorithm sign;" (line {there}), '
        'the text has "SignatureAlgorithm signature;" (line {here} of ct.tls)',
    ),
    Change(
        "6962", "ct", "uint64 tree_size;", "uint64 tree_size",
        'TreeHeadSignature: differs: RFC has "uint64 tree_size opaque sha256_root_hash[32];" (line {there}), '
        'the text has "uint64 tree_size;" (line {here} of ct.tls)',
    ),
    Change(
        "9420", "mls_tree", "uint64 not_before;\n    uint64 not_after;", "uint64 not_after;\n    uint64 not_before;",
        'Lifetime: differs: the order: RFC has "uint64 not_after;" (line {there}), "uint64 not_before;" (line {there_2}), '
        'the text has "uint64 not_before;" (line {here} of mls_tree.tls), "uint64 not_after;" (line {here_2} of mls_tree.tls)',
    ),
    Change(
        "9420", "mls_group", "struct {\n    HPKEPublicKey external_pub;\n} ExternalPub;", "",
        "ExternalPub: not in the RFC (line {here} of mls_group.tls)",
    ),
    Change("9420", "mls_tree", "uint16 CipherSuite;", "", "CipherSuite: not in the RFC (line {here} of mls_tree.tls)"),
    Change(
        "8446", "tls13", "enum { warning(1), fatal(2), (255) } AlertLevel;",
        "enum { warning(1), fatal(3), (255) } AlertLevel;\n enum { warning(1), fatal(2), (255) } AlertLevel;",
        'AlertLevel: same; elsewhere RFC has "fatal(3)," (line {there}), the text has "fatal(2)," (line {here} of tls13.tls)',
    ),
    Change(
        "9420", "mls_group", "struct {\n    ExternalSender external_senders<V>;\n} ExternalSenders;", "ExternalSender external_senders<V>;",
        'ExternalSenders: same, as "ExternalSender external_senders<V>;" (line {there}) alone',
    ),
    Change("9420", "mls_group", "} PSKOrigin;", "};", 'PreSharedKeyID: same without "PSKOrigin" (line {here} of mls_group.tls)'),
]


def literal(path: pathlib.Path) -> str:
    lines = [line.strip() for line in path.read_text().splitlines()]
    text = "\n".join(line for line in lines if line) + "\n"
    return text.replace("\\", "\\\\").replace('"', '\\"')


def module(name: str) -> str:
    return f"""//! `{name}.tls` and `{name}.notes`, as tools/check_texts.py copies them.

pub static TEXT: &str = "{literal(DATA / f'{name}.tls')}";

pub static NOTES: &str = "{literal(DATA / f'{name}.notes')}";
"""


def unbroken(text: str) -> str:
    """A module without the line break that `rt fmt` puts before a text that begins with a long line."""
    return text.replace('=\n    "', '= "')


def is_copied(name: str, write: bool) -> bool:
    """Whether `tlsdump` has this text. It is written first, if the script is to."""
    path = CRATES / "tlsdump" / "src" / "texts" / f"of_{name}.rt"
    if write:
        path.write_text(module(name))
    same = path.is_file() and unbroken(path.read_text()) == module(name)
    if not same:
        print(f"{path.name}: not the text of crates/tlsgen/data")
    return same


# ---- RFCs made from our texts

def on_pages(lines: list[str], rfc: str) -> list[str]:
    """These lines on pages of 58 lines, as older RFCs have them; the form feed is on a line of its own, or on that of the header."""
    found = []
    for page, at in enumerate(range(0, len(lines), 51), 1):
        footer = f"Author                       Standards Track                   [Page {page}]"
        header = f"RFC {rfc}                          Title                      August 2018"
        found += [*lines[at : at + 51], "", "", "", footer, *(["\f", header] if page % 2 else ["\f" + header]), "", ""]
    return found


def made(rfc: str, change: Change | None) -> str:
    """An RFC that has all that our texts of it have, with a change if it is one of this RFC."""
    text = "\n".join((DATA / f"{name}.tls").read_text() for name in RFCS[rfc])
    if change and change.rfc == rfc:
        if text.count(change.old) != 1:
            raise Failed(f"not once in our texts of RFC {rfc}: {change.old}")
        text = text.replace(change.old, change.new)
    text = compare_rfc.COMMENT.sub(OTHER_COMMENT, text)
    lines = ["Engineering Task Force", f"Request for Comments: {rfc}", "", PROSE, "", *text.split("\n"), "", PROSE]
    lines = [f"   {line}".rstrip() for line in lines]
    return "\n".join(on_pages(lines, rfc) if rfc in ON_PAGES else lines) + "\n"


def line_of(words: str, text: str) -> int:
    """The line of a text where these words begin."""
    return text.count("\n", 0, text.index(words)) + 1


def wanted(change: Change, rfc: str) -> str:
    """The line that must be printed of a changed RFC."""
    here, there = line_of(change.old, (DATA / f"{change.text}.tls").read_text()), line_of(change.new.split("\n")[0], rfc)
    return change.line.format(here=here, here_2=here + 1, there=there, there_2=there + 1)


def is_compared(change: Change | None) -> bool:
    """Whether compare_rfc.py prints of the made RFCs what it must, and ends with the status that it must."""
    rfcs = {rfc: made(rfc, change) for rfc in RFCS}
    with tempfile.TemporaryDirectory() as folder, contextlib.redirect_stdout(io.StringIO()) as printed:
        paths = [pathlib.Path(folder, f"rfc{rfc}.txt") for rfc in rfcs]
        for path, text in zip(paths, rfcs.values()):
            path.write_text(text)
        status = compare_rfc.main([str(path) for path in paths])
    *lines, counts = printed.getvalue().splitlines()
    others = [line for line in lines if not line.endswith(": same")]
    right = [wanted(change, rfcs[change.rfc])] if change else []
    failed = int(bool(change) and ": same" not in change.line)
    total = sum(len(Parser((DATA / f"{name}.tls").read_text()).all()) for name in TEXTS_OF_RFCS)
    is_right = others == right and len(lines) == total and counts == f"{total - failed} passed, {failed} failed" and status == failed
    if not is_right:
        printed_lines = [*(f"  wanted: {line}" for line in right), *(f"  printed: {line}" for line in [*others, counts])]
        print("\n".join(["compare_rfc.py of made RFCs:", *printed_lines]))
    return is_right


def main() -> int:
    write = is_to_write()
    copied = sum(is_copied(name, write) for name in TEXTS_OF_RFCS)
    print(f"{copied} of {len(TEXTS_OF_RFCS)} texts of tlsdump are those of crates/tlsgen/data")
    compared = sum(map(is_compared, [None, *CHANGES]))
    print(f"{compared} of {len(CHANGES) + 1} comparisons with made RFCs print what they must")
    failed = len(TEXTS_OF_RFCS) - copied + len(CHANGES) + 1 - compared
    print(f"{copied + compared} passed, {failed} failed")
    return 1 if failed else 0


if __name__ == "__main__":
    sys.exit(ended(main))
