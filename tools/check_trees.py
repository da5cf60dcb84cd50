#!/usr/bin/env python3
"""Reads the stored inputs of `tlsdump` anew, by the texts of crates/tlsgen/data, and compares what it prints of them.

It shares no code with `tlsdump`. With --write it writes the outputs (NAME.stdout). A tree has all bytes of its input: each line
takes them from one reader, which ends at the last one. It also tries outputs with one fault each, and an input.
"""
from __future__ import annotations

import json
import pathlib
import re
import sys
from typing import Any

from lib.dump_input import bytes_of, named, words_of
from lib.failed import Failed, ended
from lib.libraries import CRATES, DATA
from lib.message_reader import PROTOCOLS, Line, Reader, Rejected, Text
from lib.presentation import Parser, name_of
from lib.rejections import REJECTIONS, UNREAD
from lib.shown import counted
from lib.words import is_to_write

FOLDER = CRATES / "tlsdump"
# outputs that are no tree
BY_HAND = ("help", "version")
# What is changed of a stored run, to see that a wrong one is found: a text of its output or of its input, and what is put in its place.
OUTPUT, INPUT = "output", "input"
PLANTS = {
    "a wrong line": ("lifetime", OUTPUT, "not_before: 1699973888 (", "not_before: 1699973889 ("),
    "a wrong offset": ("ratchet_tree", OUTPUT, "       6          node_type", "       7          node_type"),
    "a dropped line": ("ratchet_tree", OUTPUT, "       4        [0]: none\n", ""),
    "a dropped element of JSON": ("as_json", OUTPUT, '          "offset": 2,\n', ""),
    "another byte": ("lifetime", INPUT, "0000000065538b00", "0000000065538b01"),
}


def show(line: Line, options: list[str]) -> str:
    """A line of the tree, as it is printed."""
    shown = line["shown"]
    if "bytes" in line:
        data = line["bytes"]
        digits = data[:16].hex() + ".." if "--short" in options and len(data) > 32 else data.hex()
        shown = f"{counted(len(data), 'byte')} {digits}".rstrip()
        shown += f' "{line["text"]}"' if line["text"] else ""
        shown += f" (no {line['rejected']})" if line["rejected"] else ""
    front = f"{line['at']:>8}  " if "--offsets" in options else ""
    return f"{front}{'  ' * line['depth']}{line['label']}: {shown}\n"


def tree_of(lines: list[Line]) -> list[dict[str, Any]]:
    """Lines as JSON's values, of the depth of the first one."""
    values = []
    for at, line in enumerate(lines):
        if line["depth"] != lines[0]["depth"]:
            continue
        value: dict[str, Any] = {"offset": line["at"]}
        label = line["label"]
        value.update({"index": int(label[1:-1])} if label.startswith("[") else {"name": label})
        if "below" in line:
            after = [n for n in range(at + 1, len(lines)) if lines[n]["depth"] <= line["depth"]] + [len(lines)]
            value[line["below"]] = tree_of(lines[at + 1 : after[0]]) if after[0] > at + 1 else []
        if "bytes" in line:
            value["hex"] = line["bytes"].hex()
            value.update({"text": line["text"]} if line["text"] else {})
            value.update({"not": line["rejected"]} if line["rejected"] else {})
        if "number" in line:
            value["number"] = line["number"]
        if "type" in line:
            value["type"] = line["type"]
        value.update({"value": line["code"]} if line.get("code") else {"value": None} if "value" in line else {})
        value.update({"date": line["date"]} if line.get("date") else {})
        values.append(value)
    return values


def position(reason: str) -> int:
    """The byte that the line of a rejection names."""
    return int(re.match(r"rejected at byte (\d+), ", reason)[1])


def printed(given: bytes, words: list[str], reason: str | None) -> str:
    """What is printed of an input: its messages as a tree or as JSON, whose reason of a rejection is given."""
    data = bytes_of(given, words)
    protocol, of = named(words, data)
    text, at, out, values = Text(PROTOCOLS[protocol]), 0, "", []
    while True:
        reader = Reader(text, data, protocol, of)
        reader.at = at
        rejected = None
        try:
            reader.type(None, of, "message", 0, 1)
        except Rejected as error:
            rejected = error
        at = reader.at
        out += "".join(show(line, words) for line in reader.lines)
        values += tree_of(reader.lines)
        if rejected:
            out += f"{'  ' * rejected.depth}{rejected.label}: rejected\n"
        if rejected or at >= len(data):
            break
    if "--json" in words:
        value = {"messages": values, "type": of} | ({"rejected_at": position(reason), "rejection": reason} if rejected else {})
        return json.dumps(value, indent=2, sort_keys=True, ensure_ascii=False) + "\n"
    return out


# The structs of the texts that tlsdump doesn't show, by the reason.
NOT_SHOWN = {
    "hashed, signed or derived from, and not sent: its crate encodes it, and doesn't decode it": {
        *("AuthenticatedContentTBM", "ConfirmedTranscriptHashInput", "EncryptContext", "FramedContentTBS", "GroupInfoTBS"),
        *("InterimTranscriptHashInput", "KDFLabel", "KeyPackageTBS", "LeafNodeTBS", "PSKLabel", "ParentHashInput", "PrivateContentAAD"),
        *("RefHashInput", "SenderDataAAD", "SignContent"),
    },
    "a field of another message decides what it is": {
        *("EarlyDataIndication", "FramedContentAuthData", "PreSharedKeyExtension", "PrivateMessageContent", "SupportedVersions"),
    },
    "it has no bytes": {"Empty", "EndOfEarlyData", "PostHandshakeAuth"},
    "its length is elsewhere: that of a record, a hash or a curve": {"Finished", "TLSInnerPlaintext", "UncompressedPointRepresentation"},
}


def own_texts(protocol: str) -> list[str]:
    """The texts of a protocol, without those of another one."""
    return [it for it in PROTOCOLS[protocol] if it == protocol or it not in PROTOCOLS]


def structs_of(protocol: str) -> set[str]:
    """The structs of a protocol's texts, and what some of them sign."""
    names = set()
    for text in own_texts(protocol):
        for one in Parser((DATA / f"{text}.tls").read_text()).all():
            if one[0] not in ("enum", "alias"):
                names.add(name_of(one))
                names |= {f"{name_of(one)}TBS" for part in one[-2] if part[0] == "signed"}
    return names


def listed() -> str:
    """What --list prints: the structs of the texts, but those of NOT_SHOWN, with the sections that the texts' comments name."""
    out, left_out = "", set().union(*NOT_SHOWN.values())
    structs = {protocol: structs_of(protocol) for protocol in PROTOCOLS}
    unknown = left_out.difference(*structs.values())
    if unknown:
        raise Failed(f"NOT_SHOWN has what no text has: {', '.join(sorted(unknown))}")
    for protocol, all_names in structs.items():
        names = all_names - left_out
        for text in own_texts(protocol):
            rfc = section = ""
            for line in (DATA / f"{text}.tls").read_text().splitlines():
                if found := re.match(r"// (?:---- )?(?:.*\()?(RFC \d+)", line):
                    rfc = found[1]
                if found := re.match(r"// ---- (?:RFC \d+, )?((?:section|appendix) [\w.]*\w)", line):
                    section = found[1]
                found = re.search(r"^ *} (?:.* )?(\w+);", line)
                # what a struct signs comes first
                for name in (f"{found[1]}TBS", found[1]) if found else ():
                    if name in names:
                        names.remove(name)
                        out += f"{protocol}.{name} ({rfc}, {section})\n"
        if names:
            raise Failed(f"no definition is found in the texts of {protocol} for {', '.join(sorted(names))}")
    return out


def expected(run: pathlib.Path, given: bytes | None = None) -> str:
    """What the texts say that a run prints, whose input is stored or given."""
    if run.name in UNREAD:
        return ""
    if run.name == "list":
        return listed()
    stored = FOLDER / "data" / "message" if run.name == "file" else run
    return printed(stored.read_bytes() if given is None else given, words_of(run), REJECTIONS.get(run.name))


def output_of(run: pathlib.Path) -> pathlib.Path:
    """The file with what a run prints."""
    return FOLDER / "stdout" if run.name == "stdin" else run.with_suffix(".stdout")


def selftest() -> list[str]:
    """The planted faults that aren't found. A run without its plant has to pass."""
    missed = []
    for fault, (name, where, old, new) in PLANTS.items():
        run = FOLDER / "runs" / name
        stored, given = output_of(run).read_text(encoding="utf-8"), run.read_text(encoding="utf-8")
        changed = {OUTPUT: stored, INPUT: given}
        is_sound = changed[where].count(old) == 1 and expected(run) == stored
        changed[where] = changed[where].replace(old, new)
        if not is_sound or expected(run, changed[INPUT].encode()) == changed[OUTPUT]:
            missed.append(f"selftest: not found, or not there to be found: {fault} of {name}")
    return missed


def main() -> int:
    failed, write = [], is_to_write()
    runs = [it for it in [FOLDER / "stdin", *sorted((FOLDER / "runs").iterdir())] if not it.suffix and it.name not in BY_HAND]
    for run in runs:
        tree, stored = expected(run), output_of(run)
        if write:
            stored.write_text(tree, encoding="utf-8")
        if not stored.is_file() or stored.read_text(encoding="utf-8") != tree:
            failed.append(f"{run.name}: another tree\n{tree}")
    failed += selftest()
    print("".join(f"{it}\n" for it in failed), end="")
    tried = len(runs) + len(PLANTS)
    print(f"{len(runs)} stored outputs of tlsdump were compared with what the texts say")
    print(f"{tried - len(failed)} passed, {len(failed)} failed")
    return int(bool(failed))


if __name__ == "__main__":
    sys.exit(ended(main))
