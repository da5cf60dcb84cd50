"""python/tls_codec_exports.py, which check_exports.py writes: the names that the module of python/ has."""
from __future__ import annotations

import json

from lib.exported import OTHER_STATUS, WRITTEN, Export, exports_of, libraries, named_as_in_the_rfc, numbers, sentences, struct_of, taken_by
from lib.exports_c import mark, version
from lib.registries import enums_in_python

# What is said of the fields of `fields_with_length`.
WITH_LENGTH = [
    "# Fields whose bytes begin, in some case or in each, with a length that the header names. Other fields that are a struct,",
    "# an option or a case have the lengths of their parts in them, and aren't listed.",
]


def located() -> list[Export]:
    """All `NAME_locate_prefix`."""
    return [it for crate in libraries() for it in exports_of(crate) if it.call == "_locate_prefix"]


def located_fields() -> dict[str, list[str]]:
    """What each `NAME_locate_prefix` fills, by NAME: the names of its struct's fields in their order, or of the one place."""
    found = {}
    for it in located():
        fields = [named_as_in_the_rfc(field) for _, field, _ in struct_of(taken_by(it)).fields]
        found[it.subject] = [it.parameters[1][0]] if taken_by(it) == "Span" else fields
    return found


def fields_with_length() -> dict[str, list[str]]:
    """Which of these fields begin with a length, in some case or in each, by NAME."""
    found = {}
    for it in located():
        fields = struct_of(taken_by(it)).fields if taken_by(it) != "Span" else []
        if names := [named_as_in_the_rfc(field) for text, field, _ in fields if "with its length" in text]:
            found[it.subject] = names
    return found


def called_by_outcome() -> list[str]:
    """The calls that `Validators._outcome` of Python makes: all that are given bytes, and then what they fill."""
    return [it.name for crate in libraries() for it in exports_of(crate) if it.call != "_encode"]


def exports_python() -> str:
    lines = [f'"""{WRITTEN}. Don\'t edit."""', "", "import enum", "", "# The version, by CHANGELOG.md.", f'VERSION = "{version()}"', ""]
    lines += ["# What archives of this version and these headers have beside them.", f'MARK = "{mark()}"', ""]
    lines += ["# The names of the statuses, by their numbers.", "STATUSES = ["]
    lines += [f'    "{name}",' for name in ("Accepted", *[name for name, _, _ in numbers()])]
    lines += ["]", "", "# A sentence on each, for a person to read, of those that a call returns.", "SENTENCES = {"]
    lines += [f"    {json.dumps(name)}: {json.dumps(sentence)}," for name, sentence in sentences().items()]
    lines += ["}", "", "# The sentence on another status.", f"OTHER_STATUS = {json.dumps(OTHER_STATUS)}", ""]
    lines += ["# The functions that are given bytes, and then what they fill.", "CALLS = ["]
    lines += [f'    "{it}",' for it in called_by_outcome()]
    lines += ["]", "", "# What `NAME_locate_prefix` fills, in this order, by NAME.", "FIELDS = {"]
    lines += [f'    "{message}": {json.dumps(names)},' for message, names in located_fields().items()]
    lines += ["}", "", *WITH_LENGTH, "WITH_LENGTH = {"]
    lines += [f'    "{message}": {json.dumps(names)},' for message, names in fields_with_length().items()]
    return "\n".join([*lines, "}", *enums_in_python(), ""])
