"""The headers of c/include/tls_codec and c/tests/exports.inc, which check_exports.py writes, and the version and the sum that say which
headers archives are of."""
from __future__ import annotations

import functools
import hashlib
import pathlib
import re

from lib.exported import CALLS, MEANINGS, MODULES, WHOLE, WRITTEN, Export
from lib.exported import about, archive_of, exports_of, filled, libraries, module_of, named_as_in_the_rfc, numbers, struct_of, structs
from lib.exported import OTHER_STATUS, sentences, taken_by, type_in_c, validators
from lib.failed import Failed
from lib.headers import CONTRACT, LISTS, READERS, WHOLE_OUTCOME
from lib.libraries import TOP
from lib.registries import enums_in_c

INCLUDE = TOP / "c" / "include" / "tls_codec"
# The file beside archives that says which headers they are of.
MARK = "tls_codec.version"


@functools.cache
def version() -> str:
    """The last version of CHANGELOG.md."""
    found = re.search(r"^## (\d+\.\d+\.\d+)$", (TOP / "CHANGELOG.md").read_text(encoding="utf-8"), re.M)
    if not found:
        raise Failed("CHANGELOG.md has no version")
    return found[1]


def minor() -> str:
    """The version without its last number, as packages of CMake are asked for."""
    return version().rpartition(".")[0]


@functools.cache
def mark() -> str:
    """The line of the file MARK: the version, and a sum of the headers."""
    return f"{version()} {hashlib.sha256(''.join(headers('').values()).encode()).hexdigest()[:16]}"


def struct_in_c(kind: str) -> list[str]:
    name, lines = type_in_c(kind), comment(struct_of(kind).text)
    lines.append(f"typedef struct {name} {{")
    for text, field, field_kind in struct_of(kind).fields:
        lines += [*comment(text, "  "), f"  {type_in_c(field_kind)} {named_as_in_the_rfc(field)};"]
    return [*lines, f"}} {name};"]


def spaced(name: str) -> str:
    """`EndOfStream` as `END_OF_STREAM`."""
    return re.sub(r"(?<=[a-z])(?=[A-Z])", "_", name).upper()


def named_in_c(text: str) -> str:
    """A text with the statuses by their names in C: `[`ACCEPTED`]` and the errors."""
    text = text.replace("[`ACCEPTED`]", "`TLS_CODEC_ACCEPTED`")
    for name, _, _ in numbers():
        text = text.replace(f"`{name}`", f"`TLS_CODEC_{spaced(name)}`")
    return text


def comment(text: str, indent: str = "") -> list[str]:
    """A comment of C, in lines that aren't too long."""
    return filled(f"{named_in_c(text)} */", f"{indent}/*", f"{indent}  ")


def guarded(name: str, crates: str, body: list[str]) -> str:
    """A header's text."""
    guard, source = f"TLS_CODEC_{name.upper()}_H", f" from crates/{crates}/src" if crates else ""
    return "\n".join([f"/* {WRITTEN}{source}. Don't edit. */", f"#ifndef {guard}", f"#define {guard}", "", *body, "", "#endif", ""])


def outcome_header(of_headers: str) -> str:
    """outcome.h, which names the headers that it is of."""
    names = [("Accepted", False, 0), *numbers()]
    body = [*CONTRACT, "#include <stddef.h>", "#include <stdint.h>", "", "/* The version of this header, by CHANGELOG.md. */"]
    major, lesser, patch = map(int, version().split("."))
    body += [f'#define TLS_CODEC_VERSION "{version()}"', "", "/* 10000 * major + 100 * minor + patch; 0.2.0 had none. */"]
    body += [f"#define TLS_CODEC_VERSION_NUMBER {10000 * major + 100 * lesser + patch}", ""]
    body += [*comment(f"The line that `{MARK}` beside archives of just these headers has.")]
    body += [f'#define TLS_CODEC_HEADERS "{of_headers}"', ""]
    body += ["/* A call's status. The numbers don't change. */", "enum tls_codec_status {"]
    for name, _, number in names:
        body += [*comment(MEANINGS[name], "  "), f"  TLS_CODEC_{spaced(name)} = {number}{'' if name == names[-1][0] else ','}"]
    body += ["};", ""]
    for it in structs():
        body += [*struct_in_c(it), ""] if struct_of(it).crate == "tls_codec_outcome" else []
    body += WHOLE_OUTCOME
    body += ["/* The name of a status, as \"EndOfStream\"; \"?\" of another number. */"]
    body += ["static inline const char *tls_codec_status_name(uint32_t status) {", "  switch (status) {"]
    body += [f'  case TLS_CODEC_{spaced(name)}: return "{name}";' for name, _, _ in names]
    body += ['  default: return "?";', "  }", "}", ""]
    body += [*comment("A sentence on a status, for a person to read.")]
    body += ["static inline const char *tls_codec_status_sentence(uint32_t status) {", "  switch (status) {"]
    body += [f'  case TLS_CODEC_{spaced(name)}: return "{sentence}";' for name, sentence in sentences().items()]
    body += [f'  default: return "{OTHER_STATUS}";', "  }", "}"]
    return guarded("outcome", "tls_codec_outcome", body)


def declared(it: Export) -> list[str]:
    """A call in C: the struct that it fills, its prototype, and the call that needs all of the bytes."""
    lines: list[str] = []
    if it.call == "_locate_prefix" and struct_of(taken_by(it)).crate != "tls_codec_outcome":
        lines = ["", *struct_in_c(taken_by(it))]
    lines += ["", *comment(it.in_c()), it.prototype()]
    if it.call.endswith("_prefix"):
        lines += ["", *comment(it.said_if(WHOLE)), *it.whole_in_c()]
    return lines


def header(crate: str) -> str:
    name = crate.removesuffix("_c")
    body = [*comment(f"{about(crate)} What holds for each call is in outcome.h."), "", '#include "outcome.h"', ""]
    body += ["#ifdef __cplusplus", 'extern "C" {', "#endif", *enums_in_c(name)]
    for call in CALLS:
        calls = [it for it in exports_of(crate) if it.call == call]
        body += ["", *comment(LISTS)] if call == "_next" and calls else []
        body += [line for it in calls for line in declared(it)]
    body += ["", "#ifdef __cplusplus", "}", "#endif", *(["", *READERS] if name in MODULES else [])]
    return guarded(module_of(crate), crate, body)


def umbrella() -> str:
    """all.h."""
    archives = ", ".join(archive_of(it) for it in validators())
    body = comment(f"The headers of the archives that don't allocate. Link those whose calls you use: {archives}.")
    return guarded("all", "", [*body, "", *[f'#include "{module_of(it)}.h"' for it in sorted(validators(), key=module_of)]])


def headers(of_headers: str) -> dict[pathlib.Path, str]:
    """The headers. outcome.h has this mark: that of all of them, or an empty one, while that is made."""
    found = {INCLUDE / f"{module_of(it)}.h": header(it) for it in libraries()}
    return {INCLUDE / "outcome.h": outcome_header(of_headers), INCLUDE / "all.h": umbrella(), **found}


def table() -> str:
    """c/tests/exports.inc: the lines that lead tests in C to a message's calls."""
    found = [it for crate in libraries() for it in exports_of(crate)]
    by_call = {call: [it for it in found if it.call == call] for call in CALLS}
    decoded = {it.subject for it in by_call["_decode_check_prefix"]}
    lines = ["#ifdef MESSAGE", *[f"MESSAGE({it.subject})" for it in by_call["_validate_prefix"] if it.subject in decoded]]
    lines += ["#endif", "#ifdef LOCATED", *[f"LOCATED({it.subject}, {type_in_c(taken_by(it))})" for it in by_call["_locate_prefix"]]]
    lines += ["#endif", "#ifdef LISTED", *[f"LISTED({it.subject})" for it in by_call["_next"]]]
    return "\n".join([f"/* {WRITTEN}. Don't edit. */", *lines, "#endif", ""])
