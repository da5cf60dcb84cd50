"""rust/src/exports.rs: what the Rust crate declares of the static libraries, and the functions over it; and the list of them for its tests,
rust/tests/common/exports.rs. check_exports.py writes both."""
from __future__ import annotations

import re

from lib.exported import CALLS, MEANINGS, WRITTEN, Export
from lib.exported import about, archive_of, decoders, exports_of, filled, libraries, module_of, named_as_in_the_rfc, numbers, struct_of
from lib.exported import OTHER_STATUS, sentences, taken_by, validators
from lib.failed import Failed
from lib.registries import enums_in_rust

SAFE = "the pointer and the length are of one slice, nothing changes it during the call, and the call keeps no pointer."
SAFE_TO_WRITE = (
    "each pointer and its length are of one slice, nothing else changes or reads it during the call, and the call keeps no pointer."
)
# Words of the sources' texts, as a caller in Rust reads them.
REWORDED = {
    "The result is that of validation for the written bytes, and `at` counts from the first of them. Use them only if all of them are"
    " accepted: a context that isn't signed would be left over. They are written even if they are rejected. If `out` has too little room,"
    " nothing is written: `InvalidWriteLength`.": "Returns the written bytes, if all of them are accepted. Else the error is that of"
    " validation, and its place counts from the first byte of `out`, which they stay in; a context that isn't signed is `TrailingData`."
    " `out` has to have at least 4 + `content.len()` + `context.len()` bytes, the number of those that are written. If it has fewer,"
    " nothing is written, and the error is `InvalidWriteLength`. `Ok` says that the written bytes are a `FramedContentTBS`, not that"
    " `content` ends where you say: validate both parts before, or take them from `locate_NAME`.",
}
# Words of Rust that fields have as names.
KEYWORDS = {"type"}
# A line that is a comment alone: its beginning, and the text.
COMMENT = re.compile(r"( *//[/!]?) (.*)")
# What the macros for tests pass on, by their names.
EACH = {
    "message": "message: its name in C, the two functions of its validator, and the two of its decoder",
    "located": "call that finds fields: its name in C, its two functions, and its struct's fields in order",
    "content": "call that finds the content after a length: its name in C, and its two functions",
    "list": "call that finds an element: its name in C, and the function of a list's iterator",
}
BREAK = ",\n" + 16 * " "
# How many bytes an encoder writes beside its parts: of a FramedContentTBS the version and the wire format.
BESIDE = {"mls_framed_content_tbs_encode": 4}


def linked(crate: str) -> str:
    """A static library's name for the linker."""
    return archive_of(crate).removeprefix("lib").removesuffix(".a")


def short(crate: str, export: Export) -> str:
    """What a call is of, as functions of its module are named."""
    return export.subject.removeprefix(f"{crate.removesuffix('_c').removesuffix('_decode')}_")


def wrapped(lines: list[str]) -> str:
    """These lines, with comments in lines that aren't too long."""
    found = [(line, COMMENT.fullmatch(line)) for line in lines]
    return "\n".join(it for line, text in found for it in (filled(text[2], text[1], text[1]) if text else [line]))


def field_in_rust(field: str) -> str:
    """A field's name in Rust, as the RFC has it."""
    name = named_as_in_the_rfc(field)
    return f"r#{name}" if name in KEYWORDS else name


def struct_in_rust(kind: str) -> list[str]:
    lines = [f"/// {struct_of(kind).text}", "#[repr(C)]", "#[derive(Clone, Copy, Default)]", f"pub struct {kind} {{"]
    return [*lines, *[f"    pub {field_in_rust(name)}: {field}," for _, name, field in struct_of(kind).fields], "}"]


def whole_in_rust(name: str, text: str, returned: str) -> list[str]:
    """The function that finds what another one with `_prefix` does, in all of the bytes."""
    lines = ["", f"    /// {text}", f"    pub fn {name}(bytes: &[u8]) -> Result<{returned}, Rejected> {{"]
    return [*lines, f"        nothing_left(bytes, {name}_prefix(bytes)?)", "    }"]


def found_in_rust(export: Export, name: str, text: str, kinds: tuple[str, str, str]) -> list[str]:
    """The two functions that find one thing: its type, what is passed to be filled, and what is returned of that."""
    returned, filled, found = kinds
    lines = whole_in_rust(name, f"{export.text} Returns {text}, if no bytes are left.", returned)
    lines += ["", f"    /// {export.text} Returns {text}, and the rest of the bytes."]
    lines += [f"    pub fn {name}_prefix(bytes: &[u8]) -> Result<({returned}, &[u8]), Rejected> {{"]
    lines += [f"        let mut found = {filled};", f"        // SAFETY: {SAFE}"]
    lines += [f"        let outcome = unsafe {{ foreign::{export.name}(bytes.as_ptr(), bytes.len(), &mut found) }};"]
    return [*lines, "        let (_, rest) = split_as(bytes, outcome)?;", f"        Ok(({found}, rest))", "    }"]


def content_in_rust(export: Export, name: str) -> list[str]:
    return found_in_rust(export, name, "that content", ("&[u8]", "Span::default()", "found.of(bytes)"))


def number_in_rust(export: Export, name: str) -> list[str]:
    kind = taken_by(export)
    return found_in_rust(export, name, "that number", (kind, f"0{kind}", "found"))


def elements_in_rust(export: Export, name: str) -> list[str]:
    """The iterator over the elements of a list."""
    lines = ["", f"    /// {export.message()}: an iterator over a list's elements. `content` is the list without its length;"]
    lines[-1] += " an error's `at` counts from its first byte."
    lines += [f"    pub fn {name}_elements(content: &[u8]) -> Elements<'_> {{", f"        Elements::of(content, foreign::{export.name})"]
    return [*lines, "    }"]


def located_in_rust(crate: str, export: Export) -> list[str]:
    """A struct of slices, and the two functions that find them."""
    kind, name = taken_by(export), f"locate_{short(crate, export)}"
    if kind == "Span":
        return content_in_rust(export, name)
    it = struct_of(kind)
    lines = ["", f"    /// {it.text}", "    #[derive(Clone, Copy, PartialEq, Eq, Debug)]", f"    pub struct {kind}<'a> {{"]
    for text, field, _ in it.fields:
        lines += [f"        /// {text}", f"        pub {field_in_rust(field)}: &'a [u8],"]
    lines += ["    }"]
    lines += whole_in_rust(name, f"{export.message()}: returns its fields, if `bytes` are one, with nothing after it.", f"{kind}<'_>")
    lines += ["", f"    /// {export.message()}: returns the fields of the one that `bytes` begin with, and the rest."]
    lines += [f"    pub fn {name}_prefix(bytes: &[u8]) -> Result<({kind}<'_>, &[u8]), Rejected> {{"]
    lines += [f"        let mut found = foreign::{kind}::default();"]
    lines += [f"        // SAFETY: {SAFE}"]
    lines += [f"        let outcome = unsafe {{ foreign::{export.name}(bytes.as_ptr(), bytes.len(), &mut found) }};"]
    lines += ["        let (_, rest) = split_as(bytes, outcome)?;", f"        let fields = {kind} {{"]
    lines += [f"            {it}: found.{it}.of(bytes)," for it in (field_in_rust(field) for _, field, _ in it.fields)]
    return [*lines, "        };", "        Ok((fields, rest))", "    }"]


def reworded(export: Export) -> str:
    """The text of an encoder, as a caller in Rust reads it."""
    found = [it for it in REWORDED if export.text.endswith(it)]
    if not found:
        raise Failed(f"{export.name}: its text ends in other words")
    return export.text.removesuffix(found[0]) + REWORDED[found[0]]


def encoder_in_rust(export: Export, name: str) -> list[str]:
    """The function that writes into a buffer, and returns what it wrote if all of it is accepted."""
    taken = [it if kind != "Global" else None for it, kind in export.parameters]
    kinds = dict(export.parameters)
    pointers = {"&[u8]": "as_ptr", "&mut [u8]": "as_mut_ptr"}
    passed = [f"{it}.{pointers[kinds[it]]}(), {it}.len()" if kinds[it] in pointers else it for it in taken]
    parameters = ", ".join(f"{it}: {kind}" for it, kind in export.parameters).replace("&mut [u8]", "&'a mut [u8]")
    lines = ["", f"    /// {reworded(export)}", f"    pub fn {name}<'a>({parameters}) -> Result<&'a [u8], Rejected> {{"]
    lines += [f"        // SAFETY: {SAFE_TO_WRITE}"]
    lines += ["        let outcome = unsafe {", f"            foreign::{export.name}("]
    lines += [*[f"                {it}," for it in passed], "            )", "        };"]
    if export.name not in BESIDE:
        raise Failed(f"{export.name}: how many bytes it writes beside its parts")
    sizes = [str(BESIDE[export.name]), *[f"{it}.len()" for it in taken if kinds[it] == "&[u8]"]]
    return [*lines, f"        written_as(out, {' + '.join(sizes)}, outcome)", "    }"]


def asked_in_rust(export: Export, name: str, error: str, ends: tuple[str, str]) -> list[str]:
    """The two functions of a validator or a decoder: all of the bytes, and the bytes that it begins with. `ends` are of texts and calls."""
    said, mapped = ends
    lines = ["", f"    /// {export.message()}: whether `bytes` are one, with nothing after it{said}."]
    lines += [f"    pub fn {name}(bytes: &[u8]) -> Result<(), {error}> {{"]
    lines += [f"        whole(bytes, foreign::{export.name}){mapped}", "    }", ""]
    lines += [f"    /// {export.message()}: returns the bytes of the one that `bytes` begin with, and the rest{said}."]
    lines += [f"    pub fn {name}_prefix(bytes: &[u8]) -> Result<(&[u8], &[u8]), {error}> {{"]
    return [*lines, f"        split(bytes, foreign::{export.name}){mapped}", "    }"]


def decoders_in_rust(crate: str) -> list[str]:
    """The functions of a static library of decoders, as those of a module that a feature adds. A decoder says no place."""
    name, exports = crate.removesuffix("_c"), exports_of(crate)
    text = about(crate).removesuffix(": `at` of `NAME_decode_check_prefix` is 0.")
    if text == about(crate):
        raise Failed(f"{crate}: its text ends in other words")
    body = ["", f"/// {text}.", '#[cfg(feature = "decode")]', f"pub mod {name} {{", "    use crate::{Error, split, whole};", ""]
    body += ["    mod foreign {", "        use crate::Outcome;", "", f'        #[link(name = "{linked(crate)}", kind = "static")]']
    body += ['        unsafe extern "C" {', *[f"            {line}" for it in exports for line in it.declaration()], "        }", "    }"]
    for it in exports:
        body += asked_in_rust(it, f"decode_check_{short(crate, it)}", "Error", (", by the decoder", ".map_err(|it| it.error)"))
    return [*body, "}"]


def module_in_rust(crate: str) -> list[str]:
    """A static library's functions, as those of a module."""
    name, exports = crate.removesuffix("_c"), exports_of(crate)
    by_call = {call: [it for it in exports if it.call == call] for call in CALLS}
    located, lists, encoders = by_call["_locate_prefix"], by_call["_next"], by_call["_encode"]
    taken = dict.fromkeys(taken_by(it) for it in located if taken_by(it) != "Span")
    if by_call["_decode_check_prefix"]:
        raise Failed(f"{crate}: an export of no kind that Rust has a function for")
    used = ["Rejected", *(["nothing_left"] if located else []), "split", *(["split_as"] if located else []), "whole"]
    if len(taken) < len(located) and not taken:
        used.insert(1, "Span")
    if lists:
        used.insert(0, "Elements")
    if encoders:
        used.append("written_as")
    body = ["", f"/// {about(crate)}", f"pub mod {module_of(crate)} {{", f"    use crate::{{{', '.join(used)}}};", ""]
    body += ["    mod foreign {"]
    body += [f"        use crate::{{Outcome{', Span' if located else ''}}};" if located else "        use crate::Outcome;", ""]
    for it in taken:
        body += [f"        {line}" for line in struct_in_rust(it)] + [""]
    body += [f'        #[link(name = "{linked(crate)}", kind = "static")]', '        unsafe extern "C" {']
    body += [f"            {line}" for it in exports for line in it.declaration()]
    body += ["        }", "    }", *enums_in_rust(name)]
    for it in by_call["_validate_prefix"]:
        body += asked_in_rust(it, f"validate_{short(crate, it)}", "Rejected", ("", ""))
    for it in located:
        body += located_in_rust(crate, it)
    for it in by_call["_wire_format_prefix"]:
        body += number_in_rust(it, it.name.removeprefix(f"{name}_").removesuffix("_prefix"))
    for it in encoders:
        body += encoder_in_rust(it, short(crate, it))
    for it in lists:
        body += elements_in_rust(it, short(crate, it))
    return [*body, "}"]


def exports_rust() -> str:
    """The module of rust/ that declares the validators."""
    body = [f"//! {WRITTEN}. Don't edit.", ""]
    body += struct_in_rust("Outcome")
    body += ["", "/// Why bytes are rejected.", "#[derive(Clone, Copy, PartialEq, Eq, Debug)]", "#[non_exhaustive]", "pub enum Error {"]
    values = [name for name, value, _ in numbers() if name == "UnknownValue"]
    for name, _, number in numbers():
        body += [f"    /// {MEANINGS[name]} Status {number}.", f"    {name}(u64)," if name in values else f"    {name},"]
    body += ["    /// A status that these declarations don't have.", "    Other(u32),", "}", ""]
    body += ["impl Error {", "    pub(crate) fn of(outcome: &Outcome) -> Error {", "        match outcome.status {"]
    for name, _, number in numbers():
        body += [f"            {number} => Error::{name}(outcome.detail)," if name in values else f"            {number} => Error::{name},"]
    body += ["            other => Error::Other(other),", "        }", "    }", "", "    /// A sentence on it, for a person to read."]
    body += ["    pub fn sentence(&self) -> &'static str {", "        match self {"]
    said = [(f"{name}(_)" if name in values else name, sentence) for name, sentence in sentences().items() if name != "Accepted"]
    body += [f'            Error::{name} => "{sentence}",' for name, sentence in said]
    body += [f'            _ => "{OTHER_STATUS}",', "        }", "    }", "}"]
    body += ["", *struct_in_rust("Span")]
    for crate in libraries():
        body += decoders_in_rust(crate) if crate in decoders() else module_in_rust(crate)
    return wrapped([*body, ""])


def each(name: str, lines: list[str]) -> list[str]:
    """A macro that passes lines to another one."""
    head = ["", f"/// Passes to a macro each {EACH[name]}.", "#[allow(unused_macros)]", f"macro_rules! each_{name} {{"]
    return [*head, "    ($to:ident) => {", "        $to! {", *[f"            {it};" for it in lines], "        }", "    };", "}"]


def tests_rust() -> str:
    """The list for tests in Rust, as exports.inc is one for those in C."""
    decode = {it.subject: f"{module_of(crate)}::decode_check_{short(crate, it)}" for crate in decoders() for it in exports_of(crate)}
    lines: dict[str, list[str]] = {name: [] for name in EACH}
    for crate, it in ((crate, it) for crate in validators() for it in exports_of(crate)):
        module, name = module_of(crate), short(crate, it)
        if it.call == "_validate_prefix" and it.subject in decode:
            calls = [f"{call}, {call}_prefix" for call in (f"{module}::validate_{name}", decode[it.subject])]
            lines["message"].append(f'"{it.subject}": {BREAK.join(calls)}')
        elif it.call == "_locate_prefix" and taken_by(it) == "Span":
            lines["content"].append(f'"{it.name}": {module}::locate_{name}, {module}::locate_{name}_prefix')
        elif it.call == "_locate_prefix":
            fields = " ".join(field_in_rust(field) for _, field, _ in struct_of(taken_by(it)).fields)
            lines["located"].append(f'"{it.name}": {module}::locate_{name}, {module}::locate_{name}_prefix{BREAK}{fields}')
        elif it.call == "_next":
            lines["list"].append(f'"{it.name}": {module}::{name}_elements')
    return wrapped([f"//! {WRITTEN}. Don't edit.", *[line for name in EACH for line in each(name, lines[name])], ""])
