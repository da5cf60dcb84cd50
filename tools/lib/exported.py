"""What the static libraries of crates.txt export: their functions, the structs that cross, and the numbers of the errors."""
from __future__ import annotations

import functools
import re
from dataclasses import dataclass

from lib.failed import Failed
from lib.libraries import TOP, Libraries
from lib.presentation import snake

WRITTEN = "Written by tools/check_exports.py"
# The most columns of a comment that is written.
LONGEST = 100
# A word that goes beyond them rather than begin a line: the end of a comment in C, or what would be a list or a heading in Markdown.
STAYS = re.compile(r"\*/|[-+*>#]+|\d+[.)]")
# The archive beside the others, for decoders: malloc and free by Rattle's names for them.
HEAP = "libtls_codec_heap.a"
# Archives, headers of C and modules of the Rust crate that have another name than their library: it is no main header, and a caller may use
# the crate `tls_codec` of crates.io too.
MODULES = {"tls_codec": "lengths"}
EXPORT = re.compile(r'((?:^///.*\n)+)#\[unsafe\(no_mangle\)\]\npub extern "C" fn (\w+)\(([^)]*)\) -> (\w+)', re.M)
STRUCT = re.compile(r"((?:^///.*\n)+)#\[repr\(C\)\]\n(?:#.*\n)*pub struct (\w+) \{\n((?:    .*\n)*)\}", re.M)
FIELD = re.compile(r"((?:^    ///.*\n)+)    pub (\w+): (\w+),", re.M)
NUMBER = re.compile(r"^        Error::(\w+)(\(_\))? => (\d+),$", re.M)
C = {"u16": "uint16_t", "u32": "uint32_t", "u64": "uint64_t", "usize": "size_t"}
# The libraries whose structs cross, and what their names begin with in C.
STRUCTS = {"tls_codec_outcome": "tls_codec", "mls_fields": "mls", "tls13_fields": "tls13"}
# How the names of calls end, by what they do, in the order of a header.
CALLS = ("_validate_prefix", "_locate_prefix", "_next", "_wire_format_prefix", "_encode", "_decode_check_prefix")
# What an export with `_prefix` asks of the bytes, and what the header's call without it does, which needs all of them.
PREFIX, WHOLE = "the bytes begin with one", "the bytes are one, with nothing after it"
# The exports that just answer that, by the end of the name, and what C says after it. The text of others with `_prefix` has what is found.
ASKED = {"_validate_prefix": "", "_decode_check_prefix": ", by the decoder"}
FOUND = re.compile(r"(its fields are|its content is|its `WireFormat`)(?=[.:])")
# What C says of the buffers, beside the text in the source.
POINTERS = (
    " `out_length` has to be at least 4 + `content_length` + `context_length`, the number of bytes that are written. Status 0 says that the"
    " first `taken` of them are a `FramedContentTBS`, not that `content` ends where you say: validate both parts before, or take them from"
    " `NAME_locate`. `out` must not overlap `content` or `context`; an empty `context` may be NULL."
)
# What is said of a field of a struct beside its definition: how the bytes of its span begin.
INSIDE = {
    "`Sender sender;`": ": a byte of `SenderType`, then of a member or an external sender its index, a uint32",
    "`FramedContentAuthData auth;`": ": `opaque signature<V>` with its length, then of a commit its `MAC confirmation_tag` with its length",
    "`optional<UpdatePath> path;`": ": a byte 0, or a byte 1 and the `UpdatePath`",
    "`optional<PathSecret> path_secret;`": ": a byte 0, or a byte 1 and the `PathSecret`",
    "What its case has, with its length: a `ClientHello`, a `ServerHello`, ..": "; the length has three bytes",
    "Where its first byte is.": " It counts from the `bytes` of the call that filled it.",
    "The offset of the rejected field's first byte; 0 if the bytes are accepted.": " It counts from `bytes`; of `NAME_next` from the first"
    " byte of `*left` before the call, and of `NAME_encode` from `out`. It is 0 if `out` is too small, and of each"
    " `NAME_decode_check_prefix`.",
}
# Fields that callers name as the RFC does, where Rattle has that word itself.
AS_IN_THE_RFC = {"kind": "type"}
# Names of the texts for `opaque <V>`.
OPAQUE = re.compile(r"`(?:HPKEPublicKey|SignaturePublicKey|MAC) \w+;`")
# What a status means to a caller. The comments of `Error` in Rattle also speak of sinks, sources and values.
MEANINGS = {
    "Accepted": "The bytes begin with an encoding.",
    "EncodingError": "No call returns it.",
    "InvalidVectorLength": "A length or a variable-length integer has more bytes than it needs, or is outside the bounds of its field.",
    "InvalidWriteLength": "The buffer to write into is too small.",
    "InvalidInput": "No call returns it.",
    "DecodingError": "One of three, which aren't told apart: the bytes of an `opaque<V>` aren't all there, while a list that isn't all"
    " there has the error of the element that is cut off; an element passes the end of its list; the byte before an optional field is"
    " neither 0 nor 1.",
    "EndOfStream": "The bytes, or the body of a Handshake, end before a field does.",
    "TrailingData": "Bytes are left, after the message or, in a Handshake, after its body.",
    "UnknownValue": "No case has this number, or a constant has another value.",
    "LibraryError": "No call returns it.",
    "OutOfMemory": "An allocation failed, in a decoder: nothing is said of the bytes.",
}


@dataclass
class Export:
    """A function that a static library exports."""

    name: str
    text: str
    parameters: list[tuple[str, str]]
    result: str

    @property
    def call(self) -> str:
        """How the name ends, by what the call does."""
        found = next((it for it in CALLS if self.name.endswith(it)), None)
        if not found:
            raise Failed(f"{self.name} ends in none of {', '.join(CALLS)}")
        return found

    @property
    def subject(self) -> str:
        """What the call is of: its name without that end."""
        return self.name.removesuffix(self.call)

    def in_c(self) -> str:
        """What the call does, as a header says it."""
        if self.call == "_next":
            return f"{self.message()}: the next one of a list."
        return self.text + POINTERS if self.call == "_encode" else self.said_if(PREFIX)

    def said_if(self, asked: str) -> str:
        """What a call does, as a header says it, that asks this of the bytes."""
        if self.call in ASKED:
            return f"{self.text.removesuffix('.')}: whether {asked}{ASKED[self.call]}."
        said, count = FOUND.subn(rf"\1, if {asked}", self.text)
        if count != 1:
            raise Failed(f"{self.name}: {count} places of its text say what it finds")
        return said

    def whole_in_c(self) -> list[str]:
        """The call that needs all of the bytes to be one message: else it fills nothing."""
        lines = [f"static inline tls_codec_outcome {self.name.removesuffix('_prefix')}({self.words_in_c()}) {{"]
        if self.call in ASKED:
            return [*lines, f"  return tls_codec_whole({self.name}(bytes, length), length);", "}"]
        lines += [f"  {type_in_c(taken_by(self))} found;"]
        lines += [f"  tls_codec_outcome outcome = tls_codec_whole({self.name}(bytes, length, &found), length);"]
        return [*lines, f"  if (outcome.status == TLS_CODEC_ACCEPTED) *{self.parameters[1][0]} = found;", "  return outcome;", "}"]

    def message(self) -> str:
        """The message, or what else is found, with the section of its RFC."""
        return re.split(r", and where |: the next one", self.text.removesuffix("."))[0]

    def words_in_c(self) -> str:
        """The parameters of a prototype."""
        return ", ".join(word for name, kind in self.parameters for word in in_c(name, kind))

    def prototype(self) -> str:
        return f"{type_in_c(self.result)} {self.name}({self.words_in_c()});"

    def declaration(self) -> list[str]:
        words = [word for name, kind in self.parameters for word in in_rust(name, kind)]
        line = f"pub fn {self.name}({', '.join(words)}) -> {self.result};"
        return [line] if len(words) < 5 else [f"pub fn {self.name}(", *[f"    {it}," for it in words], f") -> {self.result};"]


def length_of(name: str) -> str:
    """The parameter that has the length of this one."""
    return "length" if name == "bytes" else f"{name}_length"


def in_c(name: str, kind: str) -> list[str]:
    """A parameter of a prototype: a slice is a pointer and a length, and `Global` has no bytes."""
    if kind == "Global":
        return []
    if kind in ("&[u8]", "&mut [u8]"):
        return [f"{'const ' if kind == '&[u8]' else ''}uint8_t *{name}", f"size_t {length_of(name)}"]
    if kind in C:
        return [f"{C[kind]} {name}"]
    if kind.removeprefix("&mut ") in (*C, *structs()):
        return [f"{type_in_c(kind.removeprefix('&mut '))} *{name}"]
    raise Failed(f"{name}: {kind} is no type of a parameter")


def in_rust(name: str, kind: str) -> list[str]:
    if kind == "Global":
        return []
    if kind in ("&[u8]", "&mut [u8]"):
        return [f"{name}: *{'const' if kind == '&[u8]' else 'mut'} u8", f"{length_of(name)}: usize"]
    if kind.removeprefix("&mut ") in (*C, *structs()):
        return [f"{name}: {kind}"]
    raise Failed(f"{name}: {kind} is no type of a parameter")


@dataclass
class Struct:
    """A struct that crosses, in a library of STRUCTS."""

    text: str
    crate: str
    fields: list[tuple[str, str, str]]


@functools.cache
def structs() -> dict[str, Struct]:
    found = {}
    for crate in STRUCTS:
        for path in sorted((TOP / "crates" / crate / "src").glob("*.rt")):
            for text, name, inside in STRUCT.findall(path.read_text(encoding="utf-8")):
                fields = [(described(words_of(it)), field, kind) for it, field, kind in FIELD.findall(inside)]
                found[name] = Struct(words_of(text), crate, fields)
    texts = " ".join(text for it in found.values() for text, _, _ in it.fields)
    if unused := [it for it in INSIDE if it + INSIDE[it] not in texts]:
        raise Failed(f"no field is {unused}")
    return found


def struct_of(kind: str) -> Struct:
    """The struct of this name."""
    if kind not in structs():
        raise Failed(f"{kind}: no struct of {', '.join(STRUCTS)}")
    return structs()[kind]


def described(text: str) -> str:
    """What is said of a field: its definition, and how its bytes begin."""
    is_opaque = OPAQUE.fullmatch(text) is not None
    return text + INSIDE.get(text, " without its length" if is_opaque else "")


def type_in_c(kind: str) -> str:
    """`KeyPackageFields` of MLS as `mls_key_package_fields`."""
    if kind in C:
        return C[kind]
    name = snake(kind)
    prefix = STRUCTS[struct_of(kind).crate]
    return name if name.startswith(prefix) else f"{prefix}_{name}"


def filled(text: str, first: str, other: str) -> list[str]:
    """The lines of a comment, which aren't too long: the first begins with `first`, and each other with `other`."""
    lines, line = [], first
    for word in text.split():
        if len(line) + len(word) >= LONGEST and not STAYS.fullmatch(word):
            lines.append(line)
            line = other
        line += f" {word}"
    return [*lines, line]


def words_of(text: str) -> str:
    """What the lines of a doc comment say."""
    return " ".join(it.strip().removeprefix("///").strip() for it in text.strip().splitlines())


def named_as_in_the_rfc(field: str) -> str:
    """A field's name in C and Python, and in Rust where that isn't a word of the language."""
    return AS_IN_THE_RFC.get(field, field)


@functools.cache
def libraries() -> list[str]:
    """The static libraries of crates.txt."""
    return Libraries().static


def decoders() -> list[str]:
    """Those that need a heap."""
    return [it for it in libraries() if it.endswith("_decode_c")]


def module_of(crate: str) -> str:
    """What callers name a static library by: its header, and its module in Rust."""
    name = crate.removesuffix("_c")
    return MODULES.get(name, name)


def validators() -> list[str]:
    """The others."""
    return [it for it in libraries() if it not in decoders()]


def archive_of(crate: str) -> str:
    """The file of its archive."""
    return f"libtls_codec_{module_of(crate)}.a"


def source_of(crate: str, file: str = "lib.rt") -> str:
    return (TOP / "crates" / crate / "src" / file).read_text(encoding="utf-8")


def exports_of(crate: str) -> list[Export]:
    text = "\n".join(it.read_text(encoding="utf-8") for it in sorted((TOP / "crates" / crate / "src").glob("*.rt")))
    found = []
    for comment, name, inside, result in EXPORT.findall(text):
        pairs = [it.strip().partition(": ") for it in inside.split(",") if it.strip()]
        found.append(Export(name, words_of(comment), [(it, kind) for it, _, kind in pairs], result))
    if len(found) != text.count("no_mangle"):
        raise Failed(f"{crate}: {text.count('no_mangle')} exports, of which {len(found)} are read")
    return found


def about(crate: str) -> str:
    """What the first lines of a static library say of it."""
    lines = [it[3:].strip() for it in source_of(crate).splitlines() if it.startswith("//!")]
    return " ".join(it for it in lines if it)


def numbers() -> list[tuple[str, bool, int]]:
    """The errors' names, whether they have a value, and their numbers."""
    found = [(name, bool(value), int(number)) for name, value, number in NUMBER.findall(source_of("tls_codec_outcome", "statuses.rt"))]
    if [number for _, _, number in found] != list(range(1, 11)) or {name for name, _, _ in found} - set(MEANINGS):
        raise Failed(f"the numbers of the errors are {found}")
    return found


# The sentence on a number that is none of these statuses, or that no call returns.
OTHER_STATUS = "A status that these declarations don't know."


def sentences() -> dict[str, str]:
    """The sentence for a person to read on each error that a caller may get, as docs/ERRORS.md has it."""
    table = (TOP / "docs/ERRORS.md").read_text().partition("\n## For a person to read\n")[2]
    rows = re.findall(r"^\| `(\w+)(?:\(n\))?`[^|]* \| \d+ \| (.*) \|$", table, re.M)
    found = {"Accepted": "The bytes are accepted."} | dict(rows)
    wanted = [name for name, meaning in MEANINGS.items() if meaning != "No call returns it."]
    if list(found) != sorted(found, key=wanted.index) or len(found) != len(wanted) or len(rows) != len(dict(rows)):
        raise Failed(f"docs/ERRORS.md has sentences on {', '.join(found)}, and callers get {', '.join(wanted)}")
    return found


def taken_by(export: Export) -> str:
    """The struct that a function fills."""
    if len(export.parameters) < 2:
        raise Failed(f"{export.name}: nothing to fill after the bytes")
    return export.parameters[1][1].removeprefix("&mut ")
