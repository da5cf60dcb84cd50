"""The enums whose numbers have names in C, Rust and Python, read from the texts and notes in crates/tlsgen/data, or listed here."""
from __future__ import annotations

import re
from typing import Any

from lib.failed import Failed
from lib.libraries import DATA, texts_of
from lib.presentation import Parser, name_of, snake

# The enums of each library, and the types of their numbers.
ENUMS = {
    "mls": {
        "WireFormat": "u16",
        "SenderType": "u8",
        "ContentType": "u8",
        "ProposalType": "u16",
        "ProposalOrRefType": "u8",
        "LeafNodeSource": "u8",
        "CredentialType": "u16",
        "ExtensionType": "u16",
        "CipherSuite": "u16",
        "ProtocolVersion": "u16",
        "NodeType": "u8",
    },
    "tls13": {
        "HandshakeType": "u8",
        "ContentType": "u8",
        "AlertLevel": "u8",
        "AlertDescription": "u8",
        "ExtensionType": "u16",
        "CipherSuite": "u16",
        "SignatureScheme": "u16",
        "NamedGroup": "u16",
        "KeyUpdateRequest": "u8",
    },
}
# Numbers that neither a text nor its notes have, as RFC 8446, appendix B.4, lists them.
LISTED = {
    ("tls13", "CipherSuite"): {
        "TLS_AES_128_GCM_SHA256": 0x1301,
        "TLS_AES_256_GCM_SHA384": 0x1302,
        "TLS_CHACHA20_POLY1305_SHA256": 0x1303,
        "TLS_AES_128_CCM_SHA256": 0x1304,
        "TLS_AES_128_CCM_8_SHA256": 0x1305,
    },
}
UNUSED = re.compile(r"reserved|RESERVED|invalid|.*_RESERVED")


def read(file: str) -> list[tuple[Any, ...]]:
    """The definitions of a text, or the notes of a file of notes."""
    parser = Parser((DATA / file).read_text(encoding="utf-8"))
    try:
        return parser.notes() if file.endswith(".notes") else parser.all()
    except SystemExit as error:
        raise Failed(f"{file}: {error}") from None


def numbers(text: str, enum: str) -> dict[str, int]:
    """The numbers of an enum by their names, without ranges, or of a registry as the notes have them."""
    for it in read(f"{text}.tls"):
        if it[0] == "enum" and name_of(it) == enum:
            return {value[0]: value[1] for value in it[2] if value[0] and len(value) == 2 and not UNUSED.fullmatch(value[0])}
    pairs = [it[1:] for it in read(f"{text}.notes") if it[0] == "Equals"]
    return {path.removeprefix(f"{enum}."): number for path, number in pairs if path.startswith(f"{enum}.")}


def named_in_the_rfc(library: str, enum: str) -> dict[str, int]:
    """The same of a library's enum."""
    texts = [found for text in texts_of(library) if (found := numbers(text, enum))]
    texts += [LISTED[library, enum]] if (library, enum) in LISTED else []
    if len(texts) != 1:
        raise Failed(f"{len(texts)} texts of {library} have numbers of {enum}")
    return texts[0]


def name_for_callers(library: str, name: str) -> str:
    """`mls_public_message` of MLS as PUBLIC_MESSAGE."""
    return name.removeprefix(f"{library}_").upper()


def named(library: str, enum: str) -> dict[str, int]:
    """The same by the names that callers have."""
    return {name_for_callers(library, it): number for it, number in named_in_the_rfc(library, enum).items()}


def enums_in_c(library: str) -> list[str]:
    """`WireFormat` of MLS as `enum mls_wire_format`, with MLS_WIRE_FORMAT_PUBLIC_MESSAGE."""
    lines = []
    for enum in ENUMS.get(library, {}):
        name = f"{library}_{snake(enum)}"
        values = [f"  {name.upper()}_{it} = {number}" for it, number in named(library, enum).items()]
        lines += ["", f"/* The numbers of {enum} that have names. */", f"enum {name} {{", ",\n".join(values), "};"]
    return lines


def enums_in_rust(library: str) -> list[str]:
    """The same as `wire_format::PUBLIC_MESSAGE`, in the module of MLS."""
    lines = []
    for enum, kind in ENUMS.get(library, {}).items():
        lines += ["", f"    /// The numbers of `{enum}` that have names.", f"    pub mod {snake(enum)} {{"]
        for it, number in named_in_the_rfc(library, enum).items():
            lines += [f"        /// The number of `{it}`.", f"        pub const {name_for_callers(library, it)}: {kind} = {number};"]
        lines.append("    }")
    return lines


def enums_in_python() -> list[str]:
    """The same as `MlsWireFormat.PUBLIC_MESSAGE`."""
    lines = []
    for library, enum in [(library, enum) for library, enums in ENUMS.items() for enum in enums]:
        lines += ["", "", f"class {library.capitalize()}{enum}(enum.IntEnum):", f'    """The numbers of {enum} that have names."""', ""]
        lines += [f"    {it} = {number}" for it, number in named(library, enum).items()]
    return lines
