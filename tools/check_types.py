#!/usr/bin/env python3
"""Compares the public types of tls_codec with its table of types.

Each `impl Size` of `tls_codec_base` and the families' crates, for a type of std as for one of theirs, has a line of `Means` in `types.rt`
of `tls_codec`. Each decoder has a line of names, and each type with a decoder and `PartialEq` a line in `equality.rt`. A family such as
`TlsVecU8` is under the generic type that it names; an exported name that isn't of a width, as `VLBytes`, has lines of its own.
Types that a context decides are in `contexts.rt`, and are held to the traits in a context too: such a type has no format but one for each
context, so its line is one of `SameFormat` and not of `Means`. Each that has a decoder from a slice, and each of `tls_codec_cases`, is
validated by an impl in `tls_codec_validate`, without a context or in one. Each impl there has a line in its `types.rt`, which says where
bytes are rejected, or of `Keyed` what its key is. No line says of a type what it is by that type's own impl, and none has a premise.
Each has a row in docs/API.md, with its crate and its traits, and so have the types of std that `tls_codec_base` gives them to;
each name there is such a type's. What it stands for and its format there are in words of its lines of `Means`, or in short ones
(SHORT_FOR). Each variant of `Error` is among the words for contracts, and each line that exports names can be read. No type that generated
code imports may be the name of one in a text.

Each type in `types.rt` has its tests (lib/type_tests.py), and each row of crates/test_values its answer. Before that each check is tried on
a type that lacks something. Prints what is missing; the last line is 'N passed, N failed', a type or a row each.
"""
from __future__ import annotations

import functools
import re
import sys
from collections.abc import Iterator
from typing import NamedTuple

from lib import type_lines, type_tests
from lib.failed import ended
from lib.libraries import CRATES, TOP
from lib.type_lines import ALIAS, MEANT, PIN, STRUCT, TABLE, equal, premises, said_in, table_of

PAGE = TOP / "docs/API.md"
EXPORT = re.compile(r"^pub use (\w+)::(?:\{([^{}*]*)\}|(\w+));", re.M)
NAME = re.compile(r"[A-Z]\w*")
# an impl of a trait for a type, with or without parameters: a name, a tuple, an array or a slice
TYPE = r"&?(?:'a )?(\w+)|(\([^)]*\)|&?\[[^\]]*\])"
IMPL = re.compile(rf"^impl(?:<[^{{]*?>)? (\w+)(?:<[A-Z]>)?\s+for (?:{TYPE})", re.M)
DERIVE = re.compile(r"#\[derive\(([^)]*)\)\]\n(?:#\[[^\n]*\]\n)*pub struct (\w+)")

# what reads a type from a slice, and what validates its bytes
VALIDATED = {"DeserializeBytes": "Validate", "DeserializeBytesFor": "ValidateFor", "SplitCases": "ValidateCases"}


def exported() -> Iterator[tuple[str, str]]:
    """The names that tls_codec exports, by the crate that each is from."""
    for crate, names, name in EXPORT.findall((TABLE / "lib.rt").read_text()):
        for it in NAME.findall(names or name):
            yield crate, it


def exports_unread(text: str) -> list[str]:
    """The lines of this text of tls_codec that export names, and can't be read here."""
    read = {found.start() for found in EXPORT.finditer(text)}
    return [f"lib.rt: not read: {found[0]}" for found in re.finditer(r"\bpub\s+use\b.*", text) if found.start() not in read]


def traits_of(crate: str) -> dict[str, set[str]]:
    """The structs and enums of a crate, with the traits that each has."""
    found = {}
    for path in sorted((CRATES / crate / "src").rglob("*.rt")):
        text = path.read_text()
        for name in STRUCT.findall(text):
            found.setdefault(name, set())
        for trait, name, signs in IMPL.findall(text):
            found.setdefault(name or signs, set()).add(trait)
        for traits, name in DERIVE.findall(text):
            found.setdefault(name, set()).update(NAME.findall(traits))
    return found


@functools.cache
def lone_aliases(crate: str) -> dict[str, str]:
    """The types of a crate's other names, by these, except the names that are of a width."""
    sources = type_tests.texts((CRATES / crate / "src").rglob("*.rt"))[0]
    return {name: of for name, of in ALIAS.findall(sources) if unnumbered(name) == name}


def missing(name: str, traits: set[str], types: str, equality: str) -> Iterator[str]:
    """What the tables lack of a type with these traits."""
    said = said_in(types, MEANT)
    for trait in MEANT:
        if trait in traits and (name, trait) not in said:
            yield f"{table_of(trait)}: no line for {name} as {trait}"
    if {"Deserialize", "PartialEq"} <= traits and name not in equal(equality):
        yield f"equality.rt: no line for {name} as PartialEq"


def not_validated(name: str, traits: set[str], validated: dict[str, set[str]]) -> Iterator[str]:
    """What `tls_codec_validate` lacks of a type with these traits."""
    for reads, tells in VALIDATED.items():
        if reads in traits and tells not in validated.get(name, set()):
            yield f"tls_codec_validate: no {tells} for {name}"


# the letters of docs/API.md; D is both decoders
LETTERS = {"Serialize": "S", "SerializeBytes": "B", "Deserialize": "D", "DeserializeBytes": "D"}
# Words of specs/ of base for your own messages, with what the lines of `Means` have in their place.
SHORT_FOR = {
    **{f"{form}_{of}_format": f"counted_{of}_format" for form in ("fixed", "bounded", "exactly") for of in ("list", "bytes")},
    "pair_tree": "Join",
    "triple_tree": "Join",
    "uint24_of": "number_of",
    "varint_of": "number_of",
}
WORD = re.compile(r"[A-Za-z]\w\w+")


class Given(NamedTuple):
    """The tables of types, the rows of docs/API.md and its part on contexts, the traits of each type by its crate, and validators'."""

    types: str
    equality: str
    page: list[Row]
    in_a_context: str
    traits: dict[str, dict[str, set[str]]]
    validated: dict[str, set[str]]


class Row(NamedTuple):
    """A row of the table of types in docs/API.md: its types without their widths, their crate, letters, and the last two cells."""

    names: set[str]
    crate: str
    letters: set[str]
    means: str = ""
    format: str = ""


def rows() -> list[Row]:
    """Each row of the table of types in docs/API.md; one without six cells has no names."""
    found = []
    for line in PAGE.read_text().split("\n## ")[1].split("\n"):
        cells = [cell.strip() for cell in line.split("|")]
        if line.startswith("| `") and len(cells) != 8:
            found.append(Row(set(), line, set()))
        elif line.startswith("| `"):
            spans = [re.match(TYPE, span) for span in re.findall(r"`([^`:]+)`", cells[1])]
            names = {unnumbered(span[1] or span[2]) for span in spans if span and len(span[0]) > 1}
            for stem, least, most in re.findall(r"`(\w+?)(\d)` to `\1(\d)`", cells[1]):
                names |= {f"{stem}{number}" for number in range(int(least), int(most) + 1)}
            found.append(Row(names, cells[2], set(cells[3]), cells[5], cells[6]))
    return found


def meanings(types: str) -> dict[str, set[str]]:
    """The words of the lines of `Means` in these tables, by the types without their widths."""
    found: dict[str, set[str]] = {}
    for of, said in ((of, said) for _, of, trait, _, said in PIN.findall(types) if trait == "Size"):
        name = re.match(TYPE, of.replace("'a ", ""))
        found.setdefault(unnumbered(name[1] or name[2]), set()).update(WORD.findall(said))
    return found


def unlike(row: Row, means: dict[str, set[str]]) -> Iterator[str]:
    """The words in `code` of a row's last cells that no line of `Means` of its types has."""
    words = set().union(*(means.get(name, set()) for name in row.names))
    for cell in (row.means, row.format):
        for word in WORD.findall(" ".join(re.findall(r"`([^`]*)`", cell))):
            if not {word, SHORT_FOR.get(word)} & words:
                yield f"docs/API.md: no line of Means for {' or '.join(sorted(row.names))} has {word}"


def unnumbered(name: str) -> str:
    """The name of a family's member without its width, since a row of the page is for all widths."""
    return re.sub(r"(?<=[a-z])U(?:8|16|24|32)$", "", name)


def short(crate: str) -> str:
    """The name of a crate in docs/API.md."""
    return "base" if crate == "tls_codec_wire" else crate.removeprefix("tls_codec_")


def with_format(by_crate: dict[str, dict[str, set[str]]]) -> Iterator[tuple[str, str]]:
    """The types that a row of docs/API.md can be of, by their crates: those with a format, and other names of types."""
    for crate, types in by_crate.items():
        others = [name for name, _ in ALIAS.findall("".join(path.read_text() for path in sorted((CRATES / crate / "src").rglob("*.rt"))))]
        for name in [*(name for name, traits in types.items() if "Size" in traits), *others]:
            yield short(crate), unnumbered(name)


def without_type(row: Row, types: set[tuple[str, str]]) -> list[str]:
    """The names of a row of docs/API.md that no type of its crate has."""
    found = [f"docs/API.md: {row.crate} has no type {name} with a format" for name in sorted(row.names) if (row.crate, name) not in types]
    return found or ([] if row.names else [f"docs/API.md: a row of no type, or without six cells: {row.crate}"])


def not_in_page(crate: str, name: str, traits: set[str], page: list[Row]) -> Iterator[str]:
    """What the row of a type in docs/API.md lacks or says wrongly."""
    where = short(crate)
    letters = {LETTERS[trait] for trait in traits & LETTERS.keys()}
    found = [row for row in page if unnumbered(name) in row.names and row.crate == where]
    if not found:
        yield f"docs/API.md: no row for {name} of {where}"
    elif any(row.letters != letters for row in found):
        yield f"docs/API.md: {name} has {''.join(sorted(letters))}"


def errors_lacking(words: str) -> Iterator[str]:
    """The variants of Error that the words for contracts, in this text, lack."""
    body = (CRATES / "tls_codec_wire/src/error.rt").read_text().split("pub enum Error")[1].split("\n}")[0]
    for name in re.findall(r"^    ([A-Z]\w+)", body, re.M):
        if not re.search(rf"\b{name}\b", words):
            yield f"specs/Errors.antt of tls_codec: no {name}"


def not_reserved(words: str) -> Iterator[str]:
    """The types that generated code imports (vocabulary.rt of tlsgen_emit), and that this text of words.rt lets a text's type be called."""
    reserved = set(re.findall(r'"(\w+)"', words))
    for name in re.findall(r'"([A-Z]\w*)"', (CRATES / "tlsgen_emit/src/vocabulary.rt").read_text()):
        if name not in reserved:
            yield f"words.rt of tlsgen_model: no {name}, which generated code imports"


def stored() -> Given:
    """All that is compared, as it is stored."""
    types, contexts, equality = ((TABLE / page).read_text() for page in ("types.rt", "contexts.rt", "equality.rt"))
    in_a_context = PAGE.read_text().split("\n## In a context\n")[1].split("\n## ")[0]
    traits = {crate: traits_of(crate) for crate in {crate for crate, _ in exported()}}
    return Given(types + contexts, equality, rows(), in_a_context, traits, traits_of("tls_codec_validate"))


def selftest(types: str, equality: str, page: list[Row]) -> Iterator[str]:
    """The planted faults that no check finds, each in a type that has none otherwise."""
    name, traits = "TlsVarInt", {"Size", "Serialize", "SerializeBytes", "Deserialize", "DeserializeBytes", "PartialEq"}
    source, alike = f"ensures source {{ SameSourceNames ⟦<{name} as Deserialize>⟧", f"ensures integer {{ EqualWhereAlike ⟦<{name} as"
    comment = f"// ensures {{ Means ⟦<{name} as Size>⟧ trees varint_format }}\n"
    planted = {
        "no line of a type": missing(name, traits, types.replace(f"⟦<{name} as Size>⟧", ""), equality),
        "no line of a decoder": missing(name, traits, types.replace(f"⟦<{name} as DeserializeBytes>⟧", ""), equality),
        "no line of an equality": missing(name, traits, types, equality.replace(f"⟦<{name} as PartialEq", "")),
        "a line that is a comment": missing(name, traits, types.replace(source, f"// {source}"), equality),
        "an equality that is a comment": missing(name, traits, types, equality.replace(alike, f"// {alike}")),
        "no validator": not_validated(name, traits, {name: {"ValidateFor"}}),
        "no row": not_in_page("tls_codec_wire", name, traits, [row for row in page if name not in row.names]),
        "a wrong letter": not_in_page("tls_codec_wire", name, traits - {"SerializeBytes"}, page),
        "a row of no type": without_type(Row({name}, "base", {"S"}), {("vec", name)}),
        "a row without a name": without_type(Row(set(), "base", {"S"}), {("base", name)}),
        "another meaning": unlike(Row({name}, "base", {"S"}, "`trees x`"), meanings(types)),
        "a meaning in a comment": unlike(Row({name}, "base", {"S"}, "`trees x`"), meanings(types + comment)),
        "another format": unlike(Row({name}, "base", {"S"}, "", "`number_format k`, k bytes"), meanings(types)),
        "an error": errors_lacking("EndOfStream"),
        "a name that generated code imports": not_reserved('"Choice" "Size"'),
        "a line of exports": exports_unread("pub use tls_codec_base::*;\n"),
        "a premise": premises(types.replace("pub fn numbers<'a>()\n", "pub fn numbers<'a>()\n    requires { 0 ≡ 1 }\n")),
    }
    yield from (f"selftest: not found: {fault}" for fault, found in planted.items() if not list(found))
    sound = [missing(name, traits, types, equality), not_in_page("tls_codec_wire", name, traits, page)]
    yield from (f"selftest: found: {it}" for found in sound for it in found)


def of_name(crate: str, name: str, given: Given) -> Iterator[list[str]]:
    """What a name that tls_codec exports lacks: as another name that has lines of its own, and as that of a type."""
    if of := lone_aliases(crate).get(name):
        yield [*missing(name, given.traits[crate][of], given.types, given.equality)]
    # (an impl for a type of wire is in base)
    traits = given.traits[crate].get(name, set()) | given.traits["tls_codec_base"].get(name, set())
    if traits & {"Size", "SizeFor"}:
        lacks = [*missing(name, traits, given.types, given.equality), *not_validated(name, traits, given.validated)]
        if "Size" in traits:
            lacks += not_in_page(crate, name, traits, given.page)
        elif not re.search(rf"\b{name}\b", given.in_a_context):
            lacks.append(f"docs/API.md: no row for {name} in a context")
        yield lacks


def of_types(given: Given) -> Iterator[list[str]]:
    """What each row of docs/API.md has wrongly, and what each type lacks: those that are exported, of std, and of the cases."""
    types, means = set(with_format(given.traits)), meanings(given.types)
    yield from ([*without_type(row, types), *unlike(row, means)] for row in given.page)
    names = list(exported())
    yield from (lacks for crate, name in names for lacks in of_name(crate, name, given))
    of_std = given.traits["tls_codec_base"].keys() - {name for _, name in names}
    for name, traits in ((name, given.traits["tls_codec_base"][name]) for name in sorted(of_std)):
        if "Size" in traits:
            yield [*not_in_page("tls_codec_base", name, traits, given.page), *not_validated(name, traits, given.validated)]
    for name, traits in sorted(traits_of("tls_codec_cases").items()):
        if traits & VALIDATED.keys():
            yield [*not_validated(name, traits, given.validated)]


def of_tests(crates: set[str]) -> tuple[list[list[str]], list[list[str]]]:
    """What each type in types.rt lacks of its tests, and each row of crates/test_values of its answer; first the faults not found."""
    given, tried = type_tests.library(crates), type_tests.tests()
    without = type_tests.exceptions(type_tests.WITHOUT.read_text(encoding="utf-8"))
    missed = [f"selftest: not found: {fault}" for fault in type_tests.unseen(given, tried, without)]
    return [missed, *type_tests.lacking(given, tried, without).values()], type_tests.wrong_rows(tried)


def main() -> int:
    given = stored()
    crates, words = set(given.traits), (CRATES / "tlsgen_model/src/words.rt").read_text()
    tested, rows = of_tests(crates)
    results = [[*selftest(given.types, given.equality, given.page)], [*not_reserved(words)], *tested, *rows, *type_lines.findings(crates)]
    results += of_types(given)
    results += [[*errors_lacking((CRATES / "tls_codec/specs/Errors.antt").read_text())], exports_unread((TABLE / "lib.rt").read_text())]
    print("".join(f"{line}\n" for lines in results for line in lines), end="")
    failed = sum(map(bool, results))
    print(f"the tests of {len(tested) - 2} types, and {len(rows) - 1} rows of test_values, were read")
    print(f"{len(results) - failed} passed, {failed} failed")
    return 1 if failed else 0


if __name__ == "__main__":
    sys.exit(ended(main))
