"""The lines of the tables of types: which impls they are of, and which impls have none.

They are `types.rt`, `contexts.rt` and `equality.rt` of tls_codec, and `types.rt` of tls_codec_validate. A line says what a member of an
impl is, and not by that impl itself. Each check is tried on tables with one fault each.
"""
from __future__ import annotations

import collections
import functools
import re
from collections.abc import Iterator

from lib import type_tests
from lib.libraries import CRATES

TABLE = CRATES / "tls_codec/src"
# an impl of a trait for a type, and a type that its crate alone can name
IMPL_OF = re.compile(r"^impl\b[^{]*?\b(\w+)(?:<\w+>)?\s+for\s+([^{]+?)(?:\s+where\b[^{]*)?\s*\{", re.M)
HIDDEN = re.compile(r"^pub\(crate\) struct (\w+)", re.M)
ALIAS = re.compile(r"^pub type (\w+)(?:<[^=]*>)? = (\w+)", re.M)
STRUCT = re.compile(r"^pub (?:struct|enum) (\w+)", re.M)

# What pins the `ghost` definition of an impl of a trait, in a clause of a table: the word, and the member unless it is all of them.
Pins = dict[str, tuple[str, str]]
# In types.rt of `tls_codec_validate`.
PINS: Pins = {
    "Validate": ("SamePlaces", "places"),
    "ValidateFor": ("SamePlacesFor", "places"),
    "ValidateCases": ("SameVariantPlaces", "places"),
    "Keyed": ("SameKeys", "is_key"),
}
# In types.rt and contexts.rt of `tls_codec`.
MEANT: Pins = {
    "Size": ("Means", ""),
    "Deserialize": ("SameSourceNames", "names"),
    "DeserializeBytes": ("SameNames", "names"),
    "SizeFor": ("SameFormat", "format_for"),
    "DeserializeFor": ("SameSourceNames", "names"),
    "DeserializeBytesFor": ("SameNames", "names"),
    "LengthField": ("SameField", "field"),
}
# A line: its word, the type, the trait, the member, and what it is said to be. And one of equality.rt, of a type's parts before it.
PIN = re.compile(
    r"^ *ensures(?: \w+)? \{ (?:\(c : Tree\)\s+→ )?(\w+) \(?⟦<(.*?) as (\w+)(?:<\w+>)?>⟧(?:\.(\w+))?(?: c\))?\s(.*?) \}$",
    re.M | re.S,
)
OF_IMPL = re.compile(r"⟦<(.*?) as \w+(?:<\w+>)?>⟧")
EQUAL = re.compile(
    r"^ *ensures(?: \w+)? \{ (?:EqualWhereAlike (\w)\.plain \1\.eq\s+→ )*"
    r"EqualWhereAlike ⟦<(.*?) as Size>⟧\.plain\s+⟦<\2 as PartialEq>⟧\.eq \}$",
    re.M,
)
# The types of std without a line in equality.rt, and why.
NOT_EQUAL = {
    "()": "it has one value",
    "PhantomData": "it has one value",
    "Box": "no line yet: std compares what boxes hold",
}


def said_in(table: str, pins: Pins) -> list[tuple[str, str]]:
    """The types and traits that lines of these tables are of, without lines that say of a type what it is by its own impl."""
    found = []
    for word, of, trait, member, said in PIN.findall(table):
        name = type_tests.shape(of)
        if pins.get(trait) == (word, member) and name not in map(type_tests.shape, OF_IMPL.findall(said)):
            found.append((name, trait))
    return found


def equal(table: str) -> list[str]:
    """The types that lines of this text of equality.rt are of."""
    return [type_tests.shape(of) for _, of in EQUAL.findall(table)]


def table_of(trait: str) -> str:
    """The table of tls_codec that has the lines of a trait."""
    return "contexts.rt" if trait.endswith("For") else "types.rt"


@functools.cache
def impls_in(sources: str) -> list[tuple[str, str]]:
    """The types and traits of the impls in these sources."""
    return [(type_tests.shape(of), trait) for trait, of in IMPL_OF.findall(sources)]


def pinned(sources: str, table: str, pins: Pins) -> dict[tuple[str, str], bool]:
    """Whether each impl of these traits in these sources has a line in this table, by its type and trait: several have as many."""
    hidden, said = HIDDEN.findall(sources), collections.Counter(said_in(table, pins))
    impls = collections.Counter(impl for impl in impls_in(sources) if impl[1] in pins)
    return {impl: said[impl] >= count for impl, count in impls.items() if impl[0] not in hidden}


def not_pinned(sources: str, table: str, pins: Pins) -> Iterator[list[str]]:
    """What each impl of these traits lacks."""
    for (name, trait), is_pinned in pinned(sources, table, pins).items():
        where = "types.rt of tls_codec_validate" if trait in PINS else table_of(trait)
        yield [] if is_pinned else [f"{where}: no line of {pins[trait][0]} for {name} as {trait}"]


def not_equal(sources: str, equality: str) -> Iterator[str]:
    """The types of std with a decoder in these sources that have no line in this text of equality.rt, though NOT_EQUAL lacks them."""
    own, said = STRUCT.findall(sources), equal(equality)
    for name in sorted({name for name, trait in impls_in(sources) if trait == "Deserialize"} - {*own}):
        if (name in said) == (name in NOT_EQUAL):
            yield f"equality.rt: {name} has {'a line, and is an exception' if name in said else 'no line'}"


def pins_unseen(sources: str, table: str, pins: Pins, line: str) -> Iterator[str]:
    """The planted faults in these texts that aren't found: each line of an impl that is gone, others in place of a line, and an impl."""
    (word, of, trait, member, said), had = PIN.search(line).groups(), pinned(sources, table, pins)
    other = next(it for it in pins if it != trait)
    of_impls = [it for it in PIN.finditer(table) if (type_tests.shape(it[2]), it[3]) in had]
    planted = {f"no line{found[0]}": (sources, table.replace(found[0], "")) for found in of_impls}
    in_place = {
        "a line that is a comment": f"// {line}",
        "a line of another trait": line.replace(f" as {trait}>", f" as {other}>"),
        "a line of another word": line.replace(word, next(it for it, _ in pins.values() if it != word)),
        "a line of another member": line.replace(f"⟧.{member}" if member else "⟧", "⟧.other"),
        "a line that a type is itself": line.replace(said, f"⟦<{of} as {trait}>⟧.{member}"),
    }
    planted |= {fault: (sources, table.replace(line, it)) for fault, it in in_place.items()}
    planted |= {
        "an impl without a line": (f"{sources}impl<T> {trait} for Held<T> {{\n", table),
        "an impl of a type that has one": (f"{sources}impl {trait} for {of} {{\n", table),
        "an impl for a reference": (f"{sources}impl<'a> {trait} for &'a Held {{\n", table),
    }
    yield from (f"selftest: not found: {fault}" for fault, texts in planted.items() if not any(not_pinned(*texts, pins)))


def premises(*tables: str) -> Iterator[str]:
    """The premises of these tables, without which a line need not hold."""
    yield from (f"a table has a premise: {line.strip()}" for table in tables for line in re.findall(r"^ *requires\b.*", table, re.M))


def equals_unseen(sources: str, equality: str) -> Iterator[str]:
    """The planted faults in this text of equality.rt that aren't found: each line of a type of std that is gone, and others."""
    line = "    ensures u16 { EqualWhereAlike ⟦<u16 as Size>⟧.plain ⟦<u16 as PartialEq>⟧.eq }"
    own = {*STRUCT.findall(sources), *(name for name, _ in ALIAS.findall(sources))}
    planted = {f"no line{it[0]}": equality.replace(it[0], "") for it in EQUAL.finditer(equality) if type_tests.shape(it[2]) not in own}
    planted |= {
        "a line that is a comment": equality.replace(line, f"// {line}"),
        "a line of two types": equality.replace(line, line.replace("u16 as Size", "u8 as Size")),
        "an exception that has a line": f"{equality}{line.replace('u16 as', '() as')}\n",
    }
    yield from (f"selftest: not found: {fault}" for fault, table in planted.items() if not any(not_equal(sources, table)))


def findings(crates: set[str]) -> Iterator[list[str]]:
    """The planted faults that aren't found, and what each impl of the types in these crates and of their validators lacks."""
    folders = [CRATES / crate / "src" for crate in sorted(crates | {"tls_codec_grammar"})]
    tables = [CRATES / "tls_codec_validate/src/types.rt"], [TABLE / "types.rt", TABLE / "contexts.rt"], [TABLE / "equality.rt"]
    validators = (CRATES / "tls_codec_validate/src").rglob("*.rt")
    sources, places, types, equality = type_tests.texts((path for folder in folders for path in folder.rglob("*.rt")), *tables)
    of_validators = type_tests.texts(validators)[0], places, PINS
    yield [*pins_unseen(*of_validators, "    ensures u16 { SamePlaces ⟦<u16 as Validate>⟧.places (here (too_few 2)) }")]
    yield [*pins_unseen(sources, types, MEANT, "    ensures u16 { Means ⟦<u16 as Size>⟧ Number (number_format 2) }")]
    line = "    ensures u16_source { SameSourceNames ⟦<u16 as Deserialize>⟧.names (ReadRefused 2) }"
    yield [*pins_unseen(sources, types, MEANT, line), *equals_unseen(sources, equality)]
    yield [*premises(places, types, equality)]
    yield from (*not_pinned(*of_validators), *not_pinned(sources, types, MEANT), [*not_equal(sources, equality)])
