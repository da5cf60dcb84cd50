"""Which tests the types of the table in crates/tls_codec/src/types.rt have, and which they need.

- A type that has a decoder: rows of crates/test_values, one that is read, one that is rejected if its decoders name errors, one with
  `elements` if it reads many at once, and one with `content` if its format counts a length; a call in the tests of failing devices, of any
  width; and one in those of memory, if its format says that decoders take some.
- A type that is only encoded, as references: a use beside those rows or in crates/test_types, and one in the tests of devices, where any
  reference is one for all.

data/without_tests.txt has the exceptions.
"""
from __future__ import annotations

import collections
import itertools
import pathlib
import re
from collections.abc import Iterable, Iterator
from typing import NamedTuple

from lib.libraries import CRATES, TOP

WITHOUT = TOP / "tools/data/without_tests.txt"
ROWS = CRATES / "test_values"
DEVICES = CRATES / "test_calls/src/tests/devices.rt"
MEMORY = CRATES / "test_memory/src/rows"
# Where each test is, as a line of what is missing names it.
WHERE = {
    "value": "a row that is read in crates/test_values",
    "rejected": "a row that is rejected in crates/test_values",
    "elements": "a row with the call `elements` in crates/test_values",
    "content": "a row with the call `content` in crates/test_values",
    "encoded": "a use in crates/test_values/src/value/ or crates/test_types/src/tests/",
    "devices": "a use in crates/test_calls/src/tests/devices.rt",
    "memory": "a use in crates/test_memory/src/rows/",
}

LINE = re.compile(r"^ *ensures(?: \w+)? \{ (Means|SameNames) ⟦<(.*?) as (?:Size|DeserializeBytes)>⟧(.*?) \}\n", re.M | re.S)
ALIAS = re.compile(r"^pub type (\w+)(?:<[^=]*>)? = (\w+)<", re.M)
IMPL = re.compile(r"^impl(?:<[^{]*?>)? \w+ for ([^{]+?) \{\n(.*?)^\}", re.M | re.S)
ARM = re.compile(r'^ {8}"([^"\n]+)" => (?:\{\s*)?answer_of::<(.*?)>\(alloc', re.M | re.S)
FORMAT = re.compile(r"\b(?:\w+_format|with_memory)\b")
DEFINITION = re.compile(r"^(\w+)(?: \w+)* = (.*(?:\n +.*)*)", re.M)


class Library(NamedTuple):
    """The table of types, the code of the crates that they are in, and the definitions of formats."""

    types: str
    sources: str
    formats: str


class Tests(NamedTuple):
    """The texts that have the tests of types."""

    rows: str
    answers: str
    arms: str
    encoded: str
    devices: str
    memory: str


class Kind(NamedTuple):
    """A type of the table: its format, and the errors that its decoders name, if it has some."""

    format: str
    names: str


def texts(*paths: Iterable[pathlib.Path]) -> list[str]:
    """The text that the files of each of these groups have together."""
    return ["".join(path.read_text(encoding="utf-8") for path in sorted(group)) for group in paths]


def library(crates: Iterable[str]) -> Library:
    """The texts of the library as they are stored, whose types are in these crates."""
    formats = [CRATES / "tls_codec_grammar/specs/Format.antt", CRATES / "tls_codec_base/specs/OwnMessages.antt"]
    sources = [path for crate in crates for path in (CRATES / crate / "src").rglob("*.rt")]
    return Library(*texts([CRATES / "tls_codec/src/types.rt"], sources, formats))


def tests() -> Tests:
    """The tests as they are stored, without the comments of code."""
    encoded = [*(ROWS / "src/value").glob("*.rt"), ROWS / "src/value.rt", *(CRATES / "test_types/src/tests").rglob("*.rt")]
    rows, code = texts([ROWS / "stdin"], [ROWS / "stdout"]), texts([ROWS / "src/types.rt"], encoded, [DEVICES], MEMORY.glob("*.rt"))
    return Tests(*rows, *(re.sub(r"^ *//.*\n", "", text, flags=re.M) for text in code))


# ---- types

def parts(inside: str) -> list[str]:
    """What commas part, without those between brackets."""
    found, depth = [""], 0
    for sign in inside:
        depth += {"<": 1, "(": 1, "[": 1, ">": -1, ")": -1, "]": -1}.get(sign, 0)
        if sign == "," and not depth:
            found.append("")
        else:
            found[-1] += sign
    return [it.strip() for it in found if it.strip()]


def shape(of: str) -> str:
    """A type without what it is of, except a length with bounds: `Option`, `(T, U)`, `&VLBytes`, `TlsVec<Within>`."""
    of = re.sub(r"'\w+,? *", "", of).strip()
    if of.startswith("&"):
        return "&" + shape(of[1:])
    if of.startswith("["):
        return "[u8; LEN]" if ";" in of else "[T]"
    if of.startswith("("):
        return f"({', '.join('TUV'[: len(parts(of[1:-1]))])})"
    name, _, inside = of.partition("<")
    return f"{name}<Within>" if inside.startswith("Within<") else name


def aliases(sources: str) -> dict[str, list[str]]:
    """The exported names of each type that has several, by these sources: those of each width, or of each purpose."""
    found: dict[str, list[str]] = {}
    for name, of in ALIAS.findall(sources):
        found.setdefault(of, []).append(name)
    return found


def names_of(kind: str, others: dict[str, list[str]]) -> list[str]:
    """The names of a type, or those of a reference to it."""
    sign = kind[: kind.startswith("&")]
    return [sign + name for name in others.get(kind.removeprefix("&"), [kind.removeprefix("&")])]


def table(types: str, others: dict[str, list[str]]) -> dict[str, Kind]:
    """The types that lines of this table have, by their names."""
    lines = [(word, shape(of), " ".join(said.split())) for word, of, said in LINE.findall(types)]
    errors = {kind: said for word, kind, said in lines if word == "SameNames"}
    found = {}
    for word, kind, said in lines:
        if word == "Means":
            form = FORMAT.search(said)
            names = errors.get(kind.removesuffix("<Within>"), "")
            found.update({name: Kind(form[0] if form else "", names) for name in names_of(kind, others)})
    return found


def with_memory(specs: str) -> set[str]:
    """The formats whose decoders take memory, by their definitions: `lean` is false, or that of another one."""
    found: set[str] = set()
    bodies = dict(DEFINITION.findall(specs))
    while True:
        heads = {name: FORMAT.match(body) for name, body in bodies.items()}
        more = {name for name, body in bodies.items() if "lean = false" in body or heads[name] and heads[name][0] in found}
        if more == found:
            return found
        found = more


def needs(name: str, kind: Kind, at_once: set[str], takes_memory: set[str]) -> Iterator[str]:
    """The tests that a type needs."""
    yield "devices"
    if not kind.names:
        yield "encoded"
        return
    yield "value"
    if "⊥" not in kind.names:
        yield "rejected"
    if name in at_once:
        yield "elements"
    if kind.format.startswith(("counted_", "bounded_")):
        yield "content"
    if kind.format in takes_memory:
        yield "memory"


# ---- tests

def family(name: str) -> str:
    """What has one test of devices: a type of any width, or any reference."""
    return "&" if re.match(r"&\w", name) and name != "&str" else re.sub(r"(?<=[a-z])U(?:8|16|24|32)$", "", name)


def rows_of(text: str) -> list[list[str]]:
    """The columns of the rows in a text."""
    return [line.split("\t") for line in text.splitlines() if not line.startswith("#")]


def in_rows(given: Tests) -> Iterator[tuple[str, str]]:
    """Each type that a row is of, with its test."""
    kinds = {name: shape(of) for name, of in ARM.findall(given.arms)}
    for name, call, _, answer in (row for row in rows_of(given.answers) if len(row) == 4 and row[0] in kinds):
        word = call.split()[0]
        yield kinds[name], "rejected" if word == "value" and answer.startswith("refused ") else word


def in_encoders(text: str) -> Iterator[str]:
    """The types whose encoders are tried beside the rows: references, slices, and wrappers of both."""
    yield from re.findall(r"\b(ByRef\d?)\(", text)
    for of, body in IMPL.findall(text):
        yield from (f"&{shape(of)}" for _ in re.findall(r"alloc, &self\)", body))
        yield from ({"slice": "&[T]", "str": "&str"}[it] for it in re.findall(r"alloc, &self\.as_(slice|str)\(\)", body))
        for part in body.split("    fn "):
            wrapper = re.search(r"let slice = (\w+)\(", part)
            yield from (f"{sign[1:]}{wrapper[1]}" for sign in re.findall(r"alloc, (&&?)slice\)", part) if wrapper)


def in_devices(text: str) -> Iterator[str]:
    """The types that calls of the tests of devices name, and those of the values that they are given."""
    yield from map(shape, re.findall(r"\w::<(.+)>\(\s*&rt,\s*alloc,", text))
    for value in re.findall(r"\w\(\s*&rt,\s*alloc,\s*&(.+?),\s*&\[", text):
        wrapper = re.match(r"\w+(?=\()", value)
        yield "&" if value[0] == "&" else "&str" if value[0] == '"' else wrapper[0] if wrapper else "&[T]"


def is_in_memory(name: str, text: str) -> bool:
    """Whether the tests of memory have a call of this type, of any width."""
    word = rf"\b{family(name)}(?:U\d+)?\b"
    return bool(re.search(rf"::<[^()=;]*{word}|{word}(?:::<[^;()]*?>)?::(?:tls_\w+|from_slice|from_array|try_from_iter)\b", text))


def had(given: Tests, others: dict[str, list[str]], names: list[str]) -> dict[str, set[str]]:
    """The names of types that have each test."""
    found: dict[str, set[str]] = {test: set() for test in WHERE}
    for kind, test in [*in_rows(given), *((kind, "encoded") for kind in in_encoders(given.encoded))]:
        found.setdefault(test, set()).update(names_of(kind, others))
    devices = {family(name) for kind in in_devices(given.devices) for name in names_of(kind, others)}
    found["devices"] = {name for name in names if family(name) in devices}
    found["memory"] = {name for name in names if is_in_memory(name, given.memory)}
    return found


def exceptions(text: str) -> set[tuple[str, str]]:
    """The tests that types don't need, by lines `TEST: TYPE; TYPE  REASON`."""
    lines = [re.fullmatch(r"(\w+): (.+?)  (\S.*)", line) for line in text.splitlines() if not line.startswith("#")]
    return {(line[1], name) for line in lines if line for name in line[2].split("; ")}


def lacking(given: Library, tried: Tests, without: set[tuple[str, str]]) -> dict[str, list[str]]:
    """What each type of the table lacks, by its name, and under an empty one the exceptions that are none."""
    others = aliases(given.sources)
    kinds, takes_memory = table(given.types, others), with_memory(given.formats)
    at_once = {shape(of) for of, body in IMPL.findall(given.sources) if re.search(r"\bfn tls_elements\b", body)}
    found = had(tried, others, list(kinds))
    lacks = {(test, name) for name, kind in kinds.items() for test in needs(name, kind, at_once, takes_memory) if name not in found[test]}
    missing = {name: [f"{name}: not there: {WHERE[test]}" for test in WHERE if (test, name) in lacks - without] for name in kinds}
    return {**missing, "": [f"tools/data/without_tests.txt: no exception: {test} of {name}" for test, name in sorted(without - lacks)]}


def wrong_rows(given: Tests) -> list[list[str]]:
    """What is wrong of each row of the input, and last of all of them."""
    names, rows = [name for name, _ in ARM.findall(given.arms)], rows_of(given.rows)
    left = collections.Counter(tuple(it[:-1]) for it in rows_of(given.answers))
    found = []
    for row in rows:
        is_right = left[tuple(row)] > 0 and row[0] in names
        left[tuple(row)] -= 1
        found.append([] if is_right else [f"crates/test_values: a row without its answer, or of no type: {' '.join(row)[:100]}"])
    of_all = [f"crates/test_values: no row of {name}" for name in names if name not in {row[0] for row in rows}]
    return [*found, of_all + [f"crates/test_values: an answer of no row: {' '.join(it)[:100]}" for it in left if left[it] > 0]]


# ---- planted faults

def without_rows(tried: Tests, begin: str, answer: str = "") -> Tests:
    """The tests without the rows that begin so, and have this in their answers."""
    rows, answers = tried.rows.splitlines(True), tried.answers.splitlines(True)
    kept = [not line.startswith(begin) or answer not in line for line in answers]
    return tried._replace(rows="".join(itertools.compress(rows, kept)), answers="".join(itertools.compress(answers, kept)))


def unseen(given: Library, tried: Tests, without: set[tuple[str, str]]) -> Iterator[str]:
    """The planted faults that aren't found: tests that are gone, one by one, a new type, and rows that are no pairs."""
    planted = {
        ("value", "u64"): without_rows(tried, "u64\t"),
        ("rejected", "u64"): without_rows(tried, "u64\tvalue", "\trefused "),
        ("elements", "u64"): without_rows(tried, "u64\telements"),
        ("content", "TlsByteVecU16"): without_rows(tried, "TlsByteVecU16\tcontent"),
        ("devices", "TlsVarInt"): tried._replace(devices=tried.devices.replace("::<TlsVarInt>", "::<u8>")),
        ("devices", "&str"): tried._replace(devices=re.sub(r'&".*?"', "&&7u16", tried.devices)),
        ("memory", "String"): tried._replace(memory=tried.memory.replace("::<String>", "::<VLBytes>")),
        ("encoded", "TlsSliceU24"): tried._replace(encoded=tried.encoded.replace("TlsSliceU24(", "TlsSliceU16(")),
        ("encoded", "&u64"): tried._replace(encoded=tried.encoded.replace("Value for u64 {", "Value for u32 {")),
    }
    for (test, name), fault in planted.items():
        if f"{name}: not there: {WHERE[test]}" not in lacking(given, fault, without).get(name, []):
            yield f"{test} of {name}"
    if not lacking(given._replace(types=given.types.replace("⟦<u64 as", "⟦<u128 as")), tried, without).get("u128"):
        yield "a type without tests"
    never = given._replace(types=f"{given.types}// ensures u64 {{ SameNames ⟦<u64 as DeserializeBytes>⟧.names (λ x e. ⊥) }}\n")
    if not lacking(never, planted["rejected", "u64"], without)["u64"]:
        yield "a line that is a comment"
    if not lacking(given, tried, without | {("content", "u64")})[""]:
        yield "an exception that is none"
    fewer = without_rows(tried, "Vec<TlsByteVecU16>\t")
    pairs = {"a row": tried._replace(answers=fewer.answers), "an answer": tried._replace(rows=fewer.rows), "no row of a name": fewer}
    yield from (fault for fault, pair in pairs.items() if not any(wrong_rows(pair)))
