"""Figures and answers in pages, held to the files that have them.

- A figure of FIGURES is what its files say: how many rows or names they have.
- "Ten inputs" of docs/ERRORS.md has as many rows as its heading says: those of the inputs that crates/test_values names for it, with
  their answers, and inputs that crates/test_types rejects.
- The sentences there are those of the library's errors, one for each, with the status that exports give it.
- Each `DecodingError("..")` and `EncodingError("..")` in a page is an error that the library makes.
- The kinds of `tlsview` in docs/MESSAGES.md, and those of the reader in row_reader.py, are those of its table of kinds.
- The shares of time in README.md are those of the table in docs/BENCHMARKS.md.

Wrong figures are planted first, and have to be found.
"""
from __future__ import annotations

import re
from collections.abc import Callable, Iterator

from lib import exported, rejections, row_reader
from lib.blocks import NOT_QUOTED, blocks
from lib.libraries import CRATES, PAGES, TOP

ERRORS = TOP / "docs/ERRORS.md"
WORDS = {"nine": 9, "ten": 10, "eleven": 11, "twelve": 12}
EXPLAINED = "# The inputs that `docs/ERRORS.md` explains.\n"
OUTCOMES = ("crates/test_outcome/stdout", "c/tests/tls13.tsv")


def lines(*files: str) -> Callable[[], int]:
    """How many lines these files have."""
    return lambda: sum((TOP / file).read_text().count("\n") for file in files)


def rows(*files: str) -> Callable[[], int]:
    """How many rows these files have."""
    return lambda: sum(bool(line) and not line.startswith("#") for file in files for line in (TOP / file).read_text().split("\n"))


def names(*files: str) -> Callable[[], int]:
    """How many names the rows of these files begin with."""

    def counted() -> int:
        listed = [line for file in files for line in (TOP / file).read_text().split("\n")]
        return len({line.split("\t")[0] for line in listed if line and not line.startswith("#")})

    return counted


def first(file: str) -> Callable[[], int]:
    """The number that a file begins with."""
    return lambda: int((TOP / file).read_text().split()[0])


# The benchmark's messages: their figures are of a machine that wasn't quiet.
ROUGH = {"KeyPackage", "Welcome, 100 members", "PrivateMessage", "UpdatePath, 10x10"}
# How the names of the benchmark's rows begin, by what README.md calls them; "other lists" has the rest.
KINDS = {
    "lists of numbers": re.compile(r"(?:Tls)?Vec(?:U\d+)?<u\d+> "),
    "bytes and texts": re.compile(r"(?:VLBytes|String|TlsByteVecU\d+) "),
    "messages": re.compile("|".join(map(re.escape, sorted(ROUGH)))),
}


def share(kind: str) -> Callable[[], str]:
    """The least and the greatest share of the Rust crate's time, in percent, in the rows of a kind in docs/BENCHMARKS.md."""

    def counted() -> str:
        found = []
        for name, cells in re.findall(r"^\| `([^`]*)` \|(.*)\|$", (TOP / "docs/BENCHMARKS.md").read_text(), re.M):
            if kind == next((it for it, form in KINDS.items() if form.match(name)), "other lists"):
                found += [round(100 * float(ratio)) for ratio in re.findall(r"\((\d+\.\d+)\)", cells)]
        return f"{min(found)} to {max(found)}" if found else "no row"

    return counted


PRESENTED = sorted(str(it.relative_to(TOP)) for it in (CRATES / "tls_presentation/specs").glob("*.antt") if it.name != "Lib.antt")
# A page, the place of a figure in it, and what it counts.
FIGURES = [
    *((page, r"([\d,]+) inputs of `(?:tlsview|test_rows)`", rows("crates/test_rows/stdout")) for page in ("README.md", "docs/PROVED.md")),
    ("CONTRIBUTING.md", r"test_rows' ([\d,]+) answers", rows("crates/test_rows/stdout")),
    ("README.md", r"the kit `([\w-]+)`", lambda: re.search(r"`([\w-]+) logic \w+` \(`rt version`\)", (TOP / "README.md").read_text())[1]),
    ("docs/PROVED.md", r"each of the (\d+) requests of `test_memory`", first("crates/test_memory/stdout")),
    ("README.md", r"each of (\d+) requests for memory", first("crates/test_memory/stdout")),
    ("tools/data/counts.txt", r"try_refused_requests\.py (\d+)", first("crates/test_memory/stdout")),
    ("docs/PROVED.md", r"and (\d+) rejections in them, by hand", lambda: len(rejections.REJECTIONS)),
    ("docs/MESSAGES.md", r"the (\w+) files of its `specs/`, [\d,]+ lines", lambda: len(PRESENTED)),
    ("docs/MESSAGES.md", r"the \w+ files of its `specs/`, ([\d,]+) lines", lines(*PRESENTED)),
    ("docs/CALLERS.md", r"(\d+) inputs of the \d+ messages", rows(*OUTCOMES)),
    ("docs/CALLERS.md", r"\d+ inputs of the (\d+) messages", names(*OUTCOMES)),
    ("docs/CALLERS.md", r"for (\d+) messages of MLS", names(OUTCOMES[0])),
    ("docs/CALLERS.md", r"for (\d+) messages of TLS", names(OUTCOMES[1])),
    ("docs/CALLERS.md", r"mls_decode\.h` \| `NAME_decode_check` for the same (\d+) messages", names(OUTCOMES[0])),
    ("docs/CALLERS.md", r"tls13_decode\.h` \| `NAME_decode_check` for the same (\d+) messages", names(OUTCOMES[1])),
    ("docs/CALLERS.md", r"(\d+) of lists, fields and wire formats", rows("crates/test_places/stdout")),
    ("docs/CALLERS.md", r"(\d+) of lengths and", rows("c/tests/lengths.tsv")),
    ("docs/CALLERS.md", r"lengths and (\w+) of what is signed", rows("c/tests/signed.tsv")),
    *(("README.md", rf"(\d+ to \d+) % for {it}|for {it} (\d+ to \d+) %", share(it)) for it in (*KINDS, "other lists")),
]


def wrong_figures(text: str, place: str, right: int | str) -> Iterator[str]:
    """What isn't so of a figure at its place in a page."""
    stated = ["".join(it.groups("")) for it in re.finditer(place, re.sub(r"\s+", " ", text))]
    if not stated:
        yield f"no figure {place}"
    for it in stated:
        if WORDS.get(it, it.replace(",", "")) not in (right, str(right)):
            yield f"{it} in {place!r} is {right}"


def figure_findings() -> tuple[list[str], int]:
    """Which figures aren't what their files say, and how many there are."""
    found = [f"{page}: {it}" for page, place, counted in FIGURES for it in wrong_figures((TOP / page).read_text(), place, counted())]
    return found, len(FIGURES)


def table(section: str) -> list[list[str]]:
    """The rows of the first table of a section of docs/ERRORS.md, as cells."""
    text = ERRORS.read_text().partition(f"\n## {section}\n")[2].split("\n## ")[0]
    listed = [line for line in text.split("\n") if line.startswith("|")][2:]
    return [[cell.strip() for cell in re.split(r" \|(?= )", line.strip("|"))] for line in listed]


def answers_of(answer: str) -> tuple[str, str]:
    """The errors of the slice path and of the reader path in an answer of test_values."""
    found = re.match(r'(?:refused|.*exact forms refuse) (\w+(?:\("[^"]*"\))?)(?:, by reader (\w+(?:\("[^"]*"\))?))?', answer)
    return (found[1], found[2] or found[1]) if found else ("none", "none")


def explained() -> dict[tuple[str, str], tuple[str, str]]:
    """The inputs that test_values has for docs/ERRORS.md, by their types and bytes, with the errors of both paths."""
    pairs = [(CRATES / "test_values" / file).read_text().split(EXPLAINED)[1].split("\n#")[0].splitlines() for file in ("stdin", "stdout")]
    found = {}
    for given, line in zip(*pairs, strict=True):
        of, _, data = given.split("\t")
        found[of, data] = answers_of(line.removeprefix(f"{given}\t"))
    return found


def rejected() -> dict[tuple[str, str], tuple[str, str]]:
    """The inputs that test_types rejects, in the same way."""
    code = "\n".join(path.read_text() for path in sorted((CRATES / "test_types/src").rglob("*.rt")))
    errors = dict(re.findall(r"^(?:pub(?:\(\w+\))? )?const (\w+): Error =\s*Error::([^;]*);", code, re.M))
    found = {}
    for of, data, name in re.findall(r"expect_rejected::<(.*)>\(&rt, alloc, &\[([^\]]*)\], (\w+)\)", code):
        numbers = re.findall(r"\b(?:0x[0-9a-f]+|\d+)\b", data)
        found[of, "".join(f"{int(it, 0):02x}" for it in numbers)] = (errors.get(name, name),) * 2
    return found


def input_findings() -> tuple[list[str], int]:
    """Which rows of "Ten inputs" aren't what the tests say, and how many there are."""
    given, others, found, seen = explained(), rejected(), [], set()
    listed = table("Ten inputs")
    for of, data, by_slice, by_reader, _ in listed:
        key = re.match(r"`(.*?)`", of)[1], data.strip("`")
        stated = by_slice.strip("`"), (by_slice if by_reader == "the same" else by_reader).strip("`")
        seen.add(key)
        right = given.get(key) or others.get(key)
        if right is None:
            found.append(f"docs/ERRORS.md: no test of {' '.join(key)}")
        elif right != stated:
            found.append(f"docs/ERRORS.md: {' '.join(key)} is {right[0]}, by a reader {right[1]}")
    found += [f"docs/ERRORS.md: no row for {' '.join(key)}" for key in given if key not in seen]
    if len(listed) != WORDS["ten"]:
        found.append(f"docs/ERRORS.md: {len(listed)} inputs")
    return found, len(listed)


def errors() -> set[str]:
    """The errors that the library makes: variants, and those with a text."""
    enum = re.search(r"^pub enum Error \{\n(.*?)^\}", (CRATES / "tls_codec_wire/src/error.rt").read_text(), re.M | re.S)[1]
    code = "".join(path.read_text() for path in sorted(CRATES.glob("tls_codec*/src/**/*.rt")))
    with_texts = {found[0] for found in re.finditer(r'(?:De|En)codingError\("[^"]*"\)', code)}
    return set(re.findall(r"^    ([A-Z]\w+)", enum, re.M)) - {"DecodingError", "EncodingError"} | with_texts


def without_text() -> set[str]:
    """The error that comes to callers in other languages without its text: its name, and its status as outcome.h has it."""
    header = (TOP / "c/include/tls_codec/outcome.h").read_text()
    return {it for pair in re.findall(r'case (TLS_CODEC_DECODING_ERROR): return "(DecodingError)";', header) for it in pair}


def sentence_findings() -> tuple[list[str], int]:
    """Which errors of the library have no sentence in docs/ERRORS.md, which sentences have no error, and how many errors there are."""
    made = errors() | without_text()
    named = {it.removesuffix("(n)") for cells in table("For a person to read") for it in re.findall(r"`([^`]*)`", cells[0])}
    found = [f"docs/ERRORS.md: no sentence for {error}" for error in sorted(made - named)]
    return found + [f"docs/ERRORS.md: a sentence for no error: {error}" for error in sorted(named - made)], len(made)


def wrong_texts(page: str, made: set[str]) -> Iterator[str]:
    """The texts of errors in this page that no error of the library has. Quoted code in Rust may have errors of its own."""
    quoted = [lines for before, kind, lines in blocks(page.split("\n")) if kind == "rust" and not any(map(NOT_QUOTED.search, before[-1:]))]
    of_code = {line for lines in quoted for _, line in lines}
    others = "\n".join(line for line in page.split("\n") if line.strip() not in of_code)
    for text in sorted(set(re.findall(r'(?:De|En)codingError\("[^"]+"\)', others)) - made):
        yield f"no error of the library: {text}"


def text_findings() -> tuple[list[str], int]:
    """Which pages have errors with texts that no error of the library has, and how many pages there are."""
    made = errors()
    found = [f"{page.relative_to(TOP)}: {it}" for page in PAGES for it in wrong_texts(page.read_text(), made)]
    return found, len(PAGES)


def wrong_statuses(listed: list[list[str]], numbers: dict[str, int], never: set[str]) -> Iterator[str]:
    """What isn't so of the statuses in these rows, by the numbers of all errors and by those that no caller gets."""
    stated: dict[str, set[str]] = {}
    for errors_of, status, *_ in listed:
        for name in re.findall(r"`(\w+)(?:\([^`]*\))?`", errors_of):
            stated.setdefault(name, set()).add(status)
    for name, number in numbers.items():
        right = set() if name in never else {str(number)}
        if stated.get(name, set()) - {""} != right:
            yield f"docs/ERRORS.md: {name} has {f'the status {number}' if right else 'no status, since no call returns it'}"


def status_findings() -> tuple[list[str], int]:
    """Which errors have another status in docs/ERRORS.md than in outcomes, and how many errors there are."""
    numbers = {name: number for name, _, number in exported.numbers()}
    never = {name for name, meaning in exported.MEANINGS.items() if meaning == "No call returns it."}
    return list(wrong_statuses(table("For a person to read"), numbers, never)), len(numbers)


def wrong_kinds(page: str, read: list[str], specs: str) -> Iterator[str]:
    """How the kinds in this text of docs/MESSAGES.md and those that are read differ from those of this text of Kinds.antt."""
    right = re.findall(r'\bkind \(codes "([^"]+)"\)', specs)
    listed = re.search(r"^kinds +(.*?)(?:,.*?)?^status ", page, re.M | re.S)
    if not right or not listed or listed[1].split() != right:
        yield f"docs/MESSAGES.md: the kinds of tlsview are {' '.join(right)}"
    if read != right:
        yield f"tools/lib/row_reader.py: the kinds of tlsview are {' '.join(right)}"


def kind_findings() -> tuple[list[str], int]:
    """What isn't so of the kinds of `tlsview`, and how many lists of them there are."""
    page, specs = (TOP / "docs/MESSAGES.md").read_text(), (CRATES / "tlsview_run/specs/Kinds.antt").read_text()
    return list(wrong_kinds(page, list(row_reader.KINDS), specs)), 2


def selftest() -> tuple[list[str], int]:
    """Whether wrong figures are found where they are planted, and none where they are right."""
    place = r"(\w+|[\d,]+) rows"
    planted = {
        "a wrong number": ("It has 2,217 rows.", 2216),
        "a wrong word": ("It has ten\nrows.", 9),
        "no figure": ("It has many lines.", 9),
    }
    listed, numbers = [["`One(\"a\")`, `Two(n)`", "1", "It."], ["`One(\"b\")`", "", "It."], ["`Three`", "", "It."]], {"One": 1, "Three": 3}
    page = "kinds   one two\n        three, which\nstatus  0"
    specs = "∷ ".join(f'kind (codes "{it}") (list {it})\n' for it in ("one", "two", "three"))
    others = {
        "another status": wrong_statuses(listed, {**numbers, "Two": 2}, {"Three"}),
        "no status": wrong_statuses(listed, numbers, set()),
        "a status of what no call returns": wrong_statuses(listed, numbers, {"One", "Three"}),
        "an error without a row": wrong_statuses(listed, {**numbers, "Four": 4}, {"Three"}),
        "a text of no error": wrong_texts('`DecodingError("one")`, `EncodingError("two")`', {'DecodingError("one")'}),
        "a text of no error, in a block": wrong_texts('<!-- not quoted -->\n```rust\nErr(DecodingError("one"))\n```', set()),
        "a kind that isn't listed": wrong_kinds(page.replace(" two", ""), ["one", "two", "three"], specs),
        "a kind that isn't there": wrong_kinds(page, ["one", "two", "three"], specs.replace('"two"', '"four"')),
        "no list of kinds": wrong_kinds("kinds", ["one", "two", "three"], specs),
        "a kind that isn't read": wrong_kinds(page, ["one", "three"], specs),
    }
    missed = [f"selftest: not found: {fault}" for fault, (text, right) in planted.items() if not list(wrong_figures(text, place, right))]
    missed += [f"selftest: not found: {fault}" for fault, found in others.items() if not list(found)]
    sound = [*wrong_figures("It has 2,216 rows.", r"([\d,]+) rows", 2216), *wrong_figures("It has ten rows.", place, 10)]
    sound += [*wrong_statuses(listed, numbers, {"Three"}), *wrong_kinds(page, ["one", "two", "three"], specs)]
    sound += wrong_texts('`DecodingError("one")`', {'DecodingError("one")'})
    sound += wrong_texts('```rust\nErr(DecodingError("one"))\n```', set())
    return missed + [f"selftest: found: {it}" for it in sound], 1


def findings() -> tuple[list[str], int]:
    """What isn't so, and how much was checked."""
    parts = [selftest(), figure_findings(), input_findings(), sentence_findings(), text_findings(), status_findings(), kind_findings()]
    return [line for found, _ in parts for line in found], sum(checked for _, checked in parts)
