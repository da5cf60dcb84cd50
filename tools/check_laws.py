#!/usr/bin/env python3
"""What the prover can't see of the crates of laws (crates/*_laws): their quoted lines are those of the texts, each type of a written crate
has its laws, under its own name in the text, and each name that is called is that of the field which is viewed. And the crates are what
write_laws.py writes, except for blanks and the order of imports.

For each crate a line says so, or what isn't so, and another one compares it with what write_laws.py writes. Before that each check is tried
on laws with one fault, which counts as one.
"""
from __future__ import annotations

import pathlib
import re
import sys
from collections.abc import Iterator

from lib.failed import Failed, ended
from lib.libraries import CRATES, DATA, TEXT_OF_CRATE
from write_laws import differences


def plain(name: str) -> str:
    """A name in small letters, without what Rust's names lack."""
    return re.sub(r"[_.]", "", name).lower()


def is_name_of(name: str, of: str) -> bool:
    """Whether a name of a text is that of a type or variant in Rust, where `Empty` can be `EmptyType`, and a number a `Case7`."""
    return plain(name) == plain(of) or plain(name) + "type" == plain(of) or "case" + plain(name) == plain(of)


# ---- texts

def quoted_lines(page: pathlib.Path) -> list[str]:
    """The lines of a text that a page quotes."""
    lines = re.findall(r'^    "(.*)" ∷$', page.read_text(), re.M)
    return [line.replace('\\"', '"').replace("\\\\", "\\") for line in lines]


def faults_of_text(laws: pathlib.Path, page: str, text: pathlib.Path) -> Iterator[str]:
    """Whether a page, with the one that goes on with it, quotes other lines than those of the text."""
    lines = quoted_lines(laws / "specs" / f"{page}.antt")
    rest = laws / "specs" / f"{page}Behind.antt"
    if lines + (quoted_lines(rest) if rest.exists() else []) != (text.read_text().splitlines() if text.exists() else []):
        yield f"specs/{page}.antt: not the lines of {text.name}"


# ---- declarations of a written crate

def body(code: str, head: str) -> str | None:
    """What is between the braces after a head."""
    found = re.search(rf"{head}\b", code)
    if not found:
        return None
    start = code.index("{", found.end()) + 1
    depth, end = 1, start
    while depth:
        depth += {"{": 1, "}": -1}.get(code[end], 0)
        end += 1
    return code[start:end - 1]


def declared_name(text: str) -> str:
    """The name in a declaration, as `opaque tail<V>;`, or the type if it is alone."""
    text = re.sub(r"^case [^:]*: ?", "", text)
    text = re.sub(r"[\[<=;].*", "", re.sub(r"optional<([^>]*)>", r"\1", text))
    words = text.split()
    return words[-1] if words else ""


def fields_in(text: str) -> list[tuple[str, str]]:
    """Each field of a struct or of a variant, with the name in its declaration."""
    return [(name, declared_name(said)) for said, name in re.findall(r"/// `([^`]*)`\n(?:\s*///.*\n)*\s*(?:pub )?(\w+): ", text)]


def fields_of(code: str, name: str) -> dict[str, str]:
    """Each field of a struct, with the name in its declaration."""
    text = body(code, f"pub struct {name}")
    return dict(fields_in(text)) if text is not None else {}


def variants_of(code: str, name: str) -> dict[str, list[set[str]]]:
    """Each variant of an enum, with the names in its declarations, in their order."""
    found = {}
    text = body(code, f"pub enum {name}") or ""
    for said, variant, inside in re.findall(r"/// `([^`]*)`\n(?:    ///.*\n)*    (\w+)(\s*\{.*?\n    \}|\([^\n]*\))?,", text, re.S):
        fields = inside.strip()
        if fields.startswith("{"):
            found[variant] = [{rust, declared} for rust, declared in fields_in(fields)]
        else:
            found[variant] = [{declared_name(said)}] if fields else []
    return found


# ---- laws

class Type:
    """A type of a written crate: its page in specs/, its code, and what its laws say."""

    def __init__(self, crate: str, page: pathlib.Path, says: str, laws: str) -> None:
        self.name = page.stem
        text = page.read_text()
        self.word = re.search(r"^abbrev pub (\w+)_plain ", text, re.M).group(1)
        self.code = (CRATES / crate / "src" / (re.search(r"specs\.declared\.(\w+)\.", text).group(1) + ".rt")).read_text()
        law = re.search(rf"pub fn {self.word}_is_as_printed\(\)(.*?)\n\{{\}}", laws, re.S)
        self.law = law.group(1) if law else ""
        self.clauses = re.split(rf"^{self.name}Says ", says, flags=re.M)[1:]

    def faults(self) -> Iterator[str]:
        """What isn't so of the laws of the type."""
        if not self.law:
            yield "no law"
            return
        says_bytes = re.search(r"ensures bytes \{ \(c : Tree\) →\s+SameBytes \((?:part_)?means ", self.law)
        if not says_bytes or f"⟦<{self.name}" not in self.law:
            yield "no law says its bytes"
        if f"({self.name}Says " not in self.law or not self.clauses:
            yield "no law says its values"
        for name in re.findall(r'\bmeans \w+ "([^"]*)"', self.law):
            if not is_name_of(name, self.name):
                yield f"its law is of {name}"
        for clause in self.clauses:
            yield from self.faults_of_clause(clause.split("\nabbrev ")[0])

    def faults_of_clause(self, clause: str) -> Iterator[str]:
        """What isn't so of a clause of what the type's values say."""
        head, said = clause.split("=", 1)
        variant = re.search(rf"\(?{self.name}(\w+)", head)
        label = re.search(r'(?:word "([^"]*)"|Numeral (\d+))\)|value_says \w+ "[^"]*" "([^"]*)"', said)
        if variant and label and not is_name_of(next(one for one in label.groups() if one), variant.group(1)):
            yield f"{variant.group(1)} is not {label.group(0)}"
        names = variants_of(self.code, self.name).get(variant.group(1)) if variant else None
        fields = fields_of(self.code, self.name)
        for at, (name, view) in enumerate(re.findall(r'called "([^"]*)" (\(.*?\)|\w+(?:\.\w+)*)(?= ∷)', said)):
            viewed = re.findall(r"\bv\.(\w+)", re.sub(r"\(λ v\. [^()]*(?:\([^()]*\))?[^()]*\)", "", view))
            if variant:
                # a struct that fills its length, as `Finished`, is its one field
                has_place = f"a{at}" in view and names is not None and at < len(names)
                right = has_place and (name in names[at] or is_name_of(name, variant.group(1)))
            else:
                right = len(viewed) == 1 and name in (viewed[0], fields.get(viewed[0]))
            if not right:
                yield f"{name} is called of {view}"
        if not variant and said.lstrip().startswith("says ") and said.count("called ") != len(fields):
            yield f"{said.count('called ')} of {len(fields)} fields are called"


def laws_of(crate: str) -> tuple[str, str]:
    """The page of what values say, and the code of the laws, of a crate."""
    laws = CRATES / f"{crate}_laws"
    return (laws / "specs" / "Says.antt").read_text(), "".join(page.read_text() for page in sorted((laws / "src").glob("*.rt")))


def faults_of(crate: str, text: str) -> Iterator[str]:
    """What isn't so of the laws of a crate."""
    laws = CRATES / f"{crate}_laws"
    if not laws.exists():
        yield "no laws"
        return
    yield from faults_of_text(laws, "Text", DATA / f"{text}.tls")
    yield from faults_of_text(laws, "Notes", DATA / f"{text}.notes")
    says, clauses = laws_of(crate)
    printed = ("ensures definitions { print definitions ≡ signs text }", "ensures notes { print_notes notes ≡ signs notes_text }")
    if any(it not in clauses for it in printed):
        yield "no law says that the definitions are the text's"
    for page in sorted((CRATES / crate / "specs").glob("*.antt")):
        if page.stem != "Lib":
            for fault in Type(crate, page, says, clauses).faults():
                yield f"{page.stem}: {fault}"


def unlike(crate: str) -> list[str]:
    """What isn't as write_laws.py writes it."""
    return [f"{it} isn't as tools/write_laws.py writes it" for it in differences(crate)]


def reported(crate: str, faults: list[str], otherwise: str) -> bool:
    """Prints the faults of a crate of laws, or the other words. Returns whether there are none."""
    print(f"{crate}_laws: " + ("; ".join(faults) or otherwise))
    return not faults


def selftest() -> Iterator[str]:
    """The planted faults that aren't found: in what SignedCertificateTimestamp says, in its law, and in the text of another crate."""
    crate, page = "ct", CRATES / "ct" / "specs" / "SignedCertificateTimestamp.antt"
    says, laws = laws_of(crate)

    def turned(text: str, old: str, new: str) -> str:
        if old not in text:
            raise Failed(f"{crate}_laws has no {old}, which the selftest changes")
        return text.replace(old, new)

    planted = {
        "another field's name": Type(crate, page, turned(says, 'called "id" ', 'called "timestamp" '), laws),
        "a field that isn't called": Type(crate, page, turned(says, 'called "id" (log_id_plain v.id) ∷', ""), laws),
        "another type's name": Type(crate, page, says, turned(laws, f'"{page.stem}"', '"TimestampedEntry"')),
        "no law": Type(crate, page, says, ""),
        "a law without bytes": Type(crate, page, says, turned(laws, "ensures bytes", "ensures other")),
        "a law without values": Type(crate, page, says, turned(laws, f"{page.stem}Says", "Says")),
    }
    yield from (f"not found: {fault}" for fault, it in planted.items() if not list(it.faults()))
    yield from (f"found: {it}" for it in Type(crate, page, says, laws).faults())
    if not list(faults_of_text(CRATES / "ct_laws", "Text", DATA / "mls.tls")):
        yield "not found: another text"


def main() -> int:
    passed, wanted = 0, 2 * len(TEXT_OF_CRATE) + 1
    missed = list(selftest())
    print("selftest: " + ("; ".join(missed) or "each planted fault is found"))
    passed += not missed
    for crate, text in TEXT_OF_CRATE.items():
        passed += reported(crate, list(faults_of(crate, text)), f"the lines of {text}.tls, and each type under its names")
        passed += reported(crate, unlike(crate), "what tools/write_laws.py writes")
    print(f"{passed} passed, {wanted - passed} failed")
    return int(passed < wanted)


if __name__ == "__main__":
    sys.exit(ended(main))
