#!/usr/bin/env python3
"""Lists the public functions and the methods of traits that have no contract, or no wrong body: of the library, the archives, and what
these and `tlsview` are made of.

An edit of wrong/ names its function; one of must-fail/ turns that which has its `old:` text. A method in an `impl Trait for Type` has the
contract of the trait, and the path that rattle gives it: `tagged::TaggedSerialize::tls_serialize`. So has a type's own method, which is
for all parameters, `list::TlsVec::len`, or for some: `payloads::Encoded+Option+T::payload`.

A function needs no wrong body if its body is empty, as a law's is, or one call of something with a contract. That is `call`, `let x =
call?; Ok(x)` or `let x = call?; Ok(Type(x))`, and nothing else. What the call is of and its arguments are names, paths, fields and
literals, and these borrowed or dereferenced. So a constant, a field, `Some(x)`, an operator, a cast and a second call need one.

data/without_wrong_bodies.txt has the exceptions, with reasons. A reason `like PATH` names a sibling: a function of the same crate that has
an edit, and the same body except for names of types. Prints each function that lacks one, each exception that is none, each sibling that is
none, each edit that can't be applied, and how many functions are of each class; last 'N passed, N failed', a function each. Before that it
tries itself on planted functions of each class, on planted siblings and edits, and on a crate without one of its edits: one more.
"""
from __future__ import annotations

import collections
import dataclasses
import pathlib
import re
import sys
import tempfile
from collections.abc import Iterator

from lib import edits, type_tests, words
from lib.failed import ended
from lib.libraries import CRATES, TOP, Libraries

FUNCTION = re.compile(r'( *)(pub )?(?:final |const |unsafe |extern "C" )*fn (?:r#)?(\w+)')
TYPE = re.compile(r"^(?:pub(?:\(\w+\))? )?(?:struct|enum) (\w+)", re.M)
# A type of an impl that has parameters alone, as `Encoded<'a, T>` and not `Encoded<'a, Vec<T>>`.
BARE = re.compile(r"(\w+)(?:<(?:\s*(?:'\w+|(?!U24\b)[A-Z][A-Z_0-9]*)\s*,?)*>)?")
# What a call is of, and its arguments; a call, whose name has a small letter first; and a body that is one.
VALUE = r'(?:&mut |[&*])*(?:"[^"]*"|\w+(?:(?:::|\.)\w+)*)'
CALL = rf"(?:(?:{VALUE}|\({VALUE}\))\s*\.|(?:\w+::)*)[a-z_]\w*(?:::<[\w:<>, ]*>)?\(\s*(?:{VALUE}(?:,\s*{VALUE})*,?\s*)?\)"
ONE_CALL = re.compile(rf"{CALL}|let (\w+) = {CALL}\?;\s*Ok\((?:\1|[A-Z]\w*\(\1\))\)")
BELOW_ARCHIVES = ["mls_fields", "tls13_fields", "mls_signed", "tls_codec_outcome", "view_input", "tlsview_run"]

WITHOUT = TOP / "tools/data/without_wrong_bodies.txt"
# The reason that names a sibling, and the name of a type or of a type's parameter in a body.
SIBLING = "like "
OF_TYPE = re.compile(r"\b[A-Z]\w*[a-z]\w*|\b[A-Z]\b|(?<![A-Za-z_])[uU]\d+\b")

# The classes of functions. Those of LACKING need an exception.
EDIT, ONE, EXCEPTED = "with an edit", "one call or empty", "excepted"
LACKING = NO_CONTRACT, NO_BODY = "no contract", "no wrong body"

# Bodies of each class, of functions with a contract.
PLANTED = {
    ONE: ["", "read(at, &mut out.0)", "(**self).read::<u8, T>(at)", "let found = Held::read(at)?;\n    Ok(found)",
          "let found = read(at)?;\n    Ok(Held(found))"],
    NO_BODY: ["4", "self.0", "Some(at)", "Error::Ended", "*at", "read(at + 1)", "read(at as u64)", "!read(at)", "read(at.len())",
              "read(at).ended()", "Ok(Some(read(at)?))", "read(at);", "let found = read(at)?;\n    Ok(4)",
              "let found = read(at)?;\n    Ok(Held::of(found))"],
}
# A trait with a method that has a contract and one that has none, and an impl.
PLANTED_TRAIT = """pub trait Held {
    fn stated(&self) -> usize
        ensures { result ≡ 0 };

    fn unstated(&self) -> usize;
}

impl Held for u8 {
    fn stated(&self) -> usize {
        0
    }
}"""


@dataclasses.dataclass(frozen=True)
class Function:
    """A public function or a method of a trait, by its path below the crate."""

    path: str
    has_contract: bool
    body: str

    def class_in(self, turned: set[str]) -> str:
        """Its class in a crate whose edits turn these functions, before exceptions."""
        if not self.has_contract:
            return NO_CONTRACT
        if self.path in turned:
            return EDIT
        return ONE if not self.body or ONE_CALL.fullmatch(self.body) else NO_BODY

    @property
    def form(self) -> str:
        """Its body without the names of types, and without blanks."""
        return "".join(OF_TYPE.sub("Type", self.body).split())


# The functions of some crates by their paths with the crate, and the class of each. Where several have one path, that is a fault.
Functions = dict[str, list[tuple[Function, str]]]


def excepted() -> dict[str, str]:
    """The paths in WITHOUT that have a reason, with it."""
    lines = [line.partition("  ") for line in WITHOUT.read_text().split("\n") if line and not line.startswith("#")]
    return {path: reason.strip() for path, _, reason in lines if reason.strip()}


def no_siblings(exceptions: dict[str, str], found: Functions) -> Iterator[str]:
    """The exceptions whose reason names a sibling without an edit, or with another body, or says that there is one without a name."""
    for path, reason in exceptions.items():
        sibling = f"{path.partition('::')[0]}::{reason.removeprefix(SIBLING)}"
        if reason.startswith(SIBLING):
            forms = {function.form for function, kind in found.get(sibling, []) if kind == EDIT}
            if not forms:
                yield f"{path}: no sibling with an edit: {sibling}"
            elif not {function.form for function, _ in found.get(path, [])} <= forms:
                yield f"{path}: another body than that of {sibling}"
        elif "sibling" in reason:
            yield f"{path}: a sibling without a name: write '{SIBLING}PATH'"


def held() -> list[str]:
    """The crates whose public functions are checked: the first group of crates.txt, the archives, and what is below them."""
    first_group = (TOP / "crates.txt").read_text().partition("\n\n")[0]
    return [*re.findall(r"^(\w+)", first_group, re.M), *Libraries().static, *BELOW_ARCHIVES]


def module_of(file: str) -> str:
    """The path of a file's functions below the crate, with `::` at its end."""
    module = file.removeprefix("src/").removesuffix(".rt").removesuffix("/mod").replace("/", "::")
    return "" if module in ("lib", "main") else f"{module}::"


def without_parameters(head: str) -> str:
    """What is after the parameters `<..>` that a text begins with, or the text."""
    depth = 0
    for at, sign in enumerate(head):
        depth += {"<": 1, ">": -1}.get(sign, 0)
        if not depth:
            return head[at + 1 :] if at else head
    return head


def name_of(text: str) -> str:
    """The name of a type in paths, as rattle writes it: without its parameters, and with the types that it is of."""
    text = text.strip()
    if text.startswith("&"):
        return "Ref" + name_of(re.sub(r"^&(?:'\w+)?", "", text))
    if text.startswith("("):
        return f"Tuple{text.count(',') + 1}" if text != "()" else "Unit"
    if text.startswith("["):
        return ("Array" if ";" in text else "Slice") + name_of(re.match(r"\[(\w+)", text)[1])
    path, _, inside = text.partition("<")
    if not path or text.startswith("'") or re.fullmatch(r"[A-Z][A-Z_0-9]*", path) and path != "U24":
        return ""
    parts = inside.rpartition(">")[0].split(",") if "<" not in inside else [inside.rpartition(">")[0]]
    return "".join(part[0].upper() + part[1:] for part in path.split("::")) + "".join(name_of(part) for part in parts if part)


def owner(lines: list[str]) -> str:
    """The type or trait that the last of these lines is in, with `::` at its end.

    It is `TaggedSerialize::` for `impl .. Serialize for Tagged<..>`, and `Encoded+Option+T::` for `impl .. Encoded<'a, Option<T>>`."""
    head = head_of(lines)
    trait, _, of = head.rpartition(" for ")
    if not trait:
        is_of_all = BARE.fullmatch(of) or not lines[opening(lines)].startswith("impl")
        return (re.search(r"\w+", of)[0] if is_of_all else with_parameters(of)) + "::"
    word, _, inside = trait.partition("<")
    parameter = name_of(inside.rpartition(">")[0])
    return name_of(of) + word.split("::")[-1].strip() + parameter + "::"


def with_parameters(text: str) -> str:
    """A type in the path of its own method, as rattle writes it where the impl isn't for all parameters."""
    if text.startswith("("):
        inside = type_tests.parts(text[1:-1])
        name = f"tuple{len(inside)}"
    else:
        inside = type_tests.parts(text.partition("<")[2].rpartition(">")[0])
        name = text.partition("<")[0]
    return "+".join([name, *(with_parameters(it) for it in inside if not it.startswith("'"))])


def opening(lines: list[str]) -> int:
    """The last of these lines that begins an impl or a trait, or how many they are."""
    return max((n for n, line in enumerate(lines) if re.match(r"impl\b|(?:pub )?trait\b", line)), default=len(lines))


def head_of(lines: list[str]) -> str:
    """What comes after `impl` or `trait` in the last such line, without its parameters."""
    head = " ".join(line.strip() for line in lines[opening(lines) :]).replace("->", "").partition("{")[0].partition(" where ")[0]
    return without_parameters(re.sub(r"^(?:impl|(?:pub )?trait)\s*", "", head)).strip()


def named(file: str, lines: list[str], name: str, homes: dict[str, str]) -> str:
    """The path below the crate of a function that the last of these lines begins. A type's own method has the path of the type."""
    if not lines[-1].startswith(" "):
        return module_of(file) + name
    bare = BARE.fullmatch(head_of(lines))
    return homes.get(bare[1] if bare else "", module_of(file)) + owner(lines) + name


def homes_of(folder: pathlib.Path) -> dict[str, str]:
    """The types of the crate in a folder, with their modules."""
    paths = sorted((folder / "src").rglob("*.rt"))
    return {name: module_of(it.relative_to(folder).as_posix()) for it in paths for name in TYPE.findall(it.read_text())}


def is_of_trait(lines: list[str]) -> bool:
    """Whether the last of these lines is in a trait, or in an impl of one."""
    start = max((n for n, line in enumerate(lines) if re.match(r"\S.*\{$|impl\b|(?:pub )?trait\b", line)), default=0)
    is_trait = re.match(r"(?:pub )?trait\b", lines[start])
    return lines[-1].startswith("    ") and bool(is_trait or " for " in head_of(lines))


def ends_head(line: str, indent: str) -> bool:
    """Whether a line ends the head of a function with this indent: by a semicolon, or by the brace of its body."""
    return line.endswith(";") or bool(re.search(r"\{\}?$", line)) and not line.startswith(f"{indent}    ")


def functions_of(file: str, lines: list[str], homes: dict[str, str]) -> Iterator[Function]:
    """The public functions of a file and the methods of its traits and impls. A declaration without a body is one if it has no contract."""
    for at, line in enumerate(lines):
        found, before = FUNCTION.match(line), lines[: at + 1]
        is_method = bool(found) and is_of_trait(before)
        if not found or not found[2] and not is_method:
            continue
        indent = found[1]
        start = next(n for n in range(at, len(lines)) if ends_head(lines[n], indent))
        is_whole = lines[start].endswith((";", "{}"))
        end = start if is_whole else next(n for n in range(start, len(lines)) if lines[n].startswith(f"{indent}}}"))
        stated = is_method and " for " in head_of(before) or any(it.startswith(f"{indent}    ensures") for it in lines[at : start + 1])
        if not stated or not lines[start].endswith(";"):
            body = re.sub(r"//.*", "", "\n".join(lines[start + 1 : end]))
            yield Function(named(file, before, found[3], homes), stated, body.strip())


def functions(crate: str) -> Iterator[Function]:
    """The public functions of a crate, and the methods of its traits and impls."""
    homes = homes_of(CRATES / crate)
    for path in sorted((CRATES / crate / "src").rglob("*.rt")):
        yield from functions_of(path.relative_to(CRATES / crate).as_posix(), path.read_text().split("\n"), homes)


def turned_in(folder: pathlib.Path, path: pathlib.Path, homes: dict[str, str]) -> Iterator[str]:
    """The functions of the crate in a folder that an edit turns, by their paths. It is refused if it can't be applied."""
    if path.parent.name == "wrong":
        yield edits.read(path, folder).function
        return
    for file, old in re.findall(r"^file: (src/.*)\nold: (.*)$", path.read_text(encoding="utf-8"), re.M):
        before, is_there, _ = (folder / file).read_text(encoding="utf-8").partition(old)
        if not is_there:
            raise edits.BadEdit(f"an 'old:' text is not in {file}: {old}")
        lines = before.split("\n")
        at = max((n for n, line in enumerate(lines) if edits.FUNCTION.search(line) and "//" not in line), default=None)
        if at is not None:
            yield named(file, lines[: at + 1], edits.FUNCTION.findall(lines[at])[-1], homes)


def turned(folder: pathlib.Path) -> tuple[set[str], list[str]]:
    """The functions of the crate in a folder that edits turn, by their paths, and a line for each edit that can't be applied."""
    homes, found, bad = homes_of(folder), set(), []
    for path in sorted([*folder.glob("wrong/*.edit"), *folder.glob("must-fail/*.edit")]):
        try:
            found.update(turned_in(folder, path, homes))
        except (edits.BadEdit, OSError, UnicodeDecodeError) as error:
            bad.append(f"{folder.name}/{path.relative_to(folder)}: {error}")
    return found, bad


def checked_functions() -> tuple[Functions, list[str]]:
    """The functions of the crates that are checked, and a line for each edit there that can't be applied."""
    found: Functions = {}
    bad = []
    for crate in held():
        has_one, unread = turned(CRATES / crate)
        bad += unread
        for function in functions(crate):
            found.setdefault(f"{crate}::{function.path}", []).append((function, function.class_in(has_one)))
    return found, bad


def alike(found: Functions) -> list[str]:
    """The paths that several functions have, so that an edit of one would be taken for one of all."""
    return [f"{name}: {len(several)} functions have this path" for name, several in found.items() if len(several) > 1]


def planted(body: str, clause: str = "") -> Function:
    """The function of a file that has one, with this body and this line in its head."""
    return next(functions_of("src/lib.rt", f"pub fn planted(at: usize) -> usize\n{clause}{{\n    {body}\n}}".split("\n"), {}))


def unlike_siblings() -> list[str]:
    """The reasons with which a planted function is taken for one that has a sibling, or isn't, otherwise than it must be."""
    bodies = {"one": "read::<One, U24>(0u16, at)", "two": "read::<Two, T>(\n    0u8, at)", "three": "read::<One, U24>(0u16, 1)"}
    found = {f"held::{name}": [(planted(body, "    ensures { result ≡ at }\n"), EDIT)] for name, body in bodies.items()}
    found |= {"held::four": [(found["held::two"][0][0], NO_BODY)], "other::two": found["held::two"]}
    wrong = ["like three", "like four", "like five", "like other::two", "a sibling with the same body has one"]
    missed = [reason for reason in wrong if not list(no_siblings({"held::one": reason}, found))]
    return missed + [it for reason in ("like two", "it has no other value") for it in no_siblings({"held::one": reason}, found)]


def unread_edits() -> list[str]:
    """The planted edits that can't be applied and aren't found, and what is found of others, in a crate with one function."""
    right = "file: src/lib.rt\nold: 4\nnew: 5\n"
    planted = {
        "wrong/another_text.edit": f"fn: read\n{right.replace('old: 4', 'old: 6')}",
        "wrong/another_file.edit": f"fn: read\n{right.replace('lib', 'one')}",
        "wrong/no_function.edit": right,
        "must-fail/another_text.edit": right.replace("old: 4", "old: 6"),
        "must-fail/another_file.edit": right.replace("lib", "one"),
    }
    files = {"src/lib.rt": "pub fn read() -> u8 {\n    4\n}\n", "wrong/right.edit": f"fn: read\n{right}", "must-fail/right.edit": right}
    with tempfile.TemporaryDirectory() as room:
        for name, text in {**files, **planted}.items():
            path = pathlib.Path(room, "held", name)
            path.parent.mkdir(parents=True, exist_ok=True)
            path.write_text(text, encoding="utf-8")
        has_one, bad = turned(pathlib.Path(room, "held"))
    named_bad = sorted(line.partition(": ")[0] for line in bad)
    return [] if (has_one, named_bad) == ({"read"}, sorted(f"held/{it}" for it in planted)) else [f"selftest: edits: {has_one} {bad}"]


def missed_parameters() -> list[str]:
    """The functions of impls of one type with other parameters that an edit of the first would be taken for one of, and other paths."""
    heads = ["<'a, T> Held<'a, T>", "<'a, T> Held<'a, Vec<T>>", "<X, T, U> Held<X, (T, Box<U>)>", "<T> Deserialize for Held<Vec<T>>"]
    wanted = ["of::Held::read", "of::Held+Vec+T::read", "of::Held+X+tuple2+T+Box+U::read", "of::HeldVecDeserialize::read"]
    impls = "\n\n".join(f"impl{head} {{\n    pub fn read(&self) -> u8 {{\n        4\n    }}\n}}" for head in heads)
    found = list(functions_of("src/of.rt", impls.split("\n"), {}))
    shared: Functions = {"of::Held::read": [(it, it.class_in(set())) for it in found]}
    missed = [] if [it.path for it in found] == wanted else [f"selftest: paths: {[it.path for it in found]}"]
    return missed + ([] if alike(shared) else ["selftest: not found: one path of several functions"])


def selftest() -> list[str]:
    """Whether a planted function is taken for one of another class, or a function isn't missed whose edits were taken away."""
    stated = {(name, body): planted(body, "    ensures { result ≡ at }\n") for name, bodies in PLANTED.items() for body in bodies}
    failed = [f"selftest: {body!r} isn't of the class '{name}'" for (name, body), it in stated.items() if it.class_in(set()) != name]
    failed += [f"selftest: {body!r} with an edit has none" for (_, body), it in stated.items() if it.class_in({it.path}) != EDIT]
    failed += [f"selftest: {body!r} has a contract" for _, body in stated if planted(body).class_in({"planted"}) != NO_CONTRACT]
    of_trait = [(it.path, it.class_in(set())) for it in functions_of("src/lib.rt", PLANTED_TRAIT.split("\n"), {})]
    failed += [] if of_trait == [("Held::unstated", NO_CONTRACT), ("U8Held::stated", NO_BODY)] else [f"selftest: of a trait: {of_trait}"]
    failed += [f"selftest: a sibling: {it}" for it in unlike_siblings()]
    failed += [*unread_edits(), *missed_parameters()]
    path, (has_one, _) = "gather::gather", turned(CRATES / "tls_codec_wire")
    found = [it.path for it in functions("tls_codec_wire") if it.class_in(has_one - {path}) != it.class_in(has_one)]
    return failed + ([] if found == [path] else [f"selftest: {path} without its edits isn't found"])


def main() -> int:
    words.none()
    failed, exceptions, counts = selftest(), excepted(), collections.Counter()
    passed, unused = int(not failed), set(exceptions)
    checked, bad = checked_functions()
    failed += [*bad, *alike(checked)]
    for name, kind in ((name, kind) for name, several in checked.items() for _, kind in several):
        if kind in LACKING and name in exceptions:
            unused.discard(name)
            kind = EXCEPTED
        if kind in LACKING:
            failed.append(f"{name}: {kind}")
        else:
            passed += 1
        counts[kind] += 1
    failed += [f"{name}: an exception that is none" for name in sorted(unused)]
    failed += no_siblings(exceptions, checked)
    print("".join(f"{line}\n" for line in failed), end="")
    print(", ".join(f"{counts[it]} {it}" for it in (EDIT, ONE, EXCEPTED, *(it for it in LACKING if counts[it]))))
    print(f"{passed} passed, {len(failed)} failed")
    return 1 if failed or not passed else 0


if __name__ == "__main__":
    sys.exit(ended(main))
