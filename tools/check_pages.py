#!/usr/bin/env python3
"""Compares the pages with the crates: those at the top, docs/*.md, and the README.md of c/, python/ and rust/.

- A block of code has to occur, line by line and in order, in the file that the words before it name
  (`src/leaf.rt`, `specs/Messages.antt`), or, if they name none, in one file under crates/. From a function's head it leaves out no
  clause after a line that it quotes. Space at both ends of a line doesn't count, nor does `pub(super)`; c/, python/ and rust/ are read as
  crates/ is. A block is no quote if it is `console`, or after a line <!-- not quoted --> or <!-- file: PATH -->.
- A link that isn't of another site has to lead to a file of the repository, and to a heading of it.
- A name in `code` that is a path under crates/, docs/, tools/ or .ci/, or has an underscore in it, has to occur in the repository;
  names of what was before, in CHANGELOG.md, and a few of elsewhere don't. So has a path under a crate's short name (page_limits.SHORT), as
  `wire/src/gather.rt`, or `wire/Digits` for wire/specs/Digits.antt, and a file's name alone.
- A path in a block after <!-- not quoted --> has to be there, and src/lib.rt in the crate that the block names before it. A * is any name,
  NAME, CRATE, PROGRAM and .. are what a reader puts in; CHANGELOG.md and what a build makes don't count. In CONTRIBUTING.md a name in such
  a block that has an underscore in it has to occur under crates/, c/, python/, rust/, tools/ or .ci/.
- In docs/API.md each function in a `rust` block after <!-- not quoted --> is one of the library, crates/tls_codec*, with that head: the
  layout, lifetimes and a stroke before a parameter don't count. And each trait and struct there is one of the library.
- No line is one that a merge left.
- No word is one of the dialect (tools/dialect.py). The pages are short, and their reading lists closed (tools/page_limits.py).
- The pictures are what tools/pictures.py draws, and the arrows between all crates those of crates.txt. No module of tools/lib imports a
  script of tools/.

Before that it tries its checks on lines with one fault each. Prints a line for each place that doesn't match, and last 'N passed, N
failed', which counts pages and pictures, and as one each these lines, the words of all sources, the imports, and what tools/page_limits.py
checks; the exit status is 1 if one failed.
"""
from __future__ import annotations

import pathlib
import re
import sys
from collections.abc import Iterator

import dialect
import page_limits
import pictures
from lib.blocks import NOT_QUOTED, blocks, prose
from lib.failed import ended
from lib.libraries import CALLER_PAGES, PAGES, TOP, files_of_clone

# A fault: the line where it is, and what it is.
Fault = tuple[int, str]
LINK = re.compile(r"\]\(([^()\s]+)\)")
CODE = re.compile(r"`([^`]+)`")
ELSEWHERE = {"conditionally_deserializable", "from_iter", "read_to_end", "set_write_timeout"}
NAMED = re.compile(r"`((?:src|specs|proofs|must-fail|wrong)/[\w/.-]+|(?:stdin|stdout))`")
# A path in a block, from the top or from a crate on, and what a reader or a build puts in.
OF_CRATE = r"(?:src|specs|proofs|wrong|must-fail|runs)/"
IN_BLOCK = re.compile(rf"(?<![\w/.*-])(?:(?:crates|docs|tools|c|python|rust|\.ci)/[\w/.*-]*|{OF_CRATE}[\w/.*-]+)")
READERS = re.compile(r"NAME|CRATE|PROGRAM|\.\.|/out\b")
# A name in a list of CONTRIBUTING.md, and what a reader puts in.
IN_LIST = re.compile(r"(?<![\w*])[A-Za-z]\w*_\w*[A-Za-z0-9](?![\w*])")
OF_READER = {"NAME", "CRATE", "PROGRAM", "WHAT_IS_WRONG"}
# A path under the short name of a crate; a file's name alone, and those of files of the kit.
SHORT = re.compile(rf"({'|'.join(page_limits.SHORT)})/([\w/.-]*)")
FILE = re.compile(r"\w[\w-]*\.(?:rt|antt|edit|py|sh|md|tls|notes|svg|tsv)")
FILES_OF_KIT = {"START-HERE.md", "SHORTER_PROOFS.md"}
# A function with its head, and the name of a trait or a struct.
FUNCTION = re.compile(r"\bfn (\w+)(.*?)(?:;\s|\{|\n\s*(?:requires|ensures|where)\b)", re.S)
DECLARED = re.compile(r"\bpub (?:trait|struct) (\w+)")
HEAD = re.compile(r"(?:pub )?(?:final )?(?:const |unsafe )*fn ")
CLAUSES = ("requires", "ensures")


def sources(*folders: str) -> dict[str, list[str]]:
    """Each text file in these folders, by its path, as lines without the space around them, and without `pub(super)`."""
    files = {}
    for path in files_of_clone():
        if path.parts[0] in folders:
            try:
                text = (TOP / path).read_text()
            except UnicodeDecodeError:
                continue
            files[path.as_posix()] = [line.strip().removeprefix("pub(super) ") for line in text.split("\n")]
    return files


def words_of(files: dict[str, list[str]]) -> set[str]:
    """The words of these files, and the parts of their paths."""
    words = {word for lines in files.values() for line in lines for word in re.findall(r"\w+", line)}
    return words | {part for path in files for part in re.split(r"[/.]", path)}


def clause_after(lines: list[str], at: int) -> int | None:
    """The place of the next clause, if a function's head goes on from this line to it."""
    for place in range(at, len(lines)):
        line = lines[place]
        if line.startswith(CLAUSES):
            return place
        if not line or line.startswith(("//", "{", "}")) or line.endswith((";", "{", "{}")) or HEAD.match(line):
            return None
    return None


def fault_of(quote: list[tuple[int, str]], lines: list[str]) -> tuple[int, str, str] | None:
    """The first line of a quote that isn't there in its turn, or is before a clause that it drops: its number, the fault, the line."""
    places: list[int] = []
    for number, line in quote:
        at = places[-1] + 1 if places else 0
        while at < len(lines) and lines[at] != line:
            at += 1
        if at == len(lines):
            return number, "not in", line
        places.append(at)
    for (number, _), place in zip(quote, places):
        clause = clause_after(lines, place + 1)
        if clause is not None and clause not in places:
            return number, "drops a clause of", lines[clause]
    return None


def anchors(path: pathlib.Path) -> set[str]:
    """The anchors of a page's headings, as the web pages of repositories make them."""
    found = set()
    for _, line in prose(path.read_text().split("\n")):
        if line.startswith("#"):
            title = line.lstrip("#").strip().lower()
            slug = re.sub(r"[^\w\- ]", "", title).replace(" ", "-")
            copy, n = slug, 0
            while copy in found:
                n += 1
                copy = f"{slug}-{n}"
            found.add(copy)
    return found


def check_quotes(lines: list[str], files: dict[str, list[str]]) -> Iterator[Fault]:
    """The blocks of a page that are no quotes of these files."""
    for words, kind, quote in blocks(lines):
        before = [line.strip() for line in words if line.strip()]
        if not quote or kind == "console" or (before and NOT_QUOTED.fullmatch(before[-1])):
            continue
        # the last paragraph, and before it the last heading
        start = next((n for n in range(len(before) - 1, -1, -1) if before[n].startswith("#")), None)
        tail = "\n".join(words).strip().split("\n\n")[-1]
        names = NAMED.findall(("" if start is None else before[start] + "\n") + tail)
        name = names[-1] if names else None
        heard = [path for path in files if name and path.endswith("/" + name)]
        if name and not heard:
            yield quote[0][0], f"no such file: {name}"
            continue
        faults = [fault_of(quote, files[path]) for path in heard or files]
        if all(faults):
            number, fault, line = max(faults)
            yield number, f"{fault} {name or 'one file under crates/'}: {line}"


def check_links(page: pathlib.Path, lines: list[str]) -> Iterator[Fault]:
    """The links of a page that lead nowhere."""
    for number, line in prose(lines):
        for link in LINK.findall(line):
            if re.match(r"[a-z]+:", link):
                continue
            path, _, anchor = link.partition("#")
            target = (page.parent / path).resolve() if path else page
            if not target.exists():
                yield number, f"no such file: {link}"
            elif anchor and anchor not in anchors(target):
                yield number, f"no such heading: {link}"


def in_full(name: str) -> str:
    """A path under the short name of a crate, from the top on. A name alone is one of specs/."""
    short, path = SHORT.fullmatch(name).groups()
    return f"crates/{page_limits.SHORT[short]}/{path if not path or '/' in path else f'specs/{path}.antt'}"


def check_names(lines: list[str], words: set[str], files: set[str]) -> Iterator[Fault]:
    """The paths and names in `code` of a page that the repository doesn't have: these words, and these names of files."""
    for number, line in prose(lines):
        for name in CODE.findall(line):
            if re.fullmatch(r"(?:crates|docs|tools|\.ci)/[\w/.-]+", name):
                if "/out/" not in name and not (TOP / name).exists():
                    yield number, f"no such file: {name}"
            elif SHORT.fullmatch(name):
                if not (TOP / in_full(name)).exists():
                    yield number, f"no such file: {in_full(name)}"
            elif FILE.fullmatch(name):
                if name not in files | FILES_OF_KIT:
                    yield number, f"no file has this name: {name}"
            elif re.fullmatch(r"[a-z]\w*_\w*[a-z0-9]", name) and name not in words | ELSEWHERE:
                yield number, f"no such name: {name}"


def is_there(path: str) -> bool:
    """Whether the repository has a path, or a reader puts in what it is."""
    return bool(READERS.search(path)) or any(TOP.glob(path.rstrip("./")))


def not_quoted(lines: list[str], kinds: tuple[str, ...] = ()) -> Iterator[list[tuple[int, str]]]:
    """The lines of each block that is no quote, of any kind or of these, by number."""
    for words, kind, quote in blocks(lines):
        if [line.strip() for line in words if line.strip()][-1:] == ["<!-- not quoted -->"] and (not kinds or kind in kinds):
            yield quote


def check_lists(lines: list[str], words: set[str]) -> Iterator[Fault]:
    """The names in blocks that are no quotes which aren't among these words."""
    for number, line in (it for block in not_quoted(lines) for it in block):
        for name in IN_LIST.findall(line):
            if name not in words and not OF_READER & {name, *name.split("_")}:
                yield number, f"no such name in the tree: {name}"


def heads_in(text: str) -> set[tuple[str, str]]:
    """The functions of a text, with their heads, without comments, lifetimes and layout."""
    found = set()
    for name, head in FUNCTION.findall(re.sub(r"//.*", "", text) + "\n"):
        head = "".join(re.sub(r"'\w+(?:: *'\w+)?,?|\b_(?=\w)", "", head).split()).replace("<>", "")
        found.add((name, re.sub(r",(?=[)>])", "", head)))
    return found


def check_declared(lines: list[str], library: str) -> Iterator[Fault]:
    """The functions, traits and structs in `rust` blocks that are no quotes which this text of the library doesn't have."""
    heads, names = heads_in(library), set(DECLARED.findall(library))
    for number, line in (it for block in not_quoted(lines, ("rust",)) for it in block):
        yield from ((number, f"no such function: {name}{head}") for name, head in heads_in(line) - heads)
        yield from ((number, f"no such type or trait: {name}") for name in DECLARED.findall(line) if name not in names)


def check_blocks(lines: list[str]) -> Iterator[Fault]:
    """The paths in blocks that are no quotes which the repository doesn't have."""
    for block in not_quoted(lines):
        # (as long as the block has named no crate, a reader puts it in)
        crate = "crates/NAME"
        for number, line in block:
            for path in IN_BLOCK.findall(line):
                if path.startswith("crates/"):
                    crate = "/".join(path.split("/")[:2])
                found = f"{crate}/{path}" if re.match(OF_CRATE, path) else path
                if not is_there(found):
                    yield number, f"no such file: {found}"


def check_merged(lines: list[str]) -> Iterator[Fault]:
    """The lines that a merge left."""
    for number, line in enumerate(lines, 1):
        if re.match(r"(<{7}|={7}|>{7})( |$)", line):
            yield number, "left by a merge"


def scripts_imported(modules: dict[str, str]) -> list[tuple[str, str]]:
    """The scripts of tools/ that these modules import, by the module's name."""
    scripts = "|".join(path.stem for path in (TOP / "tools").glob("*.py"))
    imported = re.compile(rf"^\s*(?:import|from) ({scripts})\b", re.M)
    return [(name, script) for name, text in modules.items() for script in imported.findall(text)]


def planted_arrows() -> dict[str, list[str]]:
    """What is found of the picture of all crates without one of its lines (the least), with an arrow turned, and with other uses."""
    p, wanted = pictures.crates(False), pictures.used()
    (_, above, _, below), pair = p.lines[0], min(wanted)
    turned = [(x1, above + below - y1, x2, above + below - y2) for x1, y1, x2, y2 in p.lines[:3]]
    fewer = [pictures.wrong_arrows(p.lines[:at] + p.lines[at + 1 :], p.boxes, wanted) for at in range(len(p.lines))]
    return {
        "a line of an arrow": min(fewer, key=len),
        "an arrow that is turned": pictures.wrong_arrows(turned + p.lines[3:], p.boxes, wanted),
        "an arrow for nothing": pictures.wrong_arrows(p.lines, p.boxes, wanted - {pair}),
        "a use without an arrow": pictures.wrong_arrows(p.lines, p.boxes, wanted | {pair[::-1]}),
    }


def selftest() -> list[str]:
    """The planted faults that aren't found, and what is found in lines that have none."""
    head, clause, other = "pub fn half(x: u8) -> u8", "requires even { x }", "ensures half { x }"
    files, page = {"crates/one/src/lib.rt": [head, clause, other, "{"]}, TOP / "README.md"

    def quote(*lines: str) -> Iterator[Fault]:
        return check_quotes(["From `src/lib.rt`:", "", "```rust", *lines, "```"], files)

    def block(*text: str) -> list[str]:
        return ["<!-- not quoted -->", "```text", *text, "```"]

    def in_block(*text: str) -> Iterator[Fault]:
        return check_blocks(block(*text))

    def declared(line: str) -> Iterator[Fault]:
        held = "fn held<\n    'a,\n    T,\n>(_alloc: Global, of: &'a T) -> Held<'a, T>\n{ }\npub struct Held<T>(T);"
        return check_declared(["<!-- not quoted -->", "```rust", line, "```"], f"{head}\n    {other}\n{{\n}}\n{held}")

    planted = {
        "another line": quote(head, "requires odd { x }", other),
        "a dropped clause": quote(head, clause, "{"),
        "no file of a quote": check_quotes(["`src/other.rt`", "```rust", head, "```"], files),
        "a dead link": check_links(page, ["[one](docs/NOWHERE.md)"]),
        "no heading": check_links(page, ["[one](#nowhere)"]),
        "no name": check_names(["`no_such_name`"], {"name"}, set()),
        "no path": check_names(["`tools/nowhere.py`"], set(), set()),
        "no path under a short name": check_names(["`wire/src/nowhere.rt`"], set(), set()),
        "no folder under a short name": check_names(["`base/src/nowhere/`"], set(), set()),
        "no file of specs": check_names(["`grammar/Nowhere`"], set(), set()),
        "no file of a name": check_names(["`nowhere.rt` in `base/src/`"], set(), {"lib.rt"}),
        "no path in a block": in_block("tools/nowhere.py"),
        "no such names in a block": in_block("tools/nowhere_*.py"),
        "no path of a crate in a block": in_block("crates/ct/src/, src/nowhere.rt"),
        "no name in a list": check_lists(block("one_name (no_such_name)"), {"one_name", "no_such"}),
        "no name of capitals in a list": check_lists(block("", "NO_NAMES in one_name.py"), {"one_name"}),
        "no function": declared("fn split(x: u8) -> u8;"),
        "a function with another head": declared("fn half(x: u16) -> u8;"),
        "a function with another result": declared("fn half(x: u8) -> u16;"),
        "a function without a parameter": declared("fn held<T>(of: &T) -> Held<'_, T>;"),
        "a function without a reference": declared("fn held<T>(alloc: Global, of: T) -> Held<'_, T>;"),
        "no trait": declared("pub trait Halves { fn half(x: u8) -> u8; }"),
        "no struct": declared("pub struct Other<T>(pub T);"),
        "a line of a merge": check_merged(["<<<<<<< HEAD"]),
        "a word of the dialect": dialect.words_in("It stands there."),
        "a script in a module": scripts_imported({"one.py": "import re\n    import dialect\n"}),
        "a name of a script": scripts_imported({"one.py": "from dialect import words_in\n"}),
        **planted_arrows(),
    }
    in_code = "`one_name` of `tools/check_pages.py`, `wire/src/lib.rt`, `wire/`, `base/src/lists/`, `grammar/Grammar`, `lib.rt`"
    names = check_names([in_code], {"one_name"}, {"lib.rt"})
    sound = [*quote(head, clause, other, "{"), *check_links(page, ["[one](docs/MAP.md)"]), *names]
    sound += in_block("src/one.rt", "tools/check_*, tools/.., crates/NAME/src/one.rt", "crates/ct/: src/lib.rt, runs/NAME; c/out")
    sound += check_lists(block("one_name.py, NAME_c, tls_PROGRAM, check_*, .._of", "wrong/WHAT_IS_WRONG.edit"), {"one_name"})
    sound += [*check_merged(["==="]), *dialect.words_in("It is there."), *scripts_imported({"one.py": "from lib.blocks import prose\n"})]
    sound += declared("fn held<T>(alloc: Global, of: &T) -> Held<'_, T>; // fn one()")
    sound += declared("pub struct Held<T>(pub T); fn half(x: u8) -> u8;")
    missed = [f"selftest: not found: {fault}" for fault, found in planted.items() if not list(found)]
    return missed + [f"selftest: found: {it}" for it in sound]


def of_pages(pages: list[pathlib.Path]) -> Iterator[tuple[str, list[str]]]:
    """The faults of each of these pages, as lines, by its path."""
    files = sources("crates", "c", "python", "rust")
    words, names = words_of(files), {path.name for path in files_of_clone()}
    library = "\n".join("\n".join(text) for path, text in files.items() if re.match(r"crates/tls_codec\w*/src/", path))
    for page in pages:
        lines, path = page.read_text().split("\n"), page.relative_to(TOP).as_posix()
        found = [*check_quotes(lines, files), *check_links(page, lines), *check_merged(lines)]
        if page.name != "CHANGELOG.md":
            found += [*check_names(lines, words, names), *check_blocks(lines)]
        if page.name == "CONTRIBUTING.md":
            found += check_lists(lines, words | words_of(sources("tools", ".ci")))
        if page.name == "API.md":
            found += check_declared(lines, library)
        found += ((number, f"{word!r}: {better}") for number, word, better in dialect.findings(page))
        yield path, [f"{path}:{number}: {text}" for number, text in sorted(found)]


def of_sources(paths: list[pathlib.Path]) -> list[str]:
    """The words of the dialect in the comments of these sources, as lines."""
    found = [(path.relative_to(TOP), *it) for path in paths for it in dialect.findings(path)]
    return [f"{path}:{number}: {word!r}: {better}" for path, number, word, better in found]


def of_picture(name: str) -> list[str]:
    """How a picture differs from what is drawn today, and that of all crates from what they use."""
    drawn = pictures.PICTURES[name](False)
    found = [] if (TOP / "docs" / name).read_text() == drawn.svg() else ["not as tools/pictures.py draws it"]
    if name == "crates.svg":
        found += pictures.wrong_arrows(drawn.lines, drawn.boxes, pictures.used())
    return [f"docs/{name}: {text}" for text in found]


def main() -> int:
    pages, commented = [*PAGES, *CALLER_PAGES], dialect.files(dialect.SOURCES)
    modules = {path.relative_to(TOP).as_posix(): path.read_text() for path in (TOP / "tools" / "lib").rglob("*.py")}
    found = {
        "selftest": selftest(),
        **dict(of_pages(pages)),
        "comments": of_sources(commented),
        "imports": [f"{name}: imports the script {script}" for name, script in scripts_imported(modules)],
        "page_limits": page_limits.findings()[0],
        **{name: of_picture(name) for name in pictures.PICTURES},
    }
    print("".join(f"{line}\n" for lines in found.values() for line in lines), end="")
    failed = sum(map(bool, found.values()))
    compared = f"{len(pages)} pages and {len(pictures.PICTURES)} pictures were compared with the crates"
    print(f"{compared}, and the words of {len(commented)} sources read")
    print(f"{len(found) - failed} passed, {failed} failed")
    return 1 if failed else 0


if __name__ == "__main__":
    sys.exit(ended(main))
