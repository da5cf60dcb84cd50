"""The pages of a crate of laws: the text and its notes, the definitions, what values say, and why."""
from __future__ import annotations

import re

from lib.laws.definitions import definition_text, note_text, quoted
from lib.laws.says import Reading
from lib.laws.written import Written
from lib.presentation import name_of

# How many lines of a text, or of definitions, one page has.
LONGEST = 370

DEFINITION_WORDS = (
    *("Numeral", "One", "Array", "Variable", "Bounded", "Is", "Bytes", "Named", "Range", "Width", "Bare", "Ended", "Plain", "Own"),
    *("EnumHere", "StructHere", "Signed", "Definition", "Enum", "Struct", "SignedStruct", "Alias", "Note", "CountsRest", "FillsRest"),
    *("FillsZeros", "Ends", "Equals", "IsClosed", "IsOpen", "IsBorrowed", "IsCalled", "LeftOut", "Has", "field", "optional"),
    *("has", "is_a", "constant", "word", "counted", "value", "case", "cases_of", "select", "called", "enum", "struct", "struct_of"),
)
DEFINITION_USES = f"""use Rattle.std.specs.Prelude.{{List, [], ◌∷◌, Bool, true, Option, Some, None, codes}}
use Rattle.tls_presentation.specs.Definition.{{{", ".join(DEFINITION_WORDS)}}}
"""
USE = re.compile(r"(use [\w.]+)\.\{(.*)\}$")

# The files of a crate of laws, by their paths in it.
Files = dict[str, str]


def pruned(text: str) -> str:
    """A page without imports that it doesn't use."""
    lines = text.split("\n")
    body = "\n".join(line for line in lines if not line.startswith("use "))
    words = set(re.findall(r"[\w-]+|\[\]|[^\s\w]", re.sub(r'"[^"]*"', "", body)))
    out = []
    for line in lines:
        found = USE.match(line)
        if found:
            used = words | {"++"} if "++" in body else words
            names = [name for name in found[2].split(", ") if name.split(" as ")[-1].strip("◌") in used]
            if not names:
                continue
            line = f"{found[1]}.{{{', '.join(names)}}}"
        out.append(line)
    return "\n".join(out)


def lines_page(reading: Reading, page: str, word: str, lines: list[str], says: str, after: str = "") -> Files:
    """A page with lines of a text, before those of another page, if one is named."""
    body = "".join(f"    {quoted(line)} ∷\n" for line in lines)
    uses = f"use Rattle.{reading.laws}.specs.{page}Behind.{{{after}}}\n" if after else ""
    append, end = (", ◌++◌", f" ++ {after}") if after else ("", "")
    text = f"""-- {says}
use Rattle.std.specs.Prelude.{{ℕ, List, [], ◌∷◌{append}}}
use Rattle.tls_presentation.specs.Cut.{{lines}}
{uses}
abbrev pub {word} : List ℕ
{word} = lines (
{body}    []){end}
"""
    return {f"specs/{page}.antt": text}


def text_page(reading: Reading, page: str, word: str, lines: list[str], says: str) -> Files:
    """A page with the lines of a text, or two where that would be long."""
    half = len(lines) // 2
    if len(lines) <= LONGEST:
        return lines_page(reading, page, word, lines, says)
    rest = lines_page(reading, f"{page}Behind", f"{word}_behind", lines[half:], f"{says[:-1]}, from line {half + 1}.")
    return rest | lines_page(reading, page, word, lines[:half], says, f"{word}_behind")


def word_of(name: str) -> str:
    """The word of a definition."""
    word = re.sub(r"([a-z0-9])([A-Z])", r"\1_\2", name.replace(".", "_"))
    return re.sub(r"([A-Z]+)([A-Z][a-z])", r"\1_\2", word).lower() + "_definition"


def definitions_page(reading: Reading) -> Files:
    """The definitions, the notes, and the text that they are; the first definitions on a page of their own where there are many lines."""
    texts = []
    for one in reading.definitions:
        word = word_of(name_of(one))
        texts.append((word, f"\nabbrev pub {word} : Definition\n{word} = {definition_text(one)}\n"))
    many = sum(text.count("\n") for _, text in texts) > LONGEST
    first, others = (texts[: len(texts) // 2], texts[len(texts) // 2 :]) if many else ([], texts)
    files: Files = {}
    out = f"-- What {reading.text_name}.tls says: the definitions, the notes, and the text that they are.\n" + DEFINITION_USES
    out += "use Rattle.tls_presentation.specs.Meaning.{Text, text_of, text_over}\n"
    if first:
        head = f"-- The first definitions of {reading.text_name}.tls.\n"
        files["specs/FirstDefinitions.antt"] = head + DEFINITION_USES + "".join(text for _, text in first)
        out += f"use Rattle.{reading.laws}.specs.FirstDefinitions.{{{', '.join(word for word, _ in first)}}}\n"
    if reading.over:
        out += f"use Rattle.{reading.over[-1]}_laws.specs.Definitions.{{{reading.over[-1]}}}\n"
    out += "".join(text for _, text in others) + text_of_definitions(reading, [word for word, _ in texts])
    return files | {"specs/Definitions.antt": out}


def text_of_definitions(reading: Reading, names: list[str]) -> str:
    """The lists of definitions and of notes, and the text that they are."""
    rows = [" ∷ ".join(names[at : at + 4]) for at in range(0, len(names), 4)]
    out = "\nabbrev pub definitions : List Definition\ndefinitions =\n    " + " ∷\n    ".join([*rows, "[]"]) + "\n"
    notes = [note_text(note) for note in reading.notes]
    out += "\nabbrev pub notes : List Note\nnotes =" + ("\n    " if notes else " ") + " ∷\n    ".join([*notes, "[]"]) + "\n"
    text = f"text_over {reading.over[-1]}.names notes definitions" if reading.over else "text_of notes definitions"
    return out + f"\nabbrev pub {reading.crate} : Text\n{reading.crate} = {text}\n"


def common(reading: Reading) -> str:
    """The imports that both pages on values have."""
    return f"""use Rattle.std.specs.Prelude.{{ℕ, List, [], ◌∷◌}}
use Rattle.tls_codec_grammar.specs.Tree.{{Tree, Number, Empty, trees, number_trees, option_plain}}
use Rattle.tls_codec_grammar.specs.Grammar.{{Direction}}
use Rattle.tls_presentation.specs.Definition.{{Numeral, word}}
use Rattle.{reading.laws}.specs.Definitions.{{{reading.crate}}}
"""


def imports(types: list[Written]) -> dict[str, set[str]]:
    """The words that plain trees need, by their pages."""
    found: dict[str, set[str]] = {}
    for line in [line for one in types for line in one.uses()]:
        match = re.match(r"use (Rattle\.[\w.]+)\.\{(.*)\}", line)
        if not match or "declared" in match[1]:
            continue
        for word in match[2].split(", "):
            if word.endswith(("_plain", "_of", "trees", "bytes")) or word in ("Number", "Empty", "Join"):
                found.setdefault(match[1], set()).add(word)
    return found


def types_used(types: list[Written], has_formats: bool = False) -> str:
    """The imports of the types, of their variants and of what their plain trees need."""
    used = imports(types)
    for one in types:
        words = used.setdefault(f"Rattle.{one.crate}.specs.{one.name}", set())
        if has_formats:
            words |= {f"{one.word}_plain", one.format, f"{one.word}_name", f"{one.word}_code"}
    modules = [it for it in sorted(used) if used[it] and not it.startswith("Rattle.tls_codec.specs.OwnMessages")]
    out = "".join(f"use {it}.{{{', '.join(sorted(used[it]))}}}\n" for it in modules)
    out += "".join(f"use Rattle.{one.crate}.specs.declared.{one.module}.{one.name}.{{{one.name}}}\n" for one in types)
    for one in types:
        words = [f"{word} as {one.name}{word}" for word in one.names_of_variants()]
        if words:
            out += f"use Rattle.{one.crate}.specs.declared.{one.module}.{one.name}.TheVariants.{{{', '.join(words)}}}\n"
    return out


def says_page(reading: Reading) -> Files:
    """What each type's values say."""
    body = ""
    for one in reading.types:
        context, c = ("Tree → ", "c ") if one.is_in_context else ("", "")
        body += f"\nabbrev pub {one.name}Says : {context}{one.name} → Direction → List ℕ → Type 0\n"
        body += "".join(f"{one.name}Says {c}{one.qualified(head)} = {text}\n" for head, text, _ in reading.says(one))
    out = "-- What each type's values say: their parts by the names in the text.\n" + common(reading)
    out += "use Rattle.tls_presentation.specs.Says.{called, says, value_says, constant_says, number_says, case_says, choice_says}\n"
    return {"specs/Says.antt": out + types_used(reading.types) + body}


def saying(reading: Reading, one: Written) -> str:
    """Why each value of a type says so, and why its name has its number."""
    context, c = ("(c : Tree) ", "c ") if one.is_in_context else ("", "")
    format = f"({one.format} c)" if one.is_in_context else one.format
    head = f"{context}(v : {one.name}) (d : Direction) (b : List ℕ)"
    out = f"\npub {one.word}_saying : {head} → {format}.spells d b ({one.word}_plain v) ↔ {one.name}Says {c}v d b\n"
    out += "".join(f"{one.word}_saying {c}{one.qualified(left)} d b = {proof}\n" for left, _, proof in reading.says(one))
    if reading.is_named_values(one):
        name = quoted(reading.definition(one))
        named = f"value_number {reading.crate} {name} ({one.word}_name v)"
        out += f"\npub {one.word}_naming : (v : {one.name}) → {named} ≡ {one.word}_code v\n"
        out += "".join(f"{one.word}_naming {one.qualified(left)} = refl\n" for left, _, _ in reading.says(one))
    return out


def sayings_page(reading: Reading) -> Files:
    """Why each value says so."""
    proofs = "{struct_saying, borrowed_saying, number_saying, case_saying, choice_saying}"
    out = "-- Why each value says so.\n" + common(reading)
    out += "use Rattle.std.proofs.Common.{◌≡◌, refl}\nuse Rattle.tls_presentation.specs.Says.{value_number}\n"
    out += "use Rattle.std.specs.Prelude.{◌↔◌}\nuse Rattle.tls_presentation.specs.Says.{called}\n"
    out += f"use Rattle.tls_presentation.proofs.Flat.{{same_iff}}\nuse Rattle.tls_presentation.proofs.Saying.{proofs}\n"
    out += types_used(reading.types, True)
    out += f"use Rattle.{reading.laws}.specs.Says.{{{', '.join(one.name + 'Says' for one in reading.types)}}}\n"
    return {"proofs/Sayings.antt": out + "".join(saying(reading, one) for one in reading.types)}


def pages(reading: Reading) -> Files:
    """All pages of specs/, and that of the proofs that the answers cite."""
    of_text = text_page(reading, "Text", "text", reading.lines, f"The text, line by line: {reading.text_name}.tls.")
    says = f"What the RFC says of the text in prose, line by line: {reading.text_name}.notes."
    of_notes = text_page(reading, "Notes", "notes_text", reading.note_lines, says)
    files = of_text | of_notes | definitions_page(reading) | says_page(reading)
    names = sorted(re.search(r"(\w+)\.antt", path)[1] for path in files)
    files |= sayings_page(reading) | {"specs/Lib.antt": "".join(f"pub mod {it}\n" for it in names), "proofs/Lib.antt": "pub mod Sayings\n"}
    return {path: pruned(text) for path, text in files.items()}
