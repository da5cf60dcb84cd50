"""The modules of a crate of laws: a law for each type, and the answers to what the tactics leave open."""
from __future__ import annotations

from lib.laws.definitions import quoted
from lib.laws.pages import Files, pruned
from lib.laws.says import Reading
from lib.laws.written import Written

# How many types one module has.
MAX_TYPES = 32


def clause(name: str, *words: str) -> str:
    """A clause of a contract, on as few lines of 100 columns as its words allow."""
    lines = [f"    ensures {name} {{"]
    for word in [*words[:-1], f"{words[-1]} }}"]:
        if len(lines[-1]) + 1 + len(word) <= 100:
            lines[-1] += f" {word}"
        else:
            lines.append(f"        {word}")
    return "\n".join(lines) + "\n"


def split(types: list[Written]) -> dict[str, list[Written]]:
    """The modules with their types: one, or two where there are many types, by the first letters of their names."""
    half = len(types) // 2
    while 0 < half < len(types) and types[half].name[0] == types[half - 1].name[0]:
        half += 1
    parts = [types[:half], types[half:]] if len(types) > MAX_TYPES else [types]
    if len(parts) == 1:
        return {"laws": types}
    return {f"laws_{part[0].name[0]}_to_{part[-1].name[0]}".lower(): part for part in parts}


def root(reading: Reading, modules: list[str]) -> str:
    """The root of the crate, with the law on the text."""
    return f"""//! That the messages of `{reading.crate}` are those of their text, `{reading.text_name}.tls`.
//!
//! Read its lines in `specs/Text.antt`, and in `specs/Says.antt` which field has which name.
//! Nothing here does anything when it runs.
#![tactic(auto)]
ghost use Rattle.std.specs.Prelude.{{◌≡◌}};
ghost use Rattle.tls_presentation.specs.Cut.{{signs}};
ghost use Rattle.tls_presentation.specs.Printed.{{print, print_notes}};
ghost use Rattle.{reading.laws}.specs.Definitions.{{definitions, notes}};
ghost use Rattle.{reading.laws}.specs.Notes.{{notes_text}};
ghost use Rattle.{reading.laws}.specs.Text.{{text}};

{"".join(f"pub mod {module};" + chr(10) for module in modules)}
/// The definitions and the notes are those of the text.
pub fn text_is_printed()
    ensures definitions {{ print definitions ≡ signs text }}
    ensures notes {{ print_notes notes ≡ signs notes_text }}
{{}}
"""


def ghosts(reading: Reading, types: list[Written]) -> str:
    """The imports of a module's laws."""
    out = f"""ghost use Rattle.tls_codec_grammar.specs.Tree.{{Tree}};
ghost use Rattle.tls_presentation.specs.Meaning.{{SameBytes, means, part_means}};
ghost use Rattle.tls_presentation.specs.Says.{{SpelledAs}};
ghost use Rattle.{reading.laws}.specs.Definitions.{{{reading.crate}}};
ghost use Rattle.{reading.laws}.specs.Says.{{{', '.join(one.name + 'Says' for one in types)}}};
"""
    named = [one for one in types if reading.is_named_values(one)]
    registries = [one for one in types if one.is_registry]
    out += "".join(f"ghost use Rattle.{one.crate}.specs.declared.{one.module}.{one.name}.{{{one.name}}};\n" for one in types)
    out += "".join(f"ghost use Rattle.{one.crate}.specs.{one.name}.{{{one.word}_code, {one.word}_name}};\n" for one in named)
    out += "".join(f"ghost use Rattle.{one.crate}.specs.{one.name}.{{{one.word}_names}};\n" for one in registries)
    words = (["names_in"] if registries else []) + (["value_number"] if named else [])
    if words:
        out += f"ghost use Rattle.std.specs.Prelude.{{◌≡◌}};\nghost use Rattle.tls_presentation.specs.Says.{{{', '.join(words)}}};\n"
    return out


def module(reading: Reading, types: list[Written]) -> str:
    """A module with the laws of these types."""
    contexts = {one.context for one in types if one.context and one.context[0].isupper()}
    rust = sorted({one.name for one in types} | contexts)
    sizes = sorted({"SizeFor" if one.context else "Size" for one in types})
    out = f"//! Each type of `{reading.crate}` has the bytes that its text means.\n"
    out += "//! Each value's bytes are those of its parts, by their names.\n"
    out += f"{ghosts(reading, types)}\nuse {reading.crate}::{{{', '.join(rust)}}};\nuse tls_codec::{{{', '.join(sizes)}}};\n"
    return out + "".join(law(reading, one) for one in types)


def law(reading: Reading, one: Written) -> str:
    """The law of a type."""
    size = f"⟦<{one.rust} as SizeFor<{one.context}>>⟧" if one.is_in_context else f"⟦<{one.rust} as Size>⟧"
    format = f"({size}.format_for c)" if one.is_in_context else f"{size}.format"
    c, context = ("c ", "(c : Tree) ") if one.is_in_context else ("", "")
    clauses = [
        clause("bytes", "(c : Tree) →", f"SameBytes ({reading.means(one)})", format),
        clause("values", f"{context}(v : {one.name}) →", f"SpelledAs {format}", f"({size}.plain v)", f"({one.name}Says {c}v)"),
        *names_clauses(reading, one),
    ]
    return f"\n/// `{one.name}`.\npub fn {one.word}_is_as_printed()\n{''.join(clauses)}{{}}\n"


def names_clauses(reading: Reading, one: Written) -> list[str]:
    """That names are the text's: those of a registry's numbers, or of an enum's values."""
    name = quoted(reading.definition(one) or "")
    if reading.is_named_values(one):
        words = f"value_number {reading.crate} {name}", f"({one.word}_name v)", f"≡ {one.word}_code v"
        return [clause("names", f"(v : {one.name}) →", *words)]
    if one.is_registry:
        return [clause("names", f"{one.word}_names ≡", f"names_in {reading.crate} {name}")]
    return []


def answer(reading: Reading, module_name: str, one: Written) -> Files:
    """The answers to the goals of a type's law."""
    fn = f"{one.word}_is_as_printed"
    names = ""
    if reading.is_named_values(one):
        names = f"\npub returns-clause-names : goal.returns-clause-names\nreturns-clause-names c = {one.word}_naming\n"
    elif one.is_registry:
        names = "\npub returns-clause-names : goal.returns-clause-names\nreturns-clause-names c = refl\n"
    text = f"""use Rattle.std.proofs.Common.{{refl}}
use Rattle.tls_presentation.specs.Meaning.{{same_bytes}}
use Rattle.{one.crate}.specs.{one.name}.{{{one.format}}}
use Rattle.{reading.laws}.proofs.Sayings.{{{one.word}_saying, {one.word}_naming}}
use Rattle.{reading.laws}.proofs.{module_name}.{fn}.Goals as goal

pub returns-clause-bytes : goal.returns-clause-bytes
returns-clause-bytes c = λ u. same_bytes {f"({one.format} u)" if one.is_in_context else one.format}

pub returns-clause-values : goal.returns-clause-values
returns-clause-values c = {one.word}_saying
{names}"""
    return {f"proofs/{module_name}/{fn}/Answers.antt": pruned(text)}


def modules(reading: Reading) -> Files:
    """All modules, with the answers for their laws."""
    parts = split(reading.types)
    files = {"src/lib.rt": root(reading, list(parts))}
    for name, types in parts.items():
        files[f"src/{name}.rt"] = module(reading, types)
        for one in types:
            files |= answer(reading, name, one)
    return files
