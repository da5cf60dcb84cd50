"""A text's definitions and notes, as tls_presentation reads them, written as terms of its `Definition`."""
from __future__ import annotations

from lib.presentation import Field, Label, Part


def quoted(text: str) -> str:
    """A text in quotes."""
    return '"' + text.replace("\\", "\\\\").replace('"', '\\"') + '"'


def codes(text: str) -> str:
    """The codes of a text, as an argument."""
    return f"(codes {quoted(text)})"


def listed(texts: list[str], between: str = " ∷ ") -> str:
    """A list of terms, as an argument."""
    return "(" + between.join([*texts, "[]"]) + ")" if texts else "[]"


def label_text(label: Label) -> str:
    """A value's name or number, as an argument."""
    return f"(Numeral {label})" if isinstance(label, int) else f"(word {quoted(label)})"


def vector_text(vector: Part) -> str:
    """How often a field's type comes, as an argument."""
    match vector[0]:
        case "one":
            return "One"
        case "variable":
            return "Variable"
        case "array":
            return f"(Array {vector[1]})"
        case "counted":
            return f"(counted {quoted(vector[1])})"
        case "bounded":
            return f"(Bounded {vector[1]} {vector[2]})"
    raise SystemExit(f"no vector: {vector}")


def field_text(field: Field) -> str:
    """A field."""
    of, name, vector = quoted(field["of"]), quoted(field["name"]), vector_text(field["vector"])
    if not field["constant"]:
        return f"{'optional' if field['optional'] else 'field'} {of} {name} {vector}"
    kind, value = field["constant"]
    text = f"(Is {label_text(value)})" if kind == "is" else f"(Bytes {value[0]} {listed([str(n) for n in value[1:]])})"
    return f"constant {of} {name} {vector} {text}"


def case_field_text(field: Field) -> str:
    """A field of a case, which may have no name."""
    if field["name"] is None:
        return f"is_a {quoted(field['of'])}"
    text = field_text(field)
    return text.replace("field", "has", 1) if text.startswith("field ") else f"Has ({text})"


def value_text(value: Part) -> str:
    """A value of an enum, a range of them, or its width."""
    label = value[0]
    if label is None:
        return f"Width {value[1]}"
    if len(value) == 3:
        return f"Range {label_text(label)} {value[1]} {value[2]}"
    return f"Named {label_text(label)} {value[1]}" if isinstance(label, int) else f"value {quoted(label)} {value[1]}"


def values_text(values: list[Part]) -> str:
    """The values of an enum."""
    texts = [value_text(value) for value in values]
    return listed(texts, " ∷\n    " if len(texts) > 5 else " ∷ ")


def case_text(case: tuple[list[Label], list[Field]]) -> str:
    """A case of a select, with its labels and fields."""
    labels, fields = case
    inside = listed([case_field_text(field) for field in fields])
    if len(labels) == 1 and isinstance(labels[0], str):
        return f"case {quoted(labels[0])} {inside}"
    return f"cases_of {label_text(labels[0])} {listed([label_text(label) for label in labels[1:]])} {inside}"


def item_text(item: Part) -> str:
    """A field or a select of a struct."""
    kind, one = item
    if kind == "field":
        return f"Plain ({field_text(one)})"
    ending = {"bare": "Bare", "ended": "Ended"}.get(one["ending"][0]) or f"(called {quoted(one['ending'][1])})"
    cases = listed([case_text(case) for case in one["cases"]], " ∷\n        ")
    return f"select {quoted(one['path'])}\n        {cases}\n        {ending}"


def items_text(items: list[Part], between: str) -> str:
    """Fields and selects in a row."""
    return listed([item_text(item) for item in items], between)


def part_text(part: Part) -> str:
    """A part of a struct: also a struct or an enum in it, and what it signs."""
    match part[0]:
        case "enum":
            return f"EnumHere {values_text(part[1])} {codes(part[2])}"
        case "struct":
            return f"StructHere {items_text(part[1], ' ∷ ')} {codes(part[2])}"
        case "signed":
            name = f"(Some {codes(part[2])})" if part[2] else "None"
            return f"Signed\n        {items_text(part[1], ' ∷' + chr(10) + '        ')}\n        {name}"
    return f"Own ({item_text(part)})"


def definition_text(one: Part) -> str:
    """A definition of the text."""
    between = " ∷\n    "
    if one[0] == "alias":
        return f"Alias ({field_text(one[1])})"
    if one[0] == "enum":
        return f"{'Enum true' if one[1] else 'enum'}\n    {values_text(one[2])}\n    " + (codes(one[3]) if one[1] else quoted(one[3]))
    if one[0] == "signed_struct":
        return f"SignedStruct\n    {items_text(one[1], between)}\n    {codes(one[2])}"
    parts = one[2]
    if one[1]:
        return f"Struct true\n    {listed([part_text(part) for part in parts], between)}\n    {codes(one[3])}"
    if all(part[0] in ("field", "select") for part in parts):
        return f"struct\n    {items_text(parts, between)}\n    {quoted(one[3])}"
    return f"struct_of\n    {listed([part_text(part) for part in parts], between)}\n    {quoted(one[3])}"


def note_text(note: Part) -> str:
    """A note of what the RFC says in prose."""
    if note[0] == "Equals":
        return f"Equals {codes(note[1])} {label_text(note[2])}"
    return f"{note[0]} {codes(note[1])}" + (f" {codes(note[2])}" if len(note) == 3 else "")
