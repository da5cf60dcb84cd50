"""Which parts a struct of a text has as a type of its crate: their names, and of a tag its cases."""
from __future__ import annotations

from typing import Any

from lib.presentation import Field, Label, Part, field_name, plain

# Each label of a tag, with the fields of its case.
Cases = list[tuple[Label, list[Field]]]


def spread(definitions: list[Part]) -> list[tuple[str, list[Part]]]:
    """The structs of a text by their names, also those within others and what is signed, with their fields and selects."""
    out: list[tuple[str, list[Part]]] = []
    for one in definitions:
        if one[0] == "signed_struct":
            out.append((one[2], one[1]))
        elif one[0] == "struct":
            items: list[Part] = []
            for part in one[2]:
                if part[0] == "signed":
                    out.append((one[3] + "TBS", part[1]))
                    items.append(("field", plain("DigitallySigned", part[2] or "signature")))
                elif part[0] in ("enum", "struct"):
                    if part[0] == "struct":
                        out.append((f"{one[3]}.{part[2]}", part[1]))
                    items.append(("field", plain(f"{one[3]}.{part[2]}", part[2])))
                else:
                    items.append(part)
            out.append((one[3], items))
    return out


def is_on(tag: Field, select: Field) -> bool:
    """Whether a select is on this tag."""
    return select["path"].split(".")[-1] in (field_name(tag), tag["of"])


def is_count(field: Field, after: list[Part]) -> bool:
    """Whether a field counts the elements of the next one."""
    if not after or after[0][0] != "field":
        return False
    vector = after[0][1]["vector"]
    return vector[0] == "counted" and vector[1].split(".")[-1] == field_name(field)


class Shape:
    """The parts of a struct: (name, kind, data), where kind is `field`, `constant`, `tag` or `outer`."""

    def __init__(self, name: str, items: list[Part], notes: list[Part]) -> None:
        self.name, self.items, self.notes = name, items, notes
        self.parts: list[tuple[str, str, Any]] = []
        at = 0
        while at < len(items):
            kind, one = items[at]
            at += 1
            if kind == "select":
                self.outer(one)
            else:
                at += self.field(one, items[at:])

    def field(self, one: Field, after: list[Part]) -> int:
        """Adds a field and what depends on it; how many of the items after it are those."""
        count = max([i + 1 for i, (kind, it) in enumerate(after) if kind == "select" and is_on(one, it)], default=0)
        if count:
            self.tag(one, after[:count])
        elif is_count(one, after):
            self.parts.append((field_name(after[0][1]), "field", after[0][1]))
            return 1
        elif not self.noted("FillsRest", one) and not self.noted("FillsZeros", one):
            self.parts.append((field_name(one), "constant" if one["constant"] else "field", one))
        return count

    def noted(self, kind: str, field: Field) -> bool:
        """Whether a field has a note of this kind."""
        return any(note[0] == kind and note[1] == f"{self.name}.{field_name(field)}" for note in self.notes)

    def noted_name(self, tag: str) -> str:
        """The name that a note gives to what a tag chooses, or the tag's."""
        names = [note[2] for note in self.notes if note[0] == "IsCalled" and note[1] == f"{self.name}.{tag}" and note[2][0].islower()]
        return names[0] if names else tag

    def tag(self, tag: Field, items: list[Part]) -> None:
        """Adds a tag with its cases; if it has one case, the case's fields."""
        first = next(one for kind, one in items if kind == "select")
        labels = [label for labels, _ in first["cases"] for label in labels]
        name = self.noted_name(field_name(tag))
        for kind, one in reversed(items):
            if kind == "select" and one["ending"][0] == "called" and one["ending"][1][0].islower():
                name = one["ending"][1]
        cases = [(label, self.fields_for(label, items)) for label in labels]
        if len(labels) == 1:
            self.parts.append((field_name(tag), "constant", tag))
            self.parts += [(field_name(field), "field", field) for field in cases[0][1]]
        else:
            self.parts.append((name, "tag", (field_name(tag), cases)))

    def fields_for(self, label: Label, items: list[Part]) -> list[Field]:
        """The fields that come after a tag of this value."""
        out: list[Field] = []
        for kind, one in items:
            if kind == "select":
                out += next((fields for labels, fields in one["cases"] if label in labels), [])
            elif not self.noted("CountsRest", one):
                out.append(one)
        return out

    def outer(self, select: Field) -> None:
        """Adds a select on a tag that is elsewhere."""
        last = select["path"].split(".")[-1]
        note = next((note for note in self.notes if note[0] == "Equals" and note[1] == f"{self.name}.{last}"), None)
        if note:
            fields = next(fields for labels, fields in select["cases"] if note[2] in labels)
            self.parts += [(field_name(field), "field", field) for field in fields]
            return
        full = [case for case in select["cases"] if case[1]]
        if len(select["cases"]) > 1 and len(full) == 1 and len(full[0][1]) == 1:
            self.parts.append((field_name(full[0][1][0]), "field", full[0][1][0]))
            return
        is_called = select["ending"][0] == "called" and select["ending"][1][0].islower()
        name = select["ending"][1] if is_called else self.noted_name(last)
        cases: Cases = [(label, fields) for labels, fields in select["cases"] for label in labels]
        self.parts.append((name, "outer", (select["path"], cases)))
