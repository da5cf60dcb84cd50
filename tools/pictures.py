#!/usr/bin/env python3
"""Draws the pictures of the pages: `tools/pictures.py` writes message.svg, limits.svg, crates.svg and tlsdump.svg into docs/.

The arrows of crates.svg are drawn by hand. wrong_arrows, for check_pages.py, compares them, as they are drawn, with crates.txt.

Each colour is an attribute for light pages, and a style for dark ones. `tools/pictures.py FOLDER dark` writes the dark
pictures with attributes alone, for a look at them by a program that knows no styles.
"""
from __future__ import annotations

import argparse
import html
import pathlib
import textwrap

from lib.arrows import Box, Line, arrows
from lib.libraries import TOP, Libraries
from lib.rejections import REJECTIONS

WIDTH = 720
MONO = "ui-monospace, Menlo, Consolas, 'DejaVu Sans Mono', monospace"
SANS = "system-ui, 'Segoe UI', Helvetica, 'DejaVu Sans', sans-serif"
# each role: its fill or stroke on a light page and on a dark one
COLOURS = {
    "paper": ("#ffffff", "#0d1117"),
    "ink": ("#1f2328", "#e6edf3"),
    "soft": ("#59636e", "#9198a1"),
    "line": ("#818b98", "#656c76"),
    "plain": ("#f6f8fa", "#161b22"),
    "length": ("#b6d7ff", "#0c4a8f"),
    "tag": ("#ffe08a", "#6e4b00"),
    "end": ("#cf222e", "#ff7b72"),
    "lib": ("#dbeafe", "#12325a"),
}


class Picture:
    """The parts of a picture, in the order in which they are drawn."""

    def __init__(self, height: int, title: str, dark: bool = False) -> None:
        self.height, self.title, self.dark = height, title, dark
        self.parts: list[str] = []
        # the lines that aren't dashed, and boxes with names
        self.lines: list[Line] = []
        self.boxes: dict[str, Box] = {}

    def colour(self, role: str) -> str:
        """The colour of a role."""
        return COLOURS[role][1 if self.dark else 0]

    def text(
        self,
        x: float,
        y: float,
        words: str,
        size: float = 13,
        role: str = "ink",
        anchor: str = "middle",
        font: str = SANS,
        bold: bool = False,
    ) -> None:
        """Words at a place, which is their middle, start or end."""
        weight = ' font-weight="600"' if bold else ""
        self.parts.append(
            f'<text class="f-{role}" x="{x}" y="{y}" font-family="{font}" font-size="{size}"{weight}'
            f' text-anchor="{anchor}" fill="{self.colour(role)}">{html.escape(words)}</text>'
        )

    def box(self, x: float, y: float, width: float, height: float, role: str = "plain", radius: int = 3) -> None:
        """A box with round corners."""
        self.parts.append(
            f'<rect class="f-{role} s-line" x="{x}" y="{y}" width="{width}" height="{height}" rx="{radius}"'
            f' fill="{self.colour(role)}" stroke="{self.colour("line")}"/>'
        )

    def line(self, x1: float, y1: float, x2: float, y2: float, role: str = "line", width: float = 1.5, dashed: bool = False) -> None:
        """A line from one place to another."""
        dash = ' stroke-dasharray="5 4"' if dashed else ""
        self.lines += [] if dashed else [(x1, y1, x2, y2)]
        self.parts.append(
            f'<line class="s-{role}" x1="{x1}" y1="{y1}" x2="{x2}" y2="{y2}" stroke="{self.colour(role)}"'
            f' stroke-width="{width}"{dash}/>'
        )

    def bracket(self, x1: float, x2: float, y: float, tick: float, role: str = "line") -> None:
        """A line from x1 to x2 with ends that point by `tick`."""
        self.line(x1, y, x2, y, role)
        self.line(x1, y, x1, y + tick, role)
        self.line(x2, y, x2, y + tick, role)

    def svg(self) -> str:
        """The picture's file."""
        style = " ".join(
            f".f-{role} {{ fill: {dark} }} .s-{role} {{ stroke: {dark} }}" for role, (_, dark) in COLOURS.items()
        )
        style = "" if self.dark else f"<style>@media (prefers-color-scheme: dark) {{ {style} }}</style>\n"
        paper = f'<rect class="f-paper" width="{WIDTH}" height="{self.height}" fill="{self.colour("paper")}"/>'
        return (
            f'<svg xmlns="http://www.w3.org/2000/svg" viewBox="0 0 {WIDTH} {self.height}" width="{WIDTH}"'
            f' height="{self.height}" role="img">\n<title>{html.escape(self.title)}</title>\n{style}{paper}\n'
            + "\n".join(self.parts)
            + "\n</svg>\n"
        )


def message(dark: bool) -> Picture:
    """The worked `Log` of tls_codec_vectors, byte by byte."""
    p = Picture(272, "The bytes of a message, with its lengths", dark)
    cell, left, top = 48, 24, 96
    roles = "length plain length length plain plain length plain tag tag plain plain plain plain".split()
    for at, (byte, role) in enumerate(zip("01 ab 00 04 00 01 01 07 01 02 00 00 00 05".split(), roles)):
        p.box(left + at * cell, top, cell, 36, role)
        p.text(left + at * cell + cell / 2, top + 24, byte, 16, font=MONO)

    def span(first: int, last: int) -> tuple[int, int]:
        return left + first * cell + 4, left + (last + 1) * cell - 4

    def centre(first: int, last: int) -> float:
        return left + (first + last + 1) * cell / 2

    p.text(WIDTH / 2, 26, "Log { id: [ab], leaves: [Leaf { code: 1, name: [07] }], last: Some(Jump(5)) }", 13, font=MONO)
    for first, last, name, kind in (
        (0, 1, "id", "TlsByteVecU8"),
        (2, 7, "leaves", "TlsVecU16<Leaf>"),
        (8, 13, "last", "Option<Step>"),
    ):
        p.bracket(*span(first, last), 84, 8)
        p.text(centre(first, last), 60, name, 14, bold=True)
        p.text(centre(first, last), 76, kind, 11, "soft", font=MONO)
    for first, last, words in (
        (0, 0, "length"), (2, 3, "length"), (4, 5, "code: u16"), (6, 6, "length"), (7, 7, "name"),
        (8, 8, "Some"), (9, 9, "Jump"), (10, 13, "u32"),
    ):
        p.text(centre(first, last), top + 52, words, 11, "soft")
    for first, last, y, words in ((1, 1, 162, "1 byte"), (7, 7, 162, "1 byte"), (4, 7, 192, "4 bytes: one Leaf")):
        p.bracket(*span(first, last), y, -6)
        p.text(centre(first, last), y + 15, words, 11)
    for x, role, words in ((24, "length", "a length"), (124, "tag", "a tag"), (208, "plain", "content")):
        p.box(x, 222, 16, 14, role, 2)
        p.text(x + 22, 234, words, 12, anchor="start")
    p.text(WIDTH - 24, 234, "the length of name is variable: its top bits are", 12, "soft", "end")
    p.text(WIDTH - 24, 254, "00 in one byte, 01 in two, 10 in four", 12, "soft", "end")
    return p


def limits(dark: bool) -> Picture:
    """Nested declared lengths: why the paths name different errors."""
    p = Picture(352, "Nested declared lengths, and what a slice and a source see", dark)
    cell, left, top = 64, 40, 124
    labels = {0: "length 5", 1: "length 2", 4: "length 2"}
    for at, (byte, role) in enumerate(
        zip("05 02 00 01 02 00 02".split(), "length length plain plain length plain plain".split())
    ):
        p.box(left + at * cell, top, cell, 38, role)
        p.text(left + at * cell + cell / 2, top + 25, byte, 17, font=MONO)
        p.text(left + at * cell + cell / 2, top + 54, labels.get(at, ""), 11, "soft")

    def x(at: int) -> int:
        return left + at * cell

    p.text(left, 26, "Vec<Vec<u16>>", 14, anchor="start", font=MONO, bold=True)
    p.text(left + 130, 26, "from 05 02 0001 02 0002: an element passes the end of its list", 13, "soft", "start")
    p.bracket(x(1) + 3, x(6) - 3, 62, 8)
    p.text((x(1) + x(6)) / 2, 54, "the outer list declares these 5 bytes", 12)
    p.bracket(x(2) + 3, x(4) - 3, 104, 8)
    p.text((x(2) + x(4)) / 2, 96, "the first list: 2 bytes", 12)
    p.bracket(x(5) + 3, x(7) - 3, 104, 8, "end")
    p.text((x(5) + x(7)) / 2, 96, "the second: 2 bytes", 12, "end")
    p.line(x(6), 112, x(6), 238, "end", 2, dashed=True)
    p.text(x(7) + 14, top + 17, "the dashed line is", 12, "end", "start")
    p.text(x(7) + 14, top + 33, "the outer list's end", 12, "end", "start")
    for y, name, last, sees in ((208, "slice", 7, "all bytes that are left"), (236, "source", 6, "no byte past the end")):
        p.bracket(x(4) + 3, x(last) - 3, y, -8, "ink")
        p.text(left, y - 1, f"a {name} shows", 12, anchor="start", bold=True)
        p.text(left + 112, y - 1, sees, 12, "soft", "start")
    for y, name, does, error in (
        (272, "slice", "the second list is 02 0002; then its end is past the outer one:",
         'DecodingError("elements do not fill the declared length")'),
        (318, "source", "the second list is cut off after 02 00:", "EndOfStream"),
    ):
        p.text(left, y, name, 12, anchor="start", bold=True)
        p.text(left + 66, y, does, 12, anchor="start")
        p.text(left + 66, y + 18, error, 12, anchor="start", font=MONO)
    return p


def sections() -> list[tuple[str, list[str]]]:
    """The sections of crates.txt: each heading with its crates, in their order."""
    found: list[tuple[str, list[str]]] = []
    for line in (TOP / "crates.txt").read_text().splitlines():
        if line.startswith("# "):
            found.append((line[2:], []))
        elif ":" in line:
            found[-1][1].append(line.split(":")[0].split()[0])
    return found


def title(heading: str) -> str:
    """What the picture has of the heading of a section."""
    return heading.split(",")[0]


def crates(dark: bool) -> Picture:
    """All crates, in the sections of crates.txt: an arrow leads to what a section uses."""
    library, messages, generator, programs, tests, benchmark = sections()
    p = Picture(500, "All crates, in six groups, with what each group uses", dark)

    def group(x: int, y: int, width: int, section: tuple[str, list[str]], columns: int, role: str = "plain") -> int:
        """A box with the names of a section's crates, in this many columns; returns its height."""
        heading, names = section
        rows = -(-len(names) // columns)
        height = 34 + 17 * rows
        p.box(x, y, width, height, role, 5)
        p.boxes[title(heading)] = x, y, width, height
        p.text(x + 10, y + 18, title(heading), 12, anchor="start", bold=True)
        for at, name in enumerate(names):
            column, row = divmod(at, rows)
            p.text(x + 10 + column * (width - 10) / columns, y + 36 + 17 * row, name, 11, anchor="start", font=MONO)
        return height

    def arrow(x1: int, y1: int, x2: int, y2: int) -> None:
        p.line(x1, y1, x2, y2, "ink")
        across = 1 if x2 > x1 else -1
        if y1 == y2:
            p.line(x2, y2, x2 - 6 * across, y2 - 4, "ink")
            p.line(x2, y2, x2 - 6 * across, y2 + 4, "ink")
        else:
            p.line(x2, y2, x2 - 4, y2 - 6, "ink")
            p.line(x2, y2, x2 + 4, y2 - 6, "ink")

    top = group(20, 16, 430, tests, 2)
    group(470, 16, 230, benchmark, 1)
    middle = 16 + top + 28
    shown = group(20, middle, 200, programs, 1)
    written = group(240, middle, 210, messages, 1)
    writes = group(470, middle, 230, generator, 1)
    low = middle + max(shown, written) + 28
    p.height = low + group(20, low, 680, library, 3, "lib") + 34
    for x in (60, 300):
        arrow(x, 16 + top, x, middle - 1)
    arrow(220, middle + 40, 239, middle + 40)
    arrow(120, middle + shown, 120, low - 1)
    arrow(345, middle + written, 345, low - 1)
    # tlsdump on the generator's reader
    p.line(190, middle + shown, 190, low - 14, "ink")
    p.line(190, low - 14, 585, low - 14, "ink")
    p.line(585, low - 14, 585, middle + writes, "ink")
    p.line(585, middle + writes, 581, middle + writes + 6, "ink")
    p.line(585, middle + writes, 589, middle + writes + 6, "ink")
    # tests on the generator
    p.line(430, 16 + top, 430, middle - 14, "ink")
    p.line(430, middle - 14, 580, middle - 14, "ink")
    arrow(580, middle - 14, 580, middle - 1)
    # tests and the benchmark on messages and the library
    arrow(460, 40, 460, low - 1)
    p.line(450, 40, 470, 40, "ink")
    arrow(460, middle + 40, 451, middle + 40)
    p.line(470, middle + 80, 450, middle + 80, "ink", dashed=True)
    p.text(WIDTH / 2, p.height - 14, "an arrow leads to what a group uses; the dashed line: the generator writes these crates", 12, "soft")
    return p


def used() -> set[tuple[str, str]]:
    """Which sections of crates.txt use which others, by their titles."""
    of = {name: title(heading) for heading, names in sections() for name in names}
    pairs = {(of[name], of[it]) for name, uses in Libraries().uses.items() for it in uses if it in of}
    return {pair for pair in pairs if pair[0] != pair[1]}


def wrong_arrows(lines: list[Line], boxes: dict[str, Box], wanted: set[tuple[str, str]]) -> list[str]:
    """The arrows that a picture lacks, of those wanted from one box to another, and those that it has for nothing."""
    drawn = arrows(lines, boxes)
    lacks = [f"no arrow from {one!r} to {other!r}, which it uses" for one, other in sorted(wanted - drawn)]
    return lacks + [f"an arrow from {one!r} to {other!r}, which it doesn't use" for one, other in sorted(drawn - wanted)]


def tlsdump(dark: bool) -> Picture:
    """A terminal with a stored run of tlsdump, and with one that is rejected."""
    folder = TOP / "crates" / "tlsdump" / "runs"
    shown = (folder / "private_message.stdout").read_text().splitlines()
    rejected = (folder / "rejected_identity.stdout").read_text().splitlines()
    # the line on standard error, in the width of the picture
    error = textwrap.wrap(f"tlsdump: {REJECTIONS['rejected_identity']}", 95)
    digits = (folder / "rejected_identity").read_text().strip()
    lines = [("ink", "$ tlsdump --binary auto private_message"), *[("soft", line) for line in shown], ("ink", "")]
    lines += [("ink", f"$ echo {digits} | tlsdump KeyPackage"), *[("soft", line) for line in rejected[:-1]]]
    lines += [("end", rejected[-1]), *[("end", line) for line in error]]
    p = Picture(56 + 17 * len(lines), "A message as tlsdump shows it, and one that it rejects", dark)
    p.box(12, 12, WIDTH - 24, 32 + 17 * len(lines), "plain", 6)
    for at, (role, line) in enumerate(lines):
        depth = len(line) - len(line.lstrip())
        p.text(26 + 7 * depth, 38 + 17 * at, line.lstrip(), 11.5, role, "start", MONO)
    return p


PICTURES = {"message.svg": message, "limits.svg": limits, "crates.svg": crates, "tlsdump.svg": tlsdump}


def main() -> None:
    parser = argparse.ArgumentParser()
    parser.add_argument("folder", nargs="?", type=pathlib.Path, default=TOP / "docs")
    parser.add_argument("colours", nargs="?", choices=["light", "dark"], default="light")
    given = parser.parse_args()
    for name, draw in PICTURES.items():
        (given.folder / name).write_text(draw(given.colours == "dark").svg())


if __name__ == "__main__":
    main()
