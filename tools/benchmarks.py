#!/usr/bin/env python3
"""benchmarks.py OWN CRATE: draws docs/benchmarks.svg, and prints the table of BENCHMARKS.md.

OWN has what `tls_codec_bench run` printed, CRATE what a program over the Rust crate printed: a line for each case, its name,
the bytes, and the nanoseconds of each call, with tabs between. OWN has validation and views last, which the crate doesn't have. A file
may have the lines of several runs: the lowest figure of each is taken. Rows of ROUGH (lib/figures.py) aren't drawn."""
from __future__ import annotations

import html
import math
import sys

from lib import libraries
from lib.figures import ROUGH

# The cases of a file by their names: the bytes, and the nanoseconds of each call.
Cases = dict[str, tuple[int, list[float]]]

CALLS = ("encode", "into", "slice", "reader")
LEAST, MOST = 0.008, 2.5  # the ends of the scale
TICKS = (0.01, 0.1, 1)
ROW, TOP, NAMES, PANEL, GAP = 22, 64, 240, 152, 20  # sizes in pixels

STYLE = """
text { font: 13px -apple-system, "Segoe UI", "Noto Sans", Helvetica, Arial, sans-serif; fill: #1f2328; }
.paper { fill: #ffffff; }
.soft { font-size: 12px; fill: #59636e; }
.head { font-weight: 600; }
.line { stroke: #d1d9e0; }
.one { stroke: #59636e; }
.fast { fill: #2a6fc9; }
.slow { fill: #b8500a; }
@media (prefers-color-scheme: dark) {
  text { fill: #f0f6fc; }
  .paper { fill: #0d1117; }
  .soft { fill: #9198a1; }
  .line { stroke: #3d444d; }
  .one { stroke: #9198a1; }
  .fast { fill: #5a9df2; }
  .slow { fill: #f0883e; }
}
"""


def lowest(path: str) -> Cases:
    """The cases of a file, with the lowest figure of each call."""
    rows: Cases = {}
    with open(path, encoding="utf-8") as lines:
        for line in lines:
            part = line.rstrip("\n").split("\t")
            if 6 <= len(part) <= 8:
                figures = [float(x) for x in part[2:]]
                old = rows.get(part[0])
                rows[part[0]] = (int(part[1]), [min(p) for p in zip(old[1], figures)] if old else figures)
    return rows


def drawing(own: Cases, crate: Cases) -> str:
    """The picture: a bar for each case and call, from 1 to its share of the crate's time."""
    names = [name for name in own if name in crate and name not in ROUGH and not name.startswith("copy")]
    width, height = NAMES + 4 * (PANEL + GAP) + 8, TOP + ROW * len(names) + 14
    out = [
        f'<svg xmlns="http://www.w3.org/2000/svg" width="{width}" height="{height}" viewBox="0 0 {width} {height}" role="img">',
        "<title>Time of a call as a share of the Rust crate's, on a log scale</title>",
        f"<style>{STYLE}</style>",
        f'<rect width="{width}" height="{height}" rx="6" class="paper"/>',
        '<text x="12" y="22" class="head">own / crate</text>',
        '<text x="12" y="40" class="soft">to the left of 1: faster</text>',
    ]

    def line(x: float, kind: str) -> None:
        out.append(f'<line x1="{x:.1f}" y1="{TOP - 6}" x2="{x:.1f}" y2="{height - 12}" class="{kind}"/>')

    def text(x: float, y: float, words: str, kind: str = "", anchor: str = "start") -> None:
        out.append(f'<text x="{x:.1f}" y="{y:.1f}" class="{kind}" text-anchor="{anchor}">{html.escape(words)}</text>')

    for row, name in enumerate(names):
        text(12, TOP + ROW * row + 15, name)
    for call, title in enumerate(CALLS):
        left = NAMES + call * (PANEL + GAP)

        def at(ratio: float) -> float:
            share = math.log(min(max(ratio, LEAST), MOST) / LEAST) / math.log(MOST / LEAST)
            return left + share * PANEL

        text(left + PANEL / 2, 22, title, "head", "middle")
        for tick in TICKS:
            line(at(tick), "one" if tick == 1 else "line")
            text(at(tick), TOP - 12, str(tick), "soft", "middle")
        for row, name in enumerate(names):
            ratio = own[name][1][call] / crate[name][1][call]
            y, ends = TOP + ROW * row, sorted((at(ratio), at(1)))
            kind = "slow" if ratio > 1 else "fast"
            out.append(f'<rect x="{ends[0]:.1f}" y="{y + 4}" width="{max(ends[1] - ends[0], 1):.1f}" height="14" class="{kind}"/>')
            text(ends[1] + 4, y + 15, f"{ratio:.2f}", "soft")
    return "\n".join(out + ["</svg>", ""])


def table(own: Cases, crate: Cases) -> None:
    """Prints the table of BENCHMARKS.md."""
    copies = {size: figures for name, (size, figures) in own.items() if name.startswith("copy")}
    print("| Case | Bytes | Plain copy: new, reused | Encode | Into a vector | Slice | Reader | Validated | Viewed |")
    print("|---|---|---|---|---|---|---|---|---|")
    for name, (size, figures) in own.items():
        if name.startswith("copy"):
            continue
        near = [count for count in copies if 0 <= size - count < 40]
        copied = "{:.0f}, {:.0f}".format(*copies[near[0]][:2]) if near else ""
        cells = [f"{own_ns:.0f}" for own_ns in figures]
        if name in crate:
            beside = [f"{cell} ({own_ns / ns:.2f})" for cell, own_ns, ns in zip(cells, figures, crate[name][1])]
            cells = beside + cells[len(beside) :]
        print(f"| `{name}` | {size} | {copied} | " + " | ".join(cells) + " |")


def main() -> None:
    if len(sys.argv) != 3:
        print(__doc__, file=sys.stderr)
        sys.exit(2)
    own, crate = lowest(sys.argv[1]), lowest(sys.argv[2])
    (libraries.TOP / "docs" / "benchmarks.svg").write_text(drawing(own, crate), encoding="utf-8")
    table(own, crate)


if __name__ == "__main__":
    main()
