"""Reads the arrows of a picture: from which box each leads, and to which, by the lines that are drawn.

Lines are one arrow if an end of one is on the other; lines that cross aren't. Its tips are the ends that two slanted lines share. A tip, or
another end of a line that isn't slanted, is at the box whose edge is there; an arrow with two such ends leads from both.
"""
from __future__ import annotations

import collections
import itertools

Point = tuple[float, float]
# From one point to another: x1, y1, x2, y2.
Line = tuple[float, float, float, float]
# x, y, width, height
Box = tuple[float, float, float, float]

# How far an arrow may end from the edge of a box.
GAP = 2
# In place of a box's name: an arrow that leads from or to none.
NOWHERE = "nowhere"


def ends(line: Line) -> list[Point]:
    return [line[:2], line[2:]]


def is_slanted(line: Line) -> bool:
    return line[0] != line[2] and line[1] != line[3]


def is_on(point: Point, line: Line) -> bool:
    """Whether a point is an end of a line, or on one that isn't slanted."""
    (x, y), (x1, y1, x2, y2) = point, line
    is_between = min(x1, x2) <= x <= max(x1, x2) and min(y1, y2) <= y <= max(y1, y2)
    return point in ends(line) or is_between and not is_slanted(line)


def touch(one: Line, other: Line) -> bool:
    return any(is_on(end, other) for end in ends(one)) or any(is_on(end, one) for end in ends(other))


def joined(lines: list[Line]) -> list[list[Line]]:
    """The lines of each arrow."""
    found: list[list[Line]] = []
    for line in lines:
        near = [it for it in found if any(touch(line, other) for other in it)]
        found = [it for it in found if it not in near] + [[line, *itertools.chain(*near)]]
    return found


def box_at(point: Point, boxes: dict[str, Box]) -> str:
    """The box whose edge is at a point."""
    for name, (x, y, width, height) in boxes.items():
        beyond = max(x - point[0], point[0] - x - width, y - point[1], point[1] - y - height)
        if abs(beyond) <= GAP:
            return name
    return NOWHERE


def arrows(lines: list[Line], boxes: dict[str, Box]) -> set[tuple[str, str]]:
    """From which box to which the arrows of a picture lead."""
    found: set[tuple[str, str]] = set()
    for arrow in joined(lines):
        shared = collections.Counter(end for line in arrow if is_slanted(line) for end in ends(line))
        tips = {end for end, count in shared.items() if count == 2}
        tails = {end for line in arrow if not is_slanted(line) for end in ends(line)} - tips
        begins = {box_at(end, boxes) for end in tails} - {NOWHERE}
        found |= set(itertools.product(begins or {NOWHERE}, {box_at(tip, boxes) for tip in tips} or {NOWHERE}))
    return found
