"""Finds where labels fit in a picture: the middle of a face, clear of its sides, and free places beside lines and points.

Lengths are those of the picture. A label is told by half its width and half its height.
"""

from __future__ import annotations

import heapq
from math import inf
from typing import Dict, Iterable, List, Optional, Sequence, Tuple

# The ends of a side, x and y of each. A side between equal ends is a point that labels keep clear of.
Side = Tuple[float, float, float, float]
Spot = Tuple[float, float]
# Least and greatest x, least and greatest y.
Box = Tuple[float, float, float, float]

# How many looks at sides a search takes, about, and the least room that it seeks.
MOST_LOOKS = 100000
NEAR = 1.0


def gap(ax: float, ay: float, bx: float, by: float) -> float:
    """How far the origin is from the side between two points: the larger of x and y, at the point of the side where it's least."""
    dx, dy = bx - ax, by - ay
    least = min(max(abs(ax), abs(ay)), max(abs(bx), abs(by)))
    # Between the ends it is least where x and y are equally large.
    for above, below in ((ay - ax, dx - dy), (-ay - ax, dx + dy)):
        if below and 0 < above / below < 1:
            least = min(least, max(abs(ax + above / below * dx), abs(ay + above / below * dy)))
    return least


def room_at(x: float, y: float, sides: Sequence[Side]) -> float:
    """Half the side of the largest square round a point that meets no side; below zero where the point is outside."""
    inside, least = False, inf
    for x1, y1, x2, y2 in sides:
        if (y1 > y) != (y2 > y) and x < x1 + (y - y1) * (x2 - x1) / (y2 - y1):
            inside = not inside
        least = min(least, gap(x1 - x, y1 - y, x2 - x, y2 - y))
    return least if inside else -least


def centre_of(sides: Sequence[Side]) -> Optional[Spot]:
    """The centre of mass of what lies on the left of the sides, or on their right."""
    area = x = y = 0.0
    for x1, y1, x2, y2 in sides:
        cross = x1 * y2 - x2 * y1
        area, x, y = area + cross / 2, x + (x1 + x2) * cross / 6, y + (y1 + y2) * cross / 6
    return (x / area, y / area) if abs(area) > 1e-9 else None


def squares_over(sides: Sequence[Side]) -> List[Tuple[float, float, float]]:
    """Squares that cover all sides: the middle, and half the side."""
    xs, ys = [x for side in sides for x in side[::2]], [y for side in sides for y in side[1::2]]
    width, height = max(xs) - min(xs), max(ys) - min(ys)
    half = max(min(width, height), max(width, height) / 32, NEAR) / 2
    columns, rows = (range(int(length / (2 * half)) + 1) for length in (width, height))
    return [(min(xs) + (2 * i + 1) * half, min(ys) + (2 * j + 1) * half, half) for i in columns for j in rows]


def roomiest(sides: Sequence[Side], enough: float) -> Tuple[float, float, float]:
    """A place within sides with its room: the centre of mass where there is enough room, else where there is most, as nearly as need be.

    The squares in which the largest room may be are quartered, the most promising first (as in Mapbox's polylabel, but for squares
    in place of circles).
    """
    centre = centre_of(sides) or sides[0][:2]
    best = (room_at(*centre, sides), *centre)
    left: List[Tuple[float, float, float, float]] = []
    due = squares_over(sides) if best[0] < enough else []
    for _ in range(max(MOST_LOOKS // len(sides), 64)):
        for x, y, half in due:
            room = room_at(x, y, sides)
            best = max(best, (room, x, y))
            heapq.heappush(left, (-room - half, x, y, half))
        if not left or -left[0][0] <= max(1.1 * best[0], NEAR):
            break
        _, x, y, half = heapq.heappop(left)
        half /= 2
        due = [(x - half, y - half, half), (x - half, y + half, half), (x + half, y - half, half), (x + half, y + half, half)]
    room, x, y = best
    return x, y, room


def middle_of(sides: Sequence[Side], wide: float, high: float, enough: float) -> Tuple[float, float, float]:
    """The place within sides for a label of this form, and how large it may be there: by what its half width and height are multiplied."""
    ratio = high / wide
    x, y, room = roomiest([(x1 * ratio, y1, x2 * ratio, y2) for x1, y1, x2, y2 in sides], enough * high)
    return x / ratio, y, room / high


class FreePlaces:
    """What is taken by labels and points, kept by cells, so that one that is new is compared with few."""

    CELL = 40.0

    def __init__(self) -> None:
        self.cells: Dict[Tuple[int, int], List[Box]] = {}

    def cells_of(self, box: Box) -> Iterable[Tuple[int, int]]:
        left, right, top, bottom = (int(c // self.CELL) for c in box)
        return ((i, j) for i in range(left, right + 1) for j in range(top, bottom + 1))

    def is_free(self, box: Box) -> bool:
        return not any(
            box[0] < other[1] and other[0] < box[1] and box[2] < other[3] and other[2] < box[3]
            for cell in self.cells_of(box)
            for other in self.cells.get(cell, ())
        )

    def take(self, box: Box) -> None:
        for cell in self.cells_of(box):
            self.cells.setdefault(cell, []).append(box)

    def first(self, spots: Iterable[Spot], wide: float, high: float) -> Optional[Spot]:
        """The first of the spots at which a label is free of all others; it is taken."""
        for x, y in spots:
            box = (x - wide, x + wide, y - high, y + high)
            if self.is_free(box):
                self.take(box)
                return x, y
        return None
