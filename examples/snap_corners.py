"""Puts corners of lines that lie near another corner or side on it, for lines_to_script.py.

Corners come in their order. One that lies within the distance of an earlier one that stayed becomes that one. Then each corner that lies
within the distance of a side, and of no end of it, is put on the nearest such side, and every such side gets it as a corner of its own: so
rounding can't part them any more. It is one pass: what comes near by having moved isn't looked at again.

Distances are exact: squares of fractions are compared.
"""

from __future__ import annotations

import heapq
from fractions import Fraction
from math import floor
from typing import Dict, Iterator, List, NamedTuple, Sequence, Set, Tuple

Point = Tuple[Fraction, Fraction]
Side = Tuple[Point, Point]

# Of the corners that were put on sides; the side is bent to them, so nothing hangs on more.
LARGEST_DENOMINATOR = 2**24


class Snapped(NamedTuple):
    """The lines; the corners that moved, with what they were put on and where; and how many corners sides got."""

    lines: List[List[Point]]
    moves: List[Tuple[Point, str, Point]]
    given: int


def snapped(lines: Sequence[List[Point]], distance: Fraction) -> Snapped:
    """The lines with their corners put on others and on sides. A line of a single position goes along with a corner that it equals."""
    corners = list(dict.fromkeys(point for line in lines if len(line) > 1 for point in line))
    place = onto_corners(corners, distance)
    sides = {tuple(sorted((place[p], place[q]))) for line in lines for p, q in zip(line, line[1:]) if place[p] != place[q]}
    final, given = onto_sides(list(dict.fromkeys(place.values())), sorted(sides), distance)
    moves = []
    for corner in corners:
        if final[place[corner]] != corner:
            moves.append((corner, "a side" if place[corner] == corner else "a corner", final[place[corner]]))
    whole = [with_corners([place.get(point, point) for point in line], final, given) for line in lines]
    return Snapped(whole, moves, sum(map(len, given.values())))


def onto_corners(corners: List[Point], distance: Fraction) -> Dict[Point, Point]:
    """Where each corner is put: on the nearest of the earlier ones that stayed within the distance, else where it is."""
    stayed: Dict[Tuple[int, int], List[Point]] = {}
    place = {}
    for corner in corners:
        i, j = (floor(c / distance) for c in corner)
        cells = [(i + right, j + up) for right in (-1, 0, 1) for up in (-1, 0, 1)]
        near = [other for cell in cells for other in stayed.get(cell, ()) if square(corner, other) <= distance**2]
        place[corner] = min(near, key=lambda other: square(corner, other), default=corner)
        if not near:
            stayed.setdefault((i, j), []).append(corner)
    return place


def onto_sides(corners: List[Point], sides: List[Side], distance: Fraction) -> Tuple[Dict[Point, Point], Dict[Side, List[Point]]]:
    """Where each corner is put at last, and the corners that each side gets, from its lesser end on."""
    final = {corner: corner for corner in corners}
    least: Dict[Point, Fraction] = {}
    shares: Dict[Side, List[Tuple[Fraction, Point]]] = {}
    for corner, (p, q) in near_pairs(corners, sides, distance):
        way, to = (q[0] - p[0], q[1] - p[1]), (corner[0] - p[0], corner[1] - p[1])
        length = way[0] ** 2 + way[1] ** 2
        share = (to[0] * way[0] + to[1] * way[1]) / length
        off = (to[0] * way[1] - to[1] * way[0]) ** 2 / length
        if corner not in (p, q) and 0 < share < 1 and off <= distance**2:
            shares.setdefault((p, q), []).append((share, corner))
            if off < least.get(corner, distance**2 + 1):
                least[corner] = off
                final[corner] = on_side(p, way, share) if off else corner
    return final, {side: [corner for _, corner in sorted(some)] for side, some in shares.items()}


def on_side(p: Point, way: Tuple[Fraction, Fraction], share: Fraction) -> Point:
    x, y = ((c + share * step).limit_denominator(LARGEST_DENOMINATOR) for c, step in zip(p, way))
    return x, y


def near_pairs(corners: List[Point], sides: List[Side], distance: Fraction) -> Iterator[Tuple[Point, Side]]:
    """Each corner with the sides in whose boxes it may lie, widened by the distance. They are met from left to right.

    The boxes are of floats, and a little wider for their rounding.
    """
    largest = max((abs(float(c)) for corner in corners for c in corner), default=0.0)
    reach = float(distance) + 1e-12 * largest
    boxes = [(float(p[0]), float(q[0]), *sorted((float(p[1]), float(q[1])))) for p, q in sides]
    there: Set[int] = set()
    ends: List[Tuple[float, int]] = []
    due = iter(sorted(range(len(sides)), key=lambda side: boxes[side][0]))
    coming = next(due, None)
    for corner in sorted(corners):
        x, y = map(float, corner)
        while coming is not None and boxes[coming][0] - reach <= x:
            there.add(coming)
            heapq.heappush(ends, (boxes[coming][1] + reach, coming))
            coming = next(due, None)
        while ends and ends[0][0] < x:
            there.remove(heapq.heappop(ends)[1])
        for side in sorted(there):
            if boxes[side][2] - reach <= y <= boxes[side][3] + reach:
                yield corner, sides[side]


def with_corners(line: List[Point], final: Dict[Point, Point], given: Dict[Side, List[Point]]) -> List[Point]:
    """A line with the corners that its sides got, all of them where they are at last."""
    points = line[:1]
    for p, q in zip(line, line[1:]):
        between = given.get((min(p, q), max(p, q)), [])
        points += [*(between if p < q else between[::-1]), q]
    return [final.get(point, point) for point in points]


def square(p: Point, q: Point) -> Fraction:
    """The square of the distance of two points."""
    return (p[0] - q[0]) ** 2 + (p[1] - q[1]) ** 2
