#!/usr/bin/env python3
"""A stand-in for `planar`, for tests where no program is built: it answers some lines of one layer, in the slowest way.

    stand_in.py --locate walk < map.script

It knows `segment`, `path`, `drop`, `pin`, `locate`, `batch`, `edge`, `count` and `show`, refuses equal ends (7), an unknown curve (8) or edge (9),
and all else as no command (1). After an edit it makes the subdivision anew from all pairs of sides. The words of the command line are left
unread, but for --help. Python 3.8 or later, with its standard library alone.
"""

from __future__ import annotations

import sys

# It is started by tests, which leave nothing behind.
sys.dont_write_bytecode = True

import argparse
import os
from fractions import Fraction
from typing import Dict, Iterator, List, Optional, Set, Tuple

from read_replies import Batch, Counts, Done, Edge, Face, Place, Vertex, written
from read_show import Dart, Key, Point, Rows, Subdivision, cycles_of, goes_round, point_in, spaced
from read_show import Vertex as NumberedVertex

Side = Tuple[Point, Point]


class Refused(Exception):
    """A line is refused; the argument is the number of the refusal."""


def cross(o: Point, a: Point, b: Point) -> Fraction:
    """Twice the area of a triangle, positive where it goes counterclockwise."""
    return (a[0] - o[0]) * (b[1] - o[1]) - (a[1] - o[1]) * (b[0] - o[0])


def is_on(side: Side, point: Point) -> bool:
    """Whether a point lies on a side, its ends included."""
    return min(side) <= point <= max(side) and cross(*side, point) == 0


def meetings(s: Side, t: Side) -> Iterator[Point]:
    """The points of two sides at which there is a vertex since both are there."""
    (p, q), (u, v) = s, t
    before, after, first, second = cross(p, q, u), cross(p, q, v), cross(u, v, p), cross(u, v, q)
    if before == after == 0:
        yield from (point for point in (*s, *t) if is_on(s, point) and is_on(t, point))
    elif before * after <= 0 and first * second <= 0:
        share = before / (before - after)
        yield u[0] + share * (v[0] - u[0]), u[1] + share * (v[1] - u[1])


class Map:
    """One layer: its curves by number, each a list of sides, and its pins."""

    def __init__(self) -> None:
        self.curves: Dict[int, List[Side]] = {}
        self.pins: Set[Point] = set()
        self.drawn = 0
        self.made: Optional[Subdivision] = None

    def subdivision(self) -> Subdivision:
        """The subdivision of what is there."""
        if self.made is None:
            rows = Rows.__new__(Rows)
            rows.is_overlay, rows.faces = False, []
            along = self.curves_along()
            points = sorted({point for edge in along for point in edge} | self.pins)
            rows.points = dict(enumerate(points, 1))
            number = {point: place for place, point in rows.points.items()}
            rows.pins = {number[point] for point in self.pins}
            rows.curves = {}
            for (p, q), curves in along.items():
                rows.curves[number[p], number[q]] = rows.curves[number[q], number[p]] = (tuple(sorted(curves)), ())
            rows.faces = faces_of(rows)
            self.made = rows.subdivision()
        return self.made

    def curves_along(self) -> Dict[Side, Set[int]]:
        """The edges, each between its lesser and its greater end, with their curves."""
        sides = [(side, curve) for curve, some in self.curves.items() for side in some]
        on = [{*side, *(pin for pin in self.pins if is_on(side, pin))} for side, _ in sides]
        for place, (side, _) in enumerate(sides):
            for other in range(place):
                points = list(meetings(side, sides[other][0]))
                on[place].update(points)
                on[other].update(points)
        along: Dict[Side, Set[int]] = {}
        for points, (_, curve) in zip(map(sorted, on), sides):
            for edge in zip(points, points[1:]):
                along.setdefault(edge, set()).add(curve)
        return along

    def insert(self, numbers: List[int]) -> Done:
        corners = [(Fraction(x), Fraction(y)) for x, y in zip(numbers[::2], numbers[1::2])]
        sides = list(zip(corners, corners[1:]))
        if any(p == q for p, q in sides):
            raise Refused(7)
        self.drawn += 1
        self.curves[self.drawn] = sides
        return Done(self.drawn)

    def locate(self, point: Point) -> Place:
        read = self.subdivision()
        for vertex in read.vertices:
            if vertex.point == point:
                return Vertex(point)
        for dart in read.darts:
            if is_on((dart.source.point, dart.target.point), point):
                return Edge(*sorted((dart.source.point, dart.target.point)))
        round_it = [face for face in read.faces[1:] if goes_round(face.outer.points, point)]
        return Face(min(round_it, key=lambda face: face.outer.area, default=read.faces[0]).rank)

    def batch(self, *points: Point) -> Batch:
        return Batch(tuple(map(self.locate, points)))

    def curves_of(self, p: Point, q: Point) -> str:
        for dart in self.subdivision().darts:
            if (dart.source.point, dart.target.point) == (p, q):
                return "curves" + spaced(dart.curves)
        raise Refused(9)

    def counts(self) -> Counts:
        read = self.subdivision()
        inner = sum(len(face.holes) for face in read.faces)
        isolated = sum(len(face.isolated) for face in read.faces)
        return Counts(len(read.vertices), len(read.darts) // 2, len(read.faces), inner, isolated, len(self.curves))

    def reply(self, command: str, words: List[str]) -> str:
        """The reply to a line, without its last line end."""
        questions = {"locate": self.locate, "batch": self.batch, "edge": self.curves_of, "count": self.counts, "show": self.subdivision}
        if command in questions:
            points = [point_in(words[place : place + 3]) for place in range(0, len(words), 3)]
            answer = questions[command](*points)
            return answer if isinstance(answer, str) else answer.text()[:-1] if command == "show" else "\n".join(written(answer))
        self.made = None
        if command == "drop" and int(words[0]) not in self.curves:
            raise Refused(8)
        if command == "drop":
            del self.curves[int(words[0])]
        elif command == "pin":
            self.pins.add(point_in(words))
        elif command in ("segment", "path"):
            return written(self.insert(list(map(int, words))))[0]
        else:
            raise Refused(1)
        return "ok"


def faces_of(rows: Rows) -> List[Tuple[List[Key], List[int], None]]:
    """The faces by their cycles' least darts and their isolated vertices: a hole is in the smallest face that goes round it."""
    around = rows.neighbours()
    vertices = {n: NumberedVertex(n, *point, n in rows.pins, around[n]) for n, point in rows.points.items()}
    darts = {key: Dart(vertices[key[0]], vertices[key[1]], *rows.curves[key]) for key in sorted(rows.curves)}
    cycles = list(cycles_of(darts, around))
    outer = [cycle for cycle in cycles if cycle.is_outer]
    faces = [([], [], None)] + [([cycle.darts[0].key], [], None) for cycle in outer]
    part = parts_of(around)

    def face_round(vertex: NumberedVertex) -> int:
        others = [n for n, cycle in enumerate(outer) if part[cycle.darts[0].source.number] != part[vertex.number]]
        round_it = [n for n in others if goes_round(outer[n].points, vertex.point)]
        return min(round_it, key=lambda n: outer[n].area, default=-1) + 1

    for cycle in cycles:
        if not cycle.is_outer:
            faces[face_round(cycle.darts[0].source)][0].append(cycle.darts[0].key)
    for vertex in vertices.values():
        if not vertex.neighbours:
            faces[face_round(vertex)][1].append(vertex.number)
    return faces


def parts_of(around: Dict[int, Tuple[int, ...]]) -> Dict[int, int]:
    """The connected part of each vertex, told by its least vertex."""
    part: Dict[int, int] = {}
    for number in around:
        left = [number] if number not in part else []
        while left:
            found = left.pop()
            if found not in part:
                part[found] = number
                left += around[found]
    return part


def main() -> int:
    parser = argparse.ArgumentParser(description="A stand-in for `planar`, for tests: answers a script, in the slowest way.")
    parser.parse_known_args()
    layer = Map()
    for line in sys.stdin:
        words = line.split()
        if words and not words[0].startswith("#"):
            try:
                reply = layer.reply(words[0], words[1:])
            except Refused as refused:
                reply = f"refused {refused}"
            try:
                print(reply, flush=True)
            except BrokenPipeError:
                os._exit(4)
    return 0


if __name__ == "__main__":
    sys.exit(main())
