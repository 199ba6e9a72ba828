#!/usr/bin/env python3
"""Reads the text of a subdivision or of an overlay, as `show`, `mirror` and `overlay` write it, into vertices, darts, cycles and faces, and
the text of a region, as `region` writes it, into polygons.

    planar < map.script | read_show.py --replies
    read_show.py FILE
    read_show.py --replies --geojson --names map.names map.replies
    read_show.py --region --replies --wkt map.replies

For each face it prints its rank, in an overlay the red and the blue face that hold it, its area (None for the unbounded face) and a point
inside, then its outer boundary cycle, its holes, its isolated vertices and the ranks of its neighbours, those across its edges. Points are
exact fractions. With --wkt it writes a table instead, parted by tabs, and with --geojson a collection of features: each bounded face as a
polygon with holes, without the edges that have the face on both sides, in decimals. --names takes a table that lines_to_script.py made: a
face has the names of the features that go round it. --offset and --scale lead back to the map's own coordinates. With --region it reads a
region, and tells or writes its polygons: the inside of each is connected, rings share points at most and no sides, and each vertex of the
border stands in them, also where the border goes straight on.

As a module: `read_show(text)` gives a `Subdivision`, `texts_in(replies)` the texts that stand among the replies of a run,
`names_of_faces` the features round each face; `neighbours` of a face, with the darts between, serves for routes. `read_region(text)` gives
a `Region`, and `regions_in(replies)` the texts of regions.

Reading is strict: neighbours and cycles are made from the points and edges, the whole is written again, and must be the text byte for
byte; points must be in order, and numbers in their ranges; the labels of an overlay are each there, and change across an edge only where it
has a curve of the layer; the border of a region has the inside on its left all along, and each hole of it lies in an outer ring. All else
is refused (`NotASubdivision`). Two things aren't looked at, since they take more than reading: whether edges meet elsewhere than at their
ends, and whether the hole of a face lies in it.

docs/SCRIPT.md describes the text. Python 3.8 or later, with its standard library alone.
"""

from __future__ import annotations

import argparse
import json
import re
import sys
from dataclasses import dataclass
from fractions import Fraction
from functools import cached_property, cmp_to_key
from itertools import zip_longest
from math import floor, gcd
from typing import Any, Dict, FrozenSet, Iterable, Iterator, List, Optional, Set, Tuple

LARGEST_COORDINATE = 2**24 - 1
LARGEST_WEIGHT = 2**51 - 1
LARGEST_CURVE = 2**32 - 1

Point = Tuple[Fraction, Fraction]
Ring = List[Point]
Key = Tuple[int, int]
# Names with numbers of curves, as a table of lines_to_script.py has them.
Table = List[Tuple[str, List[int]]]


class NotASubdivision(ValueError):
    """The text isn't one of a subdivision or of a region."""


@dataclass(frozen=True)
class Vertex:
    """A vertex; its neighbours are told by their numbers, clockwise from the least."""

    number: int
    x: Fraction
    y: Fraction
    is_pinned: bool
    neighbours: Tuple[int, ...]

    @property
    def point(self) -> Point:
        return self.x, self.y


@dataclass(frozen=True)
class Dart:
    """One direction of an edge; the curves along the edge are told by their numbers, in an overlay the red ones and the blue ones."""

    source: Vertex
    target: Vertex
    curves: Tuple[int, ...]
    blue: Tuple[int, ...] = ()

    @property
    def key(self) -> Key:
        """The numbers of its ends, by which darts are ordered."""
        return self.source.number, self.target.number

    def crosses(self, x: Fraction) -> bool:
        """Whether it goes from one side to the other of the vertical at x."""
        return (self.source.x < x) != (self.target.x < x)

    def height(self, x: Fraction) -> Fraction:
        """The ordinate at x, where the dart isn't vertical."""
        rise = (self.target.y - self.source.y) / (self.target.x - self.source.x)
        return self.source.y + (x - self.source.x) * rise


@dataclass(frozen=True)
class Cycle:
    """A boundary cycle, from its least dart on. Its face is on the left of each dart."""

    darts: Tuple[Dart, ...]

    @property
    def points(self) -> List[Point]:
        """The points that its darts leave."""
        return [dart.source.point for dart in self.darts]

    @property
    def area(self) -> Fraction:
        """The area that it goes round, positive counterclockwise."""
        return sum((d.source.x * d.target.y - d.target.x * d.source.y for d in self.darts), Fraction(0)) / 2

    @property
    def is_outer(self) -> bool:
        """Whether it bounds its face from outside: it goes counterclockwise."""
        return self.area > 0


@dataclass(frozen=True)
class Face:
    """A face by its rank. The unbounded face has rank 0 and no outer cycle. One of an overlay tells the red and the blue face round it."""

    rank: int
    outer: Optional[Cycle]
    holes: Tuple[Cycle, ...]
    isolated: Tuple[Vertex, ...]
    labels: Optional[Key] = None

    @property
    def cycles(self) -> Tuple[Cycle, ...]:
        return ((self.outer,) if self.outer else ()) + self.holes

    @property
    def darts(self) -> List[Dart]:
        """The darts that have the face on their left."""
        return [dart for cycle in self.cycles for dart in cycle.darts]

    @property
    def area(self) -> Optional[Fraction]:
        """The area without the holes; None for the unbounded face."""
        return sum((cycle.area for cycle in self.cycles), Fraction(0)) if self.outer else None

    def point_inside(self) -> Point:
        """A point of the face, on no edge and no vertex."""
        darts = self.darts
        abscissas = {dart.source.x for dart in darts} | {vertex.x for vertex in self.isolated}
        if not self.outer:
            return min(abscissas, default=Fraction(1)) - 1, Fraction(0)
        # The face is directly above a dart that goes to the right, and reaches up to the next of its edges.
        bottom = next(dart for dart in self.outer.darts if dart.source.x < dart.target.x)
        x = simplest_between(bottom.source.x, min(other for other in abscissas if other > bottom.source.x))
        low = bottom.height(x)
        return x, simplest_between(low, min(h for h in (d.height(x) for d in darts if d.crosses(x)) if h > low))


@dataclass(frozen=True)
class Subdivision:
    """Vertices, darts and cycles in order (vertex n is at place n - 1), faces by rank."""

    vertices: Tuple[Vertex, ...]
    darts: Tuple[Dart, ...]
    cycles: Tuple[Cycle, ...]
    faces: Tuple[Face, ...]
    is_overlay: bool = False

    @cached_property
    def face_of(self) -> Dict[Key, Face]:
        """The face on the left of each dart, by its key."""
        return {dart.key: face for face in self.faces for dart in face.darts}

    def across(self, dart: Dart) -> Face:
        """The face on the right of a dart."""
        return self.face_of[dart.key[::-1]]

    def neighbours(self, face: Face) -> Dict[int, List[Dart]]:
        """The ranks of the faces across the edges of a face, each with the darts of this face that it lies across."""
        found: Dict[int, List[Dart]] = {}
        for dart in face.darts:
            if self.across(dart).rank != face.rank:
                found.setdefault(self.across(dart).rank, []).append(dart)
        return dict(sorted(found.items()))

    def rings(self, face: Face) -> List[Ring]:
        """The rings of a bounded face as a polygon, the outer one first: no edge with the face on both sides, no point twice in a ring."""
        left = {dart.key: dart for dart in face.darts if self.across(dart).rank != face.rank}
        found = []
        while left:
            walk = [next(iter(left.values()))]
            while self.dart_after(walk[-1]).key != walk[0].key:
                walk.append(self.dart_after(walk[-1]))
            for dart in walk:
                del left[dart.key]
            found += simple_rings([dart.source.point for dart in walk])
        return sorted(found, key=area_within, reverse=True)

    def dart_after(self, dart: Dart) -> Dart:
        """The dart that follows on the boundary of its face, passing over edges with the face on both sides."""
        after = self.followers[dart.key]
        while self.across(after).rank == self.face_of[after.key].rank:
            after = self.followers[after.key[::-1]]
        return after

    @cached_property
    def followers(self) -> Dict[Key, Dart]:
        """The dart that follows each on its cycle, by its key."""
        return {d.key: after for cycle in self.cycles for d, after in zip(cycle.darts, cycle.darts[1:] + cycle.darts[:1])}

    def text(self) -> str:
        """The text of the subdivision."""
        edges = [dart for dart in self.darts if dart.source.number < dart.target.number]
        lines = [f"{'overlay' if self.is_overlay else 'arrangement'} {len(self.vertices)} {len(edges)} {len(self.faces)}"]
        for v in self.vertices:
            lines.append(f"v {v.number} {triple(v.point)}{' pin' if v.is_pinned else ''} :{spaced(v.neighbours)}")
        lines += (f"e{spaced(edge.key)} :{self.curves_told(edge)}" for edge in edges)
        for face in self.faces:
            lines.append(f"f {face.rank}{spaced(face.labels or ())}")
            lines += (f"{'o' if c is face.outer else 'h'}{spaced(d.source.number for d in c.darts)}" for c in face.cycles)
            lines += (f"p {vertex.number}" for vertex in face.isolated)
        return "\n".join(lines + ["end", ""])

    def curves_told(self, edge: Dart) -> str:
        """The curves along an edge, as the text tells them."""
        if not self.is_overlay:
            return spaced(edge.curves)
        return spaced([f"r{curve}" for curve in edge.curves] + [f"b{curve}" for curve in edge.blue])


def simple_rings(points: List[Point]) -> List[Ring]:
    """The rings of a walk, which parts where it comes to a point again."""
    found, walk = [], []
    for point in points:
        if point in walk:
            place = walk.index(point)
            found.append(walk[place:])
            del walk[place:]
        walk.append(point)
    return found + [walk]


def sides_of(ring: Ring) -> Iterator[Tuple[Point, Point]]:
    """The sides of a ring, the last of which leads back to its first point."""
    return zip(ring, ring[1:] + ring[:1])


def area_within(ring: Ring) -> Fraction:
    """The area that a ring goes round, positive counterclockwise."""
    return sum((x1 * y2 - x2 * y1 for (x1, y1), (x2, y2) in sides_of(ring)), Fraction(0)) / 2


def goes_round(ring: Ring, point: Point) -> bool:
    """The even-odd rule, for a point on no side: whether a ray to the right crosses the ring an odd number of times."""
    (x, y), inside = point, False
    for (x1, y1), (x2, y2) in sides_of(ring):
        if (y1 > y) != (y2 > y):
            inside ^= x1 + (y - y1) * (x2 - x1) / (y2 - y1) > x
    return inside


def triple(point: Point) -> str:
    """The numbers X Y W of a point, in lowest terms."""
    x, y = point
    weight = x.denominator * y.denominator // gcd(x.denominator, y.denominator)
    return f"{x * weight} {y * weight} {weight}"


def point_in(words: Iterable[str]) -> Point:
    """The point of numbers X Y W in their ranges."""
    x, y, weight = map(int, words)
    if weight > LARGEST_WEIGHT or max(abs(x), abs(y)) > LARGEST_COORDINATE * weight:
        raise ValueError
    return Fraction(x, weight), Fraction(y, weight)


def spaced(numbers: Iterable[Any]) -> str:
    return "".join(f" {number}" for number in numbers)


def simplest_between(low: Fraction, high: Fraction) -> Fraction:
    """A fraction of least denominator strictly between two others."""
    whole = floor(low)
    if whole + 1 < high:
        return Fraction(whole + 1)
    if low == whole:
        return whole + Fraction(1, floor(1 / (high - whole)) + 1)
    return whole + 1 / simplest_between(1 / (high - whole), 1 / (low - whole))


def texts_in(replies: str) -> List[str]:
    """The texts of subdivisions and overlays among the replies of a run, in their order."""
    return re.findall(r"^(?:arrangement|overlay) .*?^end\n", replies, re.MULTILINE | re.DOTALL)


def read_show(text: str) -> Subdivision:
    """The subdivision or the overlay of which this is the text."""
    subdivision = Rows(text).subdivision()
    demand_text(text, subdivision.text())
    if subdivision.is_overlay:
        demand_labels(subdivision)
    return subdivision


def demand_text(text: str, due: str) -> None:
    """The text is the one that is due, byte for byte."""
    for place, (line, other) in enumerate(zip_longest(text.split("\n"), due.split("\n")), 1):
        demand(line == other, f"line {place} is {line!r}, where {other!r} is due")


def demand_labels(overlay: Subdivision) -> None:
    """Each layer's labels begin at 0, all are there, and two faces have one where no curve of the layer runs between them."""
    for layer, colour in enumerate(("red", "blue")):
        label = {face.rank: face.labels[layer] for face in overlay.faces}
        demand(label[0] == 0, f"the unbounded face has another {colour} label than 0")
        demand(set(label.values()) == set(range(max(label.values()) + 1)), f"a {colour} label is missing")
        for dart in overlay.darts:
            same = label[overlay.face_of[dart.key].rank] == label[overlay.across(dart).rank]
            demand(same or (dart.blue if layer else dart.curves), f"a {colour} label changes across the edge {dart.key}, which has no curve")


def demand(condition: Any, what: str) -> None:
    if not condition:
        raise NotASubdivision(what)


class Rows:
    """What a text says of points, edges and faces. The rest of it follows from these."""

    def __init__(self, text: str):
        self.is_overlay = text.startswith("overlay ")
        self.points: Dict[int, Point] = {}
        self.pins: Set[int] = set()
        self.curves: Dict[Key, Tuple[Tuple[int, ...], Tuple[int, ...]]] = {}
        self.faces: List[Tuple[List[Key], List[int], Optional[Key]]] = []
        for place, line in enumerate(text.split("\n"), 1):
            try:
                self.read(*line.split(" "))
            except (ValueError, LookupError, ZeroDivisionError):
                raise NotASubdivision(f"line {place} can't be read: {line!r}") from None
        points = list(self.points.values())
        demand(list(self.points) == list(range(1, len(points) + 1)), "the vertices aren't numbered from 1 on")
        demand(all(p < q for p, q in zip(points, points[1:])), "the vertices aren't in the order of their points")
        demand(self.faces, "there is no face")

    def read(self, kind: str, *words: str) -> None:
        """Takes what one line says. Lines of other kinds are left to the comparison with what is due."""
        if kind == "v":
            number = int(words[0])
            self.points[number] = point_in(words[1:4])
            self.pins.update([number] if "pin" in words else [])
        elif kind == "e":
            low, high, _, *curves = words
            key = int(low), int(high)
            self.curves[key] = self.curves[key[::-1]] = self.curves_of(curves)
        elif kind == "f":
            labels = (int(words[1]), int(words[2])) if self.is_overlay else None
            self.faces.append(([], [], labels))
        elif kind in ("o", "h"):
            self.faces[-1][0].append((int(words[0]), int(words[1])))
        elif kind == "p":
            self.faces[-1][1].append(int(words[0]))

    def curves_of(self, words: List[str]) -> Tuple[Tuple[int, ...], Tuple[int, ...]]:
        """The curves of an edge, in an overlay the red ones and the blue ones; there is one at least."""
        red = [word[1:] for word in words if word[:1] == "r"] if self.is_overlay else words
        blue = [word[1:] for word in words if word[:1] == "b"] if self.is_overlay else []
        numbers = list(map(int, red + blue))
        if not 1 <= min(numbers) <= max(numbers) <= LARGEST_CURVE:
            raise ValueError
        return tuple(sorted(set(map(int, red)))), tuple(sorted(set(map(int, blue))))

    def subdivision(self) -> Subdivision:
        demand(all(self.points.keys() >= set(key) for key in self.curves), "an edge has an end that is no vertex")
        around = self.neighbours()
        vertices = {n: Vertex(n, *point, n in self.pins, around[n]) for n, point in self.points.items()}
        darts = {key: Dart(vertices[key[0]], vertices[key[1]], *self.curves[key]) for key in sorted(self.curves)}
        cycles = {cycle.darts[0].key: cycle for cycle in cycles_of(darts, around)}
        faces = self.ranked_faces(vertices, cycles)
        return Subdivision(tuple(vertices.values()), tuple(darts.values()), tuple(cycles.values()), faces, self.is_overlay)

    def neighbours(self) -> Dict[int, Tuple[int, ...]]:
        """The neighbours of each vertex, clockwise from the least."""
        around = {number: [] for number in self.points}
        for source, target in sorted(self.curves):
            around[source].append(target)
        return {number: clockwise(self.points, number, targets) for number, targets in around.items()}

    def ranked_faces(self, vertices: Dict[int, Vertex], cycles: Dict[Key, Cycle]) -> Tuple[Face, ...]:
        """The faces, told by the least darts of their cycles and by their isolated vertices."""
        starts = sorted(key for keys, _, _ in self.faces for key in keys)
        demand(starts == list(cycles), "the cycles of the faces aren't those of the edges, each once")
        isolated = sorted(number for _, numbers, _ in self.faces for number in numbers)
        apart = [number for number, vertex in vertices.items() if not vertex.neighbours]
        demand(isolated == apart, "the isolated vertices of the faces aren't those without edges, each once")
        faces: List[Face] = []
        for keys, numbers, labels in self.faces:
            outer = [cycles[key] for key in keys if cycles[key].is_outer]
            holes = (cycles[key] for key in sorted(keys) if not cycles[key].is_outer)
            demand(len(outer) == (1 if faces else 0), "just the first face has no outer cycle, and no face has two")
            isolated = tuple(vertices[number] for number in sorted(numbers))
            faces.append(Face(len(faces), outer[0] if outer else None, tuple(holes), isolated, labels))
        leasts = [face.outer.darts[0].key for face in faces[1:]]
        demand(leasts == sorted(leasts), "the faces aren't in the order of the least darts of their outer cycles")
        return tuple(faces)


def cycles_of(darts: Dict[Key, Dart], around: Dict[int, Tuple[int, ...]]) -> Iterator[Cycle]:
    """The boundary cycles in the order of their least darts."""
    left = dict(darts)
    for first in darts:
        cycle, key = [], first
        while key in left:
            cycle.append(left.pop(key))
            key = key_after(key, around)
        if cycle:
            yield Cycle(tuple(cycle))


def key_after(key: Key, around: Dict[int, Tuple[int, ...]]) -> Key:
    """The dart that leaves a dart's target first clockwise after the twin."""
    source, target = key
    place = around[target].index(source) + 1
    return target, around[target][place % len(around[target])]


def clockwise(points: Dict[int, Point], source: int, targets: List[int]) -> Tuple[int, ...]:
    """The targets of darts out of a vertex, in clockwise order, the first of them still first."""

    def way(target: int) -> List[Fraction]:
        return [there - here for there, here in zip(points[target], points[source])]

    def half(x: Fraction, y: Fraction) -> int:
        """0 from straight up clockwise to just before straight down, 1 from there on."""
        return 0 if x > 0 or (x == 0 and y > 0) else 1

    def compare(a: int, b: int) -> Any:
        (ax, ay), (bx, by) = way(a), way(b)
        return half(ax, ay) - half(bx, by) or ax * by - ay * bx

    turned = sorted(targets, key=cmp_to_key(compare))
    first = turned.index(targets[0]) if targets else 0
    return tuple(turned[first:] + turned[:first])


# Regions


@dataclass(frozen=True)
class Region:
    """What two layers make as even-odd sets: polygons, each as its rings, the outer one first, counterclockwise, then its holes, clockwise.

    A ring begins at its least point; polygons and holes stand in the order of these points.
    """

    polygons: Tuple[Tuple[Ring, ...], ...]

    @property
    def area(self) -> Fraction:
        return sum(map(polygon_area, self.polygons), Fraction(0))


def polygon_area(rings: Iterable[Ring]) -> Fraction:
    """The area of a polygon without its holes, which go clockwise."""
    return sum(map(area_within, rings), Fraction(0))


def regions_in(replies: str) -> List[str]:
    """The texts of regions among the replies of a run, in their order."""
    return re.findall(r"^region .*?^end\n", replies, re.MULTILINE | re.DOTALL)


def read_region(text: str) -> Region:
    """The region of which this is the text."""
    rings = [ring for cycle in border_cycles(border_in(text)) for ring in simple_rings(cycle.points)]
    return Region(polygons_of(list(map(from_least, rings))))


def from_least(ring: Ring) -> Ring:
    """The ring from its least point on."""
    place = ring.index(min(ring))
    return ring[place:] + ring[:place]


def border_in(text: str) -> List[Tuple[Point, Point]]:
    """The darts on the border, as the text tells them: from point to point, in their order."""
    border = []
    for place, line in enumerate(text.split("\n"), 1):
        kind, *words = line.split(" ")
        # Lines of other kinds are left to the comparison with what is due.
        if kind != "b":
            continue
        try:
            border.append((point_in(words[:3]), point_in(words[3:])))
        except (ValueError, ZeroDivisionError):
            raise NotASubdivision(f"line {place} can't be read: {line!r}") from None
    rows = [f"b {triple(source)} {triple(target)}" for source, target in border]
    demand_text(text, "\n".join([f"region {len(border)}", *rows, "end", ""]))
    demand(all(d < e for d, e in zip(border, border[1:])), "the darts aren't in their order")
    ways = set(border)
    for source, target in border:
        demand(source != target and (target, source) not in ways, f"{told(source)} to {told(target)} isn't between inside and outside")
    return border


def border_cycles(border: List[Tuple[Point, Point]]) -> Iterator[Cycle]:
    """The walks along the border, each with one connected part of the inside on its left: at each point on to the first dart clockwise."""
    numbers = {point: number for number, point in enumerate(sorted({point for dart in border for point in dart}), 1)}
    points = {number: point for point, number in numbers.items()}
    keys = [(numbers[source], numbers[target]) for source, target in border]
    around: Dict[int, List[int]] = {number: [] for number in points}
    for source, target in keys:
        around[source].append(target)
        around[target].append(source)
    turned = {number: clockwise(points, number, others) for number, others in around.items()}
    vertices = {number: Vertex(number, *point, False, turned[number]) for number, point in points.items()}
    darts = {(source, target): Dart(vertices[source], vertices[target], ()) for source, target in keys}
    for key in keys:
        demand(key_after(key, turned) in darts, f"at {told(points[key[1]])} the inside isn't on the left")
    return cycles_of(darts, turned)


class Loop:
    """A ring of a region, its area (negative of a hole), a point on one of its sides and the box that it fills."""

    def __init__(self, ring: Ring):
        (x1, y1), (x2, y2) = ring[:2]
        self.ring, self.area = ring, area_within(ring)
        self.middle = (x1 + x2) / 2, (y1 + y2) / 2
        xs, ys = zip(*ring)
        self.west, self.east, self.south, self.north = min(xs), max(xs), min(ys), max(ys)

    def holds(self, other: "Loop") -> bool:
        """Whether it goes round another ring, with which it may share points, but no sides."""
        x, y = other.middle
        return self.west < x < self.east and self.south < y < self.north and goes_round(self.ring, other.middle)


def polygons_of(rings: List[Ring]) -> Tuple[Tuple[Ring, ...], ...]:
    """The polygons of the rings: each hole goes to the outer ring next round it; an outer ring lies in another one only within a hole."""
    loops = [Loop(ring) for ring in rings]
    holes: Dict[Loop, List[Ring]] = {loop: [] for loop in loops if loop.area > 0}
    for loop in loops:
        demand(loop.area, f"the ring from {told(loop.ring[0])} goes round nothing")
        around = (other for other in loops if other is not loop and other.holds(loop))
        within = min(around, key=lambda other: abs(other.area), default=None)
        if loop in holes:
            demand(within not in holes, f"the ring from {told(loop.ring[0])} lies in what is inside")
        else:
            demand(within in holes, f"the hole from {told(loop.ring[0])} lies in nothing that is inside")
            holes[within].append(loop.ring)
    return tuple(sorted((loop.ring, *sorted(some)) for loop, some in holes.items()))


# Names


def table_in(text: str) -> Table:
    """A table of names and curves, as lines_to_script.py writes it."""
    table = []
    for place, line in enumerate(text.splitlines(), 1):
        name, tab, cells = line.partition("\t")
        demand(tab, f"the table's line {place} has no tab: {line!r}")
        table.append((name, [int(cell) for cell in cells.split() if re.fullmatch("[0-9]+", cell)]))
    return table


def features_along(read: Subdivision, table: Table, is_blue: bool) -> Dict[Key, FrozenSet[int]]:
    """For each dart the places in the table of the features of which an odd number of curves run along it."""
    owners: Dict[int, List[int]] = {}
    for place, (_, curves) in enumerate(table):
        for curve in curves:
            owners.setdefault(curve, []).append(place)
    along = {}
    for dart in read.darts:
        some = [place for curve in (dart.blue if is_blue else dart.curves) for place in owners.get(curve, [])]
        along[dart.key] = frozenset(place for place in some if some.count(place) % 2)
    return along


def open_features(along: Dict[Key, FrozenSet[int]]) -> Set[int]:
    """The features that go round nothing: at some vertex an odd number of their edges end."""
    odd: Dict[int, FrozenSet[int]] = {}
    for (source, _), places in along.items():
        odd[source] = odd.get(source, frozenset()) ^ places
    return {place for places in odd.values() for place in places}


def names_of_faces(read: Subdivision, table: Table, is_blue: bool = False) -> List[List[str]]:
    """For each face the names of the features that go round it, in the order of the table.

    From the unbounded face, which is in none, each edge that is crossed leads into the features that it bounds, or out of them.
    """
    along = features_along(read, table, is_blue)
    left_out = open_features(along)
    within: Dict[int, FrozenSet[int]] = {0: frozenset()}
    found = [read.faces[0]]
    while found:
        face = found.pop()
        for rank, darts in read.neighbours(face).items():
            if rank not in within:
                within[rank] = within[face.rank] ^ (along[darts[0].key] - left_out)
                found.append(read.faces[rank])
    return [[table[place][0] for place in sorted(within[face.rank])] for face in read.faces]


def names_without_faces(read: Subdivision, table: Table, is_blue: bool = False) -> List[str]:
    """The names of features that go round nothing, as roads do."""
    return [table[place][0] for place in sorted(open_features(features_along(read, table, is_blue)))]


# Writing


@dataclass(frozen=True)
class Place:
    """What leads from script coordinates back to a map's."""

    offset: Point = (Fraction(0), Fraction(0))
    scale: Fraction = Fraction(1)

    def position(self, point: Point) -> List[float]:
        return [float(c / self.scale + o) for c, o in zip(point, self.offset)]

    def area(self, area: Fraction) -> float:
        return float(area / self.scale**2)

    def polygon(self, rings: Iterable[Ring]) -> List[List[List[float]]]:
        """The rings of a polygon, each ending where it begins."""
        return [[self.position(point) for point in ring + ring[:1]] for ring in rings]

    def wkt(self, rings: Iterable[Ring]) -> str:
        """The polygon in WKT."""
        told_rings = (", ".join("{!r} {!r}".format(*position) for position in ring) for ring in self.polygon(rings))
        return "POLYGON (" + ", ".join(f"({ring})" for ring in told_rings) + ")"


def told(point: Point) -> str:
    return f"({point[0]}, {point[1]})"


def describe(read: Subdivision, face: Face, names: List[str]) -> Iterator[str]:
    """The lines that are printed of a face."""
    labels = "red {}, blue {}, ".format(*face.labels) if face.labels else ""
    named = "".join(f", in {name}" for name in names)
    yield f"face {face.rank}: {labels}area {face.area}, inside {told(face.point_inside())}{named}"
    for cycle in face.cycles:
        yield ("  outer " if cycle is face.outer else "  hole ") + " ".join(map(told, cycle.points))
    for vertex in face.isolated:
        yield "  isolated " + told(vertex.point)
    yield f"  neighbours{spaced(read.neighbours(face))}"


def wkt_rows(read: Subdivision, names: List[List[str]], place: Place) -> Iterator[str]:
    """A heading, and a row for each bounded face."""
    yield "\t".join(["face", *["red", "blue"] * read.is_overlay, "names", "area", "polygon"])
    for face in read.faces[1:]:
        cells = [face.rank, *(face.labels or ()), "; ".join(names[face.rank]), place.area(face.area), place.wkt(read.rings(face))]
        yield "\t".join(map(str, cells))


def geojson(read: Subdivision, names: List[List[str]], place: Place) -> str:
    """A collection with a feature for each bounded face."""
    features = []
    for face in read.faces[1:]:
        properties: Dict[str, Any] = {"face": face.rank, "names": names[face.rank], "area": place.area(face.area)}
        if face.labels:
            properties["red"], properties["blue"] = face.labels
        properties["neighbours"] = list(read.neighbours(face))
        features.append(feature_of(properties, place.polygon(read.rings(face))))
    return collection_of(features)


def feature_of(properties: Dict[str, Any], polygon: List[List[List[float]]]) -> Dict[str, Any]:
    return {"type": "Feature", "properties": properties, "geometry": {"type": "Polygon", "coordinates": polygon}}


def collection_of(features: List[Dict[str, Any]]) -> str:
    return json.dumps({"type": "FeatureCollection", "features": features}, ensure_ascii=False)


def describe_region(region: Region) -> Iterator[str]:
    """The lines that are printed of a region."""
    for number, (outer, *holes) in enumerate(region.polygons, 1):
        yield f"polygon {number}: area {polygon_area([outer, *holes])}"
        yield "  outer " + " ".join(map(told, outer))
        yield from ("  hole " + " ".join(map(told, hole)) for hole in holes)


def region_wkt_rows(region: Region, place: Place) -> Iterator[str]:
    """A heading, and a row for each polygon."""
    yield "number\tarea\tpolygon"
    for number, rings in enumerate(region.polygons, 1):
        yield f"{number}\t{place.area(polygon_area(rings))}\t{place.wkt(rings)}"


def region_geojson(region: Region, place: Place) -> str:
    """A collection with a feature for each polygon."""
    return collection_of(
        [
            feature_of({"number": number, "area": place.area(polygon_area(rings))}, place.polygon(rings))
            for number, rings in enumerate(region.polygons, 1)
        ]
    )


def offset_pair(text: str) -> Point:
    x, y = map(Fraction, text.split(","))
    return x, y


def scale_of(text: str) -> Fraction:
    scale = Fraction(text)
    demand(scale > 0, f"{text} isn't above 0")
    return scale


def options_of(words: List[str]) -> argparse.Namespace:
    parser = argparse.ArgumentParser(description="Prints the faces of a subdivision or of an overlay, or the polygons of a region.")
    parser.add_argument("file", nargs="?", metavar="FILE", help="the text; standard input without it")
    parser.add_argument("--replies", action="store_true", help="FILE holds replies of a run: read the last text in them")
    parser.add_argument("--text", type=int, metavar="N", help="with --replies: read the N-th text in them, from 1 on")
    parser.add_argument("--region", action="store_true", help="read the text of a region")
    parser.add_argument("--wkt", action="store_true", help="write a table of polygons in WKT, parted by tabs")
    parser.add_argument("--geojson", action="store_true", help="write polygons in GeoJSON")
    parser.add_argument("--names", metavar="TABLE", help="names of the features, in an overlay of the red ones")
    parser.add_argument("--blue-names", metavar="TABLE", help="names of the blue features of an overlay")
    parser.add_argument("--offset", type=offset_pair, default=Place.offset, metavar="X,Y", help="the offset of the script")
    parser.add_argument("--scale", type=scale_of, default=Place.scale, metavar="S", help="the scale of the script")
    return parser.parse_args(words)


def text_in(text: str, options: argparse.Namespace) -> str:
    """The text that the options choose."""
    if not options.replies:
        return text
    texts = regions_in(text) if options.region else texts_in(text)
    number = len(texts) if options.text is None else options.text
    kind = "regions" if options.region else "subdivisions"
    demand(1 <= number <= len(texts), f"the replies have {len(texts)} texts of {kind}, and no text {number}")
    return texts[number - 1]


def all_names(read: Subdivision, options: argparse.Namespace) -> List[List[str]]:
    """The names on each face, by the tables that are given."""
    names: List[List[str]] = [[] for _ in read.faces]
    for file_name, is_blue in ((options.names, False), (options.blue_names, True)):
        if file_name:
            with open(file_name, encoding="utf-8") as file:
                table = table_in(file.read())
            names = [some + more for some, more in zip(names, names_of_faces(read, table, is_blue))]
            for name in names_without_faces(read, table, is_blue):
                print(f"read_show.py: {name} goes round nothing, and names no face", file=sys.stderr)
    return names


def lines_for(text: str, options: argparse.Namespace) -> Iterable[str]:
    """What is written."""
    place = Place(options.offset, options.scale)
    if options.region:
        return region_lines(read_region(text), options, place)
    read = read_show(text)
    names = all_names(read, options)
    if options.geojson:
        return [geojson(read, names, place)]
    if options.wkt:
        return wkt_rows(read, names, place)
    return (line for face in read.faces for line in describe(read, face, names[face.rank]))


def region_lines(region: Region, options: argparse.Namespace, place: Place) -> Iterable[str]:
    """What is written of a region."""
    demand(not (options.names or options.blue_names), "a region has no faces that could be named")
    if options.geojson:
        return [region_geojson(region, place)]
    return region_wkt_rows(region, place) if options.wkt else describe_region(region)


def main() -> int:
    options = options_of(sys.argv[1:])
    try:
        with open(options.file or 0, encoding="ascii", newline="") as file:
            lines = list(lines_for(text_in(file.read(), options), options))
    except (OSError, ValueError) as error:
        print(f"read_show.py: {error}", file=sys.stderr)
        return 1
    sys.stdout.reconfigure(encoding="utf-8")
    print("".join(line + "\n" for line in lines), end="")
    return 0


if __name__ == "__main__":
    sys.exit(main())
