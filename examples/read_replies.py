"""Reads single replies of `planar` into values: what an edit did, where a point lies, curves, counts, edges, regions, verticals, envelopes.

`read_reply(text)` gives the value of a reply, `written(value)` the lines of it, and `replies_in(replies)` the replies of a run. Texts of
subdivisions and overlays are read by read_show.py.

Points are pairs of exact fractions. Reading is strict: what was read is written again, and must be the reply byte for byte. All else is
refused (`NotAReply`). docs/SCRIPT.md describes the replies. Python 3.8 or later, with its standard library alone.
"""

from __future__ import annotations

import re
from typing import Any, Callable, Dict, Iterator, List, NamedTuple, Optional, Sequence, Tuple, Union

from read_show import Point, point_in, spaced, triple

Curves = Tuple[int, ...]

# First words of the replies that go on to a line `end`.
SUBDIVISIONS = ("arrangement", "overlay")
LISTS = ("curve", "region", "vertical", "batch", "envelope")


class NotAReply(ValueError):
    """The text isn't a reply that can be read."""


class Done(NamedTuple):
    """An edit was made, or observers or the layer were changed: the number of the new curve, if there is one, and which observers went."""

    curve: Optional[int] = None
    joined: Tuple[int, ...] = ()
    left: Tuple[int, ...] = ()
    lost: Tuple[int, ...] = ()


class Vertex(NamedTuple):
    """A point that is a vertex."""

    point: Point


class Edge(NamedTuple):
    """The edge between two vertices, the lesser one first."""

    lower: Point
    upper: Point


class Face(NamedTuple):
    """A face by its rank. The unbounded one has rank 0."""

    rank: int


Place = Union[Vertex, Edge, Face]


class Along(NamedTuple):
    """The curves along an edge, by their numbers, ascending."""

    curves: Curves


class Counts(NamedTuple):
    """How many vertices, edges, faces, inner boundary cycles, isolated vertices and named curves there are."""

    vertices: int
    edges: int
    faces: int
    inner: int
    isolated: int
    curves: int


class Curve(NamedTuple):
    """A curve by its number, with its edges in their order."""

    number: int
    edges: Tuple[Edge, ...]


class Border(NamedTuple):
    """A region by the directed edges of its border, each as its two ends. What is inside is on the left."""

    darts: Tuple[Tuple[Point, Point], ...]


class Part(NamedTuple):
    """A vertex, and what is directly above and below it: a vertex, an edge, or nothing."""

    vertex: Point
    above: Optional[Place]
    below: Optional[Place]


class Verticals(NamedTuple):
    """The vertical neighbours of all vertices, in the order of their points."""

    parts: Tuple[Part, ...]


class Batch(NamedTuple):
    """Where several points lie, in their order."""

    places: Tuple[Place, ...]


class Corner(NamedTuple):
    """A vertex of an envelope, with the curves of all edges that end there."""

    point: Point
    curves: Curves


class Stretch(NamedTuple):
    """The edge that is outermost between two vertices of an envelope, with its curves. It may reach beyond them."""

    edge: Edge
    curves: Curves


class Envelope(NamedTuple):
    """The vertices of an envelope from left to right, and what is between each two of them: an edge, or nothing where there is a gap."""

    corners: Tuple[Corner, ...]
    between: Tuple[Optional[Stretch], ...]


# Reading


def edge_in(words: Sequence[str]) -> Edge:
    """The edge of six numbers, its lesser end first."""
    edge = Edge(point_in(words[:3]), point_in(words[3:]))
    if not edge.lower < edge.upper:
        raise ValueError
    return edge


def place_in(words: Sequence[str]) -> Place:
    """Where a point lies."""
    kind, *rest = words
    if kind == "vertex":
        return Vertex(point_in(rest))
    if kind == "edge":
        return edge_in(rest)
    return Face(int(rest[0]))


def numbers_in(words: Sequence[str]) -> Tuple[int, ...]:
    return tuple(map(int, words))


def done_in(words: Sequence[str]) -> Done:
    """What stands behind `ok`: a number, then groups of words that each name an observer."""
    curve = int(words[0]) if words and words[0].isdecimal() else None
    rest = list(words[curve is not None :])
    groups = {kind: tuple(int(name) for word, name in zip(rest[::2], rest[1::2]) if word == kind) for kind in ("joined", "left", "lost")}
    return Done(curve, **groups)


def part_in(line: str) -> Part:
    """A row `v X Y W above A below B`."""
    point, above, below = re.fullmatch("v (.*) above (.*) below (.*)", line).groups()
    return Part(point_in(point.split(" ")), *(None if word == "none" else place_in(word.split(" ")) for word in (above, below)))


def corner_in(line: str) -> Corner:
    """A row `v X Y W : c ..`."""
    _, x, y, weight, _, *curves = line.split(" ")
    return Corner(point_in((x, y, weight)), numbers_in(curves))


def stretch_in(line: str) -> Optional[Stretch]:
    """A row `e P Q : c ..`, or `gap`."""
    if line == "gap":
        return None
    words = line.split(" ")
    return Stretch(edge_in(words[1:7]), numbers_in(words[8:]))


def border_in(rows: Sequence[str]) -> Border:
    ends = (line.split(" ")[1:] for line in rows)
    return Border(tuple((point_in(words[:3]), point_in(words[3:])) for words in ends))


# What makes a value of the words of a reply's first line and of its other lines, by its first word.
READERS: Dict[str, Callable[[Sequence[str], Sequence[str]], Any]] = {
    "ok": lambda words, rows: done_in(words),
    "vertex": lambda words, rows: place_in(("vertex", *words)),
    "edge": lambda words, rows: place_in(("edge", *words)),
    "face": lambda words, rows: place_in(("face", *words)),
    "curves": lambda words, rows: Along(numbers_in(words)),
    "counts": lambda words, rows: Counts(*numbers_in(words)),
    "curve": lambda words, rows: Curve(int(words[0]), tuple(edge_in(line.split(" ")[1:]) for line in rows)),
    "region": lambda words, rows: border_in(rows),
    "vertical": lambda words, rows: Verticals(tuple(map(part_in, rows))),
    "batch": lambda words, rows: Batch(tuple(place_in(line.split(" ")) for line in rows)),
    "envelope": lambda words, rows: Envelope(tuple(map(corner_in, rows[::2])), tuple(map(stretch_in, rows[1::2]))),
}


def read_reply(text: str) -> Any:
    """The value of a reply, which ends with its line end."""
    head, *rows = text.split("\n")
    kind, *words = head.split(" ")
    try:
        value = READERS[kind](words, rows[:-2])
        same = "".join(line + "\n" for line in written(value)) == text
    except (ValueError, LookupError, TypeError, AttributeError, ZeroDivisionError):
        same = False
    if not same:
        raise NotAReply(f"this can't be read: {text[:80]!r}")
    return value


# Writing


def told(place: Optional[Place]) -> str:
    """Where a point lies, in the words of a reply."""
    if place is None:
        return "none"
    if isinstance(place, Face):
        return f"face {place.rank}"
    return " ".join([type(place).__name__.lower(), *map(triple, place)])


def rows_of(value: Any) -> Iterator[str]:
    """The lines between the first one and `end`."""
    if isinstance(value, Curve):
        yield from (f"e {triple(edge.lower)} {triple(edge.upper)}" for edge in value.edges)
    elif isinstance(value, Border):
        yield from (f"b {triple(source)} {triple(target)}" for source, target in value.darts)
    elif isinstance(value, Verticals):
        yield from (f"v {triple(part.vertex)} above {told(part.above)} below {told(part.below)}" for part in value.parts)
    elif isinstance(value, Batch):
        yield from map(told, value.places)
    else:
        yield from envelope_rows(value)


def envelope_rows(envelope: Envelope) -> Iterator[str]:
    for place, corner in enumerate(envelope.corners):
        if place:
            stretch = envelope.between[place - 1]
            yield "gap" if stretch is None else f"e {' '.join(map(triple, stretch.edge))} :{spaced(stretch.curves)}"
        yield f"v {triple(corner.point)} :{spaced(corner.curves)}"


def written(value: Any) -> List[str]:
    """The lines of the reply that has this value."""
    if isinstance(value, Done):
        groups = [f" {kind} {name}" for kind in ("joined", "left", "lost") for name in getattr(value, kind)]
        return ["ok" + spaced([value.curve][: value.curve is not None]) + "".join(groups)]
    if isinstance(value, (Vertex, Edge, Face)):
        return [told(value)]
    if isinstance(value, Along):
        return ["curves" + spaced(value.curves)]
    if isinstance(value, Counts):
        return ["counts" + spaced(value)]
    heads = {Curve: "curve", Border: "region", Verticals: "vertical", Batch: "batch", Envelope: "envelope"}
    number = value.number if isinstance(value, Curve) else len(value[0])
    return [f"{heads[type(value)]} {number}", *rows_of(value), "end"]


# Replies of a run


def replies_in(replies: str) -> List[str]:
    """The replies of a run, one after the other, each with its line end."""
    heads = "|".join(SUBDIVISIONS + LISTS)
    return re.findall(rf"^(?:(?:{heads}) .*?^end|.*?)\n", replies, re.MULTILINE | re.DOTALL)
