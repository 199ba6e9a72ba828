#!/usr/bin/env python3
"""Draws the last text of `show`, `mirror`, `overlay`, `region`, `vertical` or `envelope` among replies as SVG.

    planar < map.script | draw.py > map.svg
    draw.py --labels all --size 1200 --points map.script map.replies > map.svg
    draw.py --over map.replies > region.svg

Faces are filled and numbered, holes left out of them. Of an overlay red and blue curves have their colours, an edge of both has both, and
the faces are filled by what holds them: a red face, a blue one, or both. Vertices are dots, pinned ones rings. A region is filled, the
verticals go up and down from each vertex to what is next there, and an envelope is a thick line; with --over they are drawn over the last
subdivision or overlay that stands before them. With --points each point of a line `locate`, `pin` or `batch` of a script is marked by a
cross. The pointer tells of each face, edge, vertex and mark what it is.

--labels says what is written: `none`, the numbers of `faces` (the default), or `all`: vertices and the curves along edges too. What has no
room isn't written, and standard error tells how many that are. --size is the longer side of the picture in pixels.

Python 3.8 or later, with its standard library alone.
"""

from __future__ import annotations

import argparse
import re
import sys
from fractions import Fraction
from math import atan2, cos, pi, sin, sqrt
from pathlib import Path
from typing import Any, Dict, Iterable, Iterator, List, Optional, Sequence, Set, Tuple
from xml.sax.saxutils import escape

import read_show
from label_places import FreePlaces, Spot, middle_of
from nets import edges_of
from read_replies import Border, Edge, Envelope, NotAReply, Part, Place, Vertex, Verticals, read_reply, replies_in
from read_show import Point, Subdivision, demand, point_in, texts_in

TEXTS = ("arrangement", "overlay", "region", "vertical", "envelope")
LABELS = ("none", "faces", "all")
MARGIN = 28
LEAST_SIZE, MOST_SIZE = 100, 20000
# Heights of letters in pixels: faces, what is beside edges and vertices, and the least that can be read.
FACE_LETTERS, SMALL_LETTERS, LEAST_LETTERS = 14.0, 10.0, 6.0
# How wide a letter is and how high a digit, for a height of letters of 1, with a little space round it.
WIDE, HIGH, SPACE = 0.65, 0.75, 0.3

# Half the width of a mark.
MARK = 4.0

INK, CURVE, RED, BLUE, ACCENT = "#333333", "#8a4b08", "#c62828", "#1f5fbf", "#00796b"
FILLS = ("#fde9c9", "#d9ead3", "#d0e0f0", "#ead1dc", "#fff2cc", "#d9d2e9", "#d0eae6", "#f4d6cc")
# By whether a red and whether a blue face holds the face.
HELD = {(False, False): "#f0f0e8", (True, False): "#f8d0c8", (False, True): "#c9dcf5", (True, True): "#d4bfe4"}


def short(number: float) -> str:
    """A length of the picture."""
    text = f"{number:.2f}".rstrip("0").rstrip(".")
    return "0" if text == "-0" else text


def told(number: Fraction) -> str:
    """A number as it is, or where that is long about."""
    return str(number) if len(str(number)) <= 20 else f"about {float(number):.6g}"


def point_told(point: Point) -> str:
    return f"({told(point[0])}, {told(point[1])})"


def listed(numbers: Iterable[int]) -> str:
    return " ".join(map(str, numbers))


def element(kind: str, title: str = "", text: str = "", **attributes: Any) -> str:
    """An element of SVG, with what the pointer tells of it. Underscores stand for hyphens."""
    told_all = "".join(
        f' {name.replace("_", "-")}="{short(value) if isinstance(value, float) else value}"' for name, value in attributes.items()
    )
    inside = (f"<title>{escape(title)}</title>" if title else "") + escape(text)
    return f"<{kind}{told_all}>{inside}</{kind}>" if inside else f"<{kind}{told_all}/>"


class Picture:
    """A picture that holds some points of a map, in layers one over the other. Places in it are pixels, y downwards."""

    LAYERS = ("ground", "faces", "lines", "pointers", "vertices", "marks", "labels")

    def __init__(self, points: Sequence[Point], size: int):
        xs, ys = [x for x, _ in points] or [Fraction(0)], [y for _, y in points] or [Fraction(0)]
        self.left, self.top, self.bottom = min(xs), max(ys), min(ys)
        longer = max(max(xs) - self.left, self.top - self.bottom)
        self.unit = Fraction(size - 2 * MARGIN) / longer if longer else Fraction(1)
        self.size = size
        right, bottom = self.at((max(xs), self.bottom))
        self.box = [-float(MARGIN), right + MARGIN, -float(MARGIN), bottom + MARGIN]
        spacing = sqrt(max(right, 1) * max(bottom, 1) / max(len(points), 1))
        # Lines and dots are thinner where there are many.
        self.dot, self.line = min(3.0, max(0.7, spacing / 9)), min(1.8, max(0.4, spacing / 14))
        self.elements: Dict[str, List[str]] = {layer: [] for layer in self.LAYERS}
        self.free = FreePlaces()
        self.without_room = 0

    def at(self, point: Point) -> Spot:
        """Where a point of the map is in the picture."""
        return float((point[0] - self.left) * self.unit), float((self.top - point[1]) * self.unit)

    def add(self, layer: str, *words: Any, **attributes: Any) -> None:
        self.elements[layer].append(element(*words, **attributes))

    def add_line(self, ends: Sequence[Point], title: str, *strokes: Dict[str, Any]) -> None:
        """A line, by one stroke or several one over the other; it is wide for the pointer."""
        (x1, y1), (x2, y2) = map(self.at, ends)
        place = {"x1": x1, "y1": y1, "x2": x2, "y2": y2}
        for stroke in strokes:
            self.add("lines", "line", **place, **{"stroke": INK, "stroke_width": self.line, **stroke})
        self.add("pointers", "line", title, **place)

    def add_label(self, text: str, spot: Spot, letters: float, **look: Any) -> None:
        """A label whose middle is at a spot."""
        x, y = spot
        self.add("labels", "text", "", text, x=x, y=y + letters * HIGH / 2, font_size=letters, **look)
        wide, high = half_sizes(text, letters)
        for place, reached in enumerate((x - wide - 4, x + wide + 4, y - high - 4, y + high + 4)):
            self.box[place] = (max if place % 2 else min)(self.box[place], reached)

    def add_free_label(self, text: str, spots: Iterable[Spot], **look: Any) -> None:
        """A small label with a white rim at the first of the spots where there is room for it, if there is one."""
        spot = self.free.first(spots, *half_sizes(text, SMALL_LETTERS))
        self.without_room += spot is None
        if spot:
            rim = {"stroke": "white", "stroke_width": 2, "stroke_linejoin": "round", "paint_order": "stroke"}
            self.add_label(text, spot, SMALL_LETTERS, **rim, **look)

    def svg(self) -> str:
        """The whole picture, its longer side as long as asked for."""
        left, right, top, bottom = self.box
        width, height = right - left, bottom - top
        pixels = [round(self.size * length / max(width, height)) for length in (width, height)]
        view = " ".join(map(short, (left, top, width, height)))
        ground = element("rect", "face 0, unbounded", x=left, y=top, width=width, height=height, fill="white")
        self.elements["ground"] = [ground]
        groups = {
            "pointers": 'stroke="black" stroke-opacity="0" stroke-width="8" stroke-linecap="round"',
            "lines": 'stroke-linecap="round"',
            "labels": f'font-family="DejaVu Sans, Verdana, sans-serif" text-anchor="middle" fill="{INK}" pointer-events="none"',
        }
        lines = [f'<svg xmlns="http://www.w3.org/2000/svg" width="{pixels[0]}" height="{pixels[1]}" viewBox="{view}">']
        for layer, elements in self.elements.items():
            lines += [f"<g {groups[layer]}>" if layer in groups else "<g>", *elements, "</g>"] if elements else []
        return "\n".join([*lines, "</svg>", ""])


def half_sizes(text: str, letters: float) -> Tuple[float, float]:
    """Half the width and half the height that a label takes."""
    return (WIDE * len(text) + SPACE) * letters / 2, (HIGH + SPACE) * letters / 2


# Subdivisions and overlays


def fills_of(read: Subdivision) -> Dict[int, str]:
    """The colours of the bounded faces: those of an overlay by what holds them, others so that neighbours differ, as a rule."""
    if read.is_overlay:
        return {face.rank: HELD[face.labels[0] > 0, face.labels[1] > 0] for face in read.faces[1:]}
    chosen: Dict[int, int] = {}
    for face in read.faces[1:]:
        near = [chosen[rank] for rank in read.neighbours(face) if rank in chosen]
        chosen[face.rank] = min((colour for colour in range(len(FILLS)) if colour not in near), default=face.rank % len(FILLS))
    return {rank: FILLS[colour] for rank, colour in chosen.items()}


def draw_faces(picture: Picture, read: Subdivision) -> None:
    """The bounded faces, their holes left out."""
    fills = fills_of(read)
    for face in read.faces[1:]:
        held = "in red face {} and blue face {}, ".format(*face.labels) if face.labels else ""
        title = f"face {face.rank}: {held}area {told(face.area)}"
        d = " ".join(path_of(picture, cycle.points) for cycle in face.cycles)
        picture.add("faces", "path", title, d=d, fill=fills[face.rank], fill_rule="evenodd")


def path_of(picture: Picture, points: Sequence[Point]) -> str:
    return "M" + " L".join(",".join(map(short, picture.at(point))) for point in points) + " Z"


def label_faces(picture: Picture, read: Subdivision, marked: List[Point]) -> None:
    """The number of each bounded face where it has most room, as large as fits."""
    for face in read.faces[1:]:
        wide, high = half_sizes(str(face.rank), FACE_LETTERS)
        left, right = (choose(dart.source.x for dart in face.darts) for choose in (min, max))
        alone = [vertex.point for vertex in face.isolated] + [point for point in marked if left <= point[0] <= right]
        ends = [(dart.source.point, dart.target.point) for dart in face.darts] + [(point, point) for point in alone]
        x, y, share = middle_of([(*picture.at(p), *picture.at(q)) for p, q in ends], wide, high, 1.5)
        letters = min(1.0, share) * FACE_LETTERS
        picture.without_room += letters < LEAST_LETTERS
        if letters >= LEAST_LETTERS:
            picture.add_label(str(face.rank), (x, y), letters)
            wide, high = half_sizes(str(face.rank), letters)
            picture.free.take((x - wide, x + wide, y - high, y + high))


def label_unbounded_face(picture: Picture) -> None:
    """The number 0 in a corner of the margin that is free, or farther out."""
    left, right, top, bottom = picture.box
    spots = [(x, y) for y in (top + MARGIN / 2, bottom - MARGIN / 2) for x in (left + MARGIN / 2, right - MARGIN / 2)]
    picture.add_label("0", picture.free.first(spots, *half_sizes("0", FACE_LETTERS)) or (left, top), FACE_LETTERS)


def strokes_of(edge: read_show.Dart, is_overlay: bool) -> List[Dict[str, Any]]:
    """The colours of an edge: those of the layers that have curves there, the second one in dashes over the first."""
    if not is_overlay:
        return [{"stroke": INK}]
    blue = {"stroke": BLUE, **({"stroke_dasharray": "6 6", "stroke_linecap": "butt"} if edge.curves else {})}
    return [{"stroke": RED}] * bool(edge.curves) + [blue] * bool(edge.blue)


def curves_told(edge: read_show.Dart, is_overlay: bool) -> str:
    return listed([f"r{curve}" for curve in edge.curves] + [f"b{curve}" for curve in edge.blue] if is_overlay else edge.curves)


def draw_edges(picture: Picture, read: Subdivision) -> None:
    """The edges, in the colours of their layers."""
    for edge in edges_of(read):
        ends = edge.source.point, edge.target.point
        title = f"edge {' '.join(map(point_told, ends))}: curves {curves_told(edge, read.is_overlay)}"
        picture.add_line(ends, title, *strokes_of(edge, read.is_overlay))


def draw_vertex(picture: Picture, point: Point, title: str, is_pinned: bool = False, colour: str = INK) -> None:
    """A dot, or a ring where the vertex is pinned."""
    x, y = picture.at(point)
    ring = {"fill": "white", "stroke": colour, "stroke_width": max(picture.dot / 2, 0.8)} if is_pinned else {"fill": colour}
    picture.add("vertices", "circle", title, cx=x, cy=y, r=picture.dot * (1.3 if is_pinned else 1.0), **ring)


def label_edges_and_vertices(picture: Picture, read: Subdivision, marked: List[Point]) -> None:
    """The number of each vertex beside it, where the angle between edges is widest; the curves along each edge on it."""
    for point, reach in [(vertex.point, picture.dot) for vertex in read.vertices] + [(point, MARK) for point in marked]:
        x, y = picture.at(point)
        picture.free.take((x - reach, x + reach, y - reach, y + reach))
    for vertex in read.vertices:
        picture.add_free_label(str(vertex.number), beside(picture, read, vertex))
    for edge in edges_of(read):
        (x1, y1), (x2, y2) = picture.at(edge.source.point), picture.at(edge.target.point)
        shares = (0.5, 0.35, 0.65, 0.2, 0.8)
        text, colour = curves_told(edge, read.is_overlay), (RED if edge.curves else BLUE) if read.is_overlay else CURVE
        is_long = 2 * half_sizes(text, SMALL_LETTERS)[1] < max(abs(x2 - x1), abs(y2 - y1))
        picture.add_free_label(text, ((x1 + (x2 - x1) * share, y1 + (y2 - y1) * share) for share in shares * is_long), fill=colour)


def beside(picture: Picture, read: Subdivision, vertex: read_show.Vertex) -> Iterator[Spot]:
    """Places beside a vertex: between its edges, the widest angle first."""
    x, y = picture.at(vertex.point)
    ways = [picture.at(read.vertices[number - 1].point) for number in vertex.neighbours]
    angles = sorted(atan2(there - y, right - x) for right, there in ways) or [pi / 4]
    gaps = sorted(((after - angle, angle) for angle, after in zip(angles, [*angles[1:], angles[0] + 2 * pi])), reverse=True)
    wide, high = (half + 1.5 * picture.dot for half in half_sizes(str(vertex.number), SMALL_LETTERS))
    for gap, angle in gaps:
        right, down = cos(angle + gap / 2), sin(angle + gap / 2)
        # So far that the label just doesn't touch the dot.
        far = 1 / max(abs(right) / wide, abs(down) / high)
        yield x + far * right, y + far * down


def draw_subdivision(picture: Picture, read: Subdivision, labels: str, marked: List[Point]) -> None:
    """Faces, edges and vertices, and what is written of them."""
    draw_faces(picture, read)
    draw_edges(picture, read)
    for vertex in read.vertices:
        title = f"vertex {vertex.number}: {point_told(vertex.point)}{', pinned' if vertex.is_pinned else ''}"
        draw_vertex(picture, vertex.point, title, vertex.is_pinned)
    if labels != "none":
        label_faces(picture, read, marked)
    if labels == "all":
        label_edges_and_vertices(picture, read, marked)
    if labels != "none":
        label_unbounded_face(picture)


# Regions, verticals, envelopes


def draw_border(picture: Picture, border: Border, is_alone: bool) -> None:
    """A region, filled by its walks; which ones doesn't matter, as long as each closes."""
    area = sum((x1 * y2 - x2 * y1 for (x1, y1), (x2, y2) in border.darts), Fraction(0)) / 2
    d = " ".join(path_of(picture, walk) for walk in walks_of(border))
    # Over a subdivision the pointer is left to its faces.
    look = {"fill": ACCENT, "fill_opacity": 0.35, "fill_rule": "evenodd", "pointer_events": "auto" if is_alone else "none"}
    if d:
        picture.add("faces", "path", f"the region: area {told(area)}", d=d, **look)
    for ends in border.darts:
        picture.add_line(ends, f"on the region's border: {' '.join(map(point_told, ends))}", {"stroke": ACCENT, "stroke_width": 3.0})
    if is_alone:
        for point in sorted({point for dart in border.darts for point in dart}):
            draw_vertex(picture, point, f"vertex: {point_told(point)}")


def walks_of(border: Border) -> Iterator[List[Point]]:
    """The border as closed walks: as many darts lead to each point as leave it."""
    left: Dict[Point, List[Point]] = {}
    for source, target in border.darts:
        left.setdefault(source, []).append(target)
    for source in list(left):
        while left[source]:
            walk = [source, left[source].pop()]
            while walk[-1] != source:
                demand(left.get(walk[-1]), f"the region's border doesn't close at {point_told(walk[-1])}")
                walk.append(left[walk[-1]].pop())
            yield walk[:-1]


def place_told(place: Optional[Place]) -> str:
    if place is None:
        return "nothing"
    return f"the vertex {point_told(place.point)}" if isinstance(place, Vertex) else f"the edge {' '.join(map(point_told, place))}"


def is_upright(place: Optional[Place]) -> bool:
    return isinstance(place, Edge) and place.lower[0] == place.upper[0]


def end_of(part: Part, place: Optional[Place], open_end: Fraction) -> Point:
    """Where the vertical from a vertex ends."""
    x, _ = part.vertex
    if place is None:
        return x, open_end
    if isinstance(place, Vertex):
        return place.point
    if is_upright(place):
        return place.upper if place.lower == part.vertex else place.lower
    (x1, y1), (x2, y2) = place
    return x, y1 + (x - x1) * (y2 - y1) / (x2 - x1)


def draw_verticals(picture: Picture, verticals: Verticals, is_alone: bool) -> None:
    """From each vertex up and down to what is next there: dashes, and a thick line where that is an edge upright."""
    if is_alone:
        for edge in sorted({place for part in verticals.parts for place in part[1:] if isinstance(place, Edge)}):
            picture.add_line(edge, f"edge {' '.join(map(point_told, edge))}", {})
    beyond = Fraction(MARGIN) * 2 / 3 / picture.unit
    ends = picture.top + beyond, picture.bottom - beyond
    drawn: Set[Tuple[Point, Point]] = set()
    for part in verticals.parts:
        for place, word, open_end in zip(part[1:], ("above", "below"), ends):
            end = end_of(part, place, open_end)
            line = min(part.vertex, end), max(part.vertex, end)
            if line not in drawn:
                look = {"stroke_width": 3.5} if is_upright(place) else {"stroke_dasharray": "1 4" if place is None else "4 3"}
                picture.add_line(line, f"directly {word} {point_told(part.vertex)}: {place_told(place)}", {"stroke": ACCENT, **look})
            drawn.add(line)
        if is_alone:
            title = f"vertex {point_told(part.vertex)}: above {place_told(part.above)}, below {place_told(part.below)}"
            draw_vertex(picture, part.vertex, title)


def draw_envelope(picture: Picture, envelope: Envelope, is_alone: bool) -> None:
    """The vertices, and the outermost stretches, thick, over the whole edges that they are of."""
    titles = {
        stretch.edge: f"edge {' '.join(map(point_told, stretch.edge))}: curves {listed(stretch.curves)}"
        for stretch in envelope.between
        if stretch
    }
    for edge, title in titles.items() if is_alone else ():
        picture.add_line(edge, title, {"stroke_opacity": 0.5})
    for left, right, stretch in zip(envelope.corners, envelope.corners[1:], envelope.between):
        if stretch:
            (x1, y1), (x2, y2) = stretch.edge
            demand(x1 <= left.point[0] < right.point[0] <= x2, "an edge of the envelope doesn't reach from vertex to vertex")
            ends = [(x, y1 + (x - x1) * (y2 - y1) / (x2 - x1)) for x in (left.point[0], right.point[0])]
            picture.add_line(ends, f"outermost here: {titles[stretch.edge]}", {"stroke": ACCENT, "stroke_width": 3.5})
    for corner in envelope.corners:
        title = f"vertex {point_told(corner.point)} of the envelope: curves {listed(corner.curves)}"
        draw_vertex(picture, corner.point, title, colour=ACCENT)


DRAWERS = {Border: draw_border, Verticals: draw_verticals, Envelope: draw_envelope}


def points_of(value: Any) -> Iterator[Point]:
    """All points that a region, verticals or an envelope tell."""
    if isinstance(value, Fraction):
        return
    is_point = isinstance(value, tuple) and len(value) == 2 and all(isinstance(part, Fraction) for part in value)
    for part in [] if is_point or not isinstance(value, tuple) else value:
        yield from points_of(part)
    if is_point:
        yield value


# Marks


def marks_in(script: str) -> List[Tuple[str, Point]]:
    """The points of the lines `locate`, `pin` and `batch` of a script, each with its line."""
    marks = []
    for number, line in enumerate(script.split("\n"), 1):
        command, *words = line.split() or [""]
        if command in ("locate", "pin", "batch"):
            try:
                points = [point_in(words[place : place + 3]) for place in range(0, max(len(words), 1), 3)]
            except (ValueError, ZeroDivisionError):
                raise NotAReply(f"line {number} of the script has no points X Y W: {line[:60]!r}") from None
            marks += [(f"line {number}: {command} {point_told(point)}", point) for point in points]
    return marks


def draw_mark(picture: Picture, title: str, point: Point) -> None:
    x, y = picture.at(point)
    d = f"M{short(x - MARK)},{short(y - MARK)} l8,8 m0,-8 l-8,8"
    picture.add("marks", "path", d=d, stroke="white", stroke_width="4", stroke_linecap="round")
    picture.add("marks", "path", d=d, stroke=RED, stroke_width="2", stroke_linecap="round")
    picture.add("marks", "circle", title, cx=x, cy=y, r=6.0, fill_opacity=0.0)


# The whole


def chosen(replies: str, is_over: bool) -> Tuple[Optional[Subdivision], Any]:
    """What is to be drawn: a subdivision, what is drawn over it, or one of the two."""
    texts = [reply for reply in replies_in(replies) if re.match(rf"(?:{'|'.join(TEXTS)}) ", reply)]
    demand(texts, "the replies have no text of `show`, `mirror`, `overlay`, `region`, `vertical` or `envelope`")
    if texts_in(texts[-1]):
        demand(not is_over, "--over is for a region, verticals or an envelope, and the last text is a subdivision")
        return read_show.read_show(texts[-1]), None
    value = read_reply(texts[-1])
    if not is_over:
        return None, value
    below = texts_in("".join(texts))
    demand(below, "no subdivision stands before the last text")
    read = read_show.read_show(below[-1])
    vertices = {vertex.point for vertex in read.vertices}
    demand(set(points_of(value)) <= vertices, "the subdivision before the last text hasn't all its points")
    return read, value


def draw(read: Optional[Subdivision], value: Any, marks: List[Tuple[str, Point]], labels: str, size: int) -> Picture:
    """The picture of a subdivision, of what is drawn over it, and of marks."""
    points, marked = [vertex.point for vertex in read.vertices] if read else list(points_of(value)), [point for _, point in marks]
    picture = Picture(points + marked, size)
    if read:
        draw_subdivision(picture, read, labels, marked)
    if value:
        DRAWERS[type(value)](picture, value, read is None)
    for title, point in marks:
        draw_mark(picture, title, point)
    return picture


def size_of(text: str) -> int:
    size = int(text)
    if not LEAST_SIZE <= size <= MOST_SIZE:
        raise ValueError
    return size


def options_of(words: Optional[List[str]] = None) -> argparse.Namespace:
    parser = argparse.ArgumentParser(description="Draws the last text among replies as SVG.")
    parser.add_argument("file", nargs="?", metavar="REPLIES", help="the replies; standard input without it")
    parser.add_argument("--over", action="store_true", help="draw a region, verticals or an envelope over the subdivision before it")
    parser.add_argument("--points", metavar="SCRIPT", help="mark the points of the lines locate, pin and batch of a script")
    parser.add_argument("--labels", choices=LABELS, default="faces", metavar="WHAT", help=f"what is written: {', '.join(LABELS)} (faces)")
    parser.add_argument("--size", type=size_of, default=800, metavar="N", help=f"the longer side, {LEAST_SIZE} to {MOST_SIZE} pixels (800)")
    return parser.parse_args(words)


def main() -> int:
    options = options_of()
    try:
        with open(options.file or 0, encoding="ascii", newline="") as file:
            read, value = chosen(file.read(), options.over)
        marks = marks_in(Path(options.points).read_text("ascii")) if options.points else []
        picture = draw(read, value, marks, options.labels, options.size)
    except (OSError, ValueError) as error:
        print(f"draw.py: {error}", file=sys.stderr)
        return 1
    print(picture.svg(), end="")
    if picture.without_room:
        print(f"draw.py: labels without room, which only the pointer tells: {picture.without_room}", file=sys.stderr)
    return 0


if __name__ == "__main__":
    sys.exit(main())
