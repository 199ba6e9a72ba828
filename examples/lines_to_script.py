#!/usr/bin/env python3
"""Makes a script of lines, polygons and points in WKT, GeoJSON or CSV.

    lines_to_script.py map.geojson > map.script
    planar < map.script > map.replies
    lines_to_script.py --replies map.replies map.geojson

The third command writes a table: of each feature its name, a tab, and the numbers of its curves, or where its points lie. The replies must
begin with those to the script, others may follow; and the options must be those with which the script was made.

Input: WKT geometries one after the other, one GeoJSON object, or CSV. In the first two Point, LineString, Polygon, their Multi kinds and
collections, of X and Y alone; a feature's name is its property `name` (--name takes another one), else its place: `feature 1` and so on.
A row of CSV is a side, `x,y,x,y`, or a point, `x,y`, and a name may follow, else the name is `line 1` and so on; a first row without a
number in front is a heading.

In the script each feature is a comment with its name, a curve for each line and ring, and a `pin` for each point, or with --points=locate
a `locate`. A curve of several sides is a `path`, one of a single side a `segment`. A path has at most eight sides, so a longer line is
several curves: a ring of nine corners is two. With --once each side is a segment, one that several features have is there once, and the
table tells its number for each of them.

With --snap D corners that lie within D of another corner or side, in the map's coordinates, are put on it before all else, and a side gets
the corners that lie on it: so walls reach the sides that they end at, and borders meet, after rounding too. Give it a distance below all
that is meant to be apart.

Coordinates of a script's segments are whole and within 2^24 - 1. So script = (map - offset) * scale, rounded. Unless options say otherwise,
the offset is 0 where that fits, else the centre; the scale is the least that makes all ends of sides whole, or, where these don't fit, the
largest power of two that does. Corners that are equal stay equal, and so does a point that is a corner; where there was rounding, a corner
on another's side may lie beside it. Other points aren't rounded, since a script says them as fractions.

Standard error tells offset and scale, what was moved and how much was rounded, and which sides became points and were left out; or what
can't be done, and where it stands, and then the exit status is 1.

Python 3.8 or later, with its standard library alone.
"""

from __future__ import annotations

import argparse
import csv
import json
import re
import sys
from dataclasses import dataclass
from fractions import Fraction
from itertools import groupby
from math import gcd
from typing import Any, Callable, Iterator, List, Optional, Tuple

from snap_corners import snapped

LARGEST_COORDINATE = 2**24 - 1
# Of the fractions in which points are written, so that the product of two is below 2^51.
LARGEST_DENOMINATOR = 2**24
MOST_CURVES = 2000
# A side of a curve is a piece.
MOST_PIECES = 10000
MOST_SIDES = 8
MOST_PINS = 10000
LONGEST_LINE = 300

Point = Tuple[Fraction, Fraction]
# Positions one after the other; a single one is a point.
Line = List[Point]
Side = Tuple[Point, Point]
# A corner in script coordinates.
Corner = Tuple[int, int]

NUMBER = r"[-+]?(?:[0-9]+\.?[0-9]*|\.[0-9]+)(?:[eE][-+]?[0-9]+)?"
WKT_TOKEN = re.compile(rf"{NUMBER}|[A-Za-z]+|\S")
# How deep positions are nested: a line is a list of them, a polygon a list of rings.
DEPTHS = {"POINT": 0, "MULTIPOINT": 1, "LINESTRING": 1, "POLYGON": 2, "MULTILINESTRING": 2, "MULTIPOLYGON": 3}
COLLECTION = "GEOMETRYCOLLECTION"


class CantConvert(ValueError):
    """What can't be made a script, or isn't the replies to one."""


@dataclass(frozen=True)
class Feature:
    """A name, and lines of it: lists of points, whose coordinates are exact fractions."""

    name: str
    lines: List[Line]

    def sides(self) -> List[Side]:
        return [side for line in self.lines for side in zip(line, line[1:])]

    def points(self) -> List[Point]:
        return [line[0] for line in self.lines if len(line) == 1]

    def corners(self) -> List[Point]:
        """The ends of its sides."""
        return [point for line in self.lines if len(line) > 1 for point in line]

    def curves(self, frame: Frame, most_sides: int) -> List[List[Corner]]:
        """The corners of its curves in script coordinates, of so many sides at most, without sides that are points."""
        curves = []
        for line in self.lines:
            corners = [corner for corner, _ in groupby(map(frame.whole, line))]
            curves.extend(corners[start : start + most_sides + 1] for start in range(0, len(corners) - 1, most_sides))
        return curves


@dataclass(frozen=True)
class Frame:
    """What makes script coordinates of a map's. Corners are rounded, and points that are none needn't be."""

    offset: Point
    scale: Fraction
    corners: frozenset

    def exact(self, point: Point) -> Point:
        x, y = ((c - o) * self.scale for c, o in zip(point, self.offset))
        return x, y

    def whole(self, point: Point) -> Tuple[int, int]:
        x, y = map(round, self.exact(point))
        return x, y

    def fraction(self, point: Point) -> Point:
        """A point of the script: whole if it is a corner, else as it is, with denominators that fit."""
        if point in self.corners:
            x, y = self.whole(point)
            return Fraction(x), Fraction(y)
        x, y = self.exact(point)
        return x.limit_denominator(LARGEST_DENOMINATOR), y.limit_denominator(LARGEST_DENOMINATOR)

    def triple(self, point: Point) -> str:
        """The numbers X Y W of a point of the script."""
        x, y = self.fraction(point)
        weight = x.denominator * y.denominator // gcd(x.denominator, y.denominator)
        return f"{x * weight} {y * weight} {weight}"

    def moved(self, point: Point) -> Fraction:
        """How far a point is from where it was on the map, in X or Y."""
        return max(abs(e - f) for e, f in zip(self.exact(point), self.fraction(point))) / self.scale

    def holds(self, points: List[Point]) -> bool:
        return all(abs(c) <= LARGEST_COORDINATE for point in points for c in self.exact(point))

    def __str__(self) -> str:
        return f"offset {self.offset[0]},{self.offset[1]} scale {self.scale}"


@dataclass(frozen=True)
class Plan:
    """The lines of a script that have replies, and for each feature the places of its own among them."""

    lines: List[str]
    places: List[List[int]]


def number(text: str) -> Fraction:
    """A number as an exact fraction."""
    mantissa, _, exponent = text.lower().partition("e")
    if len(mantissa) > 40 or len(exponent) > 3 or abs(int(exponent or 0)) > 40:
        raise CantConvert(f"a number has too many digits: {text[:40]}")
    return Fraction(text)


# Reading


def features_of(text: str, key: str) -> List[Feature]:
    """The features of GeoJSON, CSV or WKT."""
    if is_csv(text):
        return list(features_of_csv(text))
    if text.lstrip().startswith("{"):
        return features_of_json(text, key)
    wkt: Wkt = Wkt(text)
    features: List[Feature] = []
    while wkt.tokens:
        name = f"feature {len(features) + 1}"
        features.append(Feature(name, wkt.lines(name)))
    return features


def is_csv(text: str) -> bool:
    """Whether a comma stands before any parenthesis: then the first row of CSV does."""
    return not text.lstrip().startswith("{") and bool(re.match(r"\s*[^(\n]*,", text))


def lines_of(kind: str, positions: Any, place: str) -> List[Line]:
    """The lines of a geometry, in the positions of which an empty list is an empty part."""
    if positions and isinstance(positions[0], list):
        return [line for part in positions for line in lines_of(kind, part, place)]
    is_ring = kind.endswith("POLYGON")
    for count, position in enumerate(positions, 1):
        if len(position) != 2:
            raise CantConvert(f"{place}: position {count} has other coordinates than X and Y")
    if kind.endswith("POINT"):
        return [[position] for position in positions]
    if positions and len(positions) < (4 if is_ring else 2):
        raise CantConvert(f"{place}: a line has fewer than two positions, or a ring fewer than four")
    if is_ring and positions and positions[0] != positions[-1]:
        raise CantConvert(f"{place}: a ring doesn't end where it begins")
    return [positions] if positions else []


def depth_of(kind: str, place: str) -> int:
    if kind not in DEPTHS:
        raise CantConvert(f"{place}: `{kind or 'end'}` can't be read, only points, lines and polygons of X and Y")
    return DEPTHS[kind]


class Wkt:
    """WKT text. Its tokens, each with its place in the text, are taken from the end of a list."""

    def __init__(self, text: str):
        self.text = text.upper()
        self.tokens = [(found[0], found.start()) for found in WKT_TOKEN.finditer(self.text)][::-1]

    def next(self) -> str:
        return self.tokens[-1][0] if self.tokens else "end"

    def place(self) -> str:
        """Where the next token stands."""
        start = self.tokens[-1][1] if self.tokens else len(self.text)
        before = self.text[:start]
        return f"line {before.count(chr(10)) + 1}, column {start - before.rfind(chr(10))}"

    def has(self, token: str) -> bool:
        """Takes this token, if it is the next one."""
        found = self.tokens[-1:] != [] and self.next() == token
        if found:
            self.tokens.pop()
        return found

    def listed(self, read: Callable[[], Any]) -> List[Any]:
        """A list in parentheses; none for `EMPTY`."""
        if self.has("EMPTY"):
            return []
        items, due = [], "("
        while self.has(due):
            items.append(read())
            due = ","
        if not items or not self.has(")"):
            raise CantConvert(f"{self.place()}: `{self.next()}` can't be read after {len(items)} items of a list")
        return items

    def positions(self, depth: int) -> Any:
        return self.listed(lambda: self.positions(depth - 1)) if depth else self.position()

    def position(self) -> Tuple[Fraction, ...]:
        place, coordinates = self.place(), []
        while self.tokens and re.fullmatch(NUMBER, self.next()):
            try:
                coordinates.append(number(self.tokens.pop()[0]))
            except CantConvert as error:
                raise CantConvert(f"{place}: {error}") from None
        return tuple(coordinates)

    def point(self) -> Tuple[Fraction, ...]:
        """A position of a MULTIPOINT, in parentheses of its own or in none."""
        if not self.has("("):
            return self.position()
        position = self.position()
        if not self.has(")"):
            raise CantConvert(f"{self.place()}: `{self.next()}` can't be read after a point")
        return position

    def lines(self, name: str) -> List[Line]:
        """The lines of the next geometry."""
        place = f"{name} ({self.place()})"
        kind = self.tokens.pop()[0] if self.tokens else ""
        if kind == COLLECTION:
            return [line for lines in self.listed(lambda: self.lines(name)) for line in lines]
        depth = depth_of(kind, place)
        positions = self.listed(self.point) if kind.endswith("POINT") else self.positions(depth)
        if kind == "POINT" and len(positions) > 1:
            raise CantConvert(f"{place}: a point has several positions")
        return lines_of(kind, positions, place)


def features_of_json(text: str, key: str) -> List[Feature]:
    data = json.loads(text, parse_int=number, parse_float=number, parse_constant=number)
    place = "the whole"
    try:
        items = data["features"] if data["type"] == "FeatureCollection" else [data]
        features = []
        for count, item in enumerate(items, 1):
            place = f"feature {count}"
            features.append(feature_of_json(item, key, place))
        return features
    except (LookupError, TypeError, AttributeError):
        raise CantConvert(f"{place}: it isn't GeoJSON, a member is missing or of another kind") from None


def feature_of_json(item: Any, key: str, place: str) -> Feature:
    if item["type"] != "Feature":
        return Feature(place, json_lines(item, place))
    given = (item.get("properties") or {}).get(key)
    name = str(given) if isinstance(given, (str, Fraction)) else place
    return Feature(name, json_lines(item["geometry"], place) if item["geometry"] else [])


def json_lines(geometry: Any, place: str) -> List[Line]:
    kind = geometry["type"].upper()
    if kind == COLLECTION:
        return [line for part in geometry["geometries"] for line in json_lines(part, place)]
    positions = json_positions(geometry["coordinates"], depth_of(kind, place), place)
    return lines_of(kind, [positions] if kind == "POINT" and positions else positions, place)


def json_positions(lists: Any, depth: int, place: str) -> Any:
    if depth:
        return [json_positions(part, depth - 1, place) for part in lists]
    if not all(isinstance(coordinate, Fraction) for coordinate in lists):
        raise CantConvert(f"{place}: a coordinate isn't a number")
    return tuple(lists)


def features_of_csv(text: str) -> Iterator[Feature]:
    """A feature for each row: a side or a point, and perhaps its name."""
    rows = csv.reader(text.splitlines())
    for count, row in enumerate((row for row in rows if row), 0):
        place = f"line {rows.line_num}"
        cells = [cell.strip() for cell in row]
        if count == 0 and not re.fullmatch(NUMBER, cells[0]):
            continue
        if not 2 <= len(cells) <= 5:
            raise CantConvert(f"{place}: a row has {len(cells)} cells, where x,y,x,y or x,y is due, and perhaps a name")
        side, name = cells[: len(cells) // 2 * 2], cells[len(cells) // 2 * 2 :]
        wrong = [cell for cell in side if not re.fullmatch(NUMBER, cell)]
        if wrong:
            raise CantConvert(f"{place}: `{wrong[0]}` isn't a number")
        numbers = list(map(number, side))
        yield Feature(name[0] if name and name[0] else place, [list(zip(numbers[::2], numbers[1::2]))])


def snapped_features(features: List[Feature], distance: Fraction) -> Tuple[List[Feature], List[str]]:
    """The features with their corners put on others and on sides, and what is told of that."""
    lines, moves, given = snapped([line for feature in features for line in feature.lines], distance)
    left = iter(lines)
    moved = [Feature(feature.name, [next(left) for _ in feature.lines]) for feature in features]
    notes = [f"corner {place_told(corner)} was put on {what} at {place_told(place)}" for corner, what, place in moves]
    return moved, [*notes, f"corners that were put on others or on sides: {len(moves)}; corners that sides got: {given}"]


def place_told(point: Point) -> str:
    return "({:.12g}, {:.12g})".format(*map(float, point))


# Fitting


def frame_for(corners: List[Point], points: List[Point], offset: Optional[Point], scale: Optional[Fraction]) -> Frame:
    """The frame that the options ask for, or else the one that suits the corners, and in which the points lie too."""
    frame = frame_at(corners, points, offset, scale or common_denominator(corners, offset))
    if not frame and not scale:
        frame = frame_at(corners, points, offset, largest_power(corners + points, offset))
    if not frame:
        raise CantConvert("by this offset and scale some coordinates aren't within 2^24 - 1")
    return frame


def frame_at(corners: List[Point], points: List[Point], offset: Optional[Point], scale: Fraction) -> Optional[Frame]:
    """A frame of this scale that holds all points, if there is one."""
    x, y = (Fraction(round(c * scale)) / scale for c in centre_of(corners + points))
    offsets = [offset] if offset else [(Fraction(0), Fraction(0)), (x, y)]
    frames = (Frame(o, scale, frozenset(corners)) for o in offsets)
    return next((frame for frame in frames if frame.holds(corners + points)), None)


def centre_of(points: List[Point]) -> List[Fraction]:
    return [(min(values) + max(values)) / 2 for values in zip(*points)] or [Fraction(0)] * 2


def distances(points: List[Point], origin: Any) -> List[Fraction]:
    return [abs(c - o) for point in points for c, o in zip(point, origin)]


def common_denominator(points: List[Point], offset: Optional[Point]) -> Fraction:
    common = 1
    for distance in distances(points, offset or (0, 0)):
        common *= distance.denominator // gcd(common, distance.denominator)
    return Fraction(common)


def largest_power(points: List[Point], offset: Optional[Point]) -> Fraction:
    """The largest power of two that keeps all points within range, with a unit to spare for rounding."""
    reach = max(distances(points, offset or centre_of(points)))
    scale = Fraction(1)
    while 0 < 2 * scale * reach < LARGEST_COORDINATE:
        scale *= 2
    while scale * reach >= LARGEST_COORDINATE:
        scale /= 2
    return scale


# Writing


def comment(text: str) -> str:
    """A comment of printable ASCII that fits a line."""
    return ("# " + text.encode("unicode_escape").decode("ascii"))[:LONGEST_LINE]


def commands_of(feature: Feature, frame: Frame, options: argparse.Namespace) -> Iterator[Tuple[str, Any]]:
    """The lines of a feature, each with what is the same for lines that need stand only once."""
    for corners in feature.curves(frame, 1 if options.once else MOST_SIDES):
        numbers = " ".join(str(number) for corner in corners for number in corner)
        yield f"{'segment' if len(corners) == 2 else 'path'} {numbers}", ("curve", *sorted(corners))
    for point in feature.points():
        yield f"{options.points} {frame.triple(point)}", ("pin", frame.fraction(point))


def plan_of(features: List[Feature], frame: Frame, options: argparse.Namespace) -> Plan:
    """The lines of the script: sides each once if that is asked for, pins always, questions never."""
    plan, known = Plan([], []), {}
    once = ["curve"] * options.once + ["pin"] * (options.points == "pin")
    for feature in features:
        own = []
        for line, key in commands_of(feature, frame, options):
            place = known.get(key, len(plan.lines)) if key[0] in once else len(plan.lines)
            known[key] = place
            own.append(place)
            plan.lines.extend([line] * (place == len(plan.lines)))
        plan.places.append(own)
    return plan


def demand_room(plan: Plan) -> None:
    """A script has limits."""
    curves = [line.split() for line in plan.lines if line.startswith(("segment", "path"))]
    sides = sum(len(words) // 2 - 1 for words in curves)
    pins = sum(line.startswith("pin") for line in plan.lines)
    for count, most, what in ((len(curves), MOST_CURVES, "curves"), (sides, MOST_PIECES, "sides"), (pins, MOST_PINS, "pins")):
        if count > most:
            raise CantConvert(f"there are {count} {what}, and a script has at most {most} at a time (--once: shared sides once)")


def script_of(features: List[Feature], frame: Frame, plan: Plan) -> Iterator[str]:
    yield comment("script = (map - offset) * scale, rounded")
    yield comment(str(frame))
    written = 0
    for feature, places in zip(features, plan.places):
        yield comment(feature.name)
        end = max([written] + [place + 1 for place in places])
        yield from plan.lines[written:end]
        written = end


def table_of(features: List[Feature], plan: Plan, replies: str) -> Iterator[str]:
    """The lines of the table, by the replies to the script."""
    answers = replies.split("\n")
    cells = [cell_of(line, answers[place] if place < len(answers) else "") for place, line in enumerate(plan.lines)]
    for feature, places in zip(features, plan.places):
        name = feature.name if feature.name.isprintable() else comment(feature.name)[2:]
        yield f"{name}\t{' '.join(cells[place] for place in places if cells[place])}"


def cell_of(line: str, reply: str) -> str:
    """What the table tells of a line: the number of a curve, where a point lies, nothing of a pin."""
    command = line.split()[0]
    curve = r"ok ([1-9][0-9]*)(?: .*)?"
    due = {"segment": curve, "path": curve, "pin": r"ok()(?: .*)?", "locate": r"((?:vertex|edge|face) .*)"}[command]
    found = re.fullmatch(due, reply)
    if not found:
        raise CantConvert(f"the replies aren't those to this script: {reply!r} is the reply to `{line}`")
    return found[1]


def notes_on(features: List[Feature], frame: Frame, plan: Plan) -> Iterator[str]:
    """What is told of the frame, of rounding, and of what is left out."""
    yield str(frame)
    points = sorted({point for feature in features for point in feature.points()} - frame.corners)
    for what, some in (("corners", sorted(frame.corners)), ("points", points)):
        moves = [move for move in map(frame.moved, some) if move]
        if moves:
            yield f"{len(moves)} of {len(some)} {what} were rounded, by at most {float(max(moves)):.3g} in X or Y"
    for feature in features:
        lost = len(feature.sides()) - len(feature.curves(frame, 1))
        if lost:
            yield f"{feature.name}: sides that became points and were left out: {lost}"
    shared = sum(map(len, plan.places)) - len(plan.lines)
    if shared:
        yield f"sides or pins that are there already and were left out: {shared}"


def convert(text: str, options: argparse.Namespace) -> Tuple[List[str], List[str]]:
    """The lines to be written, and the notes."""
    features, moves = features_of(text, options.name), []
    if options.snap:
        features, moves = snapped_features(features, options.snap)
    corners = sorted({point for feature in features for point in feature.corners()})
    points = sorted({point for feature in features for point in feature.points()})
    frame = frame_for(corners, points, options.offset, options.scale)
    plan = plan_of(features, frame, options)
    demand_room(plan)
    if not options.replies:
        return list(script_of(features, frame, plan)), [*moves, *notes_on(features, frame, plan)]
    with open(options.replies, encoding="ascii") as file:
        return list(table_of(features, plan, file.read())), []


def fraction(text: str) -> Fraction:
    """A number of the command line: 3, -0.25 or 1/3."""
    above, _, below = text.partition("/")
    divisor = number(below or "1")
    if not divisor:
        raise CantConvert(f"{text} is no number")
    return number(above) / divisor


def offset_pair(text: str) -> Point:
    x, y = map(fraction, text.split(","))
    return x, y


def positive(text: str) -> Fraction:
    value = fraction(text)
    if value <= 0:
        raise CantConvert(f"{text} isn't above 0")
    return value


def options_of(words: List[str]) -> argparse.Namespace:
    parser = argparse.ArgumentParser(description="Makes a script of WKT, GeoJSON or CSV, or a table of names and curve numbers.")
    parser.add_argument("file", nargs="?", metavar="FILE", help="WKT, GeoJSON or CSV; standard input without it")
    parser.add_argument("--offset", type=offset_pair, metavar="X,Y", help="what is subtracted (--offset=X,Y if X is negative)")
    parser.add_argument("--scale", type=positive, metavar="S", help="by what the rest is multiplied")
    parser.add_argument("--snap", type=positive, metavar="D", help="put corners within D of another corner or side on it")
    parser.add_argument("--name", default="name", metavar="KEY", help="the property of GeoJSON that is a feature's name")
    parser.add_argument("--points", choices=["pin", "locate"], default="pin", help="what the line of a point is (pin)")
    parser.add_argument("--once", action="store_true", help="each side is a segment, and one that several features have is there once")
    parser.add_argument("--replies", metavar="REPLIES", help="replies to the script: write the table in place of the script")
    return parser.parse_args(words)


def main() -> int:
    options = options_of(sys.argv[1:])
    try:
        with open(options.file or 0, encoding="utf-8-sig") as file:
            lines, notes = convert(file.read(), options)
    except (OSError, ValueError, RecursionError) as error:
        print(f"lines_to_script.py: {error}", file=sys.stderr)
        return 1
    sys.stdout.reconfigure(encoding="utf-8")
    for line in lines:
        print(line)
    for note in notes:
        print(f"lines_to_script.py: {note}", file=sys.stderr)
    return 0


if __name__ == "__main__":
    sys.exit(main())
