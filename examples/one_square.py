"""Asks `planar` of one square of a map in which parcels each of some addresses is: what a worker of tiles.py does.

It stands alone, so that it can be sent to the workers of a cluster. Coordinates of the map are whole numbers of some unit.
"""

from __future__ import annotations

import re
import subprocess
from math import gcd
from typing import Dict, Iterable, List, NamedTuple, Optional, Set, Tuple, Union

LARGEST_COORDINATE = 2**24 - 1
LARGEST_WEIGHT = 2**51 - 1

Spot = Tuple[int, int]
Path = List[Spot]
# The places in the map of the parcels that an address is in, or one of the two words.
Answer = Union[Tuple[int, ...], str]
BORDER = "on a border"
TOO_FINE = "too fine"


class NotAnswered(Exception):
    """The program ended otherwise than it should, or gave other replies than the script asks for."""


class Square(NamedTuple):
    """What is asked of one run: parcels by their places in the map, each as its paths, and addresses."""

    program: str
    way: str
    parcels: List[Tuple[int, List[Path]]]
    addresses: List[Spot]


class Frame(NamedTuple):
    """What makes script coordinates of the map's: script = (map - origin) / unit."""

    origin: Spot
    unit: int

    def whole(self, corner: Spot) -> str:
        return f"{(corner[0] - self.origin[0]) // self.unit} {(corner[1] - self.origin[1]) // self.unit}"

    def triple(self, spot: Spot) -> Optional[str]:
        """The numbers X Y W of any point, where a script can say them."""
        x, y = spot[0] - self.origin[0], spot[1] - self.origin[1]
        common = gcd(gcd(x, y), self.unit)
        weight = self.unit // common
        return f"{x // common} {y // common} {weight}" if weight <= LARGEST_WEIGHT else None


class Extent(NamedTuple):
    """The box of some corners, one of them, and the largest unit in which all are whole, counted from that one (0: it is the only one)."""

    left: int
    right: int
    bottom: int
    top: int
    corner: Spot
    unit: int

    def frame(self) -> Optional[Frame]:
        """A frame in which the corners are whole and within range, if there is one."""
        reach, unit = max(self.right - self.left, self.top - self.bottom), self.unit or 1
        # A part of the unit serves too, as long as the corners are within range, and then weights are smaller.
        for part in (2, 5):
            while unit > LARGEST_WEIGHT and unit % part == 0 and reach // (unit // part) < LARGEST_COORDINATE:
                unit //= part
        middle = (self.left + self.right) // 2, (self.bottom + self.top) // 2
        x, y = (c + (m - c) // unit * unit for c, m in zip(self.corner, middle))
        farthest = max(self.right - x, x - self.left, self.top - y, y - self.bottom)
        return Frame((x, y), unit) if farthest <= LARGEST_COORDINATE * unit else None

    def holds(self, spot: Spot) -> bool:
        return self.left <= spot[0] <= self.right and self.bottom <= spot[1] <= self.top


def extent_of(corners: Iterable[Spot]) -> Extent:
    return union_of(Extent(x, x, y, y, (x, y), 0) for x, y in corners)


def union_of(extents: Iterable[Extent]) -> Extent:
    """The extent of the corners of several extents."""
    lefts, rights, bottoms, tops, corners, units = zip(*extents)
    (x0, y0), unit = corners[0], 0
    for (x, y), own in zip(corners, units):
        unit = gcd(gcd(unit, own), gcd(x - x0, y - y0))
    return Extent(min(lefts), max(rights), min(bottoms), max(tops), corners[0], unit)


def answers_of(square: Square) -> List[Answer]:
    """The answer to each address of a square, by one run of the program.

    An address beyond the box of the parcels is in none, and isn't asked for.
    """
    extent = extent_of(corner for _, paths in square.parcels for path in paths for corner in path)
    frame = extent.frame()
    asked = [frame.triple(address) if extent.holds(address) else None for address in square.addresses]
    lines = [line_of(path, frame) for _, paths in square.parcels for path in paths]
    owners = [number for number, paths in square.parcels for _ in paths]
    replies = run(square, [*lines, *(f"locate {triple}" for triple in asked if triple), "show"])
    demand(replies[: len(lines)] == [f"ok {number}" for number in range(1, len(lines) + 1)], "a parcel wasn't accepted")
    text = replies[len(lines) + sum(map(bool, asked)) :]
    within = parcels_of_faces(text, owners)
    places = iter(replies[len(lines) :])
    answers: List[Answer] = []
    for address, triple in zip(square.addresses, asked):
        answers.append(answer_by(next(places), within) if triple else TOO_FINE if extent.holds(address) else ())
    return answers


def line_of(path: Path, frame: Frame) -> str:
    return f"{'segment' if len(path) == 2 else 'path'} {' '.join(map(frame.whole, path))}"


def run(square: Square, lines: List[str]) -> List[str]:
    """The lines of the replies to a script."""
    script = "".join(line + "\n" for line in lines).encode("ascii")
    ran = subprocess.run([square.program, "--locate", square.way], input=script, stdout=subprocess.PIPE)
    demand(ran.returncode == 0, f"the program ended with status {ran.returncode}")
    return ran.stdout.decode("ascii").split("\n")


def answer_by(reply: str, within: Dict[int, Tuple[int, ...]]) -> Answer:
    """What the reply to a location says: on edges and vertices there are borders alone."""
    kind, _, rest = reply.partition(" ")
    demand(kind in ("vertex", "edge", "face"), f"`{reply[:80]}` isn't where a point lies")
    if kind != "face":
        return BORDER
    demand(rest.isdecimal() and int(rest) in within, f"`{reply[:80]}` is no face of the map")
    return within[int(rest)]


def parcels_of_faces(text: List[str], owners: List[int]) -> Dict[int, Tuple[int, ...]]:
    """For each face the parcels that go round it, by the text of the subdivision. Owners are the parcels of the curves, from curve 1 on.

    From the unbounded face, which is in none, each edge that is crossed leads into the parcels of which an odd number of sides lies there,
    or out of them.
    """
    demand(bool(text) and re.fullmatch("arrangement .*", text[0]) and text[-2:] == ["end", ""], "the subdivision isn't there whole")
    face_of: Dict[Spot, int] = {}
    along: Dict[Spot, Set[int]] = {}
    face = -1
    for line in text[1:-2]:
        kind, *words = line.split(" ")
        if kind == "e":
            edge = along.setdefault((int(words[0]), int(words[1])), set())
            for curve in words[3:]:
                edge ^= {owners[int(curve) - 1]}
        elif kind == "f":
            face = int(words[0])
        elif kind in ("o", "h"):
            cycle = list(map(int, words))
            face_of.update((dart, face) for dart in zip(cycle, cycle[1:] + cycle[:1]))
    return spread(face_of, along)


def spread(face_of: Dict[Spot, int], along: Dict[Spot, Set[int]]) -> Dict[int, Tuple[int, ...]]:
    """The parcels of each face, from face to face across edges."""
    beside: Dict[int, List[Tuple[int, Set[int]]]] = {}
    for (i, j), parcels in along.items():
        left, right = face_of[i, j], face_of[j, i]
        beside.setdefault(left, []).append((right, parcels))
        beside.setdefault(right, []).append((left, parcels))
    within: Dict[int, Set[int]] = {0: set()}
    found = [0]
    while found:
        face = found.pop()
        for other, parcels in beside.get(face, ()):
            if other not in within:
                within[other] = within[face] ^ parcels
                found.append(other)
    return {face: tuple(sorted(parcels)) for face, parcels in within.items()}


def demand(condition: object, what: str) -> None:
    if not condition:
        raise NotAnswered(what)
