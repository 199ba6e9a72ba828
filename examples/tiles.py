#!/usr/bin/env python3
"""Tells of each address in which parcel it is, as join.py does, on a map of any size and with several processes.

    tiles.py parcels.geojson addresses.csv > joined.tsv
    tiles.py --processes 8 --program PATH parcels.geojson addresses.csv > joined.tsv
    tiles.py --scheduler tcp://10.0.0.1:8786 --program PATH parcels.geojson addresses.csv > joined.tsv

The plane is cut into squares, and one run of `planar` is asked for each: it gets the addresses in the square, and each parcel that meets
the square, whole. So every answer is exact: the parcels that an address is in, or on whose border it lies, meet its square, all their sides
are in the run, and no other parcel has a say. A square that would pass the limits of a layer (docs/SCRIPT.md) is quartered, and where that
doesn't help, as where thousands of parcels lie on one another, its parcels are parted among several runs. A parcel that passes the limits
alone is refused by its name.

Nothing is rounded, unless --digits says how many decimals all coordinates are rounded to first. A map whose parcels have more digits than a
layer holds (a corner is a whole number below 2^24 of some unit, and a square has its own offset and unit) needs that.

Squares are asked in a pool of processes, or with --scheduler on a Dask cluster, for which Dask's `distributed` must be there (in Debian
python3-distributed), and the program on each worker's machine at the same path. A square whose worker or program dies is asked again, so
nothing is lost; one that fails three times ends the run. Standard error tells how far it has come.

Python 3.8 or later, with its standard library alone but for --scheduler.
"""

from __future__ import annotations

import argparse
import os
import subprocess
import sys
import time
from concurrent.futures import FIRST_COMPLETED, BrokenExecutor, Executor, Future, ProcessPoolExecutor, wait
from fractions import Fraction
from pathlib import Path
from typing import Any, Dict, Iterable, Iterator, List, NamedTuple, Optional, Sequence, Tuple

import one_square
from join import WAYS, built_program, demand_kind, read_features
from lines_to_script import MOST_CURVES, MOST_PIECES, MOST_SIDES, CantConvert, Point, features_of, features_of_csv, is_csv
from one_square import BORDER, LARGEST_COORDINATE, TOO_FINE, Answer, Extent, Spot, Square, answers_of, extent_of, union_of

MOST_TRIES = 3
# How many seconds there are between two words on how far it has come.
QUIET = 2.0


class Limits(NamedTuple):
    """What one run takes: a layer's curves and pieces, and so many addresses that its script is far below 2^26 bytes."""

    curves: int = MOST_CURVES
    pieces: int = MOST_PIECES
    addresses: int = 20000


class Parcel(NamedTuple):
    """A parcel: its rings as paths, of which none has two sides along one stretch; how many sides it has; and its extent."""

    name: str
    paths: List[one_square.Path]
    sides: int
    extent: Extent


class Map:
    """Parcels and addresses, in a unit in which all their coordinates are whole: a power of ten.

    The unit has to be known for all corners and addresses before parcels are added.
    """

    def __init__(self, digits: Optional[int]):
        self.is_rounded, self.digits = digits is not None, digits or 0
        self.scale = 10**self.digits
        self.parcels: List[Parcel] = []
        self.names: List[str] = []
        self.xs: List[int] = []
        self.ys: List[int] = []
        self.rounded = {"corners": 0, "addresses": 0}

    def refine(self, point: Point) -> None:
        """Makes the unit smaller where a point needs that, unless points are rounded."""
        x, y = point
        while not self.is_rounded and (self.scale % x.denominator or self.scale % y.denominator):
            self.digits, self.scale = self.digits + 1, self.scale * 10
            self.xs, self.ys = ([10 * c for c in some] for some in (self.xs, self.ys))

    def spot(self, point: Point, kind: str) -> Spot:
        """A point in the map's unit."""
        x, y = point
        if self.scale % x.denominator or self.scale % y.denominator:
            self.rounded[kind] += 1
            return round(x * self.scale), round(y * self.scale)
        return x.numerator * (self.scale // x.denominator), y.numerator * (self.scale // y.denominator)

    def add_address(self, name: str, point: Point) -> None:
        self.refine(point)
        x, y = self.spot(point, "addresses")
        self.names.append(name)
        self.xs.append(x)
        self.ys.append(y)

    def add_parcel(self, name: str, lines: Iterable[Sequence[Point]]) -> None:
        """Takes a parcel. One without sides is nowhere."""
        paths = [path for line in lines for path in paths_of([self.spot(point, "corners") for point in line])]
        if paths:
            extent = extent_of(corner for path in paths for corner in path)
            self.parcels.append(Parcel(name, paths, sum(len(path) - 1 for path in paths), extent))

    def address(self, number: int) -> Spot:
        return self.xs[number], self.ys[number]


# Parcels


def paths_of(ring: Sequence[Spot]) -> Iterator[one_square.Path]:
    """A ring as paths of eight sides at most, in none of which two sides lie on one another: an edge would tell both as one curve."""
    path = list(ring[:1])
    for p, q in zip(ring, ring[1:]):
        if p != q:
            if len(path) > MOST_SIDES or any(lie_on_another(p, q, a, b) for a, b in zip(path, path[1:])):
                yield path
                path = [p]
            path.append(q)
    if len(path) > 1:
        yield path


def cross(o: Spot, a: Spot, b: Spot) -> int:
    return (a[0] - o[0]) * (b[1] - o[1]) - (a[1] - o[1]) * (b[0] - o[0])


def lie_on_another(p: Spot, q: Spot, a: Spot, b: Spot) -> bool:
    """Whether two sides have more than a point in common."""
    return cross(p, q, a) == 0 == cross(p, q, b) and max(min(p, q), min(a, b)) < min(max(p, q), max(a, b))


class Load(NamedTuple):
    """What parcels need together of a run."""

    curves: int
    sides: int
    extent: Optional[Extent]

    def with_parcel(self, parcel: Parcel) -> Load:
        extent = union_of((self.extent, parcel.extent)) if self.extent else parcel.extent
        return Load(self.curves + len(parcel.paths), self.sides + parcel.sides, extent)

    def fits(self, limits: Limits) -> bool:
        return self.curves <= limits.curves and self.sides <= limits.pieces and self.extent.frame() is not None


NOTHING = Load(0, 0, None)


class Tile(NamedTuple):
    """A square of the plane, by its least x and y and its side."""

    left: int
    bottom: int
    side: int

    def quarters(self) -> List[Tile]:
        half = self.side // 2
        return [Tile(x, y, half) for y in (self.bottom, self.bottom + half) for x in (self.left, self.left + half)]

    def meets(self, parcel: Parcel) -> bool:
        """Whether a parcel, its border included, meets the square, its sides included."""
        left, right, bottom, top = self.left, self.left + self.side, self.bottom, self.bottom + self.side
        box = parcel.extent
        if box.left > right or box.right < left or box.bottom > top or box.top < bottom:
            return False
        if left <= box.left and box.right <= right and bottom <= box.bottom and box.top <= top:
            return True
        sides = [(p, q) for path in parcel.paths for p, q in zip(path, path[1:])]
        return any(self.is_met(p, q) for p, q in sides) or is_within(sides, (left, bottom))

    def is_met(self, p: Spot, q: Spot) -> bool:
        """Whether a side meets the square: their boxes do, and the square's corners aren't all on one hand of the side."""
        left, right, bottom, top = self.left, self.left + self.side, self.bottom, self.bottom + self.side
        (x1, y1), (x2, y2) = p, q
        if max(x1, x2) < left or min(x1, x2) > right or max(y1, y2) < bottom or min(y1, y2) > top:
            return False
        hands = [cross(p, q, corner) for corner in ((left, bottom), (left, top), (right, bottom), (right, top))]
        return min(hands) <= 0 <= max(hands)


def is_within(sides: Iterable[Tuple[Spot, Spot]], spot: Spot) -> bool:
    """The even-odd rule, for a spot on no side: whether a ray to the right crosses an odd number of sides."""
    inside = False
    for p, q in sides:
        if (p[1] > spot[1]) != (q[1] > spot[1]):
            inside ^= (cross(p, q, spot) > 0) == (q[1] > p[1])
    return inside


# Cutting


class Cutter:
    """Cuts the plane into squares, each within the limits of a run."""

    # How many times as many sides as a square's the squares that it is cut into may have, before its parcels are parted instead.
    MOST_TIMES = 16.0

    def __init__(self, whole: Map, limits: Limits):
        self.map, self.limits = whole, limits

    def runs(self) -> Iterator[Tuple[List[int], List[int]]]:
        """The runs: of each the parcels and the addresses, by their places in the map."""
        for parcel in self.map.parcels:
            self.demand_fit(parcel)
        addresses = list(range(len(self.map.names)))
        if addresses:
            left, bottom = min(self.map.xs), min(self.map.ys)
            reach = max(max(self.map.xs) - left, max(self.map.ys) - bottom)
            whole = Tile(left, bottom, 1 << reach.bit_length())
            yield from self.cut(whole, self.met(whole, range(len(self.map.parcels))), addresses, 1.0)

    def met(self, tile: Tile, parcels: Iterable[int]) -> List[int]:
        return [number for number in parcels if tile.meets(self.map.parcels[number])]

    def sides(self, parcels: Iterable[int]) -> int:
        return sum(self.map.parcels[number].sides for number in parcels)

    def cut(self, tile: Tile, parcels: List[int], addresses: List[int], times: float) -> Iterator[Tuple[List[int], List[int]]]:
        """The runs of a square that is met by these parcels and has these addresses."""
        if not parcels or not addresses:
            return
        if self.fit(parcels):
            yield from self.shared_out(parcels, addresses)
            return
        quarters = [(quarter, self.met(quarter, parcels), some) for quarter, some in self.sorted_out(tile, addresses)]
        times *= sum(self.sides(some) for _, some, _ in quarters) / self.sides(parcels)
        if tile.side == 1 or times > self.MOST_TIMES:
            for group in self.groups(parcels):
                yield from self.shared_out(group, addresses)
            return
        for quarter, some, there in quarters:
            yield from self.cut(quarter, some, there, times)

    def sorted_out(self, tile: Tile, addresses: List[int]) -> List[Tuple[Tile, List[int]]]:
        """The quarters of a square that have addresses, with these."""
        x, y = tile.left + tile.side // 2, tile.bottom + tile.side // 2
        within: List[List[int]] = [[], [], [], []]
        for number in addresses:
            within[(self.map.xs[number] >= x) + 2 * (self.map.ys[number] >= y)].append(number)
        return [(quarter, some) for quarter, some in zip(tile.quarters(), within) if some]

    def shared_out(self, parcels: List[int], addresses: List[int]) -> Iterator[Tuple[List[int], List[int]]]:
        for start in range(0, len(addresses), self.limits.addresses):
            yield parcels, addresses[start : start + self.limits.addresses]

    def groups(self, parcels: List[int]) -> Iterator[List[int]]:
        """The parcels in groups of which each is within the limits."""
        group: List[int] = []
        load = NOTHING
        for number in parcels:
            more = load.with_parcel(self.map.parcels[number])
            if not more.fits(self.limits):
                yield group
                group, more = [], NOTHING.with_parcel(self.map.parcels[number])
            group.append(number)
            load = more
        yield group

    def fit(self, parcels: Sequence[int]) -> bool:
        """Whether parcels are within the limits of a run."""
        some = [self.map.parcels[number] for number in parcels]
        curves, sides = sum(len(parcel.paths) for parcel in some), sum(parcel.sides for parcel in some)
        is_few = curves <= self.limits.curves and sides <= self.limits.pieces
        return is_few and Load(curves, sides, union_of(parcel.extent for parcel in some)).fits(self.limits)

    def demand_fit(self, parcel: Parcel) -> None:
        """A parcel within the limits alone, which it has to be."""
        for count, most, what in ((len(parcel.paths), self.limits.curves, "curves"), (parcel.sides, self.limits.pieces, "sides")):
            if count > most:
                raise CantConvert(f"{parcel.name} alone has {count} {what}, and a layer holds {most}")
        if parcel.extent.frame() is None:
            raise CantConvert(
                f"{parcel.name} alone has corners that aren't whole numbers within {LARGEST_COORDINATE} in any unit (--digits rounds them)"
            )


# Asking


class Pool:
    """Processes of this machine."""

    def __init__(self, processes: int):
        self.processes = processes
        self.executor: Executor = ProcessPoolExecutor(processes)

    def room(self) -> int:
        """How many squares are handed over at a time."""
        return 2 * self.processes

    def renew(self) -> None:
        """A process that dies takes the whole pool along: there is a new one."""
        self.executor.shutdown(wait=False)
        self.executor = ProcessPoolExecutor(self.processes)

    def close(self) -> None:
        self.executor.shutdown()


class Cluster:
    """The workers of a Dask scheduler. Those that come later are used too, and the squares of one that dies go to others."""

    def __init__(self, address: str):
        try:
            from distributed import Client
        except ImportError:
            raise CantConvert("--scheduler needs Dask's `distributed`, which isn't there (in Debian: python3-distributed)") from None
        self.client = Client(address)
        self.client.upload_file(one_square.__file__)
        self.executor: Executor = self.client.get_executor(pure=False)

    def room(self) -> int:
        return max(2 * sum(self.client.nthreads().values()), 4)

    def renew(self) -> None:
        self.executor = self.client.get_executor(pure=False)

    def close(self) -> None:
        self.executor.shutdown()
        self.client.close()


class Asker:
    """Asks squares by workers, and those that failed again."""

    def __init__(self, whole: Map, runs: Sequence[Tuple[List[int], List[int]]], workers: Any, program: str, way: str):
        self.map, self.runs, self.workers, self.program, self.way = whole, runs, workers, program, way
        self.answers: List[Answer] = [()] * len(whole.names)
        self.left = list(range(len(runs)))[::-1]
        self.tries = [0] * len(runs)
        self.again = self.done = self.addresses = 0
        self.told = time.monotonic()

    def square(self, run: int) -> Square:
        parcels, addresses = self.runs[run]
        numbered = [(number, self.map.parcels[number].paths) for number in parcels]
        return Square(self.program, self.way, numbered, [self.map.address(number) for number in addresses])

    def ask_all(self) -> List[Answer]:
        """The answers to all addresses."""
        asked: Dict[Future, int] = {}
        while self.left or asked:
            while self.left and len(asked) < self.workers.room():
                run = self.left.pop()
                asked[self.submit(self.square(run))] = run
            for future in wait(asked, timeout=QUIET, return_when=FIRST_COMPLETED).done:
                self.take(asked.pop(future), future)
            self.tell()
        return self.answers

    def submit(self, square: Square) -> Future:
        """Hands over a square, to new workers where the old ones have died."""
        try:
            return self.workers.executor.submit(answers_of, square)
        except BrokenExecutor:
            self.workers.renew()
            return self.workers.executor.submit(answers_of, square)

    def take(self, run: int, future: Future) -> None:
        """The answers to a square, or a word on why there are none: then it is asked again."""
        error = future.exception()
        if error is None:
            return self.keep(run, future.result())
        self.tries[run] += 1
        x, y = (float(Fraction(c, self.map.scale)) for c in self.map.address(self.runs[run][1][0]))
        what = str(error) or repr(error)
        if self.tries[run] == MOST_TRIES:
            raise CantConvert(f"the square of ({x}, {y}) was asked {MOST_TRIES} times in vain: {what}") from error
        print(f"tiles.py: the square of ({x}, {y}) is asked again: {what}", file=sys.stderr, flush=True)
        self.again += 1
        self.left.append(run)

    def keep(self, run: int, answers: List[Answer]) -> None:
        addresses = self.runs[run][1]
        for number, answer in zip(addresses, answers):
            if answer == TOO_FINE:
                raise CantConvert(f"{self.map.names[number]} has more digits than a script can say (--digits rounds them)")
            self.answers[number] = both(self.answers[number], answer)
        self.done += 1
        self.addresses += len(addresses)

    def tell(self) -> None:
        """A word on standard error, now and then."""
        if time.monotonic() - self.told >= QUIET:
            self.told = time.monotonic()
            print(f"tiles.py: {self.done} of {len(self.runs)} squares, {self.addresses} addresses", file=sys.stderr, flush=True)


def both(one: Answer, other: Answer) -> Answer:
    """What two runs with different parcels say together."""
    return BORDER if BORDER in (one, other) else tuple(sorted(one + other))


def where(answer: Answer, parcels: Sequence[Parcel]) -> str:
    """What is written of an address."""
    return answer if isinstance(answer, str) else ", ".join(parcels[number].name for number in answer)


# The whole


def read_map(parcels: str, addresses: str, digits: Optional[int]) -> Map:
    """The map of two files."""
    whole = Map(digits)
    features = read_features(parcels, True)
    for feature in features:
        for corner in feature.corners():
            whole.refine(corner)
    text = Path(addresses).read_text("utf-8-sig")
    for address in features_of_csv(text) if is_csv(text) else features_of(text, "name"):
        demand_kind(addresses, address, False)
        whole.add_address(address.name, address.points()[0])
    for feature in features:
        whole.add_parcel(feature.name, feature.lines)
    return whole


def told(whole: Map, asker: Asker) -> str:
    """A sentence on all of them."""
    border, outside = (sum(answer == kind for answer in asker.answers) for kind in (BORDER, ()))
    count = len(asker.answers)
    return (
        f"{count} addresses, {len(whole.parcels)} parcels: {count - border - outside} in a parcel, {border} on a border, "
        f"{outside} outside; squares: {len(asker.runs)}, asked again: {asker.again}"
    )


def digits_of(text: str) -> int:
    digits = int(text)
    if not 0 <= digits <= 40:
        raise ValueError
    return digits


def options_of(words: Optional[List[str]] = None) -> argparse.Namespace:
    parser = argparse.ArgumentParser(description="Tells of each address in which parcel it is, on a map of any size.")
    parser.add_argument("parcels", metavar="PARCELS", help="polygons in GeoJSON or WKT")
    parser.add_argument("addresses", metavar="ADDRESSES", help="points in CSV, GeoJSON or WKT")
    parser.add_argument("--program", metavar="PATH", help="the program `planar`")
    ways = f"the way of location: {', '.join(WAYS)} (trapezoid)"
    parser.add_argument("--locate", choices=WAYS, default="trapezoid", metavar="WAY", help=ways)
    parser.add_argument("--digits", type=digits_of, metavar="N", help="round all coordinates to so many decimals first")
    parser.add_argument("--processes", type=int, default=os.cpu_count() or 1, metavar="N", help="processes (one for each processor)")
    parser.add_argument("--scheduler", metavar="ADDRESS", help="ask on a Dask cluster, by the address of its scheduler")
    options = parser.parse_args(words)
    if options.processes < 1:
        parser.error("there is one process at least")
    return options


def join(options: argparse.Namespace) -> Asker:
    """Reads, cuts and asks."""
    whole = read_map(options.parcels, options.addresses, options.digits)
    runs = list(Cutter(whole, Limits()).runs())
    print(f"tiles.py: {len(whole.names)} addresses, {len(whole.parcels)} parcels, squares: {len(runs)}", file=sys.stderr, flush=True)
    for kind, count in whole.rounded.items():
        if count:
            print(f"tiles.py: {count} {kind} were rounded to {whole.digits} decimals", file=sys.stderr)
    program = options.program or built_program(__file__)
    workers = Cluster(options.scheduler) if options.scheduler else Pool(options.processes)
    try:
        asker = Asker(whole, runs, workers, program, options.locate)
        asker.ask_all()
    finally:
        workers.close()
    return asker


def main() -> int:
    options = options_of()
    try:
        asker = join(options)
    except (OSError, ValueError, subprocess.SubprocessError) as error:
        print(f"tiles.py: {error}", file=sys.stderr)
        return 1
    for name, answer in zip(asker.map.names, asker.answers):
        print(f"{name}\t{where(answer, asker.map.parcels)}")
    print(f"tiles.py: {told(asker.map, asker)}", file=sys.stderr)
    return 0


if __name__ == "__main__":
    sys.exit(main())
