#!/usr/bin/env python3
"""Tells the connected parts of a subdivision with the curves in each, and where nets are short or open.

    planar < wires.script | nets.py
    nets.py wires.replies A=1,2,3 B=4,5,6
    nets.py --names wires.names --scale 1000 wires.replies

It reads the last text of `show` or `mirror` among replies, or with --text the N-th of all texts. A net is a name with the numbers of its
curves: NAME=C,C,.. as a word, or with --names each name of a table of lines_to_script.py, with the curves of all rows that have it. Curves
of no net are wires without a name. It writes rows, parted by tabs:

    part K      the curves and the nets of a connected part; parts are numbered from left to right, by their least points
    short A B   two nets meet: at a point, along an edge, or else by wires without a name, which are told by their curves
    open A      a net is in several parts
    absent A    a net has no edge

Nets that meet only by a third one are told by their rows with it. Points are exact, in coordinates of the script; with --scale or --offset
they are decimals in those of the map, map = script / scale + offset.

The exit status is 0 where no net is short, open or absent, 1 where one is, and 2 where the text can't be read. Python 3.8 or later, with
its standard library alone.
"""

from __future__ import annotations

import argparse
import sys
from itertools import combinations
from pathlib import Path
from typing import Dict, FrozenSet, Iterable, Iterator, List, Sequence, Set, Tuple

from flooded import text_of_number
from read_show import Dart, NotASubdivision, Place, Point, Subdivision, Table, demand, offset_pair, scale_of, table_in, told

# For each curve the names of the nets that it is of.
Nets = Dict[int, FrozenSet[str]]


def nets_of(table: Table) -> Nets:
    """The nets of each curve."""
    nets: Nets = {}
    for name, curves in table:
        for curve in curves:
            nets[curve] = nets.get(curve, frozenset()) | {name}
    return nets


def edges_of(read: Subdivision) -> List[Dart]:
    """One dart of each edge, from its lesser to its greater end."""
    return [dart for dart in read.darts if dart.source.number < dart.target.number]


def nets_along(edge: Dart, nets: Nets) -> FrozenSet[str]:
    return frozenset(name for curve in edge.curves for name in nets.get(curve, ()))


def parts_of(edges: Iterable[Dart]) -> List[List[Dart]]:
    """The connected parts that edges make, each with its edges, in the order of their least vertices."""
    at: Dict[int, List[Dart]] = {}
    for edge in edges:
        at.setdefault(edge.source.number, []).append(edge)
        at.setdefault(edge.target.number, []).append(edge)
    parts, seen = [], set()
    for number in sorted(at):
        found: Dict[Tuple[int, int], Dart] = {}
        left = [number]
        while left:
            vertex = left.pop()
            if vertex not in seen:
                seen.add(vertex)
                found.update((edge.key, edge) for edge in at[vertex])
                left += (end for edge in at[vertex] for end in edge.key)
        parts += [list(found.values())] if found else []
    return parts


def curves_in(edges: Iterable[Dart]) -> List[int]:
    return sorted({curve for edge in edges for curve in edge.curves})


class Checker:
    """The parts of a subdivision, and its nets."""

    def __init__(self, read: Subdivision, table: Table, place: Place):
        demand(not read.is_overlay, "the text is that of an overlay; wires of two layers don't meet, so ask each layer to `show`")
        self.edges, self.names, self.nets, self.place = edges_of(read), list(dict(table)), nets_of(table), place
        self.parts = parts_of(self.edges)
        self.within = [sorted({name for edge in part for name in nets_along(edge, self.nets)}) for part in self.parts]

    def rows(self) -> Iterator[List[str]]:
        """All rows, without their tabs."""
        for number, (part, names) in enumerate(zip(self.parts, self.within), 1):
            yield ["part", str(number), f"curves {listed(curves_in(part))}", *([f"nets {' '.join(names)}"] if names else [])]
        yield from self.shorts()
        for name in self.names:
            numbers = [number for number, names in enumerate(self.within, 1) if name in names]
            if len(numbers) != 1:
                yield ["open", name, f"parts {listed(numbers)}"] if numbers else ["absent", name]

    def shorts(self) -> Iterator[List[str]]:
        """Each two nets that meet, and where: along edges, at vertices that aren't ends of these, and by what has no name."""
        shared: Set[Tuple[str, str, Point]] = set()
        around: Dict[Point, Set[str]] = {}
        for edge in self.edges:
            names, ends = nets_along(edge, self.nets), (edge.source.point, edge.target.point)
            for end in ends:
                around.setdefault(end, set()).update(names)
            for pair in combinations(sorted(names), 2):
                shared.update((*pair, end) for end in ends)
                yield ["short", *pair, f"along {' '.join(map(self.told, ends))}"]
        for point, names in sorted(around.items()):
            for pair in combinations(sorted(names), 2):
                if (*pair, point) not in shared:
                    yield ["short", *pair, f"at {self.told(point)}"]
        for part in parts_of(edge for edge in self.edges if not nets_along(edge, self.nets)):
            touched = [around[vertex.point] for edge in part for vertex in (edge.source, edge.target)]
            for pair in combinations(sorted(set().union(*touched)), 2):
                if not any(names.issuperset(pair) for names in touched):
                    yield ["short", *pair, f"by curves {listed(curves_in(part))}"]

    def told(self, point: Point) -> str:
        if self.place == Place():
            return told(point)
        return "({!r}, {!r})".format(*self.place.position(point))


def listed(numbers: Iterable[int]) -> str:
    return " ".join(map(str, numbers))


def net_in(word: str) -> Tuple[str, List[int]]:
    """The net of a word NAME=C,C,.."""
    name, _, curves = word.partition("=")
    numbers = [int(curve) for curve in curves.split(",") if curve.isdecimal()]
    demand(name and len(numbers) == curves.count(",") + 1, f"{word!r} is no net, NAME=C,C,.. by the numbers of its curves")
    return name, numbers


def table_for(words: Sequence[str], file_name: str) -> Table:
    """The nets that words and a table name."""
    table = table_in(Path(file_name).read_text("utf-8")) if file_name else []
    return [*(row for row in table if row[1]), *map(net_in, words)]


def main() -> int:
    parser = argparse.ArgumentParser(description="Tells the connected parts of a subdivision, and which nets are short or open.")
    parser.add_argument("words", nargs="*", metavar="NAME=C,C,..", help="a net; a word without = is the file of replies")
    parser.add_argument("--text", type=int, default=0, metavar="N", help="the N-th text in the replies, from 1 on; else the last one")
    parser.add_argument("--names", metavar="TABLE", help="names with the numbers of their curves, as lines_to_script.py writes them")
    parser.add_argument("--offset", type=offset_pair, default=Place.offset, metavar="X,Y", help="the offset of the script")
    parser.add_argument("--scale", type=scale_of, default=Place.scale, metavar="S", help="the scale of the script")
    options = parser.parse_args()
    files = [word for word in options.words if "=" not in word]
    try:
        demand(len(files) < 2, f"one file is due, and not {' '.join(files)}")
        replies = Path(files[0]).read_text("ascii") if files else sys.stdin.read()
        table = table_for([word for word in options.words if "=" in word], options.names)
        checker = Checker(text_of_number(replies, options.text), table, Place(options.offset, options.scale))
    except (OSError, NotASubdivision, UnicodeError) as error:
        print(f"nets.py: {error}", file=sys.stderr)
        return 2
    rows = list(checker.rows())
    for row in rows:
        print("\t".join(row))
    return int(any(row[0] != "part" for row in rows))


if __name__ == "__main__":
    sys.exit(main())
