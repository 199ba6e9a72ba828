#!/usr/bin/env python3
"""Tells how much of each parcel is flooded: red faces are parcels, and what blue faces hold is under water.

    planar < flood.script | flooded.py --text 1 1=field 2=wood
    flooded.py --names parcels.names --scale 8 map.replies

It reads the last text of an overlay among the replies, or with --text the N-th of all texts, and adds up the areas of faces. A parcel is a
red face, by its rank; words RANK=NAME name it. With --names, a table of lines_to_script.py, a parcel is a feature, which may have several
red faces. --scale is that of the script: areas are those of the map then.

Python 3.8 or later, with its standard library alone.
"""

from __future__ import annotations

import argparse
import sys
from fractions import Fraction
from pathlib import Path
from typing import Dict, Iterable, Iterator, List, Tuple

from read_show import NotASubdivision, Subdivision, demand, names_of_faces, read_show, scale_of, table_in, texts_in

# A parcel's area, and how much of it is flooded.
Areas = Tuple[Fraction, Fraction]


def text_of_number(replies: str, number: int) -> Subdivision:
    """What the N-th text among the replies says, or for 0 the last one."""
    texts = texts_in(replies)
    demand(0 <= number <= len(texts) and texts, f"the replies have {len(texts)} texts, and no text {number}")
    return read_show(texts[number - 1])


def overlay_in(replies: str, number: int) -> Subdivision:
    """The N-th text among the replies, or for 0 the last one, which has to be that of an overlay."""
    read = text_of_number(replies, number)
    demand(read.is_overlay, "the text is that of one layer, not of an overlay")
    return read


def parcels_by_rank(read: Subdivision, words: Iterable[str]) -> List[List[str]]:
    """For each face of the overlay the name of its red face: as the words say, else `red face N`."""
    names: Dict[int, str] = {}
    ranks = {face.labels[0] for face in read.faces}
    for word in words:
        rank, equals, name = word.partition("=")
        demand(equals and rank.isdecimal() and int(rank) in ranks - {0}, f"{word!r} names no bounded red face, RANK=NAME")
        names[int(rank)] = name
    return [[names.get(red, f"red face {red}")] if red else [] for red, _ in (face.labels for face in read.faces)]


def areas_of(read: Subdivision, parcels: List[List[str]]) -> Dict[str, Areas]:
    """The areas of the parcels, in the order in which they are met."""
    areas: Dict[str, Areas] = {}
    for face, names in zip(read.faces, parcels):
        wet = face.area if face.area and face.labels[1] else Fraction(0)
        for name in names:
            whole, flooded = areas.get(name, (Fraction(0), Fraction(0)))
            areas[name] = whole + (face.area or 0), flooded + wet
    return areas


def rows(areas: Dict[str, Areas], scale: Fraction) -> Iterator[str]:
    """A heading, and a row for each parcel."""
    width = max([len("parcel"), *map(len, areas)])
    yield f"{'parcel':<{width}} {'area':>12} {'flooded':>12} {'share':>8}"
    for name, (whole, flooded) in areas.items():
        sizes = [float(area / scale**2) for area in (whole, flooded)]
        yield f"{name:<{width}} {sizes[0]:>12.2f} {sizes[1]:>12.2f} {float(100 * flooded / whole):>7.1f}%"


def main() -> int:
    parser = argparse.ArgumentParser(description="Tells how much of each parcel is flooded, by the text of an overlay.")
    parser.add_argument("words", nargs="*", metavar="RANK=NAME", help="names of red faces; a word without = is the file of replies")
    parser.add_argument("--text", type=int, default=0, metavar="N", help="the N-th text in the replies, from 1 on; else the last one")
    parser.add_argument("--names", metavar="TABLE", help="names of the red features")
    parser.add_argument("--scale", type=scale_of, default=Fraction(1), metavar="S", help="the scale of the script")
    options = parser.parse_args()
    files = [word for word in options.words if "=" not in word]
    try:
        replies = Path(files[0]).read_text("ascii") if files else sys.stdin.read()
        read = overlay_in(replies, options.text)
        if options.names:
            parcels = names_of_faces(read, table_in(Path(options.names).read_text("utf-8")))
        else:
            parcels = parcels_by_rank(read, [word for word in options.words if "=" in word])
        table = list(rows(areas_of(read, parcels), options.scale))
    except (OSError, NotASubdivision, UnicodeError) as error:
        print(f"flooded.py: {error}", file=sys.stderr)
        return 1
    print(*table, sep="\n")
    return 0


if __name__ == "__main__":
    sys.exit(main())
