#!/usr/bin/env python3
"""Makes a town to try join.py and tiles.py on: parcels in rows, whose corners lie a little beside a grid's, and addresses in and round
them.

    made_town.py parcels > parcels.geojson
    made_town.py addresses > addresses.csv

The same is made each time. --rows tells how many rows and columns of parcels there are, --count how many addresses. A few addresses lie on
corners and on sides. Python 3.8 or later, with its standard library alone.
"""

from __future__ import annotations

import argparse
import json
import sys
from typing import Iterator, List, Tuple

# How far grid lines are apart, in metres, and how far a corner lies beside them at most.
STEP = 40
BESIDE = 12
MOST_ROWS = 1000


def scattered(seed: int) -> Iterator[int]:
    """Numbers below 2^31 without visible order, by Knuth's linear congruences."""
    state = seed
    while True:
        state = (6364136223846793005 * state + 1442695040888963407) % 2**64
        yield state >> 33


def corners_of(rows: int) -> List[List[Tuple[int, int]]]:
    """The corners of the parcels, row by row."""
    numbers = scattered(1)

    def beside() -> int:
        return next(numbers) % (2 * BESIDE + 1) - BESIDE

    return [[(STEP * x + beside(), STEP * y + beside()) for x in range(rows + 1)] for y in range(rows + 1)]


def parcels(rows: int) -> Iterator[dict]:
    """Each parcel as a feature of GeoJSON, its corners counterclockwise."""
    at = corners_of(rows)
    for y in range(rows):
        for x in range(rows):
            ring = [at[y][x], at[y][x + 1], at[y + 1][x + 1], at[y + 1][x], at[y][x]]
            geometry = {"type": "Polygon", "coordinates": [ring]}
            yield {"type": "Feature", "properties": {"name": f"parcel {y + 1}.{x + 1}"}, "geometry": geometry}


def addresses(rows: int, count: int) -> Iterator[str]:
    """Rows of CSV. The first two are a corner of the town and the middle of a side; the others lie anywhere, in decimetres."""
    at = corners_of(rows)
    (x1, y1), (x2, y2) = at[0][0], at[0][1]
    yield f"{x1},{y1},address 1"
    yield f"{(x1 + x2) / 2},{(y1 + y2) / 2},address 2"
    numbers = scattered(2)
    reach = 10 * STEP * (rows + 1)
    for number in range(3, count + 1):
        x, y = (next(numbers) % reach - 5 * STEP for _ in range(2))
        yield f"{x / 10},{y / 10},address {number}"


def main() -> int:
    parser = argparse.ArgumentParser(description="Makes parcels in GeoJSON, or addresses in CSV.")
    parser.add_argument("what", choices=["parcels", "addresses"])
    parser.add_argument("--rows", type=int, default=20, metavar="N", help=f"rows and columns of parcels, from 1 to {MOST_ROWS} (20)")
    parser.add_argument("--count", type=int, default=1000, metavar="N", help="how many addresses, from 2 on (1000)")
    options = parser.parse_args()
    if not 1 <= options.rows <= MOST_ROWS or options.count < 2:
        print(f"made_town.py: rows are from 1 to {MOST_ROWS}, and addresses two at least", file=sys.stderr)
        return 1
    if options.what == "parcels":
        print(json.dumps({"type": "FeatureCollection", "features": list(parcels(options.rows))}))
    else:
        print(*addresses(options.rows, options.count), sep="\n")
    return 0


if __name__ == "__main__":
    sys.exit(main())
