#!/usr/bin/env python3
"""Tells of each address in which parcel it is.

    join.py parcels.geojson addresses.csv
    join.py --program PATH --locate trapezoid parcels.geojson addresses.csv

Parcels are polygons and addresses points, each in a form that lines_to_script.py reads. For each address it writes its name, a tab, and the
names of the parcels that it is in, or `on a border`, or nothing. Standard error tells how many there were, and the program's processor time.

All is one script: the sides of parcels as segments, each once, a `locate` for the first address, `batch` lines of up to eight for the
others, and `show`, by which each face is named. The program is the one that scripts/program.sh names, if none is given. --script writes
the script in place of running it.

Python 3.8 or later, with its standard library alone.
"""

from __future__ import annotations

import argparse
import re
import resource
import subprocess
import sys
from pathlib import Path
from typing import Dict, Iterator, List, Tuple

from lines_to_script import LONGEST_LINE, CantConvert, Feature, Frame, Plan, demand_room, features_of, frame_for, options_of, plan_of
from lines_to_script import script_of, table_of
from read_show import names_of_faces, read_show, table_in, texts_in

WAYS = ["naive", "walk", "landmarks", "trapezoid"]
MOST_IN_BATCH = 8
BATCH = re.compile(r"^batch [1-8]\n((?:(?:vertex|edge|face) .*\n)+)end\n", re.MULTILINE)


def frame_and_plan(features: List[Feature]) -> Tuple[Frame, Plan]:
    """The lines that draw and ask, of parcels and addresses together."""
    corners = sorted({point for feature in features for point in feature.corners()})
    points = sorted({point for feature in features for point in feature.points()})
    frame = frame_for(corners, points, None, None)
    plan = plan_of(features, frame, options_of(["--once", "--points=locate"]))
    demand_room(plan)
    return frame, plan


def script_for(features: List[Feature]) -> Tuple[Plan, str]:
    """The whole script, with its plan."""
    frame, plan = frame_and_plan(features)
    return plan, "".join(line + "\n" for line in [*in_batches(list(script_of(features, frame, plan))), "show"])


def in_batches(lines: List[str]) -> Iterator[str]:
    """The lines, in which the points of the addresses but the first one stand together, behind the comments with their names.

    By the first one the program builds what a way of location wants, and a batch takes what is built.
    """
    first = next((place for place, line in enumerate(lines, 1) if line.startswith("locate")), len(lines))
    yield from lines[:first]
    notes, batch = [], "batch"
    for note, line in zip(lines[first::2], lines[first + 1 :: 2]):
        point = line[len("locate") :]
        if len(notes) == MOST_IN_BATCH or len(batch + point) > LONGEST_LINE:
            yield from [*notes, batch]
            notes, batch = [], "batch"
        notes.append(note)
        batch += point
    if notes:
        yield from [*notes, batch]


def one_by_one(replies: str) -> str:
    """The replies as if each point had been located by a line of its own."""
    return BATCH.sub(r"\1", replies)


def read_features(name: str, is_parcels: bool) -> List[Feature]:
    """The features of a file: parcels are polygons, addresses points."""
    features = features_of(Path(name).read_text("utf-8-sig"), "name")
    for feature in features:
        demand_kind(name, feature, is_parcels)
    return features


def demand_kind(name: str, feature: Feature, is_parcel: bool) -> None:
    """A parcel is a polygon, and an address a point."""
    if is_parcel and (feature.points() or any(line[0] != line[-1] for line in feature.lines)):
        raise CantConvert(f"{name}: {feature.name} isn't a polygon")
    if not is_parcel and (feature.sides() or len(feature.points()) != 1):
        raise CantConvert(f"{name}: {feature.name} isn't a point")


def answer(program: str, way: str, script: str) -> Tuple[str, float]:
    """The replies, and how many seconds of processor time the program took."""
    begun = processor_time()
    ran = subprocess.run([program, "--locate", way], input=script, stdout=subprocess.PIPE, encoding="ascii", check=True)
    return ran.stdout, processor_time() - begun


def processor_time() -> float:
    """What the programs that were run took so far."""
    usage = resource.getrusage(resource.RUSAGE_CHILDREN)
    return usage.ru_utime + usage.ru_stime


def joined(parcels: List[Feature], addresses: List[Feature], plan: Plan, replies: str) -> Iterator[Tuple[str, str]]:
    """Each address with what is told of it."""
    replies = one_by_one(replies)
    rows = list(table_of(parcels + addresses, plan, replies))
    names = names_of_faces(read_show(texts_in(replies)[-1]), table_in("\n".join(rows[: len(parcels)])))
    for address, row in zip(addresses, rows[len(parcels) :]):
        kind, *rest = row.split("\t")[-1].split(" ")
        yield address.name, ", ".join(names[int(rest[0])]) if kind == "face" else "on a border"


def built_program(beside: str = __file__) -> str:
    """The path of the program that is built in the repository of a file of this folder."""
    script = Path(beside).absolute().parent.parent / "scripts" / "program.sh"
    return subprocess.run([str(script)], stdout=subprocess.PIPE, encoding="utf-8", check=True).stdout.strip()


def told(found: List[Tuple[str, str]], parcels: int, way: str, seconds: float) -> str:
    """A sentence on all of them."""
    counts: Dict[str, int] = {"on a border": 0, "": 0}
    for _, where in found:
        counts[where] = counts.get(where, 0) + 1
    border, outside = counts["on a border"], counts[""]
    return (
        f"{len(found)} addresses, {parcels} parcels: {len(found) - border - outside} in a parcel, {border} on a border, {outside} outside; "
        f"{seconds:.3f} s by {way}"
    )


def main() -> int:
    parser = argparse.ArgumentParser(description="Tells of each address in which parcel it is.")
    parser.add_argument("parcels", metavar="PARCELS", help="polygons in GeoJSON or WKT")
    parser.add_argument("addresses", metavar="ADDRESSES", help="points in CSV, GeoJSON or WKT")
    parser.add_argument("--program", metavar="PATH", help="the program `planar`")
    parser.add_argument("--locate", choices=WAYS, default="walk", metavar="WAY", help=f"the way of location: {', '.join(WAYS)} (walk)")
    parser.add_argument("--script", action="store_true", help="write the script, and run nothing")
    options = parser.parse_args()
    try:
        parcels, addresses = read_features(options.parcels, True), read_features(options.addresses, False)
        plan, script = script_for(parcels + addresses)
        if options.script:
            print(script, end="")
            return 0
        replies, seconds = answer(options.program or built_program(), options.locate, script)
        found = list(joined(parcels, addresses, plan, replies))
    except (OSError, ValueError, subprocess.SubprocessError) as error:
        print(f"join.py: {error}", file=sys.stderr)
        return 1
    for name, where in found:
        print(f"{name}\t{where}")
    print(f"join.py: {told(found, len(parcels), options.locate, seconds)}", file=sys.stderr)
    return 0


if __name__ == "__main__":
    sys.exit(main())
