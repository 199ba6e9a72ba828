#!/usr/bin/env python3
"""Tests of regions, as read_show.py makes polygons of them."""

import json
import re
import subprocess
import sys
import unittest
from fractions import Fraction
from pathlib import Path

from lines_to_script import features_of
from read_show import (
    NotASubdivision,
    Place,
    area_within,
    border_in,
    goes_round,
    read_region,
    region_geojson,
    region_wkt_rows,
    regions_in,
    sides_of,
)
from test_examples import with_other_bytes, with_other_lines

FOLDER = Path(__file__).resolve().parent
FLOOD = FOLDER.joinpath("flood_region.replies").read_text("ascii")
# The red land alone; then red and blue, red without blue, either, just one; red and blue without the island, before and after a cut.
TEXTS = regions_in(FLOOD)
SQUARE = [(0, 0), (4, 0), (4, 4), (0, 4)]


def text_of(*rings):
    """The text of a region whose border goes along these rings, with whole corners."""
    darts = sorted(side for ring in rings for side in sides_of(ring))
    rows = [f"b {x1} {y1} 1 {x2} {y2} 1\n" for (x1, y1), (x2, y2) in darts]
    return f"region {len(rows)}\n{''.join(rows)}end\n"


def polygons(*rings):
    return [[list(map(tuple, ring)) for ring in polygon] for polygon in read_region(text_of(*rings)).polygons]


class Regions(unittest.TestCase):
    def test_a_square_with_a_hole(self):
        hole = [(1, 1), (1, 3), (3, 3), (3, 1)]
        self.assertEqual(polygons(SQUARE), [[SQUARE]])
        self.assertEqual(polygons(SQUARE[2:] + SQUARE[:2], hole[1:] + hole[:1]), [[SQUARE, hole]])
        self.assertEqual(read_region(text_of(SQUARE, hole)).area, 12)
        self.assertEqual(read_region("region 0\nend\n").polygons, ())

    def test_what_is_inside_a_hole_is_a_polygon(self):
        outer, hole = [(0, 0), (9, 0), (9, 9), (0, 9)], [(1, 1), (1, 7), (7, 1)]
        # One apart from the hole's border, and one that has all its corners.
        for island in [[(2, 2), (3, 2), (2, 3)], [(1, 1), (4, 2), (7, 1), (3, 4), (1, 7), (2, 4)]]:
            self.assertEqual(polygons(island, hole[2:] + hole[:2], outer), [[outer, hole], [island]])

    def test_rings_part_at_a_vertex(self):
        # Two squares that meet in a corner; at (4, 4) each goes on to its own side.
        other = [(4, 4), (6, 4), (6, 6), (4, 6)]
        self.assertEqual(polygons(other, SQUARE), [[SQUARE], [other]])
        # A hole that touches the border, and two holes that meet in a point.
        hole = [(2, 1), (4, 2), (2, 3)][::-1]
        split = [(0, 0), (4, 0), (4, 2), (4, 4), (0, 4)]
        self.assertEqual(polygons(split, hole), [[split, [(2, 1), (2, 3), (4, 2)]]])
        left, right = [(1, 1), (1, 3), (2, 2)], [(2, 2), (3, 3), (3, 1)]
        self.assertEqual(polygons(SQUARE, right, left), [[SQUARE, left, right]])
        # A diamond that touches all four sides leaves four corners.
        middles = [(2, 0), (4, 2), (2, 4), (0, 2)]
        eight = [(0, 0), (2, 0), (4, 0), (4, 2), (4, 4), (2, 4), (0, 4), (0, 2)]
        corners = polygons(eight, middles[::-1])
        self.assertEqual([len(rings) for rings in corners], [1] * 4)
        self.assertEqual([area_within(ring) for rings in corners for ring in rings], [2] * 4)

    def test_the_stored_regions(self):
        areas = [read_region(text).area for text in TEXTS]
        built, flooded, dry, either, one = areas[:5]
        # The zone is a parallelogram 100 wide and 16 high, with an island of 40. The built land is 70 by 30, with a pond of 50.
        self.assertEqual((built, flooded), (70 * 30 - 50, 950))
        self.assertEqual(either + flooded, built + 100 * 16 - 40)
        self.assertEqual((dry, one), (built - flooded, either - flooded))
        self.assertEqual(areas[5:], [flooded + 40] * 2)
        self.assertEqual([len(rings) for rings in read_region(TEXTS[1]).polygons], [3])
        self.assertEqual([len(rings) for rings in read_region(TEXTS[2]).polygons], [1, 1, 1])

    def test_rings_are_the_border(self):
        for text in TEXTS:
            region = read_region(text)
            sides = [side for rings in region.polygons for ring in rings for side in sides_of(ring)]
            self.assertEqual(sorted(sides), border_in(text))
            for outer, *holes in region.polygons:
                self.assertGreater(area_within(outer), 0)
                for hole in holes:
                    self.assertLess(area_within(hole), 0)
                    self.assertTrue(all(goes_round(outer, point) for point in hole))

    def test_a_damaged_text_is_refused(self):
        for text in TEXTS[:5]:
            for damaged in [*with_other_bytes(text), *with_other_lines(text), text.replace("region ", "overlay "), ""]:
                self.assertRaises(NotASubdivision, read_region, damaged)
        for bad in ["0 0 0", "0 0 -1", "16777216 0 1", "0 0 2", "x 0 1", "01 0 1", "+1 0 1", "0 1"]:
            self.assertRaises(NotASubdivision, read_region, text_of([(0, 0), (1, 0), (0, 1)]).replace("0 0 1", bad))

    def test_a_border_that_bounds_nothing_is_refused(self):
        hole = [(1, 1), (1, 3), (3, 3), (3, 1)]
        for rings in [
            [SQUARE[::-1]],  # what is inside would reach on without end
            [SQUARE, hole[::-1]],  # an outer ring in what is inside
            [SQUARE, [(5, 1), (5, 3), (7, 3), (7, 1)]],  # a hole outside
            [[(0, 0), (8, 0), (8, 8), (0, 8)], [(1, 1), (1, 6), (6, 6), (6, 1)], [(2, 2), (2, 4), (4, 4), (4, 2)]],  # a hole in a hole
            [SQUARE, [(4, 4), (4, 6), (6, 6), (6, 4)]],  # at a corner two sectors inside
            [SQUARE, [(4, 4), (4, 0), (6, 2)]],  # a side both ways
            [SQUARE, SQUARE],
            [[(0, 0), (0, 0), (1, 1)]],
            [[(0, 0), (2, 0), (1, 0)]],  # along one line
        ]:
            self.assertRaises(NotASubdivision, read_region, text_of(*rings))
        rows = text_of(SQUARE).splitlines(keepends=True)[1:-1]
        for some in [rows[:3], [rows[0].replace("b 0 0 1 4 0 1", "b 4 0 1 0 0 1")] + rows[1:], rows[::-1]]:
            self.assertRaises(NotASubdivision, read_region, f"region {len(some)}\n{''.join(some)}end\n")

    def test_writing(self):
        region, place = read_region(TEXTS[1]), Place((Fraction(100), Fraction(-5)), Fraction(4))
        heading, row = region_wkt_rows(region, place)
        self.assertEqual(heading, "number\tarea\tpolygon")
        self.assertTrue(row.startswith("1\t59.375\tPOLYGON ((100.0 -2.25, 110.0 -1.25, 117.5 -0.5, 117.5 2.5, "))
        self.assertTrue(row.endswith(", (112.5 0.0, 112.5 1.0, 115.0 1.0, 115.0 0.0, 112.5 0.0))"))
        # What is written as GeoJSON is read again as the same rings.
        data = json.loads(region_geojson(region, place))
        self.assertEqual(data["features"][0]["properties"], {"number": 1, "area": 59.375})
        lines = [line for feature in features_of(json.dumps(data), "number") for line in feature.lines]
        self.assertEqual([len(line) for line in lines], [len(ring) + 1 for ring in region.polygons[0]])

    def test_words(self):
        def ended(*words, text=FLOOD):
            command = [sys.executable, "-B", str(FOLDER / "read_show.py"), "--region", *words]
            ran = subprocess.run(command, input=text, capture_output=True, encoding="utf-8")
            return ran.returncode, ran.stdout, ran.stderr

        status, told, why = ended("--replies", "--text", "2")
        self.assertEqual((status, told.splitlines()[0], why), (0, "polygon 1: area 950", ""))
        self.assertEqual(len(re.findall("^  hole ", told, re.MULTILINE)), 2)
        self.assertEqual(ended(text=text_of(SQUARE)), (0, "polygon 1: area 16\n  outer (0, 0) (4, 0) (4, 4) (0, 4)\n", ""))
        self.assertEqual(ended(text="region 0\nend\n"), (0, "", ""))
        self.assertEqual(json.loads(ended("--geojson", text="region 0\nend\n")[1])["features"], [])
        for words, text in [(["--replies", "--text", "9"], FLOOD), (["--replies"], "ok\n"), ([], FLOOD), (["--names", "map"], TEXTS[0])]:
            status, told, why = ended(*words, text=text)
            self.assertEqual((status, told), (1, ""))
            self.assertTrue(why.startswith("read_show.py: "))


if __name__ == "__main__":
    unittest.main()
