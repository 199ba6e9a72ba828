#!/usr/bin/env python3
"""Tests of corners that are put on others and on sides."""

import json
import unittest
from fractions import Fraction

import made_town
from lines_to_script import CantConvert, convert, features_of, options_of
from snap_corners import near_pairs, snapped, square
from stand_in import Map, is_on
from test_answers import ended


def points(text):
    """Lines of points, parted by commas."""
    return [[tuple(map(Fraction, point.split())) for point in line.split(",")] for line in text.split(";")]


def snap(text, distance):
    lines, moves, given = snapped(points(text), Fraction(distance))
    return lines, moves, given


def layer_of(text, *words):
    """The layer that the script of a map makes."""
    layer = Map()
    for line in convert(text, options_of(list(words)))[0]:
        if line[0] != "#":
            layer.reply(line.split()[0], line.split()[1:])
    return layer


class Snap(unittest.TestCase):
    def test_corners(self):
        lines, moves, given = snap("0 0, 4 0; 4.1 0, 8 0; 4 0.1, 4 5; 4 0", "0.2")
        self.assertEqual(lines, points("0 0, 4 0; 4 0, 8 0; 4 0, 4 5; 4 0"))
        due = [((Fraction("4.1"), 0), "a corner"), ((4, Fraction("0.1")), "a corner")]
        self.assertEqual([(corner, what) for corner, what, _ in moves], due)
        # The distance counts, not x and y; and a corner isn't carried on from one to the next.
        self.assertEqual(snap("0 0, 0 -9; 0.15 0.15, 9 9", "0.2")[1], [])
        self.assertEqual(len(snap("0 0, 9 0; 0.2 0, 9 9; 0.4 0, 9 -9", "0.2")[1]), 1)
        # The nearest of several.
        self.assertEqual(snap("0 0, 1 0; 0.6 0, 0.6 9", "0.7")[0][1][0], (1, 0))

    def test_sides(self):
        lines, moves, given = snap("0 0, 10 0; 5 0.1, 5 9; 2 -0.1, 2 -9; 7 0, 7 4", "0.2")
        self.assertEqual(lines, points("0 0, 2 0, 5 0, 7 0, 10 0; 5 0, 5 9; 2 0, 2 -9; 7 0, 7 4"))
        # One that lies on the side isn't moved, and is a corner of it.
        self.assertEqual((len(moves), given, {what for _, what, _ in moves}), (2, 3, {"a side"}))
        self.assertEqual(snap("10 0, 0 0; 5 0.1, 5 9; 2 -0.1, 2 -9", "0.2")[0][0], points("10 0, 5 0, 2 0, 0 0")[0])
        # Of two sides the nearest takes it, and both have it.
        lines, _, given = snap("0 0, 10 0; 0 1, 10 1; 5 0.4, 5 0.5", "0.7")
        self.assertEqual((lines[0][1], lines[1][1], given), ((5, 0), (5, 0), 2))
        # Beyond the ends of a side, and farther from it than the distance, nothing is moved.
        self.assertEqual(snap("0 0, 10 0; 10.5 0, 20 5; 5 0.3, 5 9", "0.2")[1], [])

    def test_each_move_is_told_and_short(self):
        collection = {"type": "FeatureCollection", "features": list(made_town.parcels(4))}
        numbers = made_town.scattered(5)
        for feature in collection["features"]:
            for ring in feature["geometry"]["coordinates"]:
                ring[:-1] = [[x + next(numbers) % 40 / 100, y + next(numbers) % 40 / 100] for x, y in ring[:-1]]
                ring[-1] = ring[0]
        town = features_of(json.dumps(collection), "name")
        before = [line for feature in town for line in feature.lines]
        lines, moves, _ = snapped(before, Fraction(1))
        self.assertTrue(all(square(corner, place) <= 1 for corner, _, place in moves))
        changed = {(p, q) for line, other in zip(before, lines) for p, q in zip(line, other) if p != q}
        self.assertEqual(changed, {(corner, place) for corner, _, place in moves})
        # Parcels that hardly missed each other have common borders again: 16 of them, and what is round them.
        self.assertEqual(len(layer_of(json.dumps(collection), "--snap", "1").subdivision().faces), 17)
        self.assertGreater(len(layer_of(json.dumps(collection)).subdivision().faces), 30)

    def test_rounding_doesnt_part_them(self):
        wall = "LINESTRING (0 0, 10 3) LINESTRING (5 9, 5 1.5)"
        apart = layer_of(wall, "--scale", "1").counts()
        met = layer_of(wall, "--scale", "1", "--snap", "0.01").counts()
        self.assertEqual((apart.inner, met.inner, met.vertices), (2, 1, 4))

    def test_near_pairs_are_all_there(self):
        numbers = made_town.scattered(9)
        corners = [(Fraction(next(numbers) % 50), Fraction(next(numbers) % 50)) for _ in range(60)]
        sides = [tuple(sorted((corners[n], corners[next(numbers) % 60]))) for n in range(60)]
        near = set(near_pairs(corners, sides, Fraction(1, 2)))
        for corner in corners:
            for side in sides:
                if is_on(side, corner):
                    self.assertIn((corner, side), near)
        self.assertLess(len(near), len(corners) * len(sides))

    def test_words(self):
        text = "LINESTRING (0 0, 10 0) LINESTRING (5 0.25, 5 9) POINT (5 0.25)"
        lines, notes = convert(text, options_of(["--snap", "1/4", "--scale", "1"]))
        self.assertEqual([line for line in lines if line[0] != "#"], ["path 0 0 5 0 10 0", "segment 5 0 5 9", "pin 5 0 1"])
        due = ["corner (5, 0.25) was put on a side at (5, 0)", "corners that were put on others or on sides: 1; corners that sides got: 1"]
        self.assertEqual(notes[:2], due)
        status, told, why = ended("lines_to_script.py", "--snap", "0.25", "--scale=1", text=text)
        self.assertEqual((status, why.splitlines()[0]), (0, "lines_to_script.py: " + due[0]))
        for wrong in ["0", "-1", "x", "1/0"]:
            self.assertEqual(ended("lines_to_script.py", "--snap", wrong, text=text)[:2], (2, ""))
        self.assertRaises(CantConvert, convert, "LINESTRING (0 0, 1 1", options_of(["--snap", "1"]))


if __name__ == "__main__":
    unittest.main()
