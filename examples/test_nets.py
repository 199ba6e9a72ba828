#!/usr/bin/env python3
"""Tests of the program that tells parts, shorts and opens, on layers that the stand-in makes and on the stored replies."""

import unittest
from pathlib import Path

import nets
from nets import Checker
from read_show import NotASubdivision, Place, read_show
from stand_in import Map
from test_answers import FLOOD, ROOMS, ended
from test_examples import TEXTS, parts_of

FOLDER = Path(__file__).resolve().parent


def layer(*lines):
    """The text of a layer after some lines of a script."""
    made = Map()
    for line in lines:
        made.reply(*line.split()[:1], line.split()[1:])
    return made.subdivision().text()


def rows(text, *words):
    return ["\t".join(row) for row in Checker(read_show(text), [nets.net_in(word) for word in words], Place()).rows()]


# The first two nets of wires.script, with the wire by which they meet.
RAIL = ["segment 0 0 40 0", "segment 10 0 10 20", "segment 30 0 30 20", "pin 10 20 1", "segment 0 24 20 24", "segment 20 24 20 12"]
SHORT = [*RAIL, "segment 20 12 33 5"]


class Nets(unittest.TestCase):
    def test_wires(self):
        self.assertEqual(rows(layer(*RAIL), "A=1,2,3", "B=4,5"), ["part\t1\tcurves 1 2 3\tnets A", "part\t2\tcurves 4 5\tnets B"])
        due = ["part\t1\tcurves 1 2 3 4 5 6\tnets A B", "short\tA\tB\tat (30, 86/13)"]
        self.assertEqual(rows(layer(*SHORT), "A=1,2,3", "B=4,5,6"), due)
        self.assertEqual(rows(layer(*SHORT))[0], "part\t1\tcurves 1 2 3 4 5 6")

    def test_along_an_edge(self):
        along = layer(*RAIL, "segment 20 12 20 0", "segment 20 0 36 0")
        told = rows(along, "A=1,2,3", "B=4,5,6,7")[1:]
        self.assertEqual(told, [f"short\tA\tB\talong ({x}, 0) ({y}, 0)" for x, y in [(20, 30), (30, 36)]])

    def test_by_wires_without_a_name(self):
        told = rows(layer(*SHORT), "A=1,2,3", "B=4,5")[1:]
        self.assertEqual(told, ["short\tA\tB\tby curves 6"])
        # Two wires that meet are told together, and one that ends in nothing is none.
        chain = layer("segment 0 0 0 1", "segment 9 0 9 1", "segment 0 0 4 4", "segment 4 4 9 0", "segment 0 1 -5 5", "segment 20 0 21 0")
        self.assertEqual(rows(chain, "A=1", "B=2")[2:], ["short\tA\tB\tby curves 3 4"])

    def test_a_third_net_between_two(self):
        three = layer("segment 0 0 4 0", "segment 4 0 8 0", "segment 8 0 12 0")
        told = rows(three, "A=1", "B=2", "C=3")
        self.assertEqual(told, ["part\t1\tcurves 1 2 3\tnets A B C", "short\tA\tB\tat (4, 0)", "short\tB\tC\tat (8, 0)"])
        # A curve of two nets is a short of them.
        self.assertEqual(rows(three, "A=1,2", "B=2")[1:], ["short\tA\tB\talong (4, 0) (8, 0)"])

    def test_opens(self):
        apart = layer("segment 0 0 4 0", "segment 6 0 9 0", "segment 0 5 4 5")
        told = rows(apart, "A=1,2", "B=3,4", "C=4")
        self.assertEqual(told[3:], ["open\tA\tparts 1 3", "absent\tC"])
        self.assertEqual(told[:3], [f"part\t{n}\tcurves {c}\tnets {name}" for n, c, name in [(1, 1, "A"), (2, 3, "B"), (3, 2, "A")]])

    def test_parts_are_inner_cycles(self):
        for text in TEXTS + [layer(*RAIL), layer(*SHORT)]:
            read = read_show(text)
            if not read.is_overlay:
                found = nets.parts_of(nets.edges_of(read))
                self.assertEqual(len(found), sum(len(face.holes) for face in read.faces))
                isolated = sum(not vertex.neighbours for vertex in read.vertices)
                self.assertEqual(len(found), parts_of(read) - isolated)
                edges = [edge.key for part in found for edge in part]
                self.assertEqual(sorted(edges), [edge.key for edge in nets.edges_of(read)])

    def test_what_cant_be_answered_is_refused(self):
        self.assertRaises(NotASubdivision, rows, FLOOD[FLOOD.index("overlay") :].split("end\n")[0] + "end\n")
        for word in ["A=", "=1", "A=1,", "A=x", "A=1,,2", "A=-1"]:
            self.assertRaises(NotASubdivision, nets.net_in, word)

    def test_the_program(self):
        short = layer(*SHORT)
        status, told, _ = ended("nets.py", "A=1,2,3", "B=4,5,6", "--scale", "2", "--offset", "1,0", text="ok 1\n" + short)
        self.assertEqual((status, told.splitlines()[1]), (1, "short\tA\tB\tat (16.0, 3.3076923076923075)"))
        self.assertEqual(ended("nets.py", "A=1,2,3", "--text", "1", text=short)[0], 0)
        self.assertEqual(ended("nets.py", FOLDER / "rooms.replies")[1].splitlines(), rows(ROOMS[ROOMS.rindex("arrangement") :]))
        names = FOLDER / "wires.script"
        for words in [["A=x"], ["--text", "2"], ["--names", names], ["--names", FOLDER / "nothing"], [FOLDER / "nothing"], ["a", "b"]]:
            status, told, why = ended("nets.py", *words, text=short)
            self.assertEqual((status, told), (2, ""))
            self.assertTrue(why.startswith("nets.py: "))
        self.assertEqual(ended("nets.py", text="ok 1\n")[0], 2)
        self.assertEqual(ended("nets.py", "--scale", "0", text=short)[0], 2)


if __name__ == "__main__":
    unittest.main()
