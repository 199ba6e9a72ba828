#!/usr/bin/env python3
"""Tests of the programs of this folder, on small cases and on the stored replies of its scripts."""

import re
import tempfile
import unittest
from fractions import Fraction
from pathlib import Path

from lines_to_script import CantConvert, convert, options_of
from read_show import NotASubdivision, read_show, simplest_between, texts_in

FOLDER = Path(__file__).resolve().parent
SCRIPTS = sorted(FOLDER.glob("*.script"))
TEXTS = [text for script in SCRIPTS for text in texts_in(script.with_suffix(".replies").read_text("ascii"))]

CROSS = """arrangement 7 4 1
v 1 -1 0 1 : 3
v 2 0 -1 1 : 3
v 3 0 0 1 : 1 4 6 2
v 4 0 1 1 : 3
v 5 1 1 2 pin :
v 6 1 0 1 : 3
v 7 9 0 1 pin :
e 1 3 : 1
e 2 3 : 2
e 3 4 : 2
e 3 6 : 1
f 0
h 1 3 4 3 6 3 2 3
p 5
p 7
end
"""


# The commands whose replies go on to a line `end`, where they aren't refused.
LONG = ("show", "overlay", "mirror", "curve", "region", "vertical", "batch", "envelope")


QUESTIONS = [
    "region 0\nend\n",
    "region 3\nb 0 0 1 1 0 1\nb 0 1 1 0 0 1\nb 1 0 1 0 1 1\nend\n",
    "vertical 0\nend\n",
    "vertical 2\nv 3 -1 2 above edge 0 0 1 4 0 1 below vertex 3 -9 2\nv 2 0 1 above none below none\nend\n",
    "batch 3\nvertex 1 0 2\nedge 0 0 1 4 0 1\nface 12\nend\n",
    "envelope 0\nend\n",
    "envelope 1\nv 1 2 1 : 1\nend\n",
    "envelope 3\nv 0 0 1 : 1\ne 0 0 1 4 0 1 : 1 3\nv 4 0 1 : 1 2 3\ngap\nv 6 0 1 : 5\nend\n",
]
NO_REPLIES = [
    "region\nend\n",
    "region 1\nb 0 0 1\nend\n",
    "region 0\n",
    "vertical 1\nv 0 0 1 above none\nend\n",
    "vertical 1\nv 0 0 1 above face 0 below none\nend\n",
    "batch 0\nend\n",
    "batch 1\nvertex 0 0\nend\n",
    "envelope 1\ngap\nend\n",
    "envelope 2\nv 0 0 1 : 1\nv 4 0 1 : 1\nend\n",
    "envelope 2\nv 0 0 1 : 1\ne 0 0 1 4 0 1 : 1\nend\n",
]


def replies_in(text):
    """The replies of a run, one after the other. Some have several lines, up to `end`."""
    several = "arrangement|overlay|curve|region|vertical|batch|envelope"
    return re.findall(rf"^(?:(?:{several}) .*?^end|.*?)\n", text, re.MULTILINE | re.DOTALL)


def reply_pattern():
    """The grammar of replies in docs/SCRIPT.md as a regular expression of one reply."""
    page = FOLDER.parent.joinpath("docs", "SCRIPT.md").read_text("utf-8")
    grammar = re.search(r"^replies +=.*?^```$", page, re.MULTILINE | re.DOTALL)[0]
    rules = {name: body for name, body in re.findall(r"(\w+) *= (.*) ;\n", grammar)}
    signs = {"{": "(?:", "}": ")*", "[": "(?:", "]": ")?", "|": "|", "nl": "\n", "digit": "[0-9]"}

    def pattern(name):
        return "".join(part(token) for token in re.findall(r'"[^"]*"|\w+|[][{}|]', rules[name]))

    def part(token):
        if token[0] == '"':
            return re.escape(token[1:-1])
        return signs[token] if token in signs else f"(?:{pattern(token)})"

    return re.compile(pattern("reply"))


def parts_of(subdivision):
    """How many connected parts there are."""
    unseen, parts = {vertex.number for vertex in subdivision.vertices}, 0
    while unseen:
        found, parts = [unseen.pop()], parts + 1
        while found:
            neighbours = unseen.intersection(subdivision.vertices[found.pop() - 1].neighbours)
            unseen -= neighbours
            found += neighbours
    return parts


def goes_round(cycle, point):
    """The even-odd rule: whether a ray to the right crosses the cycle an odd number of times."""
    x, y = point
    crossings = 0
    for (x1, y1), (x2, y2) in ((dart.source.point, dart.target.point) for dart in cycle.darts):
        if (y1 > y) != (y2 > y):
            crossings += x1 + (y - y1) * (x2 - x1) / (y2 - y1) > x
    return crossings % 2 == 1


def is_on(dart, point):
    (x1, y1), (x2, y2), (x, y) = dart.source.point, dart.target.point, point
    in_line = (x2 - x1) * (y - y1) == (y2 - y1) * (x - x1)
    return in_line and min(x1, x2) <= x <= max(x1, x2) and min(y1, y2) <= y <= max(y1, y2)


def with_other_bytes(text):
    yield from (text[:-1], text + "\n", text + "end\n", " " + text)
    yield from (text.replace("\n", "\r\n"), text.replace(" ", "  "), text.replace(" ", "\t"))


def with_other_lines(text):
    """Each line is the last, missing, there twice, another one, or behind the next."""
    lines = text.splitlines(keepends=True)
    for i, line in enumerate(lines):
        following = lines[i + 1 : i + 2]
        for other in ([], [line, line], ["w 1\n"]):
            yield "".join(lines[:i] + other + lines[i + 1 :])
        yield "".join(lines[:i])
        if following:
            yield "".join(lines[:i] + following + [line] + lines[i + 2 :])


def with_other_numbers(text):
    """Each number that follows from others is another one. That of a point or a curve might be."""
    for found in re.finditer(r"[0-9]+", text):
        line = text[: found.start()].rpartition("\n")[2]
        is_neighbour = line[0] == "v" and ":" in line
        is_end = line[0] == "e" and ":" not in line
        if line[0] in "afohp" or is_neighbour or is_end:
            for other in (str(int(found[0]) + 1), "0" + found[0], "-1", ""):
                yield text[: found.start()] + other + text[found.end() :]


class StoredReplies(unittest.TestCase):
    def test_each_line_but_comments_has_a_reply(self):
        self.assertEqual(len(SCRIPTS), 7)
        for script in SCRIPTS:
            lines = [line for line in script.read_text("ascii").splitlines() if line.strip() and line.split()[0][0] != "#"]
            replies = replies_in(script.with_suffix(".replies").read_text("ascii"))
            self.assertEqual(len(lines), len(replies), script)
            for line, reply in zip(lines, replies):
                several = line.split()[0] in LONG and not reply.startswith("refused ")
                self.assertEqual(several, reply.endswith("end\n"), line)

    def test_replies_are_as_the_grammar_says(self):
        pattern = reply_pattern()
        for script in SCRIPTS:
            for reply in replies_in(script.with_suffix(".replies").read_text("ascii")):
                self.assertTrue(pattern.fullmatch(reply), reply)
        for reply in QUESTIONS:
            self.assertEqual(replies_in(reply), [reply])
            self.assertTrue(pattern.fullmatch(reply), reply)
        for other in ["ok\n\n", "ok joined\n", "curves\n", "curve 1\n", "face\n", "end\n", "counts 1 2 3\n", "no memory", *NO_REPLIES]:
            self.assertFalse(pattern.fullmatch(other), other)

    def test_texts_are_read_and_written_again(self):
        self.assertGreaterEqual(len(TEXTS), 5)
        for text in TEXTS:
            self.assertEqual(read_show(text).text(), text)

    def test_areas_add_up(self):
        for text in TEXTS:
            unbounded, *bounded = read_show(text).faces
            self.assertEqual(sum(face.area for face in bounded), -sum(hole.area for hole in unbounded.holes))
        rooms = FOLDER.joinpath("rooms.replies").read_text("ascii")
        self.assertEqual(sum(face.area for face in read_show(texts_in(rooms)[0]).faces[1:]), 80 * 50)

    def test_euler(self):
        for text in TEXTS + [CROSS]:
            read = read_show(text)
            edges = len(read.darts) // 2
            self.assertEqual(len(read.vertices) - edges + len(read.faces), 1 + parts_of(read))

    def test_points_inside_are_in_their_face_alone(self):
        for text in TEXTS + [CROSS]:
            read = read_show(text)
            for face in read.faces:
                point = face.point_inside()
                self.assertFalse(any(is_on(dart, point) for dart in read.darts))
                self.assertNotIn(point, [vertex.point for vertex in read.vertices])
                for other in read.faces:
                    inside = (not other.outer or goes_round(other.outer, point)) and not any(
                        goes_round(hole, point) for hole in other.holes
                    )
                    self.assertEqual(inside, other is face)


class ReadShow(unittest.TestCase):
    def test_parts(self):
        read = read_show(CROSS)
        self.assertEqual([vertex.number for vertex in read.vertices if vertex.is_pinned], [5, 7])
        self.assertEqual(read.vertices[4].point, (Fraction(1, 2), Fraction(1, 2)))
        self.assertEqual([dart.key for dart in read.darts][:3], [(1, 3), (2, 3), (3, 1)])
        self.assertEqual(read.darts[1].curves, (2,))
        self.assertEqual([vertex.number for vertex in read.faces[0].isolated], [5, 7])
        self.assertEqual(read.faces[0].point_inside(), (-2, 0))
        self.assertIsNone(read.faces[0].area)

    def test_nothing(self):
        self.assertEqual(read_show("arrangement 0 0 1\nf 0\nend\n").faces[0].cycles, ())
        for rest in ["", "0 0 0\nend\n", "0 0 1\nend\n", "0 0 1\nf 1\nend\n"]:
            self.assertRaises(NotASubdivision, read_show, "arrangement " + rest)
        self.assertRaises(NotASubdivision, read_show, "")

    def test_a_damaged_text_is_refused(self):
        for text in TEXTS[:5] + [CROSS]:
            for damaged in [*with_other_bytes(text), *with_other_lines(text), *with_other_numbers(text)]:
                self.assertRaises(NotASubdivision, read_show, damaged)

    def test_orders_are_kept(self):
        faces = "f 0\np 1\np 2\nend\n"
        read_show("arrangement 2 0 1\nv 1 0 0 1 pin :\nv 2 1 0 1 pin :\n" + faces)
        for vertices in ["v 1 1 0 1 pin :\nv 2 0 0 1 pin :\n", "v 1 0 0 1 pin :\nv 2 0 0 1 pin :\n"]:
            self.assertRaises(NotASubdivision, read_show, "arrangement 2 0 1\n" + vertices + faces)
        self.assertRaises(NotASubdivision, read_show, "arrangement 1 0 1\nv 5 0 0 1 pin :\nf 0\np 5\nend\n")
        # The first two bounded faces of the parcels, ranked the other way round.
        text = next(text for text in TEXTS if "\nf 6\n" in text)
        first, second = re.findall(r"f [12]\n(o .*\n)", text)
        self.assertRaises(NotASubdivision, read_show, text.replace(first + "f 2\n" + second, second + "f 2\n" + first))

    def test_numbers_out_of_range_are_refused(self):
        vertex = "arrangement 1 0 1\nv 1 {} pin :\nf 0\np 1\nend\n"
        for good in ["0 0 1", "-16777215 1 1", "1 1 2251799813685247", "-16777215 1 2"]:
            read_show(vertex.format(good))
        for bad in ["0 0 0", "0 0 -1", "16777216 0 1", "1 0 2251799813685248", "2 2 2", "0 0 2"]:
            self.assertRaises(NotASubdivision, read_show, vertex.format(bad))
        for bad in ["x 0 1", "+1 0 1", "1_0 0 1", "1.0 0 1", "01 0 1", "-0 0 1", "0 1"]:
            self.assertRaises(NotASubdivision, read_show, vertex.format(bad))
        edge = "arrangement 2 1 1\nv 1 0 0 1 : 2\nv 2 1 0 1 : 1\ne 1 2 :{}\nf 0\nh 1 2\nend\n"
        read_show(edge.format(" 1 4294967295"))
        for bad in ["", " ", " 0", " 4294967296", " 2 1", " 1 1", " -1"]:
            self.assertRaises(NotASubdivision, read_show, edge.format(bad))

    def test_simplest_between(self):
        for ends in ["0 1", "1/3 1/2", "-7/2 -10/3", "5 5000001/1000000", "-1/2 3", "2/3 1", "-1 -1/2"]:
            low, high = map(Fraction, ends.split())
            found = simplest_between(low, high)
            self.assertTrue(low < found < high)
            for shorter in range(1, min(found.denominator, 200)):
                self.assertGreaterEqual(Fraction(low * shorter // 1 + 1, shorter), high)


def script_of(text, *words):
    """The curves of the script, as numbers, and all of its lines."""
    lines, _ = convert(text, options_of(words))
    return [tuple(map(int, line.split()[1:])) for line in lines if line.startswith(("segment ", "path "))], lines


MAP = """{"type": "FeatureCollection", "features": [
{"type": "Feature", "properties": {"name": "Mühle", "id": 7}, "geometry":
 {"type": "Polygon", "coordinates": [[[0.5, 0], [4, 0], [4, 3], [0.5, 0]]]}},
{"type": "Feature", "properties": {"id": 8}, "geometry": {"type": "GeometryCollection", "geometries": [
 {"type": "LineString", "coordinates": [[4, 0], [6, 0]]}, {"type": "MultiLineString", "coordinates": []}]}},
{"type": "Feature", "properties": null, "geometry": null}]}"""


class LinesToScript(unittest.TestCase):
    def test_wkt(self):
        polygons = "multipolygon(((0 0, 1 0, 1 1, 0 0), (9 9, 8 9, 8 8, 9 9)), EMPTY)"
        curves, lines = script_of(f"LINESTRING (0 0, 4 1, 1e1 -3)\n{polygons} GEOMETRYCOLLECTION EMPTY")
        self.assertEqual(curves, [(0, 0, 4, 1, 10, -3), (0, 0, 1, 0, 1, 1, 0, 0), (9, 9, 8, 9, 8, 8, 9, 9)])
        comments = [line for line in lines if line[0] == "#"]
        self.assertEqual(comments[1:], ["# offset 0,0 scale 1", "# feature 1", "# feature 2", "# feature 3"])

    def test_geojson_and_names(self):
        curves, lines = script_of(MAP)
        self.assertEqual(curves, [(1, 0, 8, 0, 8, 6, 1, 0), (8, 0, 12, 0)])
        self.assertEqual(lines[2], r"# M\xfchle")
        self.assertIn("# 8", script_of(MAP, "--name", "id")[1])
        self.assertTrue(all(len(line.encode("ascii")) <= 300 for line in script_of(MAP.replace("Mühle", "ü" * 400))[1]))

    def test_table(self):
        with tempfile.TemporaryDirectory() as folder:
            replies = Path(folder, "replies")
            replies.write_text("ok 2 joined 1 left 2 left 3\nok 9\ncounts 1 1 1 1 1 1\n")
            lines, _ = convert(MAP, options_of(["--replies", str(replies)]))
            self.assertEqual(lines, ["Mühle\t2", "feature 2\t9", "feature 3\t"])
            for other in ["", "ok 1", "ok 1\n", "no memory\nok 1\n", "ok\n" * 2, "refused 17\n" * 2]:
                replies.write_text(other)
                self.assertRaises(CantConvert, convert, MAP, options_of(["--replies", str(replies)]))

    def test_offset_and_scale(self):
        self.assertEqual(script_of("LINESTRING (0.25 0, 1 1.5)")[0], [(1, 0, 4, 6)])
        self.assertEqual(script_of("LINESTRING (50000000 0, 50000003 2)")[0], [(-2, -1, 1, 1)])
        self.assertEqual(script_of("LINESTRING (1 1, 3 3)", "--offset=1,-1/2", "--scale", "2")[0], [(0, 3, 4, 7)])
        self.assertEqual(script_of("LINESTRING (-16777215 0, 16777215 0)")[0], [(-16777215, 0, 16777215, 0)])
        wide = "LINESTRING (0.123456789 0, 10 7.77777777, 20.5 -1e2)"
        curves, _ = script_of(wide)
        self.assertTrue(all(abs(c) <= 16777215 for curve in curves for c in curve))
        self.assertTrue(any(abs(c) > 16777215 // 2 for curve in curves for c in curve))
        self.assertRaises(CantConvert, script_of, wide, "--scale", "1e9")

    def test_notes(self):
        _, notes = convert("LINESTRING (0 0, 0.2 0.1, 4 0)", options_of(["--scale", "1"]))
        self.assertEqual(notes[0], "offset 0,0 scale 1")
        self.assertEqual(notes[1], "1 of 3 corners were rounded, by at most 0.2 in X or Y")
        self.assertEqual(notes[2], "feature 1: sides that became points and were left out: 1")

    def test_a_curve_has_eight_sides_at_most(self):
        corners = [(0, 0), (9, 0), (9, 9), (8, 9), (7, 8), (6, 9), (5, 8), (4, 9), (3, 9)]
        for count, due in [(2, [1]), (3, [2]), (9, [8])]:
            line = ", ".join(f"{x} {y}" for x, y in corners[:count])
            curves, lines = script_of(f"LINESTRING ({line})")
            self.assertEqual([len(curve) // 2 - 1 for curve in curves], due)
            self.assertEqual(lines[-1].split()[0], "segment" if count == 2 else "path")
        ring = ", ".join(f"{x} {y}" for x, y in corners + corners[:1])
        curves, lines = script_of(f"POLYGON (({ring}))")
        self.assertEqual(curves, [tuple(c for corner in corners for c in corner), (3, 9, 0, 0)])
        self.assertEqual([line.split()[0] for line in lines[3:]], ["path", "segment"])
        self.assertEqual(len(script_of(f"POLYGON (({ring}))", "--once")[0]), 9)
        # A side that became a point is in no curve.
        curves, _ = script_of("LINESTRING (0 0, 0.2 0, 4 0, 4 0.1, 4 4, 4 4)", "--scale", "1")
        self.assertEqual(curves, [(0, 0, 4, 0, 4, 4)])
        self.assertEqual(script_of("LINESTRING (0 0, 0.2 0.1)", "--scale", "1")[0], [])

    def test_points(self):
        text = "POINT (3 1.5) MULTIPOINT (0 0, (1 2), (0 0)) LINESTRING (0 0, 4 0) MULTIPOINT EMPTY"
        points = [line for line in script_of(text)[1] if line[0] not in "#s"]
        self.assertEqual(points, ["pin 6 3 2", "pin 0 0 1", "pin 1 2 1"])
        asked = [line for line in script_of(text, "--points=locate", "--scale=2")[1] if line[0] not in "#s"]
        self.assertEqual(asked, ["locate 6 3 1", "locate 0 0 1", "locate 2 4 1", "locate 0 0 1"])
        # A point that is a corner is rounded with it, another one isn't.
        rounded = script_of("LINESTRING (0.2 0, 9 0) POINT (0.2 0) POINT (0.2 1)", "--scale", "1")[1]
        self.assertEqual(rounded[3:], ["segment 0 0 9 0", "# feature 2", "pin 0 0 1", "# feature 3", "pin 1 5 5"])
        json_points = '{"type": "MultiPoint", "coordinates": [[1, 2], [3, 4]]}'
        self.assertEqual(script_of(json_points)[1][3:], ["pin 1 2 1", "pin 3 4 1"])

    def test_csv(self):
        curves, lines = script_of("x1,y1,x2,y2,what\n0,0,4,0.5,Main Street\n\n4, 0.5, 8, 0\n2,2,'well'\n3,3\n")
        self.assertEqual(curves, [(0, 0, 8, 1), (8, 1, 16, 0)])
        self.assertEqual([line for line in lines if line[0] == "#"][2:], ["# Main Street", "# line 4", "# 'well'", "# line 6"])
        for text, place in [("0,0,1,1\n1,1\n2,x,1,1\n", "line 3"), ("0,0,1,1\n1\n", "line 2"), ("1,2,3,4,5,6\n", "line 1")]:
            self.assertRaisesRegex(CantConvert, place, script_of, text)

    def test_shared_sides_once(self):
        squares = "POLYGON ((0 0, 2 0, 2 2, 0 2, 0 0)) POLYGON ((2 0, 4 0, 4 2, 2 2, 2 0))"
        self.assertEqual(script_of(squares)[0], [(0, 0, 2, 0, 2, 2, 0, 2, 0, 0), (2, 0, 4, 0, 4, 2, 2, 2, 2, 0)])
        segments, _ = script_of(squares, "--once")
        self.assertEqual(segments[4:], [(2, 0, 4, 0), (4, 0, 4, 2), (4, 2, 2, 2)])
        _, notes = convert(squares, options_of(["--once"]))
        self.assertEqual(notes[1:], ["sides or pins that are there already and were left out: 1"])
        with tempfile.TemporaryDirectory() as folder:
            replies = Path(folder, "replies")
            replies.write_text("".join(f"ok {number}\n" for number in range(1, 8)))
            lines, _ = convert(squares, options_of(["--once", "--replies", str(replies)]))
        self.assertEqual(lines, ["feature 1\t1 2 3 4", "feature 2\t5 6 7 2"])

    def test_where_it_cant_be_read(self):
        for text, place in [
            ("LINESTRING (0 0, 1 1)\nLINESTRING (0 0, 1 1", r"line 2, column 21"),
            ("LINESTRING (0 0,\n  1 1; 2 2)", r"line 2, column 6: `;`"),
            ("LINESTRING (0 0, 1 1)\n POLYGON ((0 0, 1 1, 1 0, 0 1))", r"feature 2 \(line 2, column 2\): a ring"),
            ("LINESTRING (0 0, 1 1 1)", r"feature 1 \(line 1, column 1\): position 2"),
            ("LINESTRING (0 0, 1 1e99)", r"line 1, column 18"),
            (MAP.replace("[6, 0]", "[6]"), r"feature 2: position 2"),
            (MAP.replace('"geometry": null', '"geometry": 7'), r"feature 3: it isn't GeoJSON"),
        ]:
            self.assertRaisesRegex(CantConvert, place, script_of, text)

    def test_what_cant_be_done_is_refused(self):
        side = "LINESTRING (0 0, 1 1)\n"
        self.assertEqual(len(script_of(side * 2000)[0]), 2000)
        corners = "LINESTRING (0 0, 1 1, 2 0, 3 1, 4 0, 5 1, 6 0, 7 1, 8 0)\n"
        self.assertEqual(len(script_of(corners * 1250)[0]), 1250)
        for text in [
            side * 2001,
            corners * 1250 + side,
            "LINESTRING Z (0 0 0, 1 1 1)",
            "LINESTRING (0 0 0, 1 1 1)",
            "LINESTRING (0 0)",
            "LINESTRING (0 0, 1 1",
            "LINESTRING (0 0, 1 1))",
            "LINESTRING (0 0, 1 1e99)",
            "POINT (0 0, 1 1)",
            "POINT (0)",
            "MULTIPOINT ((0 0), (1 1)",
            "CIRCULARSTRING (0 0, 1 1, 2 0)",
            "POLYGON ((0 0, 1 1, 1 0))",
            "POLYGON ((0 0, 1 1, 1 0, 0 1))",
            "POLYGON (0 0, 1 1, 1 0, 0 0)",
            "{}",
            '{"type": "Point", "coordinates": [0]}',
            '{"type": "Point", "coordinates": [[0, 0]]}',
            '{"type": "LineString", "coordinates": [[0, 0], [1, "1"]]}',
            '{"type": "LineString", "coordinates": [[0, 0, 5], [1, 1, 5]]}',
            '{"type": "LineString", "coordinates": 3}',
            '{"type": "FeatureCollection"}',
        ]:
            self.assertRaises(CantConvert, script_of, text)
        for text in ["{", '{"type": "LineString", "coordinates": [[0, NaN], [1, 1]]}']:
            self.assertRaises(ValueError, script_of, text)


if __name__ == "__main__":
    unittest.main()
