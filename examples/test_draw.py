#!/usr/bin/env python3
"""Tests of the pictures, on the stored replies and on small texts."""

import re
import tempfile
import unittest
import xml.etree.ElementTree as ElementTree
from fractions import Fraction
from math import hypot
from pathlib import Path

import draw
import label_places
from read_replies import NotAReply, Verticals, read_reply, replies_in, written
from read_show import NotASubdivision, read_show, texts_in
from test_answers import ended

FOLDER = Path(__file__).resolve().parent
TEXTS = [text for script in sorted(FOLDER.glob("*.script")) for text in texts_in(script.with_suffix(".replies").read_text("ascii"))]
SVG = "{http://www.w3.org/2000/svg}"

# A square in red, one in blue over its corner, and a wall upright beside them.
BOTH = """overlay 8 10 4
v 1 0 0 1 : 2 5
v 2 0 4 1 : 1 4
v 3 2 2 1 : 4 6
v 4 2 4 1 : 2 7 8 3
v 5 4 0 1 : 1 6
v 6 4 2 1 : 3 8 5
v 7 2 6 1 : 4 8
v 8 6 6 1 : 4 7 6
"""
REGION = """region 6
b 0 0 1 4 0 1
b 0 4 1 0 0 1
b 2 2 1 2 4 1
b 2 4 1 0 4 1
b 4 0 1 4 2 1
b 4 2 1 2 2 1
end
"""
# A segment, a pin above it and one below.
GROUND = """arrangement 4 1 1
v 1 0 0 1 : 4
v 2 2 -1 1 pin :
v 3 2 3 1 pin :
v 4 4 0 1 : 1
e 1 4 : 1
f 0
h 1 4
p 2
p 3
end
"""
VERTICAL = """vertical 4
v 0 0 1 above none below none
v 2 -1 1 above edge 0 0 1 4 0 1 below none
v 2 3 1 above none below edge 0 0 1 4 0 1
v 4 0 1 above none below none
end
"""
UPRIGHT = """vertical 2
v 1 0 1 above edge 1 0 1 1 2 1 below none
v 1 2 1 above none below edge 1 0 1 1 2 1
end
"""
ENVELOPE = """envelope 6
v 0 2 1 : 1
e 0 2 1 6 2 1 : 1
v 1 0 1 : 2
e 1 0 1 3 0 1 : 2
v 3 0 1 : 2
e 0 2 1 6 2 1 : 1
v 6 2 1 : 1
gap
v 8 1 1 : 3
e 8 1 1 9 1 1 : 3
v 9 1 1 : 3
end
"""
BATCH = "batch 3\nedge 0 0 1 4 0 1\nvertex 0 0 1\nface 0\nend\n"


def drawn(text, over=False, marks="", labels="faces", size=800):
    """The root of a picture, and what its pointer tells, in the order of its elements."""
    picture = draw.draw(*draw.chosen(text, over), draw.marks_in(marks), labels, size)
    root = ElementTree.fromstring(picture.svg())
    return root, [title.text for title in root.iter(f"{SVG}title")], picture


def box_of(label):
    """What a label takes: left, right, top, bottom."""
    letters = float(label.get("font-size"))
    wide, high = draw.half_sizes(label.text, letters)
    x, y = float(label.get("x")), float(label.get("y")) - letters * draw.HIGH / 2
    return x - wide, x + wide, y - high, y + high


def sides_of(picture, face):
    ends = ((dart.source.point, dart.target.point) for dart in face.darts)
    return [(*picture.at(p), *picture.at(q)) for p, q in ends]


class Replies(unittest.TestCase):
    def test_values_are_written_as_they_were_read(self):
        replies = [reply for script in FOLDER.glob("*.script") for reply in replies_in(script.with_suffix(".replies").read_text("ascii"))]
        replies += [REGION, VERTICAL, UPRIGHT, ENVELOPE, BATCH, "region 0\nend\n", "envelope 0\nend\n", "ok 3 joined 1 left 1\n"]
        kinds = set()
        for reply in replies:
            if not reply.startswith(("refused ", "arrangement ", "overlay ")):
                value = read_reply(reply)
                kinds.add(type(value).__name__)
                self.assertEqual("".join(line + "\n" for line in written(value)), reply)
        due = {"Done", "Vertex", "Edge", "Face", "Along", "Counts", "Curve", "Border", "Verticals", "Batch", "Envelope"}
        self.assertEqual(kinds, due)

    def test_what_cant_be_read_is_refused(self):
        for text in [REGION, VERTICAL, ENVELOPE, BATCH, "ok 1 left 2\n", "counts 1 0 1 0 1 0\n", "vertex 3 5 2\n"]:
            damaged = [text[:-1], text + "\n", " " + text, text.replace(" ", "  ", 1), re.sub("([0-9])", r"0\1", text, count=1)]
            lines = text.splitlines(keepends=True)
            damaged += ["".join(lines[:place] + lines[place + 1 :]) for place in range(len(lines) if len(lines) > 1 else 0)]
            for other in damaged:
                self.assertRaises(NotAReply, read_reply, other)
        for other in ["", "\n", "ok x\n", "vertex 2 0 2\n", "vertex 1 0 0\n", "edge 1 0 1 0 0 1\n", "ok left 2 joined 1\n", "refused 3\n"]:
            self.assertRaises(NotAReply, read_reply, other)


class Labels(unittest.TestCase):
    def test_gaps(self):
        for side, due in [((3, 4, 3, 4), 4), ((-1, 2, 1, 2), 2), ((2, -5, 2, 5), 2), ((0, 4, 4, 0), 2), ((-1, -1, 1, 1), 0)]:
            self.assertAlmostEqual(label_places.gap(*side), due)

    def test_the_largest_square_is_found(self):
        ring = [(0, 0), (100, 0), (100, 20), (60, 20), (60, 60), (0, 60)]
        sides = [(*p, *q) for p, q in zip(ring, ring[1:] + ring[:1])]
        x, y, room = label_places.roomiest(sides, 1000)
        self.assertAlmostEqual(label_places.room_at(x, y, sides), room)
        self.assertGreater(room, 0.9 * 30)
        # The centre of mass is taken where it has room enough, and not where it hasn't.
        self.assertEqual(label_places.roomiest(sides, 2)[:2], label_places.centre_of(sides))
        hole = [(40, 25, 40, 25)]
        self.assertNotEqual(label_places.roomiest(sides + hole, 10)[:2], label_places.centre_of(sides))

    def test_places_are_taken_once(self):
        free = label_places.FreePlaces()
        self.assertEqual(free.first([(0, 0)], 10, 5), (0, 0))
        self.assertEqual(free.first([(5, 5), (19, 9), (21, 0)], 10, 5), (21, 0))
        self.assertIsNone(free.first([(100, 0), (10, 0)][1:], 100, 5))


class Draw(unittest.TestCase):
    def test_each_face_edge_and_vertex_is_told(self):
        for text in TEXTS:
            read = read_show(text)
            _, titles, _ = drawn(text)
            self.assertEqual(titles[0], "face 0, unbounded")
            for start, count in [("face ", len(read.faces)), ("edge ", len(read.darts) // 2), ("vertex ", len(read.vertices))]:
                self.assertEqual(sum(title.startswith(start) for title in titles), count)
            self.assertEqual(sum(title.endswith(", pinned") for title in titles), sum(vertex.is_pinned for vertex in read.vertices))

    def test_labels_are_in_their_faces(self):
        for text in TEXTS:
            for size in (150, 800):
                root, _, picture = drawn(text, size=size)
                read = read_show(text)
                labels = [label for label in root.iter(f"{SVG}text") if label.text != "0"]
                self.assertEqual(len(labels) + picture.without_room, len(read.faces) - 1)
                for label in labels:
                    left, right, top, bottom = box_of(label)
                    sides = sides_of(picture, read.faces[int(label.text)])
                    # The square round the label's middle, when the picture is as much narrower as makes the label one.
                    ratio = (bottom - top) / (right - left)
                    squeezed = [(x1 * ratio, y1, x2 * ratio, y2) for x1, y1, x2, y2 in sides]
                    room = label_places.room_at((left + right) / 2 * ratio, (top + bottom) / 2, squeezed)
                    self.assertGreaterEqual(room, (bottom - top) / 2 - 0.02)

    def test_nothing_is_cut_off(self):
        for text in TEXTS + [GROUND]:
            root, _, picture = drawn(text, labels="all", marks="locate -3 -9 1\nlocate 5 8 2", size=500)
            left, top, width, height = map(float, root.get("viewBox").split())
            self.assertEqual(max(int(root.get("width")), int(root.get("height"))), 500)
            boxes = list(map(box_of, root.iter(f"{SVG}text")))
            for circle in root.iter(f"{SVG}circle"):
                x, y, reach = (float(circle.get(name)) for name in ("cx", "cy", "r"))
                boxes.append((x - reach, x + reach, y - reach, y + reach))
            for box in boxes:
                self.assertTrue(left <= box[0] and box[1] <= left + width and top <= box[2] and box[3] <= top + height)

    def test_labels_leave_each_other_room(self):
        for text in TEXTS:
            root, _, _ = drawn(text, labels="all")
            boxes = list(map(box_of, root.iter(f"{SVG}text")))
            for place, (left, right, top, bottom) in enumerate(boxes):
                for other in boxes[:place]:
                    apart = max(left - other[1], other[0] - right, top - other[3], other[2] - bottom)
                    self.assertGreater(apart, -0.05)

    def test_words(self):
        text = TEXTS[0]
        self.assertEqual(drawn(text, labels="none")[0].findall(f".//{SVG}text"), [])
        told = [label.text for label in drawn(text, labels="all", size=2000)[0].iter(f"{SVG}text")]
        read = read_show(text)
        if read.is_overlay:
            self.assertTrue({"r1", "b1"} <= set(told))
        self.assertTrue({str(vertex.number) for vertex in read.vertices} <= set(told))

    def test_colours_of_layers(self):
        overlay = next(text for text in TEXTS if text.startswith("overlay"))
        root, _, _ = drawn(overlay)
        self.assertEqual({line.get("stroke") for line in root.iter(f"{SVG}line")} - {None}, {draw.RED, draw.BLUE})
        fills = {path.get("fill") for path in root.iter(f"{SVG}path")}
        self.assertEqual(fills, {draw.HELD[True, False], draw.HELD[False, True], draw.HELD[True, True]})
        # An edge of both layers is red with blue dashes.
        both = re.sub(r"^e 1 2 : .*$", "e 1 2 : r4 b4", overlay, flags=re.MULTILINE)
        lines = [line for line in drawn(both)[0].iter(f"{SVG}line") if line.get("stroke-dasharray")]
        self.assertEqual([line.get("stroke") for line in lines], [draw.BLUE])

    def test_neighbours_have_other_colours(self):
        for text in [text for text in TEXTS if text.startswith("arrangement")]:
            read = read_show(text)
            fills = draw.fills_of(read)
            for face in read.faces[1:]:
                self.assertNotIn(fills[face.rank], [fills[rank] for rank in read.neighbours(face) if rank])

    def test_holes_are_left_out(self):
        text = next(text for text in TEXTS if "\nf 6\n" in text)
        root, titles, picture = drawn(text)
        path = next(path for path in root.iter(f"{SVG}path") if path[0].text.startswith("face 3"))
        self.assertEqual((path.get("d").count("M"), path.get("fill-rule")), (2, "evenodd"))
        self.assertIn("face 4: area 140", titles)
        self.assertIn("edge (60, 0) (60, 19/5): curves 2 8", titles)

    def test_marks(self):
        script = "segment 0 0 1 1\nlocate 5 30 1\n# locate\nbatch 1 1 1 3 5 2\npin 2 2 1"
        self.assertEqual([title for title, _ in draw.marks_in(script)][1:3], ["line 4: batch (1, 1)", "line 4: batch (3/2, 5/2)"])
        root, titles, _ = drawn(TEXTS[0], marks=script)
        self.assertEqual(sum(title.startswith("line ") for title in titles), 4)
        for wrong in ["locate", "locate 1 2", "pin 1 2 3 4", "batch 1 2 0", "locate 1 2 x"]:
            self.assertRaisesRegex(NotAReply, "line 2 of the script", draw.marks_in, "show\n" + wrong)

    def test_regions(self):
        root, titles, picture = drawn(REGION)
        self.assertEqual(titles[1], "the region: area 12")
        self.assertEqual(sum(title.startswith("on the region's border: ") for title in titles), 6)
        # Each walk closes, and all darts are in one.
        square = "b 6 6 1 7 6 1\nb 6 7 1 6 6 1\nb 7 6 1 7 7 1\nb 7 7 1 6 7 1\n"
        border = read_reply(REGION.replace("region 6", "region 10").replace("end\n", square + "end\n"))
        self.assertEqual(sorted(map(len, draw.walks_of(border))), [4, 6])
        self.assertEqual(len(drawn("region 0\nend\n")[1]), 1)
        for place in range(1, 7):
            lines = REGION.splitlines(keepends=True)
            open_border = "region 5\n" + "".join(lines[1:place] + lines[place + 1 :])
            self.assertRaises(NotASubdivision, drawn, open_border)

    def test_verticals(self):
        _, titles, picture = drawn(VERTICAL)
        self.assertIn("directly above (2, -1): the edge (0, 0) (4, 0)", titles)
        self.assertIn("directly below (2, -1): nothing", titles)
        value = read_reply(VERTICAL)
        self.assertEqual(draw.end_of(value.parts[1], value.parts[1].above, Fraction(9)), (2, 0))
        self.assertEqual(draw.end_of(value.parts[1], value.parts[1].below, Fraction(-9)), (2, -9))
        upright = read_reply(UPRIGHT)
        self.assertEqual(draw.end_of(upright.parts[0], upright.parts[0].above, Fraction(9)), (1, 2))
        self.assertEqual(draw.end_of(upright.parts[1], upright.parts[1].below, Fraction(9)), (1, 0))
        self.assertEqual(len(drawn("vertical 0\nend\n")[1]), 1)
        self.assertIsInstance(value, Verticals)
        # Over the subdivision before it, all of whose faces, edges and vertices are told too.
        both = drawn(GROUND + VERTICAL, True)[1]
        self.assertTrue(set(drawn(GROUND)[1]) <= set(both))

    def test_envelopes(self):
        root, titles, picture = drawn(ENVELOPE)
        thick = [line for line in root.iter(f"{SVG}line") if line.get("stroke") == draw.ACCENT]
        lengths = [hypot(*(float(line.get(a)) - float(line.get(b)) for a, b in (("x1", "x2"), ("y1", "y2")))) for line in thick]
        for length, due in zip(lengths, [1, 2, 3, 1]):
            self.assertAlmostEqual(length / float(picture.unit), due, 3)
        self.assertIn("vertex (9, 1) of the envelope: curves 3", titles)
        self.assertRaises(NotASubdivision, drawn, ENVELOPE.replace("e 8 1 1 9 1 1", "e 8 1 1 17 2 2"))

    def test_the_last_text_is_drawn(self):
        self.assertEqual(drawn(REGION + GROUND)[1], drawn(GROUND)[1])
        self.assertEqual(drawn(GROUND + "ok 1\n" + REGION + "refused 19\n")[1], drawn(REGION)[1])
        for text, over in [("", False), ("ok 1\ncurve 1\nend\n", False), (GROUND, True), (VERTICAL, True), (VERTICAL + GROUND, True)]:
            self.assertRaises(NotASubdivision, drawn, text, over)
        self.assertRaises(NotASubdivision, drawn, GROUND + ENVELOPE, True)
        self.assertRaises(NotASubdivision, drawn, GROUND.replace("p 3", "p 2"))
        self.assertRaises(NotAReply, drawn, VERTICAL.replace("v 2 3 1 above none", "v 2 3 1 above"))

    def test_small_maps(self):
        for text in ["arrangement 0 0 1\nf 0\nend\n", "arrangement 1 0 1\nv 1 5 5 1 pin :\nf 0\np 1\nend\n"]:
            root, titles, _ = drawn(text, labels="all")
            self.assertEqual(root.get("width"), "800")
            self.assertEqual(len(titles), text.count("\nv ") + 1)

    def test_the_stored_picture(self):
        stored = FOLDER.parent.joinpath("docs", "pictures", "parcels.svg").read_text("ascii")
        self.assertEqual(ended("draw.py", FOLDER / "parcels.replies"), (0, stored, ""))

    def test_exit_status(self):
        self.assertEqual(ended("draw.py", "--help")[0], 0)
        for words, text in [([], ""), (["--over"], GROUND), (["--points", FOLDER / "nothing"], GROUND), ([FOLDER / "nothing"], "")]:
            status, told, why = ended("draw.py", *words, text=text)
            self.assertEqual((status, told), (1, ""))
            self.assertTrue(why.startswith("draw.py: "))
        for words in [["--size", "99"], ["--size", "x"], ["--labels", "some"]]:
            self.assertEqual(ended("draw.py", *words, text=GROUND)[0], 2)
        status, _, why = ended("draw.py", "--size", "100", "--labels", "all", text=TEXTS[0])
        self.assertEqual(status, 0)
        self.assertRegex(why, r"^draw.py: labels without room, which only the pointer tells: [1-9][0-9]*\n$")
        with tempfile.TemporaryDirectory() as folder:
            script = Path(folder, "script")
            script.write_text("pin 1 1\n")
            self.assertEqual(ended("draw.py", "--points", script, text=GROUND)[0], 1)


if __name__ == "__main__":
    unittest.main()
