#!/usr/bin/env python3
"""Tests of the programs that tell what was wrong, read overlays, and answer questions of whole maps."""

import json
import re
import subprocess
import sys
import tempfile
import unittest
from fractions import Fraction
from pathlib import Path

import explain_replies
import flooded
import join
import made_town
from explain_replies import DontPair, meaning_of, pair
from lines_to_script import CantConvert, Feature, features_of
from read_show import (
    NotASubdivision,
    Place,
    area_within,
    geojson,
    names_of_faces,
    names_without_faces,
    read_show,
    table_in,
    texts_in,
    wkt_rows,
)

FOLDER = Path(__file__).resolve().parent
FLOOD = FOLDER.joinpath("flood.replies").read_text("ascii")
ROOMS = FOLDER.joinpath("rooms.replies").read_text("ascii")


def ended(program, *words, text=""):
    """The exit status of a program of this folder, what it wrote, and what it told."""
    command = [sys.executable, "-B", str(FOLDER / program), *map(str, words)]
    ran = subprocess.run(command, input=text, capture_output=True, encoding="utf-8")
    return ran.returncode, ran.stdout, ran.stderr


def listed_in(page, heading):
    """The items of the first list behind some words of a page, each in one line."""
    items = re.search(r"\n\n((?:- .*\n(?:  .*\n)*)+)", page[page.index(heading) :])[1]
    return [" ".join(item.split()) for item in re.split(r"^- ", items, flags=re.MULTILINE)[1:]]


def refusals_in(page):
    """The refusals in docs/SCRIPT.md: the words of each number."""
    parts = (item.split(": ", 1) for item in listed_in(page, "## Refusals"))
    return {int(number): words for number, words in parts}


def by_command(words):
    """What a row of the table says of each command that it names."""
    found = {}
    for part in words.split("; "):
        names, colon, meaning = part.partition(": ")
        for name in re.findall(r"`(\w+)`", names) if colon else []:
            found[name] = meaning
    return found


class ExplainReplies(unittest.TestCase):
    def test_meanings_are_those_of_the_page(self):
        refusals = refusals_in(FOLDER.parent.joinpath("docs", "SCRIPT.md").read_text("utf-8"))
        self.assertEqual(list(explain_replies.MEANINGS), sorted(refusals))
        for number, meaning in explain_replies.MEANINGS.items():
            due = by_command(refusals[number]) if isinstance(meaning, dict) else refusals[number]
            said = f"{meaning}; or, {explain_replies.MISSPELT}" if number == 1 else meaning
            self.assertEqual(said, due, number)

    def test_commands_are_those_of_the_page(self):
        page = FOLDER.parent.joinpath("docs", "SCRIPT.md").read_text("utf-8")
        forms = [form for item in listed_in(page, "# The script") for form in re.findall(r"`([^`]*)`", item.split("`: ")[0] + "`")]
        named = {form.split()[0] for form in forms}
        self.assertEqual(named, set(explain_replies.FORMS))

    def test_causes(self):
        for refusal, line, due in [
            (1, "SEGMENT 0 0 1 1", "`SEGMENT`, and commands are written small"),
            (1, "layer green", explain_replies.MISSPELT + ": `layer red|blue`"),
            (1, "envelope middle", "`envelope lower|upper`"),
            (2, "cut 1 2", "`cut X Y W X Y W`"),
            (2, "path 0 0 1 1 2", "`path x0 y0 x1 y1 .. xk yk`"),
            (2, "batch 1 1", "`batch X1 Y1 W1 .. Xk Yk Wk`"),
            (2, "vertical 1", "`vertical`"),
            (3, " pin 4.0 +1  1", "`4.0`, `+1`"),
            (5, "#" * 301, "it has 301"),
            (6, "show\r", "byte 5 is 13, of a line end by bytes 13 and 10"),
            (7, "segment 1 1 1 1", "the two ends are equal"),
            (7, "path 0 0 1 1 1 1 2 2", "two neighbouring points are equal"),
            (17, "attach 3", "eight are seated or planned"),
            (19, "region union", "some point is an end of an odd number of its pieces"),
        ]:
            self.assertTrue(meaning_of(refusal, line).endswith(due), meaning_of(refusal, line))
        for refusal, line in [(7, "show"), (19, "show"), (20, "show"), (0, "show"), (13, "cut 0 0 1 1 0 1")]:
            self.assertRaises(DontPair, meaning_of, refusal, line)

    def test_stored_scripts_pair(self):
        for script in FOLDER.glob("*.script"):
            text, replies = script.read_text("ascii"), script.with_suffix(".replies").read_text("ascii")
            for answered in pair(text, replies):
                self.assertEqual(text.split("\n")[answered.number - 1], answered.line)
            lines = replies.splitlines(keepends=True)
            for other in ["".join(lines[1:]), "".join(lines[:-1]), replies + "ok\n", "".join(lines[:2]), "OK\n" + replies]:
                self.assertRaises(DontPair, pair, text, other)
            self.assertRaises(DontPair, pair, text, "")

    def test_lines_without_a_reply(self):
        script = "\n   \n# a comment\n  #\nshow\n#\t\n" + "#" * 301 + "\n \r\ncount"
        self.assertEqual([answered.number for answered in pair(script, "refused 1\n" * 5)], [5, 6, 7, 8, 9])
        self.assertEqual(pair("", ""), [])

    def test_exit_status(self):
        script = FOLDER / "observers.script"
        status, told, _ = ended("explain_replies.py", script, FOLDER / "observers.replies", "--refused")
        self.assertEqual(status, 1)
        self.assertEqual(told.splitlines()[0], "8\tmirror 2\trefused 16\tthe observer isn't seated")
        self.assertEqual(len(told.splitlines()), 7)
        self.assertEqual(ended("explain_replies.py", FOLDER / "flood.script", text=FLOOD)[0], 0)
        self.assertEqual(ended("explain_replies.py", FOLDER / "flood.script", text=FLOOD.replace("ok 2", "no memory", 1))[0], 1)
        for text in ["", "ok 1\n", FLOOD + "ok\n", "Segmentation fault\n"]:
            status, told, why = ended("explain_replies.py", FOLDER / "flood.script", text=text)
            self.assertEqual((status, told), (2, ""))
            self.assertTrue(why.startswith("explain_replies.py: "))
        self.assertEqual(ended("explain_replies.py", FOLDER / "nothing.script")[0], 2)


# Two squares side by side, one in another with an edge that leads from it to the outer one, and a road.
MAP = """segment 0 0 8 0
segment 8 0 8 8
segment 8 8 0 8
segment 0 8 0 0
segment 8 0 16 0
segment 16 0 16 8
segment 16 8 8 8
segment 2 2 4 2
segment 4 2 4 4
segment 4 4 2 4
segment 2 4 2 2
segment 0 2 2 2
"""
MAP_TEXT = """arrangement 11 13 4
v 1 0 0 1 : 2 8
v 2 0 2 1 : 1 3 4
v 3 0 8 1 : 2 9
v 4 2 2 1 : 2 5 6
v 5 2 4 1 : 4 7
v 6 4 2 1 : 4 7
v 7 4 4 1 : 5 6
v 8 8 0 1 : 1 9 10
v 9 8 8 1 : 3 11 8
v 10 16 0 1 : 8 11
v 11 16 8 1 : 9 10
e 1 2 : 4
e 1 8 : 1
e 2 3 : 4
e 2 4 : 12
e 3 9 : 3
e 4 5 : 11
e 4 6 : 8
e 5 7 : 10
e 6 7 : 9
e 8 9 : 2
e 8 10 : 5
e 9 11 : 7
e 10 11 : 6
f 0
h 1 2 3 9 11 10 8
f 1
o 1 8 9 3 2 4 5 7 6 4 2
f 2
o 4 6 7 5
f 3
o 8 10 11 9
end
"""


class Overlays(unittest.TestCase):
    def test_damaged_labels_are_refused(self):
        text = texts_in(FLOOD)[0]
        for face in re.findall(r"^f .*\n", text, re.MULTILINE):
            rank, red, blue = map(int, face.split()[1:])
            for other in [f"f {rank} {red}", f"f {rank} {red} {blue} 0", f"f {rank} {blue} {red + 3}", f"f {rank} -1 {blue}", f"f {rank}"]:
                self.assertRaises(NotASubdivision, read_show, text.replace(face, other + "\n"))
        edges = [("e 1 2 : b4", "e 1 2 : 4"), ("e 1 2 : b4", "e 1 2 : r4"), (": b4", ": b0"), (": b4", ":")]
        for old, new in edges + [("overlay ", "arrangement ")]:
            self.assertRaises(NotASubdivision, read_show, text.replace(old, new, 1))
        self.assertRaises(NotASubdivision, read_show, MAP_TEXT.replace("arrangement", "overlay"))

    def test_curves_of_both_layers(self):
        read = read_show(texts_in(FLOOD)[0])
        along = {dart.key: (dart.curves, dart.blue) for dart in read.darts}
        self.assertEqual((along[1, 2], along[4, 3]), (((), (4,)), ((4,), ())))
        self.assertEqual(read.faces[6].labels, (2, 1))

    def test_neighbours(self):
        for text in texts_in(FLOOD) + texts_in(ROOMS) + [MAP_TEXT]:
            read = read_show(text)
            for face in read.faces:
                for rank, darts in read.neighbours(face).items():
                    back = read.neighbours(read.faces[rank])[face.rank]
                    self.assertEqual({dart.key for dart in darts}, {dart.key[::-1] for dart in back})
        self.assertEqual(list(read.neighbours(read.faces[1])), [0, 2, 3])

    def test_rings(self):
        for text in texts_in(FLOOD) + texts_in(ROOMS) + [MAP_TEXT]:
            read = read_show(text)
            for face in read.faces[1:]:
                outer, *holes = read.rings(face)
                self.assertGreater(area_within(outer), 0)
                self.assertTrue(all(area_within(hole) < 0 for hole in holes))
                self.assertEqual(sum(map(area_within, holes), area_within(outer)), face.area)
                self.assertTrue(all(len(ring) == len(set(ring)) >= 3 for ring in [outer, *holes]))
        # The edge that leads to the inner square isn't in a ring, and that square is a hole.
        self.assertEqual([len(ring) for ring in read_show(MAP_TEXT).rings(read_show(MAP_TEXT).faces[1])], [5, 4])

    def test_names(self):
        read = read_show(MAP_TEXT)
        table = table_in("west\t1 2 3 4\neast\t2 5 6 7\npond\t8 9 10 11\nroad\t12\nboth\t1 5 6 7 3 4\n")
        self.assertEqual(names_of_faces(read, table), [[], ["west", "both"], ["west", "pond", "both"], ["east", "both"]])
        self.assertEqual(names_without_faces(read, table), ["road"])
        # A curve that is told twice bounds nothing; one that isn't there is none.
        self.assertEqual(names_of_faces(read, table_in("a\t1 2 3 4 12 12\nb\t99\n")), [[], ["a"], ["a"], []])
        overlay = read_show(texts_in(FLOOD)[0])
        flooded_faces = names_of_faces(overlay, [("zone", [1, 2, 3, 4])], True)
        self.assertEqual([bool(names) for names in flooded_faces], [face.labels[1] == 1 for face in overlay.faces])
        self.assertRaises(NotASubdivision, table_in, "west 1 2 3 4\n")

    def test_polygons(self):
        read, names = read_show(MAP_TEXT), [[], ["west"], ["west", "pond"], []]
        place = Place((Fraction(100), Fraction(-5)), Fraction(4))
        rows = list(wkt_rows(read, names, place))
        self.assertEqual(rows[0], "face\tnames\tarea\tpolygon")
        self.assertEqual(rows[2], "2\twest; pond\t0.25\tPOLYGON ((100.5 -4.5, 101.0 -4.5, 101.0 -4.0, 100.5 -4.0, 100.5 -4.5))")
        data = json.loads(geojson(read, names, place))
        self.assertEqual([feature["properties"]["neighbours"] for feature in data["features"]], [[0, 2, 3], [1], [0, 1]])
        # What is written as GeoJSON is read again as the same sides.
        lines = [line for feature in features_of(json.dumps(data), "face") for line in feature.lines]
        self.assertEqual([len(line) for line in lines], [6, 5, 5, 5])
        overlay = json.loads(geojson(read_show(texts_in(FLOOD)[0]), [[]] * 9, place))
        self.assertTrue({"red", "blue"} <= set(overlay["features"][0]["properties"]))

    def test_words(self):
        choices = [(["--replies", "--text", "3"], FLOOD), (["--replies", "--text", "0"], FLOOD)]
        for words, text in choices + [(["--replies"], "ok\n"), ([], FLOOD)]:
            status, told, why = ended("read_show.py", *words, text=text)
            self.assertEqual((status, told), (1, ""))
            self.assertTrue(why.startswith("read_show.py: "))
        self.assertEqual(ended("read_show.py", "--scale", "0", text=MAP_TEXT)[0], 2)
        self.assertEqual(ended("read_show.py", "--names", FOLDER / "nothing", text=MAP_TEXT)[0], 1)


class Flooded(unittest.TestCase):
    def test_areas(self):
        read = flooded.overlay_in(FLOOD, 1)
        areas = flooded.areas_of(read, flooded.parcels_by_rank(read, ["1=field", "2=wood"]))
        # The zone's lower side rises from 85/8 at x = 0 to 115/8 at x = 60, and it is 15 high: 30 * 15 in each half.
        self.assertEqual(areas, {"field": (1200, 450), "wood": (1200, 450)})
        self.assertEqual(list(flooded.rows(areas, Fraction(2)))[1], "field        300.00       112.50    37.5%")

    def test_what_cant_be_answered_is_refused(self):
        for replies, number in [("ok 1\n", 0), (FLOOD, 3), (FLOOD, -1), (ROOMS, 0), (FLOOD.replace("f 1 0 1", "f 1 0 2"), 1)]:
            self.assertRaises(NotASubdivision, flooded.overlay_in, replies, number)
        for word in ["3=a", "0=a", "x=a", "=a"]:
            self.assertRaises(NotASubdivision, flooded.parcels_by_rank, flooded.overlay_in(FLOOD, 1), [word])
        self.assertEqual(ended("flooded.py", "2=wood", text=FLOOD)[0], 1)
        self.assertEqual(ended("flooded.py", "--names", FOLDER / "flood.script", FOLDER / "flood.replies")[0], 1)


def is_within(ring, point):
    """The even-odd rule, for a point on no side."""
    (x, y), inside = point, False
    for (x1, y1), (x2, y2) in zip(ring, ring[1:]):
        if (y1 > y) != (y2 > y):
            inside ^= x1 + (y - y1) * (x2 - x1) / (y2 - y1) > x
    return inside


class Join(unittest.TestCase):
    def setUp(self):
        collection = {"type": "FeatureCollection", "features": list(made_town.parcels(3))}
        self.parcels = features_of(json.dumps(collection), "name")
        self.addresses = features_of("\n".join(made_town.addresses(3, 24)), "name")

    def test_the_stored_town(self):
        plan, script = join.script_for(self.parcels + self.addresses)
        self.assertEqual(script, FOLDER.joinpath("town.script").read_text("ascii"))
        replies = FOLDER.joinpath("town.replies").read_text("ascii")
        found = list(join.joined(self.parcels, self.addresses, plan, replies))
        self.assertEqual([where for _, where in found[:2]], ["on a border"] * 2)
        for address, (name, where) in list(zip(self.addresses, found))[2:]:
            due = [parcel.name for parcel in self.parcels if is_within(parcel.lines[0], address.points()[0])]
            self.assertEqual((name, where), (address.name, ", ".join(due)))
        self.assertTrue({"", "parcel 2.2"} <= {where for _, where in found})
        for other in ["", replies.replace("ok 3", "refused 17", 1), replies.replace("\nface", "\nedge", 1)[:300]]:
            with self.assertRaises(ValueError):
                list(join.joined(self.parcels, self.addresses, plan, other))

    def test_batches(self):
        asked = [line for place in range(20) for line in (f"# {place}", f"locate {place} 0 1")]
        found = list(join.in_batches(["segment 0 0 1 1", *asked]))
        self.assertEqual(found[:4], ["segment 0 0 1 1", "# 0", "locate 0 0 1", "# 1"])
        batches = [line.split() for line in found if line.startswith("batch")]
        self.assertEqual([words[1::3] for words in batches], [[str(k) for k in range(1, 9)], [str(k) for k in range(9, 17)], ["17", "18", "19"]])
        # With a fourth point of 74 bytes a line would have 301.
        far = [line for _ in range(10) for line in ("# far", "locate" + " " + "1" * 35 + " " + "1" * 35 + " 1")]
        found = list(join.in_batches(far))
        self.assertEqual([line.count(" ") // 3 for line in found if line.startswith("batch")], [3, 3, 3])
        self.assertEqual(found[1:6], [far[1], "# far", "# far", "# far", "batch" + far[1][6:] * 3])
        self.assertEqual(list(join.in_batches(["show"])), ["show"])
        replies = "ok 1\nface 0\nbatch 2\nvertex 0 0 1\nface 1\nend\nbatch 1\nface 2\nend\n"
        self.assertEqual(join.one_by_one(replies), "ok 1\nface 0\nvertex 0 0 1\nface 1\nface 2\n")
        self.assertEqual(join.one_by_one("batch 1\nno memory\nend\n"), "batch 1\nno memory\nend\n")

    def test_wrong_files_are_refused(self):
        with tempfile.TemporaryDirectory() as folder:
            lines, points = Path(folder, "lines.wkt"), Path(folder, "points.wkt")
            lines.write_text("LINESTRING (0 0, 1 1, 2 0)")
            points.write_text("POINT (1 1)")
            self.assertRaises(CantConvert, join.read_features, str(lines), True)
            self.assertRaises(CantConvert, join.read_features, str(points), True)
            self.assertRaises(CantConvert, join.read_features, str(lines), False)
            for words in [(lines, points), (points, points), (folder, points)]:
                status, told, why = ended("join.py", *words)
                self.assertEqual((status, told), (1, ""))
                self.assertTrue(why.startswith("join.py: "))
            self.assertEqual(ended("join.py", "--locate", "sideways", points, points)[0], 2)

    def test_towns(self):
        status, told, _ = ended("made_town.py", "parcels")
        features = features_of(told, "name")
        self.assertEqual((status, len(features), features[399].name), (0, 400, "parcel 20.20"))
        plan, _ = join.script_for(features)
        self.assertEqual(len(plan.lines), 840)
        self.assertEqual(len(features_of(ended("made_town.py", "addresses")[1], "name")), 1000)
        for words in [["--rows", 0], ["--rows", 1001], ["--count", 1]]:
            self.assertEqual(ended("made_town.py", "parcels", *words)[:2], (1, ""))
        # A town of 30 rows has 1,860 sides, and 200 more are too many for a layer.
        large = features_of(ended("made_town.py", "parcels", "--rows", 30)[1], "name")
        sides = [[(Fraction(2 * x), Fraction(x * x)), (Fraction(x), Fraction(-1))] for x in range(200)]
        join.script_for(large)
        self.assertRaises(CantConvert, join.script_for, large + [Feature("far", sides)])


class Scripts(unittest.TestCase):
    def test_what_isnt_there_is_refused(self):
        scripts = FOLDER.parent / "scripts"
        with tempfile.TemporaryDirectory() as folder:
            for command in [["program.sh", folder + "/planar"], ["copy_library.sh", folder], ["dialogues.py", "/bin/false"]]:
                ran = subprocess.run([str(scripts / command[0]), *command[1:]], capture_output=True, encoding="utf-8")
                self.assertEqual(ran.returncode, 1)
                self.assertTrue(ran.stderr.startswith(Path(command[0]).stem if command[0].endswith("py") else command[0]))
            self.assertEqual(list(Path(folder).iterdir()), [])


if __name__ == "__main__":
    unittest.main()
