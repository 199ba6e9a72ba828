#!/usr/bin/env python3
"""Tests of the client, against stand-ins for the program and against the stored replies."""

import doctest
import io
import re
import sys
import tempfile
import threading
import unittest
from fractions import Fraction
from pathlib import Path
from unittest import mock

import planar_client
from explain_replies import has_reply
from planar_client import Ended, NoMemory, Planar, Refused, ScriptFull
from read_replies import Along, Batch, Border, Curve, Done, Edge, Face, NotAReply, Vertex, Verticals, replies_in, written
from read_show import Subdivision
from test_answers import ended
from test_draw import BATCH, ENVELOPE, REGION, UPRIGHT

FOLDER = Path(__file__).resolve().parent
STAND_IN = FOLDER / "stand_in.py"
LONG = 2**20


def child(program):
    """The words that start a child with this program in Python."""
    return [sys.executable, "-c", "import sys\n" + program]


# A child that gives the replies of a file one after the other, a reply for each line.
REPLAY = """
import re
replies = re.findall(r"^(?:(?:arrangement|overlay|curve|region|vertical|batch|envelope) .*?^end|.*?)\\n", open(sys.argv[1]).read(), re.M | re.S)
for line, reply in zip(sys.stdin, replies):
    print(reply, end="", flush=True)
"""
# A child that gives one reply to whatever it is asked.
SAME = "for line in sys.stdin: print({!r}, end='', flush=True)"


class Watched:
    """A run that is killed where it takes too long, so that a test fails in place of waiting for ever."""

    def __init__(self, program, seconds=240):
        self.planar = Planar(program)
        self.timer = threading.Timer(seconds, self.planar.process.kill)

    def __enter__(self):
        self.timer.start()
        return self.planar

    def __exit__(self, *error):
        self.timer.cancel()
        self.planar.__exit__(*error)


def call(planar, line):
    """Calls the method of a line of a script."""
    command, *words = line.split()
    if command in ("layer", "region", "envelope"):
        return getattr(planar, command)(words[0])
    numbers = [int(word) for word in words if word != "at"]
    if command in ("segment", "path"):
        return getattr(planar, command)(*zip(numbers[::2], numbers[1::2]))
    if command in ("drop", "curve", "attach", "leave", "mirror"):
        return getattr(planar, command)(*numbers)
    points = [(Fraction(x, w), Fraction(y, w)) for x, y, w in zip(numbers[::3], numbers[1::3], numbers[2::3])]
    return getattr(planar, command)(*points)


def told(line, value):
    """The reply to a line that a value stands for."""
    command, *words = line.split()
    if isinstance(value, Subdivision):
        return value.text()
    whole = {"edge": Along, "curve": lambda edges: Curve(int(words[0]), edges), "region": Border, "vertical": Verticals, "batch": Batch}
    none = {"layer", "attach", "leave"}
    return "".join(row + "\n" for row in written(Done() if command in none else whole.get(command, lambda same: same)(value)))


class StandIn(unittest.TestCase):
    def test_it_answers_as_the_program_does(self):
        for script, last in [("town", "show"), ("wires", "edge 390 86 13 33 5 1"), ("parcels", "locate 30 30 1")]:
            lines = [line for line in FOLDER.joinpath(f"{script}.script").read_text("ascii").splitlines() if has_reply(line)]
            replies = replies_in(FOLDER.joinpath(f"{script}.replies").read_text("ascii"))
            rows = [row for row in list(zip(lines, replies))[: lines.index(last) + 1] if not row[0].startswith("curve")]
            told = ended("stand_in.py", text="".join(line + "\n" for line, _ in rows))
            self.assertEqual(told, (0, "".join(reply for _, reply in rows), ""))

    def test_what_it_refuses(self):
        script = "segment 1 1 1 1\npath 0 0 1 1 1 1\ndrop 1\nedge 0 0 1 1 0 1\nhello\ncount\n"
        self.assertEqual(ended("stand_in.py", text=script)[1], "refused 7\nrefused 7\nrefused 8\nrefused 9\nrefused 1\ncounts 0 0 1 0 0 0\n")


class Client(unittest.TestCase):
    def test_stored_scripts(self):
        for script in sorted(FOLDER.glob("*.script")):
            lines = [line for line in script.read_text("ascii").splitlines() if has_reply(line)]
            replies = replies_in(script.with_suffix(".replies").read_text("ascii"))
            with Planar([*child(REPLAY), str(script.with_suffix(".replies"))]) as planar:
                for line, reply in zip(lines, replies):
                    if reply.startswith("refused "):
                        with self.assertRaises(Refused) as raised:
                            call(planar, line)
                        self.assertEqual((raised.exception.number, raised.exception.line), (int(reply.split()[1]), line))
                    else:
                        self.assertEqual(told(line, call(planar, line)), reply, line)

    def test_lines_are_written_as_they_should_be(self):
        half = Fraction(1, 2)
        with mock.patch.object(planar_client.Planar, "do", lambda self, line, read: line):
            with Planar(child("sys.stdin.read()")) as planar:
                for line, due in [
                    (planar.segment((0, 0), (Fraction(4, 2), -1)), "segment 0 0 2 -1"),
                    (planar.path((0, 0), (1, 0), (0, 0)), "path 0 0 1 0 0 0"),
                    (planar.drop(3), "drop 3"),
                    (planar.cut((half, Fraction(1, 3)), (1, 2)), "cut 3 2 6 1 2 1"),
                    (planar.pin((half, 0)), "pin 1 0 2"),
                    (planar.unpin((-half, 1)), "unpin -1 2 2"),
                    (planar.split((0, 0), (1, 1), (half, half)), "split 0 0 1 1 1 1 1 1 2"),
                    (planar.merge((5, 6)), "merge 5 6 1"),
                    (planar.clear(), "clear"),
                    (planar.locate((0.25, 0)), "locate 1 0 4"),
                    (planar.batch((0, 0), (half, half)), "batch 0 0 1 1 1 2"),
                    (planar.edge((0, 0), (1, 0)), "edge 0 0 1 1 0 1"),
                    (planar.curve(7), "curve 7"),
                    (planar.count(), "count"),
                    (planar.show(), "show"),
                    (planar.overlay(), "overlay"),
                    (planar.mirror(2), "mirror 2"),
                    (planar.region("union"), "region union"),
                    (planar.vertical(), "vertical"),
                    (planar.envelope("upper"), "envelope upper"),
                    (planar.layer("blue"), "layer blue"),
                    (planar.attach(1), "attach 1"),
                    (planar.attach(1, at=3), "attach 1 at 3"),
                    (planar.leave(2, 4), "leave 2 at 4"),
                ]:
                    self.assertEqual(line, due)

    def test_values(self):
        for reply, ask, due in [
            (BATCH, lambda planar: planar.batch((2, 0), (0, 0), (7, 1))[1:], (Vertex((0, 0)), Face(0))),
            (UPRIGHT, lambda planar: planar.vertical()[0].above, Edge((1, 0), (1, 2))),
            (ENVELOPE, lambda planar: planar.envelope("lower").between[3], None),
            (REGION, lambda planar: planar.region("difference")[0], ((0, 0), (4, 0))),
            ("ok 3 joined 2 left 1 left 4\n", lambda planar: planar.segment((0, 0), (1, 1)), Done(3, (2,), (1, 4))),
            ("curve 2\nend\n", lambda planar: planar.curve(2), ()),
            ("curves 1 9\n", lambda planar: planar.edge((0, 0), (1, 1)), (1, 9)),
            ("ok\n", lambda planar: planar.layer("red"), None),
            ("face 12\n", lambda planar: planar.ask("locate 1 1 1"), "face 12\n"),
        ]:
            with Planar(child(SAME.format(reply))) as planar:
                self.assertEqual(ask(planar), due)
                self.assertEqual(ask(planar), due)

    def test_the_page(self):
        page = FOLDER.joinpath("CLIENT.md").read_text("utf-8")
        typed = "".join(re.findall(r"^```python\n(.*?)^```$", page, re.MULTILINE | re.DOTALL))
        test = doctest.DocTestParser().get_doctest(typed, {}, "CLIENT.md", "CLIENT.md", 0)
        told_by_page = io.StringIO()
        with mock.patch.object(planar_client, "built_program", lambda beside: str(STAND_IN)):
            ran = doctest.DocTestRunner().run(test, out=told_by_page.write)
        self.assertEqual((ran.failed, told_by_page.getvalue()), (0, ""))
        self.assertEqual(ran.attempted, page.count("\n>>> "))

    def test_errors(self):
        with Planar(STAND_IN, locate="walk") as planar:
            planar.segment((0, 0), (4, 0))
            with self.assertRaisesRegex(Refused, "`segment 1 1 1 1` was refused 7: the two ends are equal") as raised:
                planar.segment((1, 1), (1, 1))
            self.assertEqual((raised.exception.number, raised.exception.meaning), (7, "the two ends are equal"))
            self.assertRaisesRegex(Refused, "no curve has this number", planar.drop, 2)
            self.assertEqual(planar.locate((1, 0)), Edge((0, 0), (4, 0)))
            for wrong in [
                lambda: planar.segment((0, 0), (Fraction(1, 2), 0)),
                lambda: planar.layer("green"),
                lambda: planar.layer("red\ncount"),
                lambda: planar.region("all"),
                lambda: planar.envelope("left"),
                lambda: planar.locate((0, 0, 1)),
                lambda: planar.locate((0, "x")),
                lambda: planar.drop("1\ncount"),
                lambda: planar.ask("count\ncount"),
                lambda: planar.ask("# note"),
                lambda: planar.ask("  "),
                lambda: planar.ask("count \u0141"),
            ]:
                self.assertRaises(ValueError, wrong)
            # None of them was handed over.
            self.assertEqual(planar.count().vertices, 2)
        self.assertRaises(ValueError, planar.count)
        self.assertRaises(ValueError, Planar, STAND_IN, locate="sideways")
        self.assertRaises(OSError, Planar, FOLDER / "nothing")
        with Planar(child(SAME.format("no memory\n"))) as planar:
            self.assertRaisesRegex(NoMemory, "`show`", planar.show)
        with Planar(child(SAME.format("refused 19\n"))) as planar:
            self.assertRaisesRegex(Refused, "isn't closed", planar.region, "union")

    def test_replies_that_are_none(self):
        for reply, ask in [("ok\n", "count"), ("face 1\n", "vertical"), ("hello\n", "count"), ("arrangement 0 0 2\nf 0\nend\n", "show")]:
            with Planar(child(SAME.format(reply))) as planar:
                with self.assertRaises(ValueError):
                    getattr(planar, ask)()
        twice = "for line in sys.stdin: print('ok\\nok', flush=True)"
        with self.assertRaises(NotAReply):
            with Planar(child(twice)) as planar:
                planar.clear()
                planar.clear()

    def test_pipelines(self):
        with Planar(STAND_IN) as planar:
            with planar.pipeline() as pipeline:
                curve = pipeline.segment((0, 0), (8, 0))
                places = [pipeline.locate((x, 0)) for x in range(10)]
                self.assertEqual(places[0].result(), Vertex((0, 0)))
                # A line that waits for its reply has those before it answered.
                self.assertEqual(planar.locate((0, 1)), Face(0))
                self.assertTrue(all(place.is_there() for place in places))
                later = pipeline.locate((8, 0))
            self.assertEqual((curve.result().curve, places[3].result(), places[9].result()), (1, Edge((0, 0), (8, 0)), Face(0)))
            self.assertEqual(later.result(), Vertex((8, 0)))
            with self.assertRaisesRegex(Refused, "drop 7"):
                with planar.pipeline() as pipeline:
                    pipeline.drop(7)
                    pipeline.drop(8)
                    accepted = pipeline.pin((3, 3))
            self.assertEqual(accepted.result(), Done())
            with planar.pipeline(check=False) as pipeline:
                refused, count = pipeline.drop(7), pipeline.count()
            self.assertRaises(Refused, refused.result)
            self.assertEqual(count.result().vertices, 3)
            with self.assertRaises(KeyError):
                with planar.pipeline() as pipeline:
                    pipeline.drop(7)
                    raise KeyError
            self.assertEqual(planar.count().curves, 1)

    def test_full_pipes(self):
        """A million lines and as many replies: the child answers each at once, or all at the end, or one with more than a pipe holds."""
        at_once = "for line in sys.stdin: sys.stdout.write('edge 0 0 1 1000000 0 1\\n')"
        at_the_end = f"for k in range({LONG}): sys.stdin.readline()\nsys.stdout.write('face 7\\n' * {LONG})"
        for program, due in [(at_once, Edge((0, 0), (1000000, 0))), (at_the_end, Face(7))]:
            with Watched(child(program)) as planar:
                with planar.pipeline() as pipeline:
                    for x in range(LONG):
                        last = pipeline.locate((x, 1))
                self.assertEqual(last.result(), due)
                self.assertEqual(len(planar.waiting), 0)
        wordy = "for line in sys.stdin: sys.stdout.write('curve 1\\n' + 'e 0 0 1 1 1 1\\n' * 20000 + 'end\\n')"
        with Watched(child(wordy)) as planar:
            with planar.pipeline() as pipeline:
                lines = [pipeline.ask("curve 1" + " " * 290) for _ in range(300)]
            self.assertEqual({len(line.result()) for line in lines}, {20000 * 14 + 12})

    def test_scripts_that_are_full(self):
        with Watched(child("for line in sys.stdin: sys.stdout.write('ok\\n')")) as planar:
            planar.handed_over = 2**26 - 6
            planar.clear()
            self.assertRaises(ScriptFull, planar.clear)
            self.assertRaises(ScriptFull, planar.ask, "x" * 301)

    def test_ends(self):
        with self.assertRaisesRegex(Ended, "status 5: there was no memory at its start") as raised:
            with Planar(child("sys.exit(5)")) as planar:
                planar.count()
        self.assertEqual(raised.exception.status, 5)
        with self.assertRaisesRegex(Ended, "signal 9: the system ended it"):
            with Planar(child("import os; sys.stdin.readline(); os.kill(os.getpid(), 9)")) as planar:
                planar.count()
        # What was answered before stands, and later lines say the same.
        three = "for k in range(3): print('face', k, flush=True) if sys.stdin.readline() else None\nsys.exit(3)"
        planar = Planar(child(three))
        with self.assertRaisesRegex(Ended, "a read failed"):
            with planar.pipeline() as pipeline:
                places = [pipeline.locate((k, 0)) for k in range(5)]
        self.assertEqual([place.result() for place in places[:3]], [Face(0), Face(1), Face(2)])
        self.assertRaises(Ended, places[3].result)
        self.assertRaises(Ended, planar.count)
        self.assertRaises(Ended, planar.close)
        planar.kill()
        # A status that isn't 0 is told at the end too.
        with self.assertRaisesRegex(Ended, "status 4"):
            with Planar(child("sys.stdin.read(); sys.exit(4)")):
                pass
        # Writing to a program that has gone isn't the error that is told.
        with self.assertRaisesRegex(Ended, "status 0"):
            with Planar(child("sys.stdin.close()")) as planar:
                with planar.pipeline() as pipeline:
                    for x in range(100000):
                        pipeline.locate((x, 0))

    def test_an_error_kills_the_program(self):
        with self.assertRaises(KeyError):
            with Planar(child("import time\nwhile True: time.sleep(60)")) as planar:
                raise KeyError
        self.assertEqual(planar.process.poll(), -9)
        self.assertTrue(planar.process.stdout.closed)

    def test_the_command(self):
        with tempfile.TemporaryDirectory() as folder:
            script = Path(folder, "script")
            script.write_text("# a segment\nsegment 0 0 4 0\n\nlocate 1 0 1\nsegment 1 1 1 1\ncount\n")
            status, told, why = ended("planar_client.py", "--program", STAND_IN, script)
            self.assertEqual((status, told), (1, "ok 1\nedge 0 0 1 4 0 1\n"))
            self.assertEqual(why, "planar_client.py: line 5: `segment 1 1 1 1` was refused 7: the two ends are equal\n")
            self.assertEqual(ended("planar_client.py", "--program", STAND_IN, text="show")[1], "arrangement 0 0 1\nf 0\nend\n")
            self.assertEqual(ended("planar_client.py", "--program", folder, script)[:2], (2, ""))
            self.assertEqual(ended("planar_client.py", "--program", STAND_IN, Path(folder, "nothing"))[:2], (2, ""))
            self.assertEqual(ended("planar_client.py", "--program", "/bin/false", script)[:2], (2, ""))
            self.assertEqual(ended("planar_client.py", "--locate", "sideways")[0], 2)


if __name__ == "__main__":
    unittest.main()
