#!/usr/bin/env python3
"""Tests of the join by squares, against the stored town and against the even-odd rule; the program is a stand-in."""

import importlib.util
import io
import json
import signal
import subprocess
import sys
import tempfile
import time
import unittest
from contextlib import contextmanager, redirect_stderr
from fractions import Fraction
from pathlib import Path
from unittest import mock

import join
import made_town
import one_square
import tiles
from lines_to_script import CantConvert, features_of
from one_square import BORDER, TOO_FINE, NotAnswered, Square, answers_of, extent_of, parcels_of_faces
from stand_in import Map
from test_answers import ended
from tiles import Asker, Cutter, Limits, Pool, Tile, both, paths_of, where

FOLDER = Path(__file__).resolve().parent
STAND_IN = str(FOLDER / "stand_in.py")
# A program that ends the worker which started it, the first time that it is started, and is the stand-in from then on.
DEADLY = f"""#!{sys.executable}
import os, signal, sys
try:
    os.close(os.open(sys.argv[0] + ".died", os.O_CREAT | os.O_EXCL))
    os.kill(os.getppid(), signal.SIGKILL)
except FileExistsError:
    os.execv(sys.executable, [sys.executable, "-B", {STAND_IN!r}])
"""
FAILS = f"#!{sys.executable}\nimport sys\nprint('ok 1')\nsys.exit(3)\n"


def town(rows):
    """The features of a made town."""
    return features_of(json.dumps({"type": "FeatureCollection", "features": list(made_town.parcels(rows))}), "name")


def map_of(parcels, addresses, digits=None):
    """A map of rings by their names, and of points."""
    whole = tiles.Map(digits)
    for lines in parcels.values():
        for line in lines:
            for corner in line:
                whole.refine(corner)
    for number, point in enumerate(addresses, 1):
        whole.add_address(f"address {number}", point)
    for name, lines in parcels.items():
        whole.add_parcel(name, lines)
    return whole


def ring(text):
    """A ring of corners, parted by commas, which ends where it begins."""
    corners = [tuple(map(Fraction, corner.split())) for corner in text.split(",")]
    return corners + corners[:1]


def square(left, bottom, side):
    right, top = left + side, bottom + side
    return ring(f"{left} {bottom}, {right} {bottom}, {right} {top}, {left} {top}")


def due(parcels, point):
    """What is due of an address, by the even-odd rule."""
    (x, y), names = point, []
    for name, lines in parcels.items():
        inside = False
        for (x1, y1), (x2, y2) in ((p, q) for line in lines for p, q in zip(line, line[1:]) if p != q):
            if (x2 - x1) * (y - y1) == (y2 - y1) * (x - x1) and min(x1, x2) <= x <= max(x1, x2) and min(y1, y2) <= y <= max(y1, y2):
                return BORDER
            inside ^= (y1 > y) != (y2 > y) and x1 + (y - y1) * (x2 - x1) / (y2 - y1) > x
        names += [name] * inside
    return ", ".join(names)


def replies_by_stand_in(square, lines):
    """What the stand-in answers, without a process of its own."""
    layer = Map()
    return [line for asked in lines for line in layer.reply(asked.split()[0], asked.split()[1:]).split("\n")] + [""]


def asked(whole, limits):
    """What is told of each address, and the runs by which it was found, one after the other."""
    runs = list(Cutter(whole, limits).runs())
    asker = Asker(whole, runs, None, "", "walk")
    with mock.patch.object(one_square, "run", replies_by_stand_in):
        for run in range(len(runs)):
            asker.keep(run, answers_of(asker.square(run)))
    return [where(answer, whole.parcels) for answer in asker.answers], runs


def made_program(folder, text):
    program = Path(folder, "program")
    program.write_text(text)
    program.chmod(0o755)
    return str(program)


SMALL = {"outer": [square(0, 0, 12), square(3, 3, 6)], "pond": [square(4, 4, 2)], "over": [ring("-2 5, 20 5, 20 7, -2 7")]}


class Cutting(unittest.TestCase):
    def test_squares_are_within_the_limits_and_have_all_that_matters(self):
        parcels = {parcel.name: parcel.lines for parcel in town(6)}
        addresses = [address.points()[0] for address in features_of("\n".join(made_town.addresses(6, 150)), "name")]
        whole = map_of(parcels, addresses)
        for limits in [Limits(), Limits(curves=9, pieces=30, addresses=20), Limits(curves=2, pieces=8, addresses=150)]:
            runs = list(Cutter(whole, limits).runs())
            given = {number: set() for number in range(len(addresses))}
            for numbers, some in runs:
                self.assertLessEqual(sum(len(whole.parcels[number].paths) for number in numbers), limits.curves)
                self.assertLessEqual(sum(whole.parcels[number].sides for number in numbers), limits.pieces)
                self.assertLessEqual(len(some), limits.addresses)
                for number in some:
                    given[number].update(whole.parcels[place].name for place in numbers)
            for number, names in given.items():
                for name, lines in parcels.items():
                    if due({name: lines}, addresses[number]):
                        self.assertIn(name, names)
        self.assertGreater(len(runs), 20)

    def test_a_parcel_that_meets_a_square(self):
        whole = map_of({"slope": [ring("0 0, 10 10, 10 12, 0 2")], "round": [square(-20, -20, 60)]}, [])
        slope, around = whole.parcels
        met, apart = [(4, 4, 1), (10, 12, 5), (8, 6, 2), (-5, -5, 60)], [(6, 0, 2), (0, 8, 2), (8, 6, 1), (20, 0, 1)]
        for tile in met + apart:
            self.assertEqual(Tile(*tile).meets(slope), tile in met, tile)
            self.assertTrue(Tile(*tile).meets(around))
        self.assertFalse(Tile(41, 0, 4).meets(around))

    def test_parcels_that_lie_on_one_another(self):
        """Where quartering doesn't help, parcels are parted, and the answers are put together again."""
        many = {f"copy {number}": [square(0, 0, 64)] for number in range(25)}
        addresses = [(Fraction(x), Fraction(y)) for x in range(-1, 66, 6) for y in range(-1, 66, 6)]
        found, runs = asked(map_of(many, addresses), Limits(curves=10))
        self.assertEqual(found, [due(many, address) for address in addresses])
        self.assertLess(len(runs), 3 * 64)
        # All at one point, which no square parts.
        found, runs = asked(map_of(many, [(Fraction(1), Fraction(1))] * 30), Limits(curves=10, addresses=20))
        self.assertEqual((set(found), len(runs)), ({", ".join(many)}, 3 * 2))

    def test_an_address_that_is_far_away(self):
        parcels = {parcel.name: parcel.lines for parcel in town(6)}
        addresses = [address.points()[0] for address in features_of("\n".join(made_town.addresses(6, 30)), "name")]
        near = len(list(Cutter(map_of(parcels, addresses), Limits(curves=8)).runs()))
        far = len(list(Cutter(map_of(parcels, addresses + [(Fraction(10**9), Fraction(10**9))]), Limits(curves=8)).runs()))
        self.assertLess(far, 2 * near + 5)

    def test_paths(self):
        corners = [(x, x * x) for x in range(20)] + [(0, 0)]
        self.assertEqual([len(path) for path in paths_of(corners)], [9, 9, 5])
        self.assertEqual([side for path in paths_of(corners) for side in zip(path, path[1:])], list(zip(corners, corners[1:])))
        # Two sides that lie on one another are in different paths; corners that are told twice are left out.
        spike = [(0, 0), (0, 0), (8, 0), (4, 0), (4, 4), (0, 0)]
        self.assertEqual([len(path) for path in paths_of(spike)], [2, 4])
        self.assertEqual(list(paths_of([(1, 1), (1, 1)])), [])
        self.assertEqual(list(paths_of([])), [])

    def test_units(self):
        whole = map_of({"a": [ring("0 0, 0.5 0, 0.5 0.25")]}, [(Fraction("0.125"), Fraction("0.1")), (Fraction("1e-6"), Fraction(0))])
        self.assertEqual((whole.digits, whole.xs, whole.ys), (6, [125000, 1], [100000, 0]))
        self.assertEqual(whole.parcels[0].extent[:4], (0, 500000, 0, 250000))
        self.assertEqual(whole.parcels[0].extent.frame().unit, 250000)
        rounded = map_of({"a": [ring("0 0, 0.5 0, 0.5 0.25")]}, [(Fraction("0.125"), Fraction("0.1"))], 1)
        self.assertEqual((rounded.digits, rounded.xs, rounded.rounded), (1, [1], {"corners": 1, "addresses": 1}))

    def test_frames(self):
        extent = extent_of([(1000007, 3), (1000017, 3), (1000017, 23)])
        frame = extent.frame()
        self.assertEqual(frame.unit, 10)
        for corner in [(1000007, 3), (1000017, 23)]:
            x, y = map(int, frame.whole(corner).split())
            self.assertEqual((frame.origin[0] + 10 * x, frame.origin[1] + 10 * y), corner)
        x, y, weight = map(int, frame.triple((1000008, 5)).split())
        self.assertEqual((frame.origin[0] + Fraction(10 * x, weight), frame.origin[1] + Fraction(10 * y, weight)), (1000008, 5))
        # A large unit is parted, so that weights fit, and one that can't be isn't.
        coarse = extent_of([(0, 0), (10**18, 0), (0, 3 * 10**18)]).frame()
        self.assertIsNotNone(coarse.triple((1, 1)))
        prime = 2**61 - 1
        self.assertIsNone(extent_of([(0, 0), (prime, 0), (0, prime)]).frame().triple((1, 1)))
        most = one_square.LARGEST_COORDINATE
        self.assertIsNotNone(extent_of([(0, 0), (2 * most - 2, 1)]).frame())
        self.assertIsNone(extent_of([(0, 0), (2 * most + 2, 1)]).frame())
        self.assertIsNotNone(extent_of([(7, 7)]).frame())


class Answers(unittest.TestCase):
    def test_the_stored_town(self):
        parcels, addresses = town(3), features_of("\n".join(made_town.addresses(3, 24)), "name")
        plan, _ = join.script_for(parcels + addresses)
        joined = list(join.joined(parcels, addresses, plan, FOLDER.joinpath("town.replies").read_text("ascii")))
        whole = map_of({parcel.name: parcel.lines for parcel in parcels}, [address.points()[0] for address in addresses])
        for limits in [Limits(), Limits(addresses=7), Limits(curves=4), Limits(pieces=8)]:
            found, runs = asked(whole, limits)
            self.assertEqual(found, [told for _, told in joined], limits)
        self.assertGreater(len(runs), 4)

    def test_holes_and_spikes(self):
        odd = {"spike": "0 20, 8 20, 4 20, 4 24", "bow": "20 20, 24 24, 24 20, 20 24", "point": "1 1, 1 1, 1 1"}
        spike = {**SMALL, **{name: [ring(text)] for name, text in odd.items()}}
        spots = [(Fraction(x, 2), Fraction(y, 2)) for x in range(-5, 50, 3) for y in range(-1, 50, 3)]
        spots += [(Fraction(x), Fraction(y)) for x, y in [(6, 20), (4, 22), (22, 22), (3, 4), (12, 12), (1, 1), (9, 6)]]
        spots.append((Fraction(5), Fraction(9, 2)))
        for limits in [Limits(), Limits(curves=3)]:
            found, _ = asked(map_of(spike, spots), limits)
            self.assertEqual(found, [due(spike, spot) for spot in spots])
        self.assertTrue({"outer", "pond", "pond, over", "over", "", BORDER} <= set(found))

    def test_what_is_put_together(self):
        self.assertEqual(both((1, 4), (2,)), (1, 2, 4))
        self.assertEqual([both(BORDER, (2,)), both((), BORDER), both(BORDER, BORDER)], [BORDER] * 3)

    def test_what_a_program_shouldnt_say(self):
        text = ["arrangement 0 0 1", "f 0", "end", ""]
        self.assertEqual(parcels_of_faces(text, []), {0: ()})
        for other in [text[:-1], text[:-2], text[1:], []]:
            self.assertRaises(NotAnswered, parcels_of_faces, other, [])
        spots = [(1, 1), (30, 30)]
        for script in ["exit 3", "echo ok 1", "echo ok 2; echo face 0; echo arrangement; echo end", "echo ok 1; echo ok; echo show"]:
            with tempfile.TemporaryDirectory() as folder:
                program = made_program(folder, f"#!/bin/sh\ncat > {folder}/script\n{script}\n")
                self.assertRaises(NotAnswered, answers_of, Square(program, "walk", [(0, [[(0, 0), (4, 0), (4, 4), (0, 0)]])], spots))
                # The second address is beyond the box of the parcel, and isn't asked for.
                self.assertEqual(Path(folder, "script").read_text().count("locate"), 1)

    def test_what_passes_the_limits_is_refused_by_its_name(self):
        comb = [(Fraction(x), Fraction(x % 2 * 9)) for x in range(10000)] + [(Fraction(0), Fraction(-1))]
        inside = [(Fraction(1), Fraction(0))]
        self.assertEqual(len(list(Cutter(map_of({"comb": [comb[1:] + comb[1:2]]}, inside), Limits()).runs())), 1)
        fine = ring("0 0, 40000000 0, 40000000 1")
        for name, lines, what in [("comb", [comb + comb[:1]], "10001 sides"), ("fine", [fine], "--digits")]:
            with self.assertRaisesRegex(CantConvert, f"^{name} alone .*{what}"):
                list(Cutter(map_of({**SMALL, name: lines}, inside), Limits()).runs())
        whole = map_of({"fine": [fine]}, inside, 0)
        self.assertRaises(CantConvert, list, Cutter(whole, Limits()).runs())
        asker = Asker(map_of(SMALL, inside), [([0], [0])], None, STAND_IN, "walk")
        with self.assertRaisesRegex(CantConvert, "address 1 has more digits"):
            asker.keep(0, [TOO_FINE])

    def test_addresses_with_many_digits(self):
        spots = [(Fraction("4.000000000000001"), Fraction("5.999999999999999")), (Fraction("3.000000000000001"), Fraction("4"))]
        found, _ = asked(map_of(SMALL, spots), Limits())
        self.assertEqual(found, [due(SMALL, spot) for spot in spots])


class Workers(unittest.TestCase):
    def setUp(self):
        self.parcels = {parcel.name: parcel.lines for parcel in town(3)}
        self.addresses = [address.points()[0] for address in features_of("\n".join(made_town.addresses(3, 24)), "name")]
        self.due = [due(self.parcels, address) for address in self.addresses]

    def ask(self, program, processes=1, limits=Limits(curves=4)):
        """What is told of each address, by whom it was asked, and what was told meanwhile."""
        whole = map_of(self.parcels, self.addresses)
        pool, told = Pool(processes), io.StringIO()
        try:
            with redirect_stderr(told):
                asker = Asker(whole, list(Cutter(whole, limits).runs()), pool, program, "walk")
                return [where(answer, whole.parcels) for answer in asker.ask_all()], asker, told.getvalue()
        finally:
            pool.close()

    def test_a_pool(self):
        for processes in (1, 2):
            found, asker, _ = self.ask(STAND_IN, processes)
            self.assertEqual((found, asker.again, asker.done), (self.due, 0, len(asker.runs)))

    def test_a_worker_that_dies_loses_nothing(self):
        with tempfile.TemporaryDirectory() as folder:
            found, asker, _ = self.ask(made_program(folder, DEADLY), 2)
            self.assertTrue(Path(folder, "program.died").exists())
        self.assertEqual(found, self.due)
        self.assertGreater(asker.again, 0)

    def test_a_program_that_always_fails_ends_it(self):
        with tempfile.TemporaryDirectory() as folder:
            with self.assertRaisesRegex(CantConvert, r"^the square of \(.*\) was asked 3 times in vain: the program ended with status 3"):
                self.ask(made_program(folder, FAILS))
        with self.assertRaisesRegex(CantConvert, "asked 3 times in vain"):
            self.ask(str(FOLDER / "nothing"))

    def test_progress_is_told(self):
        with mock.patch.object(tiles, "QUIET", 0):
            _, asker, told = self.ask(STAND_IN)
        count = len(asker.runs)
        self.assertRegex(told.splitlines()[-1], f"^tiles.py: {count} of {count} squares, [0-9]+ addresses$")


class Program(unittest.TestCase):
    def setUp(self):
        self.folder = tempfile.TemporaryDirectory()
        self.addCleanup(self.folder.cleanup)
        self.parcels, self.addresses = (Path(self.folder.name, name) for name in ("parcels.geojson", "addresses.csv"))
        self.parcels.write_text(ended("made_town.py", "parcels", "--rows", 4)[1])
        self.addresses.write_text(ended("made_town.py", "addresses", "--rows", 4, "--count", 60)[1])

    def test_it_says_what_join_says(self):
        words = ["--program", STAND_IN, self.parcels, self.addresses]
        status, joined, _ = ended("join.py", *words)
        self.assertEqual(ended("tiles.py", "--processes", 1, *words)[:2], (status, joined))
        _, _, told = ended("tiles.py", "--processes", 1, *words)
        self.assertRegex(told, "60 addresses, 16 parcels: [0-9]+ in a parcel, 2 on a border, [0-9]+ outside; squares: 1, asked again: 0\n$")

    def test_rounding(self):
        words = ["--processes", 1, "--program", STAND_IN, self.parcels, self.addresses]
        status, joined, told = ended("tiles.py", "--digits", 0, *words)
        self.assertRegex(told, "tiles.py: [0-9]+ addresses were rounded to 0 decimals")
        self.assertEqual((status, len(joined.splitlines())), (0, 60))

    def test_no_addresses_and_no_parcels(self):
        for parcels, addresses, rows in [("POLYGON EMPTY", "1,1\n", 1), ("POLYGON ((0 0, 1 0, 1 1, 0 0))", "MULTIPOINT EMPTY", None)]:
            self.parcels.write_text(parcels)
            self.addresses.write_text(addresses)
            status, joined, _ = ended("tiles.py", "--processes", 1, "--program", STAND_IN, self.parcels, self.addresses)
            self.assertEqual((status, joined.count("\n")), (0, rows) if rows else (1, 0))

    def test_what_cant_be_done_is_refused(self):
        lines = Path(self.folder.name, "lines.wkt")
        lines.write_text("LINESTRING (0 0, 1 1, 2 0)")
        for words in [(lines, self.addresses), (self.parcels, lines), (self.parcels, self.parcels), (self.folder.name, self.addresses)]:
            status, joined, told = ended("tiles.py", "--program", STAND_IN, *words)
            self.assertEqual((status, joined), (1, ""))
            self.assertTrue(told.startswith("tiles.py: "))
        for words in [["--processes", 0], ["--digits", -1], ["--locate", "sideways"], []]:
            self.assertEqual(ended("tiles.py", *words, self.parcels, *[self.addresses] * bool(words))[0], 2)


@contextmanager
def cluster(folder):
    """The address of a Dask scheduler with two workers on the loopback address."""
    file = Path(folder, "scheduler.json")
    scheduler = ["dask_scheduler", "--host", "127.0.0.1", "--port", "0", "--no-dashboard", "--scheduler-file", str(file)]
    worker = ["dask_worker", "--host", "127.0.0.1", "--nthreads", "1", "--no-nanny", "--no-dashboard", "--scheduler-file", str(file)]
    worker += ["--local-directory", folder]
    started = []
    try:
        for words in (scheduler, worker, worker):
            quiet = {"stdout": subprocess.DEVNULL, "stderr": subprocess.DEVNULL, "cwd": folder}
            started.append(subprocess.Popen([sys.executable, "-m", f"distributed.cli.{words[0]}", *words[1:]], **quiet))
            for _ in range(600):
                if file.exists() and file.read_text():
                    break
                time.sleep(0.1)
        yield json.loads(file.read_text())["address"]
    finally:
        for process in started:
            process.send_signal(signal.SIGKILL)
            process.wait()


HAS_DASK = importlib.util.find_spec("distributed") is not None


@unittest.skipUnless(HAS_DASK, "Dask's `distributed` isn't there, so no cluster is tried (in Debian: python3-distributed)")
class Dask(unittest.TestCase):
    def test_two_workers_of_which_one_dies(self):
        with tempfile.TemporaryDirectory() as folder:
            parcels, addresses = Path(folder, "parcels.geojson"), Path(folder, "addresses.csv")
            parcels.write_text(ended("made_town.py", "parcels", "--rows", 4)[1])
            addresses.write_text(ended("made_town.py", "addresses", "--rows", 4, "--count", 60)[1])
            joined = ended("join.py", "--program", STAND_IN, parcels, addresses)[1]
            with cluster(folder) as address:
                for program in (STAND_IN, made_program(folder, DEADLY)):
                    status, told, why = ended("tiles.py", "--scheduler", address, "--program", program, parcels, addresses)
                    self.assertEqual((status, told), (0, joined), why)
            self.assertTrue(Path(folder, "program.died").exists())


@unittest.skipIf(HAS_DASK, "Dask is there")
class NoDask(unittest.TestCase):
    def test_it_is_told(self):
        with tempfile.TemporaryDirectory() as folder:
            parcels, addresses = Path(folder, "parcels"), Path(folder, "addresses")
            parcels.write_text("POLYGON ((0 0, 1 0, 1 1, 0 0))")
            addresses.write_text("1,1")
            status, told, why = ended("tiles.py", "--scheduler", "127.0.0.1:1", "--program", STAND_IN, parcels, addresses)
        self.assertEqual((status, told), (1, ""))
        self.assertIn("python3-distributed", why.splitlines()[-1])


if __name__ == "__main__":
    unittest.main()
