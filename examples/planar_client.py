#!/usr/bin/env python3
"""A client for Python programs: starts `planar` as a child, and has a method for each line of a script.

    planar_client.py map.script

As a program it runs a script line by line, writes the replies, and stops at the first line that is refused, which it explains: what stands
behind it isn't run. As a module:

    from planar_client import Planar

    with Planar() as planar:
        road = planar.segment((-2, 1), (8, 3)).curve
        planar.locate((0, Fraction(7, 5)))

A point is a pair of numbers, whole or fractions. The replies are values: what an edit did is a `Done`, and a point lies at a `Vertex`, on
an `Edge` or in a `Face`, with points as pairs of fractions; `show`, `mirror` and `overlay` give a `Subdivision` of read_show.py. A line
that is refused raises `Refused`, with the reason in words, one that found no memory `NoMemory`; either changed nothing. Where the program
ended, `Ended` says how.

In a pipeline lines are handed over without waiting for their replies; its methods give a `Pending`, whose `result()` is the value:

    with planar.pipeline() as pipeline:
        places = [pipeline.locate(point) for point in points]
    print([place.result() for place in places])

At its end all replies are there, and the first line that failed raises its error, unless `check=False` was asked for. A pipeline is no
transaction: what was accepted stays. Replies are read while lines are written, so that neither waits for the other for ever.

One thread at a time. Python 3.8 or later on a system with POSIX pipes, with its standard library alone.
"""

from __future__ import annotations

import argparse
import os
import selectors
import subprocess
import sys
from collections import deque
from fractions import Fraction
from typing import Any, Callable, Deque, List, Optional, Sequence, Tuple, Union

from explain_replies import DontPair, has_reply, lines_of, meaning_of, read
from join import WAYS, built_program
from read_replies import (
    LISTS,
    SUBDIVISIONS,
    Along,
    Batch,
    Border,
    Counts,
    Curve,
    Done,
    Edge,
    Envelope,
    Face,
    NotAReply,
    Part,
    Point,
    Vertex,
    Verticals,
    read_reply,
)
from read_show import Subdivision, read_show, triple

Number = Union[int, Fraction]
Pair = Tuple[Number, Number]

LONG_HEADS = {word.encode("ascii") for word in SUBDIVISIONS + LISTS}
OPERATIONS = ("union", "intersection", "difference", "symmetric")
LONGEST_SCRIPT = 2**26
# How many bytes of lines are gathered before they are written, and how many are read at once.
GATHERED = 2**16
STATUSES = {
    0: "it read to the end of its input",
    2: "the words of its command line are wrong",
    3: "a read failed",
    4: "a write failed",
    5: "there was no memory at its start",
    6: "more than 2^26 bytes were sent",
}


class Refused(Exception):
    """A line was refused, and changed nothing: its number, the line, and what was wrong."""

    def __init__(self, number: int, line: str):
        self.number, self.line = number, line
        try:
            self.meaning = meaning_of(number, line)
        except DontPair as unknown:
            self.meaning = str(unknown)
        super().__init__(f"`{line}` was refused {number}: {self.meaning}")


class NoMemory(Exception):
    """There was no memory for a line, and nothing was changed."""

    def __init__(self, line: str):
        self.line = line
        super().__init__(f"there was no memory for `{line}`")


class Ended(Exception):
    """The program has ended. Whole replies that it wrote before are there."""

    def __init__(self, status: int):
        self.status = status
        super().__init__(f"the program ended with {f'signal {-status}' if status < 0 else f'status {status}'}: {reason_of(status)}")


class ScriptFull(Exception):
    """The line would pass the 2^26 bytes that one run takes. It wasn't sent; a new run can go on."""


def reason_of(status: int) -> str:
    return STATUSES.get(status, "the system ended it")


class Pending:
    """A line that was handed over in a pipeline, and its reply when it is there."""

    __slots__ = ("planar", "line", "read", "text", "pipeline")

    def __init__(self, planar: Planar, line: str, read: Callable[[str], Any], pipeline: Optional[Pipeline]):
        self.planar, self.line, self.read, self.pipeline = planar, line, read, pipeline
        self.text: Optional[str] = None

    def is_there(self) -> bool:
        return self.text is not None

    def result(self) -> Any:
        """The value of the reply, which is waited for; a refused line raises `Refused`, one without memory `NoMemory`."""
        if self.text is None:
            self.planar.exchange(self.is_there)
        if self.has_failed():
            kind, _, number = self.text[:-1].partition(" ")
            raise Refused(int(number), self.line) if kind == "refused" else NoMemory(self.line)
        return self.read(self.text)

    def has_failed(self) -> bool:
        return self.text.startswith(("refused ", "no memory"))


def reading(kinds: Any, taken: Callable[[Any], Any] = lambda value: value) -> Callable[[str], Any]:
    """A reader of replies whose value is of some kind, and what is taken of it."""

    def read_value(text: str) -> Any:
        value = read_reply(text)
        if not isinstance(value, kinds):
            raise NotAReply(f"this is no reply to the line: {text[:80]!r}")
        return taken(value)

    return read_value


DONE = reading(Done)
NOTHING = reading(Done, lambda value: None)
PLACE = reading((Vertex, Edge, Face))
CURVES = reading(Along, lambda value: value.curves)
EDGES = reading(Curve, lambda value: value.edges)
COUNTS = reading(Counts)
DARTS = reading(Border, lambda value: value.darts)
PARTS = reading(Verticals, lambda value: value.parts)
PLACES = reading(Batch, lambda value: value.places)
ENVELOPE = reading(Envelope)


def whole(points: Sequence[Pair]) -> str:
    """The coordinates of corners, which have to be whole."""
    words = ""
    for x, y in points:
        for number in (x, y):
            if int(number) != number:
                raise ValueError(f"corners and ends of segments are whole, and {number} isn't")
        words += f" {int(x)} {int(y)}"
    return words


def exact(points: Sequence[Pair]) -> str:
    """Points as numbers X Y W."""
    words = ""
    for x, y in points:
        words += f" {x} {y} 1" if type(x) is type(y) is int else f" {triple((Fraction(x), Fraction(y)))}"
    return words


def one_of(word: str, words: Sequence[str]) -> str:
    if word not in words:
        raise ValueError(f"{word!r} is none of {', '.join(words)}")
    return word


class Commands:
    """A method for each line of a script. Those of a pipeline give a `Pending` in place of the value."""

    def do(self, line: str, read: Callable[[str], Any]) -> Any:
        raise NotImplementedError

    def segment(self, p: Pair, q: Pair) -> Done:
        """The segment between two whole points is a curve from now on, `.curve` its number."""
        return self.do(f"segment{whole((p, q))}", DONE)

    def path(self, *corners: Pair) -> Done:
        """The polyline along two to nine whole corners is a curve from now on, `.curve` its number."""
        return self.do(f"path{whole(corners)}", DONE)

    def drop(self, curve: int) -> Done:
        """A curve goes, with all its pieces."""
        return self.do(f"drop {int(curve)}", DONE)

    def cut(self, p: Pair, q: Pair) -> Done:
        """The edge between two vertices goes from all its curves."""
        return self.do(f"cut{exact((p, q))}", DONE)

    def pin(self, p: Pair) -> Done:
        """A point is a vertex from now on."""
        return self.do(f"pin{exact((p,))}", DONE)

    def unpin(self, p: Pair) -> Done:
        """A point is pinned no more."""
        return self.do(f"unpin{exact((p,))}", DONE)

    def split(self, p: Pair, q: Pair, r: Pair) -> Done:
        """A point strictly inside the edge between two vertices is pinned."""
        return self.do(f"split{exact((p, q, r))}", DONE)

    def merge(self, p: Pair) -> Done:
        """A vertex is pinned no more, and its two edges are one."""
        return self.do(f"merge{exact((p,))}", DONE)

    def clear(self) -> Done:
        """No piece, pin or curve is left in the layer."""
        return self.do("clear", DONE)

    def locate(self, p: Pair) -> Union[Vertex, Edge, Face]:
        """Where a point lies."""
        return self.do(f"locate{exact((p,))}", PLACE)

    def batch(self, *points: Pair) -> Tuple[Union[Vertex, Edge, Face], ...]:
        """Where one to eight points lie, in their order."""
        return self.do(f"batch{exact(points)}", PLACES)

    def edge(self, p: Pair, q: Pair) -> Tuple[int, ...]:
        """The numbers of the curves along the edge between two vertices."""
        return self.do(f"edge{exact((p, q))}", CURVES)

    def curve(self, curve: int) -> Tuple[Edge, ...]:
        """The edges of a curve, in their order."""
        return self.do(f"curve {int(curve)}", EDGES)

    def count(self) -> Counts:
        """How many vertices, edges, faces, inner boundary cycles, isolated vertices and curves there are."""
        return self.do("count", COUNTS)

    def show(self) -> Subdivision:
        """The subdivision of the layer."""
        return self.do("show", read_show)

    def overlay(self) -> Subdivision:
        """The subdivision of both layers."""
        return self.do("overlay", read_show)

    def mirror(self, observer: int) -> Subdivision:
        """The subdivision as an observer has followed it."""
        return self.do(f"mirror {int(observer)}", read_show)

    def region(self, operation: str) -> Tuple[Tuple[Point, Point], ...]:
        """The union, intersection, difference or symmetric difference of both layers as even-odd sets: the directed edges of its border."""
        return self.do(f"region {one_of(operation, OPERATIONS)}", DARTS)

    def vertical(self) -> Tuple[Part, ...]:
        """What is directly above and below each vertex."""
        return self.do("vertical", PARTS)

    def envelope(self, which: str) -> Envelope:
        """The lower or the upper envelope of the layer."""
        return self.do(f"envelope {one_of(which, ('lower', 'upper'))}", ENVELOPE)

    def layer(self, colour: str) -> None:
        """Later lines mean the red or the blue layer."""
        return self.do(f"layer {one_of(colour, ('red', 'blue'))}", NOTHING)

    def attach(self, observer: int, at: Optional[int] = None) -> None:
        """An observer joins now, or at a round from here."""
        return self.do(f"attach {int(observer)}{at_round(at)}", NOTHING)

    def leave(self, observer: int, at: Optional[int] = None) -> None:
        """An observer leaves now, or at a round from here."""
        return self.do(f"leave {int(observer)}{at_round(at)}", NOTHING)

    def ask(self, line: str) -> str:
        """The reply to a line of a script as it is written, with its line ends."""
        if "\n" in line or not has_reply(line):
            raise ValueError(f"this isn't one line that has a reply: {line!r}")
        return self.do(line, str)


def at_round(at: Optional[int]) -> str:
    return "" if at is None else f" at {int(at)}"


class Pipeline(Commands):
    """Lines that are handed over without waiting for their replies."""

    def __init__(self, planar: Planar, check: bool):
        self.planar, self.check = planar, check
        self.failed: Optional[Pending] = None

    def do(self, line: str, read: Callable[[str], Any]) -> Pending:
        return self.planar.hand_over(line, read, self)

    def __enter__(self) -> Pipeline:
        return self

    def __exit__(self, kind: Any, error: Any, trace: Any) -> None:
        if kind is None:
            self.planar.exchange(lambda: not self.planar.waiting)
            if self.check and self.failed:
                self.failed.result()


class Planar(Commands):
    """A run of the program `planar`: of the one that is given, as a path or as words, or of the one that is built."""

    def __init__(self, program: Union[str, os.PathLike, Sequence[str], None] = None, locate: Optional[str] = None):
        words = [os.fspath(program)] if isinstance(program, (str, os.PathLike)) else list(program or [built_program(__file__)])
        words += ["--locate", one_of(locate, WAYS)] if locate else []
        self.process = subprocess.Popen(words, stdin=subprocess.PIPE, stdout=subprocess.PIPE, bufsize=0)
        self.input, self.output = self.process.stdin.fileno(), self.process.stdout.fileno()
        os.set_blocking(self.input, False)
        self.selector = selectors.DefaultSelector()
        self.selector.register(self.output, selectors.EVENT_READ)
        self.unsent = bytearray()
        self.handed_over = 0
        self.waiting: Deque[Pending] = deque()
        # The line that was read in part, and the lines of a reply that goes on.
        self.begun, self.rows = b"", []
        self.ended: Optional[Ended] = None

    def do(self, line: str, read: Callable[[str], Any]) -> Any:
        return self.hand_over(line, read, None).result()

    def pipeline(self, check: bool = True) -> Pipeline:
        """Takes lines without waiting for their replies, in a `with` block; with check its end raises the first one's error."""
        return Pipeline(self, check)

    def hand_over(self, line: str, read: Callable[[str], Any], pipeline: Optional[Pipeline]) -> Pending:
        """Takes a line that is to be written, and writes what was gathered where that is much."""
        if self.process.stdin.closed:
            raise ValueError("the run is closed")
        written = line.encode("latin-1") + b"\n"
        if self.handed_over + len(written) > LONGEST_SCRIPT:
            raise ScriptFull(f"`{line[:80]}` would pass the 2^26 bytes of a run")
        self.handed_over += len(written)
        self.unsent += written
        pending = Pending(self, line, read, pipeline)
        self.waiting.append(pending)
        if len(self.unsent) >= GATHERED:
            self.exchange(lambda: len(self.unsent) < GATHERED)
        return pending

    def exchange(self, is_done: Callable[[], bool]) -> None:
        """Writes lines and reads replies, whichever goes, until something is there."""
        while not is_done():
            if self.ended:
                raise self.ended
            self.watch_input(bool(self.unsent))
            for key, _ in self.selector.select():
                if key.fd == self.input:
                    self.send()
                else:
                    self.receive()

    def watch_input(self, is_due: bool) -> None:
        """Waits for room in the program's input only where there is something to write."""
        if is_due != (self.input in self.selector.get_map()):
            if is_due:
                self.selector.register(self.input, selectors.EVENT_WRITE)
            else:
                self.selector.unregister(self.input)

    def send(self) -> None:
        try:
            del self.unsent[: os.write(self.input, self.unsent[:GATHERED])]
        except BlockingIOError:
            pass
        except BrokenPipeError:
            # It has ended, or is about to. What it wrote before is still read.
            self.unsent.clear()

    def receive(self) -> None:
        """Reads what the program has written, and gives out the replies that are whole."""
        read = os.read(self.output, GATHERED)
        if not read:
            self.ended = Ended(self.process.wait())
            return
        *lines, self.begun = (self.begun + read).split(b"\n")
        for line in lines:
            self.rows.append(line)
            if len(self.rows) > 1 or line.split(b" ", 1)[0] in LONG_HEADS:
                if line != b"end":
                    continue
            self.take("".join(row.decode("latin-1") + "\n" for row in self.rows))
            self.rows.clear()

    def take(self, text: str) -> None:
        """Gives a reply to the line that it belongs to."""
        if not self.waiting:
            raise NotAReply(f"the program wrote a reply to no line: {text[:80]!r}")
        pending = self.waiting.popleft()
        pending.text = text
        if pending.pipeline and not pending.pipeline.failed and pending.has_failed():
            pending.pipeline.failed = pending

    def close(self) -> None:
        """Reads all replies that are due, closes the program's input, and waits for its end."""
        if self.process.stdin.closed:
            return
        self.exchange(lambda: not self.waiting)
        self.watch_input(False)
        self.process.stdin.close()
        self.exchange(lambda: self.ended is not None)
        self.put_away()
        if self.ended.status:
            raise self.ended

    def kill(self) -> None:
        """Ends the program at once."""
        self.process.kill()
        self.process.wait()
        self.put_away()

    def put_away(self) -> None:
        self.selector.close()
        self.process.stdin.close()
        self.process.stdout.close()

    def __enter__(self) -> Planar:
        return self

    def __exit__(self, kind: Any, error: Any, trace: Any) -> None:
        try:
            if kind is None:
                self.close()
        finally:
            if not self.process.stdout.closed:
                self.kill()


def run(planar: Planar, lines: List[str]) -> int:
    """Runs lines one after the other, up to the first that fails."""
    for number, line in enumerate(lines, 1):
        if has_reply(line):
            try:
                print(planar.ask(line), end="", flush=True)
            except (Refused, NoMemory) as error:
                print(f"planar_client.py: line {number}: {error}", file=sys.stderr)
                return 1
    return 0


def main() -> int:
    parser = argparse.ArgumentParser(description="Runs a script line by line up to the first that is refused, and says why it was.")
    parser.add_argument("script", nargs="?", metavar="SCRIPT", help="the script; standard input without it")
    parser.add_argument("--program", metavar="PATH", help="the program `planar`")
    parser.add_argument("--locate", choices=WAYS, metavar="WAY", help=f"the way of location: {', '.join(WAYS)}")
    options = parser.parse_args()
    try:
        lines = lines_of(read(options.script))
        with Planar(options.program, options.locate) as planar:
            return run(planar, lines)
    except (OSError, ValueError, Ended, subprocess.SubprocessError) as error:
        print(f"planar_client.py: {error}", file=sys.stderr)
        return 2


if __name__ == "__main__":
    sys.exit(main())
