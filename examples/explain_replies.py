#!/usr/bin/env python3
"""Tells of each line of a script its reply, and of a refused one what was wrong.

    planar < map.script | explain_replies.py map.script
    explain_replies.py map.script map.replies

For each line that has a reply it writes, parted by tabs: the line's number, the line, the reply, and the meaning of a refusal. Of a reply
of several lines it writes the first one. With --refused only lines that were refused, or found no memory, are written.

The exit status is 0 where all lines were accepted, 1 where one was refused or found no memory, and 2 where the replies aren't those to
the script (too few, too many, or no replies at all) or a file can't be read; standard error says what.

docs/SCRIPT.md has the commands and the refusals. Python 3.8 or later, with its standard library alone.
"""

from __future__ import annotations

import argparse
import re
import sys
from typing import Iterator, List, NamedTuple, Optional

LONGEST_LINE = 300
# The commands, with the words that follow.
FORMS = {
    "segment": "x1 y1 x2 y2",
    "path": "x0 y0 x1 y1 .. xk yk",
    "drop": "c",
    "cut": "X Y W X Y W",
    "pin": "X Y W",
    "unpin": "X Y W",
    "split": "X Y W X Y W X Y W",
    "merge": "X Y W",
    "clear": "",
    "locate": "X Y W",
    "edge": "X Y W X Y W",
    "curve": "c",
    "count": "",
    "show": "",
    "layer": "red|blue",
    "overlay": "",
    "region": "union|intersection|difference|symmetric",
    "vertical": "",
    "batch": "X1 Y1 W1 .. Xk Yk Wk",
    "envelope": "lower|upper",
    "attach": "i [at n]",
    "leave": "i [at n]",
    "mirror": "i",
}
# What a refusal means, by its number; by the command too where it depends on that. Refusal 1 has a second meaning.
MEANINGS = {
    1: "the first word isn't a command",
    2: "the count of words isn't one that the command has",
    3: "a word in a number's place isn't a number",
    4: "a number is out of its range",
    5: "the line has more than 300 bytes",
    6: "a byte of the line is outside 32 to 126",
    7: {"segment": "the two ends are equal", "path": "two neighbouring points are equal"},
    8: "no curve has this number",
    9: "no edge has these two ends",
    10: {"merge": "no vertex is at the point", "unpin": "it isn't pinned"},
    11: "the point isn't strictly inside the edge",
    12: {"merge": "the vertex isn't pinned, or without its pin it would still be a vertex, or it has no edge"},
    13: {"pin": "the point is pinned"},
    14: "there are fewer than i observers; or, for `attach`, observer i has left or was lost",
    15: {"attach": "the observer is seated, or its join is planned, in either layer"},
    16: {"leave": "the observer isn't seated", "mirror": "the observer isn't seated"},
    17: {
        "segment": "there are 2,000 curves, or 10,000 pieces of curves",
        "path": "there are 2,000 curves, or the pieces afterwards would be more than 10,000",
        "cut": "the pieces afterwards would be more than 10,000",
        "pin": "10,000 points are pinned",
        "split": "10,000 points are pinned",
        "attach": "eight are seated or planned",
    },
    18: {"segment": "the number 4294967295 was drawn", "path": "the number 4294967295 was drawn"},
    19: {"region": "a layer isn't closed, red or blue: some point is an end of an odd number of its pieces"},
}
MISSPELT = "after the count of words was right, a fixed word of the command isn't spelt so"
NO_MEMORY = "there was no memory for it; nothing was changed"
KNOWN_BYTES = {9: ", a tab", 13: ", of a line end by bytes 13 and 10", 239: ", of a byte order mark or a letter beyond ASCII"}
NUMBER = re.compile(r"0|-?[1-9][0-9]*")
REPLY = re.compile(
    r"ok(?: [0-9]+)?(?: (?:joined|left|lost) [0-9]+)*|refused [0-9]+|no memory|vertex .*|edge .*|face [0-9]+|curves .*|counts .*"
    r"|(?:arrangement|overlay|curve|region|vertical|batch|envelope) [0-9 ]+"
)
# The first word of a reply that goes on to a line `end`.
LONG_REPLY = re.compile(r"(?:arrangement|overlay|curve|region|vertical|batch|envelope) ")


class DontPair(ValueError):
    """The replies aren't those to the script."""


class Answered(NamedTuple):
    """A line with its number and the first line of its reply."""

    number: int
    line: str
    reply: str

    @property
    def refusal(self) -> Optional[int]:
        """The number of the refusal, if it is one."""
        found = re.fullmatch(r"refused ([0-9]+)", self.reply)
        return int(found[1]) if found else None

    @property
    def is_accepted(self) -> bool:
        return self.refusal is None and self.reply != "no memory"

    @property
    def meaning(self) -> str:
        """What was wrong with the line; nothing where it was accepted."""
        if self.reply == "no memory":
            return NO_MEMORY
        return "" if self.refusal is None else meaning_of(self.refusal, self.line)


def meaning_of(refusal: int, line: str) -> str:
    """The meaning of a refusal, and where in the line its cause is, as far as the line tells."""
    if refusal not in MEANINGS:
        raise DontPair(f"there is no refusal {refusal}")
    words = [word for word in line.split(" ") if word]
    command = words[0] if words else ""
    meaning = MEANINGS[refusal]
    if refusal == 1 and command in FORMS:
        meaning = MISSPELT
    if isinstance(meaning, dict):
        if command not in meaning:
            raise DontPair(f"`{command}` is never refused {refusal}")
        meaning = meaning[command]
    cause = cause_in(refusal, line, words)
    return f"{meaning}: {cause}" if cause else meaning


def cause_in(refusal: int, line: str, words: List[str]) -> str:
    """The words or the place that a refusal of a line's form is about."""
    if refusal == 1 and words and words[0] not in FORMS:
        return f"`{words[0]}`" + (", and commands are written small" if words[0].lower() in FORMS else "")
    if refusal in (1, 2) and words and words[0] in FORMS:
        return f"`{' '.join([words[0], FORMS[words[0]]]).strip()}`"
    if refusal == 3:
        return ", ".join(f"`{word}`" for word in words[1:] if word != "at" and not NUMBER.fullmatch(word))
    if refusal == 5:
        return f"it has {len(line)}"
    if refusal == 6:
        place, code = next((place, ord(byte)) for place, byte in enumerate(line, 1) if not " " <= byte <= "~")
        return f"byte {place} is {code}{KNOWN_BYTES.get(code, '')}"
    return ""


def has_reply(line: str) -> bool:
    """Whether the program answers a line: empty lines and comments only where they are too long, or have other bytes."""
    if len(line) > LONGEST_LINE or not all(" " <= character <= "~" for character in line):
        return True
    return bool(line.strip(" ")) and not line.lstrip(" ").startswith("#")


def lines_of(text: str) -> List[str]:
    """The lines of a script; the last one counts without its end where it isn't empty."""
    lines = text.split("\n")
    return lines if lines[-1] else lines[:-1]


def heads_of(replies: str) -> Iterator[str]:
    """The first line of each reply."""
    lines = iter(lines_of(replies))
    for head in lines:
        if not REPLY.fullmatch(head):
            raise DontPair(f"this is no reply: {head[:60]!r}")
        yield head
        if LONG_REPLY.match(head) and "end" not in lines:
            raise DontPair(f"the reply has no line `end`: {head!r}")


def pair(script: str, replies: str) -> List[Answered]:
    """Each line that has a reply, with it."""
    asked = [(number, line) for number, line in enumerate(lines_of(script), 1) if has_reply(line)]
    heads = list(heads_of(replies))
    if len(heads) < len(asked):
        number, line = asked[len(heads)]
        raise DontPair(f"there are {len(heads)} replies: none to line {number}, {line[:60]!r}, nor to what follows")
    if len(heads) > len(asked):
        raise DontPair(f"there are {len(heads)} replies, and the script asks for {len(asked)}")
    return [Answered(number, line, head) for (number, line), head in zip(asked, heads)]


def told(answered: Answered) -> str:
    """What is written of a line. Bytes that aren't printable are written as escapes."""
    line = answered.line.encode("unicode_escape").decode("ascii") if not answered.line.isprintable() else answered.line
    return "\t".join([str(answered.number), line, answered.reply] + [answered.meaning] * (not answered.is_accepted))


def read(name: Optional[str]) -> str:
    """A file, or standard input, a character for each byte."""
    with open(name or 0, encoding="latin-1", newline="") as file:
        return file.read()


def main() -> int:
    parser = argparse.ArgumentParser(description="Tells of each line of a script its reply, and what a refusal means.")
    parser.add_argument("script", metavar="SCRIPT", help="the script")
    parser.add_argument("replies", nargs="?", metavar="REPLIES", help="the replies to it; standard input without it")
    parser.add_argument("--refused", action="store_true", help="tell only of lines that were refused or found no memory")
    options = parser.parse_args()
    try:
        answers = pair(read(options.script), read(options.replies))
        rows = [told(answered) for answered in answers if not (options.refused and answered.is_accepted)]
    except (OSError, DontPair) as error:
        print(f"explain_replies.py: {error}", file=sys.stderr)
        return 2
    for row in rows:
        print(row)
    return 0 if all(answered.is_accepted for answered in answers) else 1


if __name__ == "__main__":
    sys.exit(main())
