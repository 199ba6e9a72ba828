#!/usr/bin/env python3
"""Runs the dialogues of the pages on a built program, and tells which reply isn't the one that stands there.

    scripts/dialogues.py PROGRAM

A dialogue is the tables `| line | reply |` of a page, one script until the text says "in a script of their own". The words in backticks in
front of a reply are its lines; `..` stands for any lines, `none` for no reply. A block that begins with `arrangement` or `overlay` is the
reply to `show` or `overlay`. A block whose first line begins with `$` is run by the shell, in a folder where the program is built.
"""

from __future__ import annotations

import re
import subprocess
import sys
import tempfile
from pathlib import Path

TOP = Path(__file__).resolve().parent.parent
PAGES = ["README.md", "docs/TUTORIAL.md", "docs/SCRIPT.md", "docs/FROM_CGAL.md", "docs/LIBRARY.md", "examples/README.md"]
PART = re.compile(
    r"^```.*\n(?P<block>(?:(?!```).*\n)*)```$|^\| line \| reply \|\n.*\n(?P<table>(?:\|.*\n)+)|(?P<other>in a\s+script\s+of\s+their\s+own)",
    re.MULTILINE,
)
QUOTED = re.compile(r"(?:(?:, \.\.)?(?:, | / )?`[^`]*`)*")
REPLY = re.compile(r"(?:arrangement|overlay|curve|region|vertical|batch|envelope) .*?^end\n|.*?\n", re.M | re.S)


def pattern(told: str) -> str:
    """A regular expression of the lines that a reply's words say."""
    quoted = QUOTED.match(told)[0].replace(", ..", "`..`")
    return "".join(r"(?:.*\n)*?" if line == ".." else re.escape(line) + "\n" for line in re.findall(r"`([^`]*)`", quoted))


def scripts(page: str) -> list[list[tuple[list[str], str]]]:
    """The scripts of a page: rows of lines and the pattern of their replies."""
    found = [[]]
    for part in PART.finditer(page):
        head = (part["block"] or "").split(" ")[0]
        if part["other"]:
            found.append([])
        elif head in ("arrangement", "overlay"):
            found[-1].append((["show" if head == "arrangement" else head], re.escape(part["block"])))
        for row in (part["table"] or "").splitlines():
            lines, told = row.strip("| ").split(" | ")
            found[-1].append((re.findall(r"`([^`]*)`", lines), pattern(told)))
    return found


def differences(program: str, script: list[tuple[list[str], str]]) -> list[str]:
    """The rows that are answered otherwise."""
    text = "".join(line + "\n" for lines, _ in script for line in lines)
    replies = REPLY.findall(subprocess.run([program], input=text, capture_output=True, encoding="ascii", timeout=60).stdout)
    wrong = []
    for lines, due in script:
        count = sum(line[0] != "#" for line in lines)
        reply, replies = "".join(replies[:count]), replies[count:]
        if not re.fullmatch(due, reply):
            wrong.append(f"{lines[-1]}: {reply!r}")
    return wrong


def sessions(page: str) -> list[str]:
    """The blocks that are run by the shell. What proves or builds isn't run."""
    return [part["block"] for part in PART.finditer(page) if (part["block"] or "").startswith("$ ") and "rt " not in part["block"]]


def session_differs(program: str, session: str) -> list[str]:
    """What a session wrote, if it isn't what stands there."""
    commands = "".join(line[2:] + "\n" for line in session.splitlines() if line[:2] == "$ ")
    told = [line for line in session.splitlines() if line[:2] != "$ "]
    due = "".join(r"(?:.*\n)*?" if line.strip() == ".." else re.escape(line) + "\n" for line in told)
    with tempfile.TemporaryDirectory() as folder:
        for name in ("examples", "scripts", "docs"):
            Path(folder, name).symlink_to(TOP / name)
        Path(folder, "crates/planar/out").mkdir(parents=True)
        Path(folder, "crates/planar/out/planar").symlink_to(Path(program).resolve())
        merged = {"stdout": subprocess.PIPE, "stderr": subprocess.STDOUT, "encoding": "utf-8", "timeout": 120}
        ran = subprocess.run(["bash", "-c", commands], cwd=folder, **merged)
    return [] if re.fullmatch(due, ran.stdout) else [ran.stdout]


def main() -> int:
    failed = False
    for name in PAGES:
        page = TOP.joinpath(name).read_text("utf-8")
        wrong = [row for script in scripts(page) for row in differences(sys.argv[1], script)]
        wrong += [row for session in sessions(page) for row in session_differs(sys.argv[1], session)]
        for row in wrong:
            print(f"dialogues: {name}: {row}", file=sys.stderr)
        failed = failed or bool(wrong)
        print(f"dialogues: {name}: {sum(map(len, scripts(page)))} rows, {len(sessions(page))} sessions")
    return int(failed)


if __name__ == "__main__":
    sys.exit(main())
