#!/usr/bin/env python3
"""Compares the first program of docs/LIBRARY.md, which the page calls `my_map`, with the crate `first_map`, which the gate proves and runs.

A block behind prose that names a file (`crates/my_map/src/map.rt`) is that file of the crate, and the crate has no other in src/ and proofs/; the
block that runs the program shows what it writes; and the line for crates.txt names what the crate stands on. Where all of that is so it prints
nothing and ends with 0; else it prints a line for each difference, and ends with 1.
"""

import re
import sys
from pathlib import Path

TOP = Path(__file__).resolve().parent.parent
PAGE = TOP / "docs" / "LIBRARY.md"
CRATE = TOP / "crates" / "first_map"
NAMED = re.compile(r"`crates/my_map/([\w/]+\.(?:rt|antt))`")
RUN = re.compile(r"```\n\(cd crates/my_map && rt try\)\n(.*?)```", re.S)
LISTED = re.compile(r"echo '(my_map: [\w ]+)' >> crates\.txt")


def shown_files(page: str) -> dict[str, str]:
    """The files that the page shows, each the first block behind the prose that names it."""
    shown = {}
    parts = page.split("```\n")
    for prose, block in zip(parts[::2], parts[1::2]):
        if names := NAMED.findall(prose):
            shown[names[-1]] = block.replace("my_map", CRATE.name)
    return shown


def differences(page: str) -> list[str]:
    """What the page shows otherwise than the crate has it."""
    shown = shown_files(page)
    files = [path for folder in ("src", "proofs") for path in (CRATE / folder).rglob("*") if path.is_file()]
    sources = {str(path.relative_to(CRATE)): path.read_text() for path in files}
    found = [f"{name}: the crate has no such file" for name in shown.keys() - sources.keys()]
    found += [f"{name}: the page doesn't show it" for name in sources.keys() - shown.keys()]
    found += [f"{name}: another text" for name in shown.keys() & sources.keys() if shown[name] != sources[name]]
    written = "".join(line.removeprefix("  ") + "\n" for line in "".join(RUN.findall(page)).splitlines())
    if written != (CRATE / "stdout").read_text():
        found.append("stdout: the page shows another one")
    lines = [line.replace("my_map", CRATE.name) for line in LISTED.findall(page)]
    if not lines or any(line not in (TOP / "crates.txt").read_text().splitlines() for line in lines):
        found.append("crates.txt: the page has another line")
    return found


if __name__ == "__main__":
    wrong = differences(PAGE.read_text())
    for line in sorted(wrong):
        print("docs/LIBRARY.md:", line)
    sys.exit(1 if wrong else 0)
