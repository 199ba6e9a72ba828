#!/usr/bin/env python3
"""Looks whether each link of the pages leads somewhere.

A link `[text](file#heading)` of docs/*.md, README.md, examples/*.md or benchmarks/README.md is right where the file is there, as seen from the
page's folder, and, if it is a page, has a heading that is the anchor in GitHub's spelling: small letters, spaces as hyphens, without what is
neither letter, digit, hyphen nor underscore. Links to other hosts aren't tried. It prints a line for each link that is wrong, and then ends
with 1.
"""

import re
import sys
from pathlib import Path

TOP = Path(__file__).resolve().parent.parent
PAGES = ["README.md", "docs/*.md", "examples/*.md", "benchmarks/README.md"]
LINK = re.compile(r"\[[^\[\]]*\]\(([^()\s]+)\)")


def prose_of(page: Path) -> str:
    """The page without its blocks of code."""
    return re.sub(r"^```.*?^```", "", page.read_text(encoding="utf-8"), flags=re.M | re.S)


def anchors_of(page: Path) -> set[str]:
    """The anchors of the page's headings; a heading that comes again has its number behind it."""
    anchors: set[str] = set()
    for heading in re.findall(r"^#+ +(.*)$", prose_of(page), re.M):
        plain = re.sub(r"\[([^\]]*)\]\([^)]*\)", r"\1", heading).strip().lower()
        name = re.sub(r"[^\w\- ]", "", plain).replace(" ", "-")
        again = 0
        while (anchor := f"{name}-{again}" if again else name) in anchors:
            again += 1
        anchors.add(anchor)
    return anchors


def complaints_about(page: Path) -> list[str]:
    """What is wrong with the links of a page."""
    found = []
    for link in LINK.findall(prose_of(page)):
        if "://" in link:
            continue
        file, _, anchor = link.partition("#")
        target = (page.parent / file).resolve() if file else page
        if not target.exists():
            found.append(f"{link}: no such file")
        elif anchor and (target.suffix != ".md" or anchor not in anchors_of(target)):
            found.append(f"{link}: no such heading")
    return found


if __name__ == "__main__":
    pages = [page for pattern in PAGES for page in sorted(TOP.glob(pattern))]
    wrong = [f"{page.relative_to(TOP)}: {complaint}" for page in pages for complaint in complaints_about(page)]
    for line in wrong:
        print(line)
    sys.exit(1 if wrong else 0)
