#!/usr/bin/env python3
"""The functions of a crate whose proof takes longest.

    scripts/dear_functions.py CRATE [COUNT]

reads the times of the files below crates/CRATE/out/incremental, which a check of the crate from nothing with one job has just
written (`rm -r out/incremental; rt check --jobs 1` in its folder), and prints the COUNT dearest functions, 20 without a number,
with seconds of the clock: `steps`, the modules `Lts`, which tell what the function does step by step and grow with what is alive
at each step; `proof`, the goals, which an answer may make cheaper; and the rest. After a second check the times tell nothing."""
import collections
import re
import sys
from pathlib import Path

ROOT = Path(__file__).resolve().parent.parent
PARTS = {
    "steps": r"Lts(\.View|\.Given)?",
    "proof": r"Proof|Answers|Invariants|Met|Layout|Named|Goals|Reads|Given|TheLink",
    "rest": r"Tie|Code(\.Mir)?|Statement|Kinds|Key|Symbol",
}


def part_of(crate, name):
    """The function that a file is about, and which part of its check the file is."""
    for part, modules in PARTS.items():
        found = re.fullmatch(rf"Rattle-{crate}-proofs\.(.*?)\.({modules})(\.decls)?\.oantt", name)
        if found:
            return found[1], part
    return "(no function's)", "rest"


def main():
    crate, count = sys.argv[1], int(sys.argv[2]) if len(sys.argv) > 2 else 20
    files = sorted((it.stat().st_mtime, it.name) for it in (ROOT / "crates" / crate / "out" / "incremental").rglob("*.oantt"))
    if not files:
        print(f"dear functions: a check of {crate} has left nothing", file=sys.stderr)
        return 1
    seconds = collections.defaultdict(collections.Counter)
    for (before, _), (at, name) in zip(files, files[1:]):
        function, part = part_of(crate, name)
        seconds[function][part] += at - before
    print(f"{files[-1][0] - files[0][0]:.0f} seconds")
    for function, parts in sorted(seconds.items(), key=lambda it: -it[1].total())[:count]:
        print(f"{parts.total():7.1f} {function.replace('.', '::')}: " + ", ".join(f"{part} {parts[part]:.1f}" for part in PARTS))
    return 0


if __name__ == "__main__":
    sys.exit(main())
