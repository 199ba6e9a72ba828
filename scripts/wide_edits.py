#!/usr/bin/env python3
"""The wide edits: wrong bodies that the prover must refuse, beside those of the gate (docs/GATE.md).

    scripts/wide_edits.py [CRATE..]     tries those of these crates and of the crates below them, without a name of all, by `rt ci` on
                                        a copy of the repository in which they stand in the gate's place. What a run of the gate has
                                        passed on this machine isn't proved again, so run it first
    scripts/wide_edits.py --read        only looks whether each can be applied still, and prints those that can't

They stand in crates/NAME/must-fail-wide/, in the form that `rt help` gives for crates/NAME/must-fail/."""
import shutil
import subprocess
import sys
import tempfile
from pathlib import Path

ROOT = Path(__file__).resolve().parent.parent


def unfit(edit):
    """Why an edit can't be applied; None where it can. Its pairs are applied one after the other."""
    crate, path, texts, old = edit.parent.parent, None, {}, None
    for line in edit.read_text(encoding="utf-8").splitlines():
        word, _, rest = line.partition(":")
        rest = rest.removeprefix(" ")
        if word == "file":
            path = crate / rest
            if not path.is_file():
                return f"there is no file {rest}"
            texts.setdefault(path, path.read_text(encoding="utf-8"))
        elif word == "old":
            old = rest
        elif word == "new":
            if path is None or not old:
                return "no text to be replaced"
            if texts[path].count(old) != 1:
                return f"this doesn't stand there just once: {old}"
            texts[path] = texts[path].replace(old, rest)
    return None if texts else "it changes nothing"


def read():
    """Prints each edit that can't be applied; whether there is none."""
    wrong = [(edit, why) for edit in sorted(ROOT.glob("crates/*/must-fail-wide/*.edit")) if (why := unfit(edit))]
    for edit, why in wrong:
        print(f"{edit.relative_to(ROOT)}: {why}")
    return not wrong


def attempt(names):
    """Tries the edits of these crates, or of all, and returns the status of `rt ci`."""
    with tempfile.TemporaryDirectory() as room:
        for name in ("HANDLES", "crates.txt"):
            shutil.copy(ROOT / name, room)
        shutil.copytree(ROOT / "crates", Path(room, "crates"), ignore=shutil.ignore_patterns("must-fail", "out"))
        for edits in Path(room).glob("crates/*/must-fail-wide"):
            edits.rename(edits.with_name("must-fail"))
        return subprocess.run(["rt", "ci", *names], cwd=room, check=False).returncode


if __name__ == "__main__":
    if sys.argv[1:] == ["--read"]:
        sys.exit(0 if read() else 1)
    sys.exit(attempt(sys.argv[1:]))
