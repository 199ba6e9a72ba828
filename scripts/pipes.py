#!/usr/bin/env python3
"""Runs a built program over two pipes that stay open, and tells which replies don't come before more is written.

    scripts/pipes.py PROGRAM

No clause says when a reply is handed over: a source and a sink have no clock in common.
"""

from __future__ import annotations

import os
import select
import subprocess
import sys

SECONDS = 20


def taken(replies: int, size: int) -> bytes:
    """What the pipe gives, up to so many bytes, as long as it gives something in time."""
    got = b""
    while len(got) < size and select.select([replies], [], [], SECONDS)[0]:
        piece = os.read(replies, size - len(got))
        if not piece:
            break
        got += piece
    return got


def differs(program: str, rows: list[tuple[bytes, bytes]]) -> str | None:
    """The first piece of input whose replies don't come while the input stays open, with what came."""
    with subprocess.Popen([program], stdin=subprocess.PIPE, stdout=subprocess.PIPE) as run:
        for piece, due in rows:
            os.write(run.stdin.fileno(), piece)
            came = taken(run.stdout.fileno(), len(due))
            if came != due:
                run.kill()
                return f"{piece[:40]!r} .. gave {came[-40:]!r}"
        run.stdin.close()
        more = run.stdout.read()
        status = run.wait(SECONDS)
    return None if (status, more) == (0, b"") else f"it ended with status {status}, and wrote {more[:40]!r}"


def broken(program: str) -> str | None:
    """What a run says whose replies nobody reads."""
    with subprocess.Popen([program], stdin=subprocess.PIPE, stdout=subprocess.PIPE) as run:
        run.stdout.close()
        os.write(run.stdin.fileno(), b"pin 0 0 1\n")
        status = run.wait(SECONDS)
    return None if status == 4 else f"it ended with status {status} in place of 4"


def main() -> int:
    program = sys.argv[1]
    edge = b"edge 0 0 1 1000000 0 1\n"
    there = b"".join(b"locate %d 0 1\n" % x for x in range(1, 201))
    cases = {
        "a line at a time": [(b"pin %d 0 1\n" % x, b"ok\n") for x in range(50)],
        "lines in pieces": [(b"pin 1 0 1\npi", b"ok\n"), (b"n 2 0 1\n\n# note\nunpin 2 0 1", b"ok\n"), (b"\n", b"ok\n")],
        "more replies than are gathered": [(b"segment 0 0 1000000 0\n", b"ok 1\n"), (there, edge * 200), (b"drop 1\n", b"ok\n")],
    }
    wrong = {name: differs(program, rows) for name, rows in cases.items()}
    wrong["a closed pipe"] = broken(program)
    for name, row in wrong.items():
        if row:
            print(f"pipes: {name}: {row}", file=sys.stderr)
    print(f"pipes: {len(wrong)} runs")
    return int(any(wrong.values()))


if __name__ == "__main__":
    sys.exit(main())
