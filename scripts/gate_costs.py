#!/usr/bin/env python3
"""What a run of the gate costs, crate by crate, in seconds of processor time.

    scripts/gate_costs.py [WORD..]

runs the command that the words are, without words `rt ci --anew`, and looks twice a second at what runs below it. Then it prints, for
each kind of work and each crate, how long the processors were at it: `proof`, `tests` (their proof and their build), `edit`
(must-fail edits), `seed` (the proofs that a crate's edits begin with, and the check after them), `program`, `other`. What a
process does in its last half second is missed, so that the sum is a little below what `/usr/bin/time -v` says."""
import collections
import os
import re
import subprocess
import sys
import time

TICKS = os.sysconf("SC_CLK_TCK")


def processes():
    """The running processes: for each its parent, when it began, and its processor seconds so far."""
    found = {}
    for name in filter(str.isdigit, os.listdir("/proc")):
        try:
            with open(f"/proc/{name}/stat", encoding="utf-8", errors="replace") as it:
                fields = it.read().rpartition(")")[2].split()
        except OSError:
            continue
        found[int(name)] = int(fields[1]), fields[19], (int(fields[11]) + int(fields[12])) / TICKS
    return found


def below(top, found):
    """Those that the process started, and those that these started."""
    children = collections.defaultdict(list)
    for process, (parent, _, _) in found.items():
        children[parent].append(process)
    reached = list(children[top])
    for process in reached:
        reached += children[process]
    return reached


def work_of(process):
    """The crate that a process works on, and the kind of its work; None where that can't be read, as when it has just ended."""
    try:
        with open(f"/proc/{process}/cmdline", encoding="utf-8", errors="replace") as it:
            words = it.read().split("\0")
        folder = os.readlink(f"/proc/{process}/cwd")
    except OSError:
        return None
    if not words[0]:
        return None
    if "--crate-name" not in words:
        return os.path.basename(words[0]), "other"
    crate = words[words.index("--crate-name") + 1]
    if "/rt-edit-" in folder:
        kept = words[words.index("--incremental") + 1] if "--incremental" in words else ""
        return crate, "seed" if kept.endswith("/seed") else "edit"
    if "--test" in words:
        return crate, "tests"
    return crate, "program" if "--backend" in words else "proof"


def measured(command):
    """Runs the command, and returns its exit status and the seconds of each crate and kind."""
    seen = {}
    with subprocess.Popen(command) as run:
        while run.poll() is None:
            found = processes()
            for process in below(run.pid, found):
                _, began, spent = found[process]
                # (a process can become another program, so its words are read each time)
                work = work_of(process) or seen.get((process, began), (None,))[0]
                if work:
                    seen[process, began] = work, spent
            time.sleep(0.5)
    seconds = collections.defaultdict(float)
    for work, spent in seen.values():
        seconds[work] += spent
    return run.returncode, seconds


def main():
    status, seconds = measured(sys.argv[1:] or ["rt", "ci", "--anew"])
    of_kinds, of_crates = collections.Counter(), collections.Counter()
    for (crate, kind), spent in seconds.items():
        of_kinds[kind] += spent
        of_crates[crate] += spent
    minutes = ", ".join(f"{kind} {spent / 60:.1f}" for kind, spent in of_kinds.most_common())
    print(f"{sum(of_kinds.values()) / 60:.1f} minutes of processor time: {minutes}")
    for crate, spent in of_crates.most_common():
        if spent >= 1:
            kinds = [(kind, it) for (name, kind), it in seconds.items() if name == crate and it >= 0.5]
            print(f"{spent:7.0f} {crate}: " + ", ".join(f"{kind} {it:.0f}" for kind, it in sorted(kinds)))
    return status


if __name__ == "__main__":
    sys.exit(main())
