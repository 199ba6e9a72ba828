#!/usr/bin/env bash
# What the built program answers where a call of the system fails or does less than asked.
#
#   cd crates/planar && rt run < /dev/null && cd ../.. && benchmarks/fail_calls.sh PROGRAM ORACLE [SCRIPT..]
#
# PROGRAM is crates/planar/out/planar, ORACLE the folder of the program's executable meaning (planar_oracle.py, rows.py,
# generate.py). With no SCRIPT it takes fourteen worked rows, the scripts of crates/planar/cases/ and examples/ but those of more than
# 300 lines, 20 random ones aimed at each of `path`, `region`, `vertical`, `batch` and `envelope`, 200 random ones of each kind by
# turns, the random ones with two mirrors in each layer, and --make 40. It makes a small library (with `cc`) that stands before the
# C library, and runs each script
# - under each way of location, with each allocation refused, alone and with all that follow: each run ends with status 5 and
#   nothing written, or with status 0. There the first reply that differs from the right ones is `no memory`, or names only
#   observers that were lost, and the executable meaning, told of the losses, judges each later reply. `no memory` comes under no
#   line that takes none, and under no refused one; an allocation that is refused alone is missed at one line at most. (The program
#   runs once. At each allocation it is split: one copy goes on with that one refused, one with all from there on);
# - the worked rows with the Nth read, and the Nth write, failing: status 3 and 4, and the replies are a front of the right ones;
#   and with every read, and every write, moving one byte, or interrupted twice by a signal before it moves any: nothing changes.
# The exit status is 1 where a run ends otherwise.
set -eu
cd "$(dirname "$0")/.."
program=$(realpath "${1:-crates/planar/out/planar}")
oracle=$(realpath "${2:?the folder of planar_oracle.py}")
shift 2
folder=$(mktemp -d)
trap 'rm -rf "$folder"' EXIT
cc -O2 -shared -fPIC -o "$folder/calls.so" benchmarks/fail_calls/calls.c
PYTHONDONTWRITEBYTECODE=1 python3 benchmarks/fail_calls/fail_calls.py "$program" "$folder/calls.so" "$oracle" "$@"
