#!/usr/bin/env bash
# Prints the path of a built program `planar`: of the one that is given, or else of the one that `rt ci` left in crates/planar/out/. Where there is
# none it is built first, by `rt run`, which proves what lies below it: up to two hours of processor time where nothing of it was proved
# on this machine. Some kits put aside what `rt ci` built; with those the first call after it builds the program.
set -eu
top=$(cd "$(dirname "$0")/.." && pwd)

program=${1:-$top/crates/planar/out/planar}
if [ ! -x "$program" ] && [ $# -eq 0 ]; then
    echo 'program.sh: no program is built yet. It is proved and built now; from nothing that takes half an hour to two hours.' >&2
    (cd "$top/crates/planar" && rt run </dev/null >/dev/null)
fi
if [ ! -x "$program" ]; then
    echo "program.sh: there is no program $program" >&2
    exit 1
fi
realpath "$program"
