#!/usr/bin/env bash
# What one `vertical` line takes, in millions of instructions by callgrind: the run with it less the run without it, and what a second one
# takes right behind it.
#
#   cd crates/planar && rt run < /dev/null && cd ../.. && benchmarks/vertical_scripts.sh [PROGRAM [SCRIPT..]]
#
# PROGRAM may be any that reads the script's language, so that another one is measured with the same bytes; WORDS, where it is set, are the
# words of its command line. Scripts (all, unless some are named) are shapes of question_layers.py.
set -eu
cd "$(dirname "$0")/.."
program=${1:-crates/planar/out/planar}
shift || true
folder=$(mktemp -d)
trap 'rm -rf "$folder"' EXIT

# Instructions of a whole run.
instructions() {
    # shellcheck disable=SC2086
    valgrind --tool=callgrind --callgrind-out-file=/dev/null "$program" ${WORDS:-} < "$1" 2>&1 >/dev/null | sed -n 's/.*Collected : //p'
}

if [ $# = 0 ]; then
    set -- made1000 made2000 dense100 dense200 grid15 grid30
fi
for name; do
    python3 benchmarks/question_layers.py "$name" > "$folder/layer"
    (cat "$folder/layer"; echo vertical) > "$folder/once"
    (cat "$folder/once"; echo vertical) > "$folder/twice"
    without=$(instructions "$folder/layer")
    once=$(instructions "$folder/once")
    twice=$(instructions "$folder/twice")
    # shellcheck disable=SC2086
    vertices=$("$program" ${WORDS:-} < "$folder/once" | sed -n 's/^vertical //p')
    echo "$name $(((once - without) / 100000)) $(((twice - once) / 100000)) $vertices" |
        awk '{ printf "%s %.1f, again %.1f; %d vertices\n", $1, $2 / 10, $3 / 10, $4 }'
done
