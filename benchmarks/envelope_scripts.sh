#!/usr/bin/env bash
# What one `envelope` line takes, in millions of instructions by callgrind: the run with it less the run without it, for the lower and for
# the upper envelope.
#
#   cd crates/planar && rt run < /dev/null && cd ../.. && benchmarks/envelope_scripts.sh [PROGRAM [SCRIPT..]]
#
# PROGRAM may be any that reads the script's language, so that another one is measured with the same bytes; WORDS, where it is set, are the
# words of its command line. Scripts (all, unless some are named) are shapes of question_layers.py.
set -eu
cd "$(dirname "$0")/.."
program=${1:-crates/planar/out/planar}
shift || true
folder=$(mktemp -d)
trap 'rm -rf "$folder"' EXIT

# Instructions of a whole run.
instructions() {
    # shellcheck disable=SC2086
    valgrind --tool=callgrind --callgrind-out-file=/dev/null "$program" ${WORDS:-} < "$1" 2>&1 >/dev/null | sed -n 's/.*Collected : //p'
}

if [ $# = 0 ]; then
    set -- made1000 made2000 dense100 dense200 grid15 grid30
fi
for name; do
    python3 benchmarks/question_layers.py "$name" > "$folder/layer"
    without=$(instructions "$folder/layer")
    row=$name
    for which in lower upper; do
        (cat "$folder/layer"; echo "envelope $which") > "$folder/$which"
        with=$(instructions "$folder/$which")
        # shellcheck disable=SC2086
        row="$row $which $(((with - without) / 10000)) $("$program" ${WORDS:-} < "$folder/$which" | sed -n 's/^envelope //p')"
    done
    echo "$row" | awk '{ printf "%s %s %.2f, %d vertices; %s %.2f, %d vertices\n", $1, $2, $3 / 100, $4, $5, $6 / 100, $7 }'
done
