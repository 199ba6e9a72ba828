#!/usr/bin/env bash
# The exact plane, outside the gate: its answers beside exact fractions, and instructions per call.
#
#   benchmarks/plane_calls.sh [compare|count]
#
# Builds the program in benchmarks/plane_calls/ over copies of the crates integers and exact_plane. `compare` has
# plane_answers.py work out some thousand random cases with Python's fractions; `count` runs it under callgrind (of
# valgrind), once and eleven times over the same cases, and prints the difference for one call. Neither word: both.
set -eu
cd "$(dirname "$0")/.."
what=${1:-both}
folder=$(mktemp -d)
trap 'rm -rf "$folder"' EXIT
mkdir -p "$folder/crates/plane_calls/src"
cp HANDLES "$folder/"
cp -r crates/integers crates/exact_plane "$folder/crates/"
for file in main cases; do # the gate reads every .rt file of the repository, so they have other names here
  cp "benchmarks/plane_calls/$file.rt.txt" "$folder/crates/plane_calls/src/$file.rt"
done
(grep -E '^(integers|exact_plane):' crates.txt; echo 'plane_calls: exact_plane') > "$folder/crates.txt"
git init -q "$folder"
(cd "$folder/crates/plane_calls" && echo 'nothing 0 0 0' | rt run > /dev/null)
program=$folder/crates/plane_calls/out/plane_calls

if [ "$what" != count ]; then
  for limit in 1 2 5 1000 16777215; do
    echo "print 4000 $limit 0" | "$program" | python3 benchmarks/plane_answers.py "$limit"
  done
fi

instructions() {
  echo "$1 1000 16777215 $2" | valgrind --tool=callgrind --callgrind-out-file=/dev/null "$program" 2>&1 > /dev/null |
    sed -n 's/.*Collected : //p'
}

if [ "$what" != compare ]; then
  cases=$(echo 'nothing 1000 16777215 1' | "$program" | cut -d' ' -f1)
  for mode in nothing compare side above meeting span_meeting turn; do
    once=$(instructions "$mode" 1)
    more=$(instructions "$mode" 11)
    echo "$mode: $(( (more - once) / (10 * cases) )) instructions a call, the loop included"
  done
fi
