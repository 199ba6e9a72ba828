#!/usr/bin/env bash
# Walks along boundary cycles, outside the gate: instructions per call.
#
#   benchmarks/cycle_calls.sh [DARTS..]
#
# Builds the program in benchmarks/cycle_calls/ over copies of the crates. The boundary of a square, whose lower edge is cut
# so that it has DARTS darts, is asked for its least dart, its kind and its abscissas; then whether it is odd beside a square
# within it, first by a walk, then with its abscissas known; and, with these, beside a square on its right, which they leave
# clear. It runs that ten times over under callgrind (of valgrind), and prints the instructions of each call, with all that it
# calls.
set -eu
cd "$(dirname "$0")/.."
folder=$(mktemp -d)
trap 'rm -rf "$folder"' EXIT
crates=$(awk -F': *' '
  function add(name, list, count, k) {
    if (!(name in below) || seen[name]++) return # (not in it: a crate of the kit)
    print name
    count = split(below[name], list, " ")
    for (k = 1; k <= count; k++) add(list[k])
  }
  /^[a-z]/ { below[$1] = $2 }
  END { add("boundary_cycles"); add("arrangement") }' crates.txt)
mkdir "$folder/crates"
cp HANDLES "$folder/"
for crate in $crates; do
  cp -r "crates/$crate" "$folder/crates/"
  grep "^$crate:" crates.txt >> "$folder/crates.txt"
done
echo "cycle_calls: boundary_cycles arrangement slab_laws" >> "$folder/crates.txt"
# The gate reads every .rt and .antt file of the repository, so the program's files have other names here.
own=$folder/crates/cycle_calls
(cd benchmarks/cycle_calls && find . -name '*.txt') | while read -r file; do
  mkdir -p "$own/$(dirname "$file")"
  cp "benchmarks/cycle_calls/$file" "$own/${file%.txt}"
done
mkdir -p "$own/specs"
touch "$own/specs/Lib.antt" "$own/proofs/Lib.antt"
git init -q "$folder"
(cd "$own" && echo '0 0' | rt run > /dev/null)
program=$own/out/cycle_calls

for darts in "${@:-4 100 10000}"; do
  for n in $darts; do
    echo "$((n - 4)) 10" | valgrind --tool=callgrind --callgrind-out-file="$folder/profile" "$program" 2> /dev/null > "$folder/right"
    [ "$(cat "$folder/right")" = 10 ] || { echo "cycle_calls.sh: not all answers were right" >&2; exit 1; }
    callgrind_annotate --inclusive=yes --threshold=100 "$folder/profile" > "$folder/calls"
    for call in least kind extent beside within clear; do
      total=$(sed -n "s/^ *\([0-9,]*\) .*:cycle_calls::asks::ask_$call \[.*/\1/p" "$folder/calls" | tr -d ,)
      echo "$call, $n darts: $((total / 10))"
    done
  done
done
