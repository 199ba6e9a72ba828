#!/usr/bin/env bash
# The slab engine, outside the gate: its answers beside the oracle's, and its time and memory.
#
#   benchmarks/slab_calls.sh compare ORACLE_FOLDER [CASES [SEED]]
#   benchmarks/slab_calls.sh time [SEGMENTS..]
#
# Builds the program in benchmarks/slab_calls/ over copies of the crates. `compare` writes the subdivision of random small
# presents, and where points lie in it, beside what ORACLE_FOLDER (of planar_oracle.py) answers; `time` subdivides the
# plane by random segments with ends up to 1000.
set -eu
cd "$(dirname "$0")/.."
what=$1
shift
folder=$(mktemp -d)
trap 'rm -rf "$folder"' EXIT
engine=$(sed -n 's/^plain_slabs: //p' crates.txt)
crates=$(awk -F': *' '
  function add(name, list, count, k) {
    if (!(name in below) || seen[name]++) return # (not in it: a crate of the kit)
    print name
    count = split(below[name], list, " ")
    for (k = 1; k <= count; k++) add(list[k])
  }
  /^[a-z]/ { below[$1] = $2 }
  END { add("plain_slabs") }' crates.txt)
mkdir "$folder/crates"
cp HANDLES "$folder/"
for crate in $crates; do
  cp -r "crates/$crate" "$folder/crates/"
  grep "^$crate:" crates.txt >> "$folder/crates.txt"
done
echo "slab_calls: plain_slabs $engine" >> "$folder/crates.txt"
own=$folder/crates/slab_calls
mkdir -p "$own/src" "$own/proofs/drawings/drawing" "$own/proofs/drawings/dart_after"
for file in main input answers drawings; do # the gate reads every .rt file of the repository, so they have other names here
  cp "benchmarks/slab_calls/$file.rt.txt" "$own/src/$file.rt"
done
cp benchmarks/slab_calls/drawing_answers.antt.txt "$own/proofs/drawings/drawing/Answers.antt"
cp benchmarks/slab_calls/drawing_invariants.antt.txt "$own/proofs/drawings/drawing/Invariants.antt"
cp benchmarks/slab_calls/dart_after_answers.antt.txt "$own/proofs/drawings/dart_after/Answers.antt"
git init -q "$folder"
(cd "$own" && echo 'pin 0 0 1' | rt run > /dev/null)
program=$own/out/slab_calls

if [ "$what" = compare ]; then
  python3 benchmarks/slab_answers.py compare "$1" "$program" "${2:-1000}" "${3:-1}"
else
  for count in "${@:-25 50 100 200}"; do
    for n in $count; do
      python3 benchmarks/slab_answers.py make "$n" 1 > "$folder/script"
      echo "$n segments: $(/usr/bin/time -f '%e s, %M KiB' "$program" < "$folder/script" 2>&1)"
    done
  done
fi
