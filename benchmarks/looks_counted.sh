#!/usr/bin/env bash
# The looks of zones, counted when they are made, outside the gate: beside the bound that the clause `looks` of `zone` has for them.
#
#   benchmarks/looks_counted.sh
#
# Builds the program in benchmarks/looks_counted/ over copies of the crates, and runs it. `Steps` counts in proofs alone, so the
# program has a `Sight` of its own, which counts each look in a cell and then takes it from the records. It inserts 1,000 made
# segments, and 300 dense ones into another layer; before each insertion it walks the segment's zone, and works out the bound from
# the records' darts: the boundaries of the faces visited, the degrees of the vertices met, and two for each edge met.
# A dart of which the twin is looked at takes a step and no look: looks are what was really looked at, and steps what the
# clause bounds.
set -eu
cd "$(dirname "$0")/.."
folder=$(mktemp -d)
trap 'rm -rf "$folder"' EXIT
uses='arrangement zone_walk work_steps counted_looks locate_naive face_location rotation_order dcel_records slab_laws exact_plane no_memory'
crates=$(awk -v uses="$uses" -F': *' '
  function add(name, list, count, k) {
    if (!(name in below) || seen[name]++) return # (not in it: a crate of the kit)
    print name
    count = split(below[name], list, " ")
    for (k = 1; k <= count; k++) add(list[k])
  }
  /^[a-z]/ { below[$1] = $2 }
  END { total = split(uses, first, " "); for (n = 1; n <= total; n++) add(first[n]) }' crates.txt)
mkdir "$folder/crates"
cp HANDLES "$folder/"
for crate in $crates; do
  cp -r "crates/$crate" "$folder/crates/"
  grep "^$crate:" crates.txt >> "$folder/crates.txt"
done
echo "looks_counted: $uses" >> "$folder/crates.txt"
# The gate reads every .rt and .antt file of the repository, so the program's files have other names here.
own=$folder/crates/looks_counted
(cd benchmarks/looks_counted && find . -name '*.txt') | while read -r file; do
  mkdir -p "$own/$(dirname "$file")"
  cp "benchmarks/looks_counted/$file" "$own/${file%.txt}"
done
mkdir -p "$own/specs" "$own/proofs"
touch "$own/specs/Lib.antt" "$own/proofs/Lib.antt"
git init -q "$folder"
(cd "$own" && rt run < /dev/null > /dev/null)
"$own/out/looks_counted" < /dev/null | tee "$folder/written"
[ "$(grep -c 'above the bound 0$' "$folder/written")" = 2 ] || { echo "looks_counted.sh: above the bound, or stopped" >&2; exit 1; }
