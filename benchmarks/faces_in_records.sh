#!/usr/bin/env bash
# Edges that come and go with their cycles and faces, outside the gate: a map is made and unmade in records, and compared.
#
#   benchmarks/faces_in_records.sh
#
# Builds the program in benchmarks/faces_in_records/ over copies of the crates, with what benchmarks/record_calls/ has to test
# premises by, and runs it. A square with a triangle and an isolated vertex inside, and an edge and an isolated vertex outside,
# comes edge by edge and goes again. After each step the program writes what was told of it, all cycles with their kinds, faces
# and darts, and what each face lists; between them it asks for the faces of points. That has to be what stands in
# benchmarks/faces_in_records/expected, which was made by hand.
set -eu
cd "$(dirname "$0")/.."
folder=$(mktemp -d)
trap 'rm -rf "$folder"' EXIT
uses='face_location locate_naive record_orders edge_split_merge edge_unlink edge_link face_steps face_changes sound_changes rotation_order sound_views edge_predicates dcel_records arr_notes slab_faces slab_laws plane_graphs exact_plane no_memory'
crates=$(awk -v uses="$uses" -F': *' '
  function add(name, list, count, k) {
    if (!(name in below) || seen[name]++) return # (not in it: a crate of the kit)
    print name
    count = split(below[name], list, " ")
    for (k = 1; k <= count; k++) add(list[k])
  }
  /^[a-z]/ { below[$1] = $2 }
  END { total = split(uses, first, " "); for (n = 1; n <= total; n++) add(first[n]) }' crates.txt)
mkdir "$folder/crates"
cp HANDLES "$folder/"
for crate in $crates; do
  cp -r "crates/$crate" "$folder/crates/"
  grep "^$crate:" crates.txt >> "$folder/crates.txt"
done
echo "faces_in_records: $uses" >> "$folder/crates.txt"
# The gate reads every .rt and .antt file of the repository, so the program's files have other names here. What tests premises
# is that of record_calls.
own=$folder/crates/faces_in_records
copy() { # FOLDER FILE..
  local from=$1 file
  shift
  for file; do
    mkdir -p "$own/$(dirname "$file")"
    sed 's/record_calls/faces_in_records/g' "benchmarks/$from/$file" > "$own/${file%.txt}"
  done
}
shopt -s globstar
copy record_calls $(cd benchmarks/record_calls && echo src/{lists,planes,tested,splits,merges}.rt.txt specs/{PlaneTests,Fixtures}.antt.txt proofs/{PlaneTests,Grown,TwoOut}.antt.txt proofs/{lists,planes,tested,splits,merges}/**/*.txt)
copy faces_in_records $(cd benchmarks/faces_in_records && echo **/*.txt)
git init -q "$folder"
(cd "$own" && rt run < /dev/null > /dev/null)
"$own/out/faces_in_records" < /dev/null > "$folder/written"
diff benchmarks/faces_in_records/expected "$folder/written" || { echo "faces_in_records.sh: not what was expected" >&2; exit 1; }
echo "as expected: $(grep -c '^[^ ]' "$folder/written") steps and questions"
