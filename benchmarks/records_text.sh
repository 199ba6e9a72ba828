#!/usr/bin/env bash
# The text of records with their cycles and faces, outside the gate: beside that of a subdivision made afresh, and a mirror's.
#
#   benchmarks/records_text.sh SCRIPT..
#   benchmarks/records_text.sh oracle ORACLE_FOLDER [COUNT [SEED]]
#
# Builds the program in benchmarks/records_text/ over copies of the crates. It runs the edits of a script on two layers, each with a
# mirror, and compares after each edit the text by the records' own cycles and faces, that by a subdivision from scratch and the mirror's
# report, byte for byte. SCRIPT.. are files of the script's language; `oracle` takes the worked rows of ORACLE_FOLDER (of
# planar_oracle.py), and so many (3,000) random scripts of its generator, with removals of every kind.
set -eu
cd "$(dirname "$0")/.."
folder=$(mktemp -d)
trap 'rm -rf "$folder"' EXIT
uses='arrangement told_steps mirror_observer plain_slabs arr_text curve_history script_lines observer_bus dcel_records arr_notes slab_faces slab_laws plane_graphs exact_plane outside no_memory'
crates=$(awk -v uses="$uses" -F': *' '
  function add(name, list, count, k) {
    if (!(name in below) || seen[name]++) return # (not in it: a crate of the kit)
    print name
    count = split(below[name], list, " ")
    for (k = 1; k <= count; k++) add(list[k])
  }
  /^[a-z]/ { below[$1] = $2 }
  END { total = split(uses, first, " "); for (n = 1; n <= total; n++) add(first[n]) }' crates.txt)
mkdir "$folder/crates" "$folder/scripts"
cp HANDLES "$folder/"
for crate in $crates; do
  cp -r "crates/$crate" "$folder/crates/"
  grep "^$crate:" crates.txt >> "$folder/crates.txt"
done
echo "records_text: $uses" >> "$folder/crates.txt"
# The gate reads every .rt and .antt file of the repository, so the program's files have other names here.
own=$folder/crates/records_text
(cd benchmarks/records_text && find . -name '*.txt') | while read -r file; do
  mkdir -p "$own/$(dirname "$file")"
  cp "benchmarks/records_text/$file" "$own/${file%.txt}"
done
# The edits of a line, and the three texts of a layer, are those of the crates' tests.
(cd crates/layer_tests && find . -path '*/layers/script_edits*' -o -path '*/layers/texts*') | while read -r file; do
  [ -d "crates/layer_tests/$file" ] && continue
  mkdir -p "$own/$(dirname "$file")"
  sed 's/layer_tests/records_text/g' "crates/layer_tests/$file" > "$own/$file"
done
mkdir -p "$own/specs" "$own/proofs"
touch "$own/specs/Lib.antt" "$own/proofs/Lib.antt"
git init -q "$folder"
(cd "$own" && rt run < /dev/null > /dev/null)

if [ "$1" = oracle ]; then
  python3 benchmarks/edit_lines.py "$2" "$folder/scripts" "${3:-3000}" "${4:-1}"
  set -- "$folder"/scripts/*
fi
states=0
for script; do
  "$own/out/records_text" < "$script" > "$folder/written"
  read -r count said < "$folder/written"
  [ "$said" = 'states alike' ] || { echo "records_text.sh: $script:"; cat "$folder/written"; exit 1; } >&2
  states=$((states + count))
done
echo "$# scripts, $states states: all texts alike"
