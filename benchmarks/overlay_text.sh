#!/usr/bin/env bash
# The overlay by sweeps, outside the gate: its text beside that of the overlay by slabs.
#
#   benchmarks/overlay_text.sh SCRIPT..
#   benchmarks/overlay_text.sh pairs [COUNT [SEED]]
#
# Builds the program in benchmarks/overlay_text/ over copies of the crates. It runs the edits of a script on two layers, and at each line
# `overlay` compares the text of the overlay by sweeps with that of the one by slabs, byte for byte. SCRIPT.. are files of the script's
# language; `pairs` takes so many (500) random pairs of layers (overlay_pairs.py).
set -eu
cd "$(dirname "$0")/.."
folder=$(mktemp -d)
trap 'rm -rf "$folder"' EXIT
uses='arrangement plain_slabs subdivision_rows arr_text record_orders curve_history script_lines dcel_records slab_laws plane_graphs exact_plane outside no_memory'
crates=$(awk -v uses="$uses" -F': *' '
  function add(name, list, count, k) {
    if (!(name in below) || seen[name]++) return # (not in it: a crate of the kit)
    print name
    count = split(below[name], list, " ")
    for (k = 1; k <= count; k++) add(list[k])
  }
  /^[a-z]/ { below[$1] = $2 }
  END { total = split(uses, first, " "); for (n = 1; n <= total; n++) add(first[n]) }' crates.txt)
mkdir "$folder/crates" "$folder/scripts"
cp HANDLES "$folder/"
for crate in $crates; do
  cp -r "crates/$crate" "$folder/crates/"
  grep "^$crate:" crates.txt >> "$folder/crates.txt"
done
echo "overlay_text: $uses" >> "$folder/crates.txt"
# The gate reads every .rt and .antt file of the repository, so the program's files have other names here.
own=$folder/crates/overlay_text
(cd benchmarks/overlay_text && find . -name '*.txt') | while read -r file; do
  mkdir -p "$own/$(dirname "$file")"
  cp "benchmarks/overlay_text/$file" "$own/${file%.txt}"
done
# The edits of a line, and both texts of an overlay, are those of the crates' tests.
(cd crates/layer_tests && find . -path '*/layers/script_edits*' -o -path '*/layers/presents*' -o -path '*/layers/overlay_texts*') | while read -r file; do
  [ -d "crates/layer_tests/$file" ] && continue
  mkdir -p "$own/$(dirname "$file")"
  sed 's/layer_tests/overlay_text/g' "crates/layer_tests/$file" > "$own/$file"
done
mkdir -p "$own/specs" "$own/proofs"
touch "$own/specs/Lib.antt" "$own/proofs/Lib.antt"
git init -q "$folder"
(cd "$own" && rt run < /dev/null > /dev/null)

if [ "$1" = pairs ]; then
  python3 benchmarks/overlay_pairs.py "$folder/scripts" "${2:-500}" "${3:-1}"
  set -- "$folder"/scripts/*
fi
for script; do
  "$own/out/overlay_text" < "$script" > "$folder/written"
  [ "$(cat "$folder/written")" = alike ] || { echo "overlay_text.sh: $script:"; cat "$folder/written"; exit 1; } >&2
done
echo "$# scripts: all overlays alike"
