#!/usr/bin/env bash
# Changes of linked records, outside the gate: instructions per call, and time.
#
#   benchmarks/record_calls.sh count [DEGREE..]
#   benchmarks/record_calls.sh time [COUNT]
#
# Builds the program in benchmarks/record_calls/ over copies of the crates. At the centre of a star of DEGREE edges an edge is
# linked and unlinked, and an edge of the star is split and merged back. `count` runs that under callgrind (of valgrind), and
# prints the instructions of each of the four calls, with all that it calls, but without the tests of premises that the
# program's builder makes before. `time` runs it COUNT times at degree 4, those tests included.
set -eu
cd "$(dirname "$0")/.."
what=${1:-count}
[ $# = 0 ] || shift
folder=$(mktemp -d)
trap 'rm -rf "$folder"' EXIT
uses='face_location locate_naive record_orders edge_split_merge edge_unlink edge_link face_steps face_changes sound_changes rotation_order sound_views edge_predicates dcel_records arr_notes slab_faces slab_laws plane_graphs exact_plane no_memory'
crates=$(awk -v uses="$uses" -F': *' '
  function add(name, list, count, k) {
    if (!(name in below) || seen[name]++) return # (not in it: a crate of the kit)
    print name
    count = split(below[name], list, " ")
    for (k = 1; k <= count; k++) add(list[k])
  }
  /^[a-z]/ { below[$1] = $2 }
  END { total = split(uses, first, " "); for (n = 1; n <= total; n++) add(first[n]) }' crates.txt)
mkdir "$folder/crates"
cp HANDLES "$folder/"
for crate in $crates; do
  cp -r "crates/$crate" "$folder/crates/"
  grep "^$crate:" crates.txt >> "$folder/crates.txt"
done
echo "record_calls: $uses" >> "$folder/crates.txt"
# A hint to the compiler, which changes no proof: so each of the calls stands under its own name, with what it does itself and what
# it hands to others.
for place in edge_link/src/faces.rt:link_with_faces edge_unlink/src/faces.rt:unlink_with_faces edge_split_merge/src/faces.rt:split_in_cycles edge_split_merge/src/faces.rt:merge_in_cycles; do
  grep -q "^pub fn ${place#*:}(" "$folder/crates/${place%:*}" || { echo "record_calls.sh: no ${place#*:} in ${place%:*}" >&2; exit 1; }
  sed -i "s/^pub fn ${place#*:}(/#[inline(never)]\n&/" "$folder/crates/${place%:*}"
done
# The gate reads every .rt and .antt file of the repository, so the program's files have other names here. The map that is changed
# is that of faces_in_records.
own=$folder/crates/record_calls
copy() { # FOLDER FILE..
  local from=$1 file
  shift
  for file; do
    mkdir -p "$own/$(dirname "$file")"
    sed 's/faces_in_records/record_calls/g' "benchmarks/$from/$file" > "$own/${file%.txt}"
  done
}
shopt -s globstar
copy faces_in_records $(cd benchmarks/faces_in_records && echo src/{maps,texts}.rt.txt specs/Maps.antt.txt proofs/Ready.antt.txt proofs/maps/**/*.txt)
copy record_calls $(cd benchmarks/record_calls && echo **/*.txt)
git init -q "$folder"
(cd "$own" && echo 'nothing 1 0' | rt run > /dev/null)
program=$own/out/record_calls

# WHAT DEGREE COUNT NAME: the instructions of all calls of NAME, 0 where there is none. All COUNT changes have to go well.
instructions() {
  local found
  echo "$1 $2 $3" | valgrind --tool=callgrind --callgrind-out-file="$folder/profile" "$program" 2> /dev/null > "$folder/done"
  [ "$(cat "$folder/done")" = "$3" ] || { echo "record_calls.sh: not all changes went well" >&2; exit 1; }
  found=$(callgrind_annotate --inclusive=yes --threshold=100 "$folder/profile" | sed -n "s/^ *\([0-9,]*\) .*:$4 \[.*/\1/p" | tr -d ,)
  echo "${found:-0}"
}

# WHAT DEGREE NAME: those of one call, without those that build the star.
one() {
  local built changed
  built=$(instructions "$1" "$2" 0 "$3")
  changed=$(instructions "$1" "$2" 10 "$3")
  [ "$changed" -gt "$built" ] || { echo "record_calls.sh: no call of $3 was counted" >&2; exit 1; }
  echo "$3, degree $2: $(((changed - built) / 10))"
}

if [ "$what" = count ]; then
  for degree in "${@:-4 40 100}"; do
    for n in $degree; do
      one link "$n" edge_link::faces::link_with_faces
      one link "$n" edge_unlink::faces::unlink_with_faces
      one split "$n" edge_split_merge::faces::split_in_cycles
      one split "$n" edge_split_merge::faces::merge_in_cycles
    done
  done
else
  for change in split link; do
    echo "$change 4 ${1:-100000}" | /usr/bin/time -f "$change, with tests, ${1:-100000} times and back: %U s" "$program" > /dev/null
  done
fi
