#!/usr/bin/env bash
# What edits take that change faces, in thousands of instructions a line by callgrind, and how that grows with the size of the map.
#
#   cd crates/planar && rt run < /dev/null && cd ../.. && benchmarks/face_edits.sh [PROGRAM [PEER [SHAPE..]]]
#
# PEER is another program that reads the script's language, which is measured with the same bytes; without one, or where the file isn't
# there, the program stands alone. Shapes (all, unless some are named) are those of face_scripts.py, each at half its size and whole: what
# a line takes that makes the shape, net of starting and ending; what a drop takes of its curves; and, of `islands`, what the one segment
# takes that closes the boundary round all of them, and its drop. No
# line asks a question. It ends where the replies of the two differ.
set -eu
cd "$(dirname "$0")/.."
program=${1:-crates/planar/out/planar}
peer=${2:-}
shift $(($# < 2 ? $# : 2))
[ -x "$peer" ] || peer=
folder=$(mktemp -d)
trap 'rm -rf "$folder"' EXIT

declare -A sizes=([comb]=500 [ladder]=1000 [squares]=480 [nested]=480 [star]=500 [islands]=900 [crossing]=200)
shapes=${*:-comb ladder squares nested star islands crossing}

# WHICH SHAPE SIZE WHAT: instructions of the whole run of one of the two; each run is made once, and its replies are kept.
instructions() {
  local run=$folder/$1_$2_$3_$4 script=$folder/$2_$3_$4
  if [ ! -e "$run" ]; then
    [ -e "$script" ] || if [ "$4" = nothing ]; then : > "$script"; else python3 benchmarks/face_scripts.py "$2" "$3" "$4" > "$script"; fi
    valgrind --tool=callgrind --callgrind-out-file=/dev/null "${!1}" < "$script" 2>&1 > "$run.replies" | awk '/Collected/ { print $4 }' > "$run"
  fi
  cat "$run"
}

# WHICH SHAPE BASE WHAT: thousands of instructions for each line that the script has more than its base, at half the size and whole.
a_line() {
  local size base whole
  for size in $((sizes[$2] / 2)) "${sizes[$2]}"; do
    base=$(instructions "$1" "$2" "$size" "$3")
    whole=$(instructions "$1" "$2" "$size" "$4")
    awk -v net=$((whole - base)) -v lines=$(($(wc -l < "$folder/$2_${size}_$4") - $(wc -l < "$folder/$2_${size}_$3"))) \
      'BEGIN { printf "%.1f ", net / lines / 1000 }'
  done
}

# NAME SHAPE BASE WHAT: a row of the table.
row() {
  local theirs=
  [ -z "$peer" ] || theirs=$(a_line peer "$2" "$3" "$4")
  echo "$1 ${sizes[$2]} $(a_line program "$2" "$3" "$4") $theirs" | awk '{
    printf "%-16s %5d %9.1f %9.1f %6.2f", $1, $2, $3, $4, $4 / $3
    if (NF > 4) printf " %9.1f %9.1f %6.2f %7.2f", $5, $6, $6 / $5, $4 / $6
    print ""
  }'
  [ -z "$peer" ] || cmp -s "$folder/program_$2_${sizes[$2]}_$4.replies" "$folder/peer_$2_${sizes[$2]}_$4.replies" ||
    { echo "face_edits.sh: other replies than the peer's" >&2; exit 1; }
}

printf '%-16s %5s %9s %9s %6s' shape size half whole growth
[ -z "$peer" ] || printf ' %9s %9s %6s %7s' 'peer half' whole growth 'to peer'
echo
for shape in $shapes; do
  row "$shape" "$shape" nothing whole
  row "$shape,dropped" "$shape" whole dropped
  if [ "$shape" = islands ]; then
    row "$shape,closed" "$shape" unclosed whole
    row "$shape,opened" "$shape" whole opened
  fi
done
