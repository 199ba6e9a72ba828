#!/usr/bin/env bash
# Maps past a script's limits, outside the gate: what insertions, locations and drops take through the library.
#
#   benchmarks/big_map.sh count N..
#   benchmarks/big_map.sh time N..
#   benchmarks/big_map.sh lines N FILE
#   benchmarks/big_map.sh build PROGRAM
#
# N segments at most 1,024 wide and high at random in a square that grows with N, as dense as 2,000 in one 32,768 wide; then `face_at` at
# 10,000 points spread over the square; then 10,000 times a segment more is drawn and a curve of the map dropped. `count` writes the
# instructions of a call of each kind, by callgrind (of valgrind; PROFILE names a file to keep its profile in), `time` the microseconds
# and the most memory held in MB; both write what the map has. `lines` writes the program's input, whose first N lines are a script's
# too. `build` builds the program in benchmarks/big_map/ over copies of the crates, without its proofs (unproved.py); so do the others,
# unless PROGRAM names it.
set -eu
cd "$(dirname "$0")/.."
what=${1:-time}
[ $# = 0 ] || shift
folder=$(mktemp -d)
trap 'rm -rf "$folder"' EXIT

build() {
  local crates crate own
  crates=$(awk -F': *' '
    function add(name, list, count, k) {
      if (!(name in below) || seen[name]++) return # (not in it: a crate of the kit)
      print name
      count = split(below[name], list, " ")
      for (k = 1; k <= count; k++) add(list[k])
    }
    /^[a-z]/ { below[$1] = $2 }
    END { add("arrangement") }' crates.txt)
  mkdir "$folder/crates"
  cp HANDLES "$folder/"
  for crate in $crates; do
    mkdir "$folder/crates/$crate"
    for part in src specs proofs; do # (not out/, which is large)
      [ ! -e "crates/$crate/$part" ] || cp -r "crates/$crate/$part" "$folder/crates/$crate/"
    done
    grep "^$crate:" crates.txt >> "$folder/crates.txt"
  done
  echo "big_map: arrangement no_memory" >> "$folder/crates.txt"
  # The gate reads every .rt and .antt file of the repository, so the program's files have other names here.
  own=$folder/crates/big_map
  (cd benchmarks/big_map && find . -name '*.txt') | while read -r file; do
    mkdir -p "$own/$(dirname "$file")"
    cp "benchmarks/big_map/$file" "$own/${file%.txt}"
  done
  mkdir -p "$own/specs"
  touch "$own/specs/Lib.antt" "$own/proofs/Lib.antt"
  git init -q "$folder"
  python3 -B benchmarks/unproved.py "$own" "$1"
}

# N FILE
lines() {
  python3 -B - "$1" > "$2" <<'PYTHON'
import random, sys
count = int(sys.argv[1])
half = round(16384 * (count / 2000) ** .5)

def segments(draw, left):
    while left:
        x, y = draw.randint(-half, half), draw.randint(-half, half)
        a, b = draw.randint(-1024, 1023), draw.randint(-1024, 1023)
        if a or b:
            yield '%d %d %d %d' % (x, y, x + a, y + b)
            left -= 1

for ends in segments(random.Random(1000003 + count), count):
    print('segment', ends)
draw = random.Random(9)
for _ in range(10000):
    print('point %d %d 7' % (draw.randint(-half * 7, half * 7), draw.randint(-half * 7, half * 7)))
names = list(range(1, count + 1))
for name, ends in enumerate(segments(random.Random(2000003 + count), 10000), count + 1):
    at = draw.randrange(count)
    print('swap', names[at], ends)
    names[at] = name
print('run')
PYTHON
}

if [ "$what" = build ]; then
  build "$1"
  exit
elif [ "$what" = lines ]; then
  lines "$1" "$2"
  exit
fi
if [ -z "${PROGRAM:-}" ]; then
  build "$folder/big_map"
  PROGRAM=$folder/big_map
fi

# Sets what a map of so many segments has, from what the program wrote.
told() {
  local refused
  { read -r vertices edges faces; read -r bounded _ none; read -r _ edges_after _; read -r refused; read -r drawn asked further dropped; } < "$folder/told"
  [ "$refused" = 0 ] || { echo "big_map.sh: $refused edits were refused" >&2; exit 1; }
}

for count; do
  lines "$count" "$folder/lines"
  case $what in
    count)
      valgrind --tool=callgrind --callgrind-out-file="${PROFILE:-$folder/profile}" "$PROGRAM" < "$folder/lines" 2> /dev/null > "$folder/told"
      told
      callgrind_annotate --inclusive=yes --threshold=100 "${PROFILE:-$folder/profile}" > "$folder/listed"
      row=
      for call in draw_all:$count ask_all:10000 draw_further:10000 drop_curve:10000; do
        taken=$(sed -n "s/^ *\([0-9,]*\) .*:big_map::phases::${call%:*}\(\x27[0-9]*\)\? \[.*/\1/p" "$folder/listed" | tr -d , | head -1)
        [ -n "$taken" ] || { echo "big_map.sh: no ${call%:*} was counted" >&2; exit 1; }
        row="$row $((taken / ${call#*:}))"
        [ "$call" != "draw_all:$count" ] || all=$((taken / 1000000))
      done
      read -r drawn asked further dropped <<< "$row"
      echo "$count segments ($vertices vertices, $edges edges, $faces faces): all in $all million instructions; an insertion $drawn," \
        "a face_at $asked ($bounded of 10000 in bounded faces, $none on none), a further insertion $further, a drop $dropped"
      ;;
    time)
      /usr/bin/time -f '%M %U %S %e' -o "$folder/held" "$PROGRAM" < "$folder/lines" > "$folder/told"
      told
      # The program has a clock alone: where others ran too, what it measured is put down to the processor's time of the whole.
      awk -v n="$count" -v v="$vertices" -v e="$edges" -v f="$faces" \
        -v drawn="$drawn" -v asked="$asked" -v further="$further" -v dropped="$dropped" '{
        part = $4 > 0 ? ($2 + $3) / $4 : 1
        printf "%d segments (%d vertices, %d edges, %d faces): all in %.3f s; microseconds ", n, v, e, f, part * drawn / 1e9
        printf "of an insertion %.1f, a face_at %.1f, ", part * drawn / 1e3 / n, part * asked / 1e7
        printf "a further insertion %.1f, a drop %.1f; %.1f MB; ", part * further / 1e7, part * dropped / 1e7, $1 / 1024
        printf "%.2f s of the processor in %.2f s for all of it\n", $2 + $3, $4 }' "$folder/held"
      ;;
    *)
      echo "big_map.sh: count, time, lines or build" >&2
      exit 1
      ;;
  esac
done
