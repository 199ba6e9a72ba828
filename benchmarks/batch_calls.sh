#!/usr/bin/env bash
# Where many points lie, in one call and by as many walks, outside the gate: instructions, and whether both answer alike.
#
#   benchmarks/batch_calls.sh count [PEER]
#   benchmarks/batch_calls.sh pays [SHAPE..]
#   benchmarks/batch_calls.sh compare [MAPS [SEED]]
#
# Builds the program in benchmarks/batch_calls/ over copies of the crates, or takes the one that PROGRAM names, where it is set. `count` asks
# by the 10,000 points of locate_scripts.sh in 400 made segments and in 100 dense ones, and writes the instructions of the call and of the
# walks for each point, by callgrind (of valgrind), without those that draw the map; beside it those of one `batch` line of PEER, which is
# any command that reads such a line of any length. `pays` writes what a walk and a sweep take in maps of question_layers.py, and from how
# many points on the sweep takes less: of walks by runs with 50 and with 550 points, of sweeps by runs with as many points as edges, for
# which no walk is taken, and 500 more. `compare` asks 2,000 times in each of MAPS maps (50), whose segments, pins and points often share
# abscissas, ends and edges, and fails where an answer differs.
set -eu
cd "$(dirname "$0")/.."
what=${1:-count}
[ $# = 0 ] || shift
folder=$(mktemp -d)
trap 'rm -rf "$folder"' EXIT
if [ -z "${PROGRAM:-}" ]; then
  crates=$(awk -F': *' '
    function add(name, list, count, k) {
      if (!(name in below) || seen[name]++) return # (not in it: a crate of the kit)
      print name
      count = split(below[name], list, " ")
      for (k = 1; k <= count; k++) add(list[k])
    }
    /^[a-z]/ { below[$1] = $2 }
    END { add("arrangement") }' crates.txt)
  mkdir "$folder/crates"
  cp HANDLES "$folder/"
  for crate in $crates; do
    cp -r "crates/$crate" "$folder/crates/"
    grep "^$crate:" crates.txt >> "$folder/crates.txt"
  done
  echo "batch_calls: arrangement no_memory" >> "$folder/crates.txt"
  # The gate reads every .rt and .antt file of the repository, so the program's files have other names here.
  own=$folder/crates/batch_calls
  (cd benchmarks/batch_calls && find . -name '*.txt') | while read -r file; do
    mkdir -p "$own/$(dirname "$file")"
    cp "benchmarks/batch_calls/$file" "$own/${file%.txt}"
  done
  mkdir -p "$own/specs"
  touch "$own/specs/Lib.antt" "$own/proofs/Lib.antt"
  git init -q "$folder"
  (cd "$own" && rt run < /dev/null > /dev/null)
  PROGRAM=$own/out/batch_calls
fi

# SHAPE COUNT..: writes the map as `layer`, and with so many points as `points.COUNT`; the same with one line of all as `batch.COUNT`.
write() {
  PYTHONPATH=benchmarks python3 -B - "$folder" "$@" <<'PYTHON'
import random, sys
from question_layers import layer
folder, name, *counts = sys.argv[1:]
segments = layer(name)
# The points of locate_scripts.sh: in the square of the segments, and where most pairs of these cross a tenth on them.
spread = name.startswith(('made', 'kept'))
ends = [int(word) for line in segments for word in line.split()[1:]]
low, high, seed = (-17000, 17000, 5) if spread else (-1000, 1000, 6) if name.startswith('dense') else (min(ends), max(ends), 6)
draw, points = random.Random(seed), []
for _ in range(max(map(int, counts))):
    if not spread and draw.random() < .1:
        x, y, u, v = map(int, draw.choice(segments).split()[1:])
        points.append(f'{x} {y} 1' if draw.random() < .5 else f'{x + u} {y + v} 2')
        continue
    w = draw.randint(1, 1000)
    points.append(f'{draw.randint(low * w, high * w)} {draw.randint(low * w, high * w)} {w}')
def file(name, lines):
    with open(f'{folder}/{name}', 'w') as out:
        out.writelines(line + '\n' for line in lines)
file('layer', segments)
for count in map(int, counts):
    file(f'points.{count}', segments + ['point ' + point for point in points[:count]])
    file(f'batch.{count}', segments + ['batch ' + ' '.join(points[:count])])
PYTHON
}

# WHAT COUNT: the instructions of one call with so many points, with all that it calls, or of as many walks. Sets `edges` too.
instructions() {
  local answers
  (cat "$folder/points.$2"; echo "$1 1") | valgrind --tool=callgrind --callgrind-out-file="$folder/profile" "$PROGRAM" 2> /dev/null > "$folder/told"
  read -r edges answers < "$folder/told"
  [ "$answers" = "$2" ] || { echo "batch_calls.sh: $answers answers for $2 points" >&2; exit 1; }
  taken=$(callgrind_annotate --inclusive=yes --threshold=100 "$folder/profile" |
    sed -n "s/^ *\([0-9,]*\) .*:batch_calls::asks::ask_$1\(\x27[0-9]*\)\? \[.*/\1/p" | tr -d , | head -1)
  [ -n "$taken" ] || { echo "batch_calls.sh: no call was counted" >&2; exit 1; }
}

# FILE: the instructions of the other program.
whole() {
  valgrind --tool=callgrind --callgrind-out-file=/dev/null $peer < "$1" 2>&1 > "$folder/replies" | sed -n 's/.*Collected : //p'
}

case $what in
  count)
    peer=${1:-}
    for shape in kept400 dense100; do
      write "$shape" 10000
      instructions batch 10000
      row="$shape ($edges edges), instructions a point: in one call $((taken / 10000))"
      instructions walks 10000
      row="$row, by walks $((taken / 10000))"
      if [ -n "$peer" ]; then
        with=$(whole "$folder/batch.10000")
        without=$(whole "$folder/layer")
        row="$row; in one call of the other program $(((with - without) / 10000))"
      fi
      echo "$row"
    done
    ;;
  pays)
    [ $# -gt 0 ] || set -- kept100 kept400 kept1600 dense25 dense50 dense100 dense200 grid10 grid30
    for shape; do
      write "$shape" 0
      (cat "$folder/points.0"; echo "walks 0") | "$PROGRAM" > "$folder/told"
      read -r edges _ < "$folder/told"
      write "$shape" 50 550 "$edges" $((edges + 500))
      instructions walks 50
      few=$taken
      instructions walks 550
      row="$few $taken"
      instructions batch "$edges"
      few=$taken
      instructions batch $((edges + 500))
      echo "$shape $edges $row $few $taken"
    done | awk '{
      walk = ($4 - $3) / 500; rank = $3 - 50 * walk
      point = ($6 - $5) / 500; map = $5 - $2 * point - rank
      printf "%s (%d edges): a walk %d instructions, a point of a sweep %d, the rest of the sweep %d thousand", $1, $2, walk, point, map / 1000
      from = walk > point ? int(map / (walk - point)) + 1 : 0
      print from ? sprintf("; it pays from %d points on, one for %.1f edges", from, $2 / from) : "; it never pays"
    }'
    ;;
  compare)
    python3 -B - "${1:-50}" "${2:-1}" "$folder/maps" <<'PYTHON'
import random, sys
sys.path.insert(0, 'benchmarks')
from question_layers import layer
maps, seed = int(sys.argv[1]), int(sys.argv[2])
draw = random.Random(seed)
# Small whole coordinates, so that abscissas, ends and edges are shared and segments are vertical, or overlap, or meet in one point.
def small(size, count):
    lines = []
    while len(lines) < count:
        ends = [draw.randint(-size, size) for _ in range(4)]
        if ends[:2] != ends[2:]:
            lines.append('segment %d %d %d %d' % tuple(ends))
    return lines
def nested(count):
    return [f'segment {a} {b} {c} {d}' for k in range(1, count + 1)
            for a, b, c, d in ((-k, -k, k, -k), (k, -k, k, k), (k, k, -k, k), (-k, k, -k, -k))]
KINDS = (lambda: small(6, 20), lambda: small(12, 40), lambda: small(40, 30), lambda: small(2 ** 24 - 1, 30), lambda: nested(12),
         lambda: layer('kept400'), lambda: layer('dense%d' % draw.randint(20, 60)), lambda: layer('grid%d' % draw.randint(3, 12)))
with open(sys.argv[3], 'w') as out:
    for k in range(maps):
        lines = KINDS[k % len(KINDS)]()
        ends = [tuple(map(int, line.split()[1:])) for line in lines]
        reach = max(abs(number) for end in ends for number in end)
        spots = []
        for _ in range(2000):
            chance = draw.random()
            x, y, u, v = draw.choice(ends)
            if chance < .2:
                spots.append((x, y, 1))
            elif chance < .4:
                # On a segment, at a part of its way.
                part, whole = draw.randint(0, 6), 6
                spots.append((x * (whole - part) + u * part, y * (whole - part) + v * part, whole))
            elif chance < .6:
                # Straight above or below an end.
                spots.append((x * 2, 2 * y + draw.randint(-8, 8), 2))
            elif chance < .7 and spots:
                spots.append(draw.choice(spots))
            else:
                w = draw.choice((1, 2, 3, draw.randint(1, 1000)))
                spots.append((draw.randint(-reach * w - w, reach * w + w), draw.randint(-reach * w - w, reach * w + w), w))
        pins = [draw.choice(spots) for _ in range(draw.choice((0, 0, 5, 30)))]
        out.writelines(line + '\n' for line in lines)
        out.writelines('pin %d %d %d\n' % pin for pin in pins)
        out.writelines('point %d %d %d\n' % spot for spot in spots)
        out.write('compare\n')
PYTHON
    "$PROGRAM" < "$folder/maps" > "$folder/told"
    awk '{ maps++; edges += $1; points += $2; differ += $3; vertices += $4; on += $5; inside += $6 }
      END { printf "%d maps with %d edges, %d points: %d at vertices, %d on edges, %d in bounded faces; %d differ\n", maps, edges, points, vertices, on, inside, differ
            exit differ > 0 || maps == 0 }' "$folder/told"
    ;;
  *)
    echo "batch_calls.sh: count, pays or compare" >&2
    exit 1
    ;;
esac
