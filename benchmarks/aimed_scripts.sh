#!/usr/bin/env bash
# What the built program takes for one location under the trapezoidal map in a map that is aimed at an order of insertion.
#
#   cd crates/planar && rt run < /dev/null && cd ../.. && benchmarks/aimed_scripts.sh [PROGRAM [EDGES PINS]]
#
# So many edges (2,000) and pins (10,000). The script knows the row of numbers by which an order is drawn from a seed
# (`crates/locate_trapezoid/src/scatter.rt`), and is aimed at the order of the seed 1: the edges that come last in it are long and lie,
# each above the one before, over the pins that come first, so that each edge passes the walls of all these pins, and the search graph
# has nearly edges times pins nodes. The map draws its seed from all points (`seed.rt`), and gives a graph up that passes its bound
# (`bound.rt`), so the script misses. Processor time and the most memory held: without a location, by the walk, and by the map, whose
# reply is compared with that of the walk.
set -eu
program=${1:-crates/planar/out/planar}
edges=${2:-2000}
pins=${3:-10000}
folder=$(mktemp -d)
trap 'rm -rf "$folder"' EXIT

python3 - "$edges" "$pins" > "$folder/map" <<'PYTHON'
import sys
edges, pins = map(int, sys.argv[1:])
count = edges + pins
number, drawn = 1, [False] * count
for _ in range(count):
    number = (number * 6364136223846793005 + 1442695040888963407) % 2 ** 64
    drawn[(number >> 32) % count] = True
height = 10
for k in range(edges):
    if drawn[k]:
        print('segment %d -20 %d -19' % (k - edges - 9, k - edges - 9))
    else:
        print('segment %d %d 20000 %d' % (k - edges - 9, height, height))
        height += 1
for k in range(pins):
    print('pin %d 0 1' % k)
PYTHON
(cat "$folder/map"; echo 'locate 5 5 7') > "$folder/located"

# The replies of a run, and what it takes.
run() {
  taken=$( { /usr/bin/time -f '%U s of processor time, %M KiB' "$program" --locate "$1" < "$2" > "$folder/replies.$3"; } 2>&1 )
  echo "$3: $taken"
}
run walk "$folder/map" 'no location'
run walk "$folder/located" walk
run trapezoid "$folder/located" trapezoid
cmp "$folder/replies.walk" "$folder/replies.trapezoid"
