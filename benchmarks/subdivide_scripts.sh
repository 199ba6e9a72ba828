#!/usr/bin/env bash
# What the built program takes for a `count` and a `show` of made scripts: processor time and the most memory.
#
#   cd crates/planar && rt run < /dev/null && cd ../.. && benchmarks/subdivide_scripts.sh [PROGRAM [SEGMENTS..]]
#
# Three kinds of scripts: `crossing`, random segments with ends up to 1000; `grid`, half of them from left to right and half
# from bottom to top; `nested`, squares of four segments each, one inside the other. Each script ends
# with `count` and `show`, which subdivide the plane once each.
set -eu
program=${1:-crates/planar/out/planar}
shift || true
folder=$(mktemp -d)
trap 'rm -rf "$folder"' EXIT

for kind in crossing grid nested; do
  for n in "${@:-25 50 100 200}"; do
    for count in $n; do
      python3 - "$kind" "$count" > "$folder/script" <<'PYTHON'
import random, sys
kind, count = sys.argv[1], int(sys.argv[2])
random.seed(1)
if kind == 'crossing':
    segments = [[random.randrange(-1000, 1001) for _ in range(4)] for _ in range(count)]
elif kind == 'grid':
    half = count // 2
    segments = [[0, 10 * k, 10 * half, 10 * k] for k in range(half)] + [[10 * k, 0, 10 * k, 10 * half] for k in range(count - half)]
else:
    segments = []
    for k in range(count // 4):
        low, high = k, 1000 - k
        segments += [[low, low, high, low], [high, low, high, high], [high, high, low, high], [low, high, low, low]]
for ends in segments:
    print('segment', *ends)
print('count')
print('show')
PYTHON
      taken=$( { /usr/bin/time -f '%U s of processor time, %M KiB' "$program" < "$folder/script" > "$folder/replies"; } 2>&1 )
      echo "$kind $count: $(grep '^counts' "$folder/replies"): $taken"
    done
  done
done
