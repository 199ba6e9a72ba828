#!/usr/bin/env bash
# What the built program takes for scripts of edits alone: processor time and the most memory held, by the number of segments.
#
#   cd crates/planar && rt run < /dev/null && cd ../.. && benchmarks/edit_scripts.sh [PROGRAM [SEGMENTS..]]
#
# Segments are pseudo-random from a fixed seed. `sparse` ones are at most 4,000 wide and high in a plane 2,000,000 wide, so that few
# cross; `dense` ones at most 400,000, so that the crossings grow with the square of their number. No line asks a question but the
# last, a `count` in a second run that isn't timed, which tells how large the arrangement is (it takes long beyond 200 dense segments,
# since it still subdivides the plane from scratch; it is left out there).
set -eu
program=${1:-crates/planar/out/planar}
shift || true
folder=$(mktemp -d)
trap 'rm -rf "$folder"' EXIT

for kind in sparse dense; do
  for n in "${@:-200 500 1000 2000}"; do
    for count in $n; do
      python3 - "$kind" "$count" > "$folder/script" <<'PYTHON'
import random, sys
kind, count = sys.argv[1], int(sys.argv[2])
random.seed(7)
reach = 2_000 if kind == 'sparse' else 200_000
for _ in range(count):
    x, y = (random.randrange(-1_000_000 + reach, 1_000_001 - reach) for _ in range(2))
    print('segment', x, y, x + random.randrange(1, reach + 1), y + random.randrange(-reach, reach + 1))
PYTHON
      taken=$( { /usr/bin/time -f '%U s of processor time, %M KiB' "$program" < "$folder/script" > "$folder/replies"; } 2>&1 )
      counts=
      if [ "$kind" = sparse ] || [ "$count" -le 200 ]; then
        counts=$( { cat "$folder/script"; echo count; } | "$program" | tail -n 1)
      fi
      echo "$kind $count: $(grep -c '^ok' "$folder/replies") accepted; $counts: $taken"
    done
  done
done
