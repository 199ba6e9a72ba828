#!/usr/bin/env bash
# What the built program takes to drop curves and draw them again: processor time and the most memory held.
#
#   cd crates/planar && rt run < /dev/null && cd ../.. && benchmarks/churn_scripts.sh [PROGRAM [SEGMENTS [EDITS]]]
#
# So many segments (1,000) are inserted; then so many times (2,000), in a fixed pseudo-random order, one is dropped and inserted again
# under its new number. Segments are as in `edit_scripts.sh`: `sparse` ones hardly cross, `dense` ones do. Three runs each: the
# insertions alone, the drops and reinsertions with them, and the drops alone of all segments in that order, so that what a drop costs
# can be told apart. No line asks a question.
set -eu
program=${1:-crates/planar/out/planar}
count=${2:-1000}
edits=${3:-2000}
folder=$(mktemp -d)
trap 'rm -rf "$folder"' EXIT

for kind in sparse dense; do
  for run in insert churn drop; do
    python3 - "$kind" "$run" "$count" "$edits" > "$folder/script" <<'PYTHON'
import random, sys
kind, run, count, edits = sys.argv[1], sys.argv[2], int(sys.argv[3]), int(sys.argv[4])
random.seed(7)
reach = 2_000 if kind == 'sparse' else 100_000
segments = []
for _ in range(count):
    x, y = (random.randrange(-1_000_000 + reach, 1_000_001 - reach) for _ in range(2))
    segments.append((x, y, x + random.randrange(1, reach + 1), y + random.randrange(-reach, reach + 1)))
numbers = list(range(1, count + 1))
for segment in segments:
    print('segment', *segment)
if run == 'churn':
    for n in range(edits):
        at = random.randrange(count)
        print('drop', numbers[at])
        print('segment', *segments[at])
        numbers[at] = count + n + 1
if run == 'drop':
    random.shuffle(numbers)
    for number in numbers:
        print('drop', number)
PYTHON
    taken=$( { /usr/bin/time -f '%U s of processor time, %M KiB' "$program" < "$folder/script" > "$folder/replies"; } 2>&1 )
    echo "$kind $count, $run: $(grep -c '^ok' "$folder/replies") of $(wc -l < "$folder/script") lines accepted: $taken"
  done
done
