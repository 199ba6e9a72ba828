#!/usr/bin/env bash
# How fast the built program reads lines, beside `wc -l` on the same input.
#
#   cd crates/planar && rt run < /dev/null && cd ../.. && benchmarks/read_lines.sh [PROGRAM]
#
# Three inputs of 64 MiB: empty lines, comments, and short pairs of `pin` and `unpin`. Prints bytes per second, and the
# most memory that the program took.
set -eu
program=${1:-crates/planar/out/planar}
size=$((64 * 1024 * 1024))
folder=$(mktemp -d)
trap 'rm -rf "$folder"' EXIT

python3 - "$folder" "$size" <<'PYTHON'
import sys
folder, size = sys.argv[1], int(sys.argv[2])
def make(name, piece):
    whole = size // len(piece)
    with open(f'{folder}/{name}', 'wb') as out:
        out.write(piece * whole)
make('empty', b'\n' * 4096)
make('comments', b'# a comment of forty bytes, about.......\n' * 100)
make('pairs', b''.join(b'pin %d 0 1\nunpin %d 0 1\n' % (k, k) for k in range(10, 100)))
PYTHON

for name in empty comments pairs; do
  bytes=$(stat -c %s "$folder/$name")
  wc_time=$( { /usr/bin/time -f '%e' wc -l < "$folder/$name" > /dev/null; } 2>&1 )
  own=$( { /usr/bin/time -f '%e %M' "$program" < "$folder/$name" > /dev/null; } 2>&1 )
  python3 - "$name" "$bytes" "$wc_time" $own <<'PYTHON'
import sys
name, size, wc, own, peak = sys.argv[1], *map(float, sys.argv[2:])
print(f'{name}: {size:.0f} bytes, {size / own / 1e6:.0f} MB/s (wc -l: {size / max(wc, 0.01) / 1e6:.0f} MB/s), {peak / 1024:.1f} MiB')
PYTHON
done
