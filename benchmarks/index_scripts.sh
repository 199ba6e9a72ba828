#!/usr/bin/env bash
# The worst that is known for the index over pieces, outside the gate: scripts, in millions of instructions by callgrind (of valgrind).
#
#   cd crates/planar && rt run < /dev/null && cd ../.. && benchmarks/index_scripts.sh [PROGRAM [SHAPE..]]
#
# PROGRAM may be any that reads the script's language. A row has the insertions of a shape, its start included, then by itself what
# dropping all curves in an order drawn by lot takes, and 1,000 pins at random, unpinned at once. Shapes (all, unless some are named), of
# 2,000 curves: `flat`: lines across the whole plane, none of which crosses another; `parallel`: diagonals across it side by side, so that
# all boxes meet; `long`: 200 at random in the whole plane, most of which cross; `corner`: tiny ones in one corner; `equal`: equal ones;
# `outwards`, `inwards`: 500 nested squares; `star`: from one point over the whole range; `comb`: upright lines as high as the plane.
set -eu
program=${1:-crates/planar/out/planar}
shift || true
folder=$(mktemp -d)
trap 'rm -rf "$folder"' EXIT

python3 - "$folder" <<'PYTHON'
import math, random, sys
folder, reach, draw = sys.argv[1], 16777215, random.Random(5)

def write(name, segments):
    lines = ['segment %d %d %d %d' % ends for ends in segments]
    order = list(range(1, len(lines) + 1))
    draw.shuffle(order)
    ends = [(x, y) for a, b, c, d in segments for x, y in ((a, b), (c, d))]
    box = [min(x for x, _ in ends), max(x for x, _ in ends), min(y for _, y in ends), max(y for _, y in ends)]
    pins = []
    while len(pins) < 1000:
        pin = '%d %d 7' % (draw.randint(7 * box[0], 7 * box[1]), draw.randint(7 * box[2], 7 * box[3]))
        pins += [pin] if pin not in pins else []
    for kind, more in (('', []), ('.dropped', [f'drop {name}' for name in order]), ('.pins', [f'{word} {pin}' for pin in pins for word in ('pin', 'unpin')])):
        with open(f'{folder}/{name}{kind}', 'w') as file:
            file.writelines(line + '\n' for line in lines + more)

def shuffled(segments):
    draw.shuffle(segments)
    return segments

count = 2000
write('flat', shuffled([(-reach, 16000 * k - reach, reach, 16000 * k - reach) for k in range(count)]))
write('parallel', shuffled([(-reach + 1000 * k, -reach, reach, reach - 1000 * k) if k < count // 2 else
                            (-reach, -reach + 1000 * (k - count // 2 + 1), reach - 1000 * (k - count // 2 + 1), reach) for k in range(count)]))
write('long', [tuple(draw.randint(-reach, reach) for _ in range(4)) for _ in range(200)])
write('corner', [(x, y, x + draw.randint(1, 9), y + draw.randint(-9, 9))
                 for x, y in ((reach - draw.randint(10, 1000), reach - draw.randint(10, 1000)) for _ in range(count))])
write('equal', [(0, 0, 20, 10)] * count)
squares = [ends for k in range(1, count // 4 + 1) for h in [33000 * k] for ends in ((-h, -h, h, -h), (-h, h, h, h), (-h, -h, -h, h), (h, -h, h, h))]
write('outwards', squares)
write('inwards', squares[::-1])
turns = [2 * math.pi * k / count for k in range(count)]
write('star', [(0, 0, int(reach * math.cos(turn)), int(reach * math.sin(turn))) for turn in turns])
write('comb', [(16000 * k - reach, -reach, 16000 * k - reach, reach) for k in range(count)])
PYTHON

counted() {
  valgrind --tool=callgrind --callgrind-out-file=/dev/null "$program" < "$folder/$1" 2>&1 > "$folder/replies" | sed -n 's/.*Collected : //p'
}

for shape in ${*:-flat parallel long corner equal outwards inwards star comb}; do
  drawn=$(counted "$shape")
  dropped=$(counted "$shape.dropped")
  pinned=$(counted "$shape.pins")
  awk -v shape="$shape" -v drawn="$drawn" -v dropped="$dropped" -v pinned="$pinned" 'BEGIN {
    printf "%-9s %10.2f %10.2f %10.2f\n", shape, drawn / 1e6, (dropped - drawn) / 1e6, (pinned - drawn) / 1e6 }'
done
