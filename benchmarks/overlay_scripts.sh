#!/usr/bin/env bash
# What one `overlay` line takes, in millions of instructions by callgrind: the run with it less the run without it.
#
#   cd crates/planar && rt run < /dev/null && cd ../.. && benchmarks/overlay_scripts.sh [PROGRAM [SCRIPT..]]
#
# PROGRAM may be any that reads the script's language, so that another one is measured with the same bytes. Scripts (all, unless some
# are named): `madeN`: two layers of N segments at most 1,024 wide and high in a plane 32,768 wide; `denseN`: two of N segments in a
# square 2,000 wide, most pairs of which cross; `grids`: two of 98 lines each way, the second between the lines of the first; `islands`:
# 500 small squares in one layer, one square round all of them in the other (a layer has 2,000 curves at most); `islands2500`: 2,500 of
# them, made by long segments that are cut between the squares; `nested`: 200 squares, each inside the one before, in each of two layers.
set -eu
program=${1:-crates/planar/out/planar}
shift || true
folder=$(mktemp -d)
trap 'rm -rf "$folder"' EXIT

python3 - "$folder" <<'PYTHON'
import random, sys
folder = sys.argv[1]

def write(name, red, blue):
    lines = ['layer red'] + red + ['layer blue'] + blue
    for kind, more in ('without', []), ('with', ['overlay']):
        with open(f'{folder}/{name}.{kind}', 'w') as file:
            file.writelines(line + '\n' for line in lines + more)

def made(count, seed):
    x, lines = seed, []
    def draw():
        nonlocal x
        x = (1103515245 * x + 12345) % 2 ** 31
        return x // 65536
    for _ in range(count):
        a, b, c, d = draw(), draw(), draw(), draw()
        u, v = a - 16384, b - 16384
        lines.append(f'segment {u} {v} {u + c % 2048 - 1024} {v + d % 2048 - 1024}')
    return lines

def dense(count, seed):
    draw, lines = random.Random(seed), []
    while len(lines) < count:
        ends = [draw.randint(-1000, 1000) for _ in range(4)]
        if ends[:2] != ends[2:]:
            lines.append('segment %d %d %d %d' % tuple(ends))
    return lines

def grid(lines, offset):
    end = 10 * (lines + 1)
    return [f'segment 0 {10 * k + offset} {end} {10 * k + offset}' for k in range(1, lines + 1)] + \
        [f'segment {10 * k + offset} 0 {10 * k + offset} {end}' for k in range(1, lines + 1)]

def square(x, y, size):
    return [f'segment {x} {y} {x + size} {y}', f'segment {x + size} {y} {x + size} {y + size}',
            f'segment {x + size} {y + size} {x} {y + size}', f'segment {x} {y + size} {x} {y}']

# So many squares each way, more than a layer's 2,000 curves allow one by one: long segments, whose parts between the squares are cut.
def dashed_squares(across):
    end, sides = 10 * across - 6, [10 * k + more for k in range(across) for more in (0, 4)]
    lines = [f'segment 0 {at} {end} {at}' for at in sides] + [f'segment {at} 0 {at} {end}' for at in sides]
    gaps = range(4, end, 10)
    lines += [f'cut {x} {at} 1 {x + 6} {at} 1' for at in sides for x in gaps]
    return lines + [f'cut {at} {y} 1 {at} {y + 6} 1' for at in sides for y in gaps]

for count in 500, 2000:
    write(f'made{count}', made(count, 1), made(count, 2))
for count in 60, 200:
    write(f'dense{count}', dense(count, 1), dense(count, 2))
write('grids', grid(98, 0), grid(98, 5))
write('islands', [line for i in range(25) for j in range(20) for line in square(10 * i, 10 * j, 4)], square(-10, -10, 600))
write('islands2500', dashed_squares(50), square(-10, -10, 600))
write('nested', [line for k in range(200) for line in square(-4 * k - 4, -4 * k - 4, 8 * k + 8)],
      [line for k in range(200) for line in square(-4 * k - 6, -4 * k - 6, 8 * k + 12)])
PYTHON

# Instructions of a whole run.
instructions() {
    valgrind --tool=callgrind --callgrind-out-file=/dev/null "$program" < "$1" 2>&1 >/dev/null | sed -n 's/.*Collected : //p'
}

if [ $# = 0 ]; then
    set -- made500 made2000 dense60 dense200 grids islands islands2500 nested
fi
for name; do
    without=$(instructions "$folder/$name.without")
    with=$(instructions "$folder/$name.with")
    echo "$name $(((with - without) / 100000))" | awk '{ printf "%s %.1f\n", $1, $2 / 10 }'
done
