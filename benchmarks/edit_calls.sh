#!/usr/bin/env bash
# What the built program takes for scripts of edits alone, in millions of instructions by callgrind, its start included.
#
#   cd crates/planar && rt run < /dev/null && cd ../.. && benchmarks/edit_calls.sh [PROGRAM [SCRIPT..]]
#
# PROGRAM may be any that reads the script's language, so that another one is measured with the same bytes. Scripts (all, unless some
# are named): `nothing`; `madeN`: N segments at most 1,024 wide and high in a plane 32,768 wide, every eighth followed by a drop;
# `churn`: 400 such segments, then 2,000 drops and insertions in turn; `denseN`: N segments in a square 2,000 wide, most pairs of which
# cross; `pins`: 10,000 pins; `grid`: 30 by 30 lines; `cuts`: the grid, then each of its 870 edges that lie flat is cut; `splits`: one
# segment, split at 2,000 points, and merged again; `equal`: 2,000 equal segments and a pin inside; `unpin`: the same, and unpinned;
# `drop`: the same with the pin, one of them dropped; `emptied`: 5,000 pins and `clear`; `again`: the same, then 100 pins.
set -eu
program=${1:-crates/planar/out/planar}
shift || true
folder=$(mktemp -d)
trap 'rm -rf "$folder"' EXIT

python3 - "$folder" <<'PYTHON'
import random, sys
folder = sys.argv[1]

def write(name, lines):
    with open(folder + '/' + name, 'w') as file:
        file.writelines(line + '\n' for line in lines)

def made(count, drops):
    x, lines = 1, []
    def draw():
        nonlocal x
        x = (1103515245 * x + 12345) % 2 ** 31
        return x // 65536
    for k in range(1, count + 1):
        a, b, c, d = draw(), draw(), draw(), draw()
        u, v = a - 16384, b - 16384
        lines.append(f'segment {u} {v} {u + c % 2048 - 1024} {v + d % 2048 - 1024}')
        if drops and k % 8 == 0:
            lines.append(f'drop {k // 2}')
    return lines

def dense(count):
    draw, lines = random.Random(count), []
    while len(lines) < count:
        ends = [draw.randint(-1000, 1000) for _ in range(4)]
        if ends[:2] != ends[2:]:
            lines.append('segment %d %d %d %d' % tuple(ends))
    return lines

def churn(count, edits):
    draw, lines = random.Random(9), made(count, False)
    drawn, total = list(enumerate(lines, 1)), count
    lines = list(lines)
    for _ in range(edits // 2):
        at = draw.randrange(count)
        number, segment = drawn[at]
        total += 1
        lines += [f'drop {number}', segment]
        drawn[at] = (total, segment)
    return lines

def pins(count):
    draw, points = random.Random(4), set()
    while len(points) < count:
        points.add((draw.randint(-20000, 20000), draw.randint(-20000, 20000)))
    return ['pin %d %d 1' % point for point in sorted(points, key=lambda p: (p[0] * 7919 + p[1]) % 104729)]

write('nothing', [])
for count in (100, 400, 2000):
    write(f'made{count}', made(count, True))
write('churn', churn(400, 2000))
for count in (50, 100, 200):
    write(f'dense{count}', dense(count))
write('pins', pins(10000))
n = 30
grid = [f'segment {10 * i} 0 {10 * i} {10 * (n - 1)}' for i in range(n)] + [f'segment 0 {10 * i} {10 * (n - 1)} {10 * i}' for i in range(n)]
write('grid', grid)
write('cuts', grid + [f'cut {10 * i} {10 * j} 1 {10 * (i + 1)} {10 * j} 1' for j in range(n) for i in range(n - 1)])
write('splits', ['segment 0 0 1000000 0'] + [f'split {100 * i} 0 1 1000000 0 1 {100 * (i + 1)} 0 1' for i in range(2000)]
      + [f'merge {100 * (i + 1)} 0 1' for i in range(2000)])
equal = ['segment 0 0 20 0'] * 2000 + ['pin 10 0 1']
write('equal', equal)
write('unpin', equal + ['unpin 10 0 1'])
write('drop', equal + ['drop 1000'])
write('emptied', pins(5000) + ['clear'])
write('again', pins(5000) + ['clear'] + [f'pin {i} 0 1' for i in range(100)])
PYTHON

scripts=${*:-nothing made100 made400 made2000 churn dense50 dense100 dense200 pins grid cuts splits equal unpin drop emptied again}
for script in $scripts; do
  count=$(valgrind --tool=callgrind --callgrind-out-file=/dev/null "$program" < "$folder/$script" 2>&1 > /dev/null | awk '/Collected/ { print $4 }')
  awk -v script="$script" -v count="$count" 'BEGIN { printf "%-9s %10.2f\n", script, count / 1e6 }'
done
