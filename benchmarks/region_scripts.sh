#!/usr/bin/env bash
# What one `region` line takes, in millions of instructions by callgrind: the run with it less the run without it; for each operation, and
# beside it what one `overlay` line takes.
#
#   cd crates/planar && rt run < /dev/null && cd ../.. && benchmarks/region_scripts.sh [PROGRAM [SCRIPT..]]
#
# PROGRAM may be any that reads the script's language, so that another one is measured with the same bytes; WORDS, where it is set, are the
# words of its command line. Scripts (all, unless some are named), N being how many closed paths each of the two layers has: `besideN`:
# squares 6 wide, 10 apart, those of the second layer moved by 3 each way; `overlappingN`: rectangles 60 to 200 wide and high in a square
# 2,000 wide; `nestedN`: squares, each round the one before, those of the second layer between those of the first; `crossingN`: triangles
# in a square 2,000 wide, most pairs of which cross. The last column says how many darts each region has.
set -eu
program=${1:-crates/planar/out/planar}
shift || true
folder=$(mktemp -d)
trap 'rm -rf "$folder"' EXIT
operations='union intersection difference symmetric'

python3 - "$folder" "$operations" <<'PYTHON'
import random, sys
folder, operations = sys.argv[1], sys.argv[2].split()

def write(name, red, blue):
    lines = ['layer red'] + red + ['layer blue'] + blue
    questions = {'without': [], 'overlay': ['overlay'], **{op: ['region ' + op] for op in operations}}
    for kind, more in questions.items():
        with open(f'{folder}/{name}.{kind}', 'w') as file:
            file.writelines(line + '\n' for line in lines + more)

def path(points):
    return 'path ' + ' '.join('%d %d' % point for point in points + points[:1])

def rectangle(x, y, width, height):
    return path([(x, y), (x + width, y), (x + width, y + height), (x, y + height)])

def beside(count, offset):
    across = max(1, round(count ** .5))
    return [rectangle(10 * (k % across) + offset, 10 * (k // across) + offset, 6, 6) for k in range(count)]

def overlapping(count, seed):
    draw = random.Random(seed)
    return [rectangle(draw.randint(-1000, 1000), draw.randint(-1000, 1000), draw.randint(60, 200), draw.randint(60, 200)) for _ in range(count)]

def nested(count, more):
    return [rectangle(-4 * k - 4 - more, -4 * k - 4 - more, 8 * k + 8 + 2 * more, 8 * k + 8 + 2 * more) for k in range(count)]

def crossing(count, seed):
    draw, lines = random.Random(seed), []
    while len(lines) < count:
        corners = [(draw.randint(-1000, 1000), draw.randint(-1000, 1000)) for _ in range(3)]
        if len(set(corners)) == 3:
            lines.append(path(corners))
    return lines

for count in 50, 250:
    write(f'beside{count}', beside(count, 0), beside(count, 3))
    write(f'overlapping{count}', overlapping(count, 1), overlapping(count, 2))
    write(f'nested{count}', nested(count, 0), nested(count, 2))
for count in 25, 50:
    write(f'crossing{count}', crossing(count, 1), crossing(count, 2))
PYTHON

# Instructions of a whole run.
instructions() {
    # shellcheck disable=SC2086
    valgrind --tool=callgrind --callgrind-out-file=/dev/null "$program" ${WORDS:-} < "$1" 2>&1 >/dev/null | sed -n 's/.*Collected : //p'
}

if [ $# = 0 ]; then
    set -- beside50 beside250 overlapping50 overlapping250 nested50 nested250 crossing25 crossing50
fi
for name; do
    without=$(instructions "$folder/$name.without")
    row=$name darts=
    for kind in $operations overlay; do
        with=$(instructions "$folder/$name.$kind")
        row="$row $kind $(((with - without) / 100000))"
        # shellcheck disable=SC2086
        [ "$kind" = overlay ] || darts="$darts $("$program" ${WORDS:-} < "$folder/$name.$kind" | sed -n 's/^region //p')"
    done
    echo "$row" | awk -v darts="$darts" '{ printf "%s", $1; for (k = 2; k < NF; k += 2) printf ", %s %.1f", $k, $(k + 1) / 10; printf "; darts%s\n", darts }'
done
