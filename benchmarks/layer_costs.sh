#!/usr/bin/env bash
# What one line costs in a layer of some 100, 1,000 and 10,000 vertices, in instructions by callgrind, reading the line included: grids of 8, 30
# and 98 lines each way. An insertion that crosses one edge, the drop of such a segment, and a location on an edge: the mean of up to 200; a
# location in a face, the first one since the edits, the second one and a third; `show`. Locations go by the walk. It takes the program's path, and a minute.
set -eu
program=${1:?the path of the program planar}
folder=$(mktemp -d)
trap 'rm -rf "$folder"' EXIT

python3 - "$folder" <<'PYTHON'
import random, sys
folder = sys.argv[1]
draw = random.Random(7)
for lines in 8, 30, 98:
    end = 10 * (lines + 1)
    grid = [f'segment 0 {10 * k} {end} {10 * k}' for k in range(1, lines + 1)]
    grid += [f'segment {10 * k} 0 {10 * k} {end}' for k in range(1, lines + 1)]
    # A segment lies in two cells side by side, and crosses the edge between them alone; each has its own cells.
    cells = [(i, j) for i in range(1, lines - 1, 2) for j in range(1, lines)]
    draw.shuffle(cells)
    cells = cells[:200]
    more = [f'segment {10 * i + 3} {10 * j + 2} {10 * i + 13} {10 * j + 7}' for i, j in cells]
    drops = [f'drop {len(grid) + 1 + k}' for k in range(len(cells))]
    on = [f'locate {10 * i} {10 * j + 5} 1' for i, j in cells]
    scripts = {'layer': [], 'more': more, 'fewer': more + drops, 'on': on, 'inside': ['locate 15 15 1'], 'second': ['locate 15 15 1'] * 2, 'again': ['locate 15 15 1'] * 3, 'show': ['show']}
    with open(f'{folder}/{lines}.times', 'w') as times:
        times.write(str(len(cells)))
    for name, behind in scripts.items():
        with open(f'{folder}/{lines}.{name}', 'w') as script:
            script.write('\n'.join(grid + behind) + '\n')
PYTHON

# Instructions of a whole run, locations by the walk.
instructions() {
    valgrind --tool=callgrind --callgrind-out-file=/dev/null "$program" --locate walk < "$1" 2>&1 >/dev/null | sed -n 's/.*Collected : //p'
}

for lines in 8 30 98; do
    times=$(cat "$folder/$lines.times")
    layer=$(instructions "$folder/$lines.layer")
    more=$(instructions "$folder/$lines.more")
    fewer=$(instructions "$folder/$lines.fewer")
    on=$(instructions "$folder/$lines.on")
    inside=$(instructions "$folder/$lines.inside")
    second=$(instructions "$folder/$lines.second")
    again=$(instructions "$folder/$lines.again")
    show=$(instructions "$folder/$lines.show")
    echo "grid of $lines by $lines: insertion $(((more - layer) / times)), drop $(((fewer - more) / times)), location on an edge $(((on - layer) / times)), in a face $((inside - layer)), second $((second - inside)), again $((again - second)), show $((show - layer))"
done
