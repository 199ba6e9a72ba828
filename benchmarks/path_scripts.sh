#!/usr/bin/env bash
# What paths take, in millions of instructions by callgrind, net of starting and ending, beside the same sides as segments one by one.
#
#   cd crates/planar && rt run < /dev/null && cd ../.. && benchmarks/path_scripts.sh [PROGRAM [PEER [SCRIPT..]]]
#
# PEER is another program that reads the script's language, which is measured with the same bytes; without one, or where the file isn't
# there, the program stands alone; where it takes more than two minutes, its figure is a dash. Scripts (all with K 1, 2, 4 and 8, unless
# some are named), K from 1 to 8 being how many sides each path has: `sparseK`: 800 sides in all, at most 1,024 wide and high in a plane
# 32,768 wide; `denseK`: 96 sides in a square 2,000 wide, most pairs of which cross; `foldedK` (K from 2 on): 800 sides, each path to and
# fro along one short line, so that its edges are held by several sides; `doubledK` (K even): 800 sides, each path out by short sides and
# back the same way, so that each edge is held by two.
#
# A row has: the paths, the same sides as segments, the first by the second; how the paths grow from half as many; the drop of all the
# paths, and of all the segments, in the order in which they came; the peer's paths, its segments, and our paths by its. It ends where
# paths and segments don't make the same counts of vertices, edges and faces, or where the peer's replies are others.
set -eu
cd "$(dirname "$0")/.."
program=${1:-crates/planar/out/planar}
peer=${2:-}
shift $(($# < 2 ? $# : 2))
[ -x "$peer" ] || peer=
folder=$(mktemp -d)
trap 'rm -rf "$folder"' EXIT
[ $# != 0 ] || set -- sparse{1,2,4,8} dense{1,2,4,8} folded{2,4,8} doubled{2,4,8}

python3 - "$folder" "$@" <<'PYTHON'
import random, sys
folder, names = sys.argv[1], sys.argv[2:]

def draws():
    x = 1
    def draw():
        nonlocal x
        x = (1103515245 * x + 12345) % 2 ** 31
        return x // 65536
    return draw

# Points one after another, neighbours apart.
def walk(start, sides, step):
    points = [start]
    while len(points) <= sides:
        point = step(points[-1])
        if point != points[-1]:
            points.append(point)
    return points

def sparse(count, sides, size=1024):
    draw = draws()
    step = lambda at: (at[0] + draw() % (2 * size) - size, at[1] + draw() % (2 * size) - size)
    return [walk((draw() - 16384, draw() - 16384), sides, step) for _ in range(count)]

def dense(count, sides):
    draw = random.Random(count * 10 + sides)
    point = lambda *_: (draw.randint(-1000, 1000), draw.randint(-1000, 1000))
    return [walk(point(), sides, point) for _ in range(count)]

def folded(count, sides):
    draw, paths = draws(), []
    for number in range(1, count + 1):
        x, y, right, up = draw() - 16384, draw() - 16384, draw() % 256 - 128, draw() % 256 - 128 or 1
        stops = random.Random(number)
        paths.append([(x + right * t, y + up * t) for t in walk(0, sides, lambda _: stops.randint(0, 8))])
    return paths

def doubled(count, sides):
    return [points + points[-2::-1] for points in sparse(count, sides // 2, 256)]

def write(name, lines):
    with open(f'{folder}/{name}', 'w') as file:
        file.writelines(line + '\n' for line in lines)

# `.paths`, `.segments`: the lines; with `.dropped`: and a drop of each curve; `.half`: half as many paths.
for name in names:
    shape, sides = name[:-1], int(name[-1])
    count = (96 if shape == 'dense' else 800) // sides
    make = {'sparse': sparse, 'dense': dense, 'folded': folded, 'doubled': doubled}[shape]
    numbers = lambda points: ' '.join('%d %d' % point for point in points)
    paths = make(count, sides)
    forms = {'paths': ['path ' + numbers(points) for points in paths],
             'segments': ['segment ' + numbers(pair) for points in paths for pair in zip(points, points[1:])]}
    for form, lines in forms.items():
        write(f'{name}.{form}', lines)
        write(f'{name}.{form}.count', lines + ['count'])
        write(f'{name}.{form}.dropped', lines + [f'drop {number}' for number in range(1, len(lines) + 1)])
    write(f'{name}.half', ['path ' + numbers(points) for points in make(count // 2, sides)])
write('nothing', [])
PYTHON

# WHICH SCRIPT: instructions of the whole run of one of the two; a dash where it takes more than two minutes. Each run is made once.
whole() {
    local run=$folder/$2.$1.run
    if [ ! -e "$run" ]; then
        if timeout 120 valgrind --tool=callgrind --callgrind-out-file=/dev/null "${!1}" < "$folder/$2" 2> "$folder/said" > /dev/null; then
            awk '/Collected/ { print $4 }' "$folder/said" > "$run"
        else
            echo - > "$run"
        fi
    fi
    cat "$run"
}

# WHICH SCRIPT BASE: millions of instructions of a script, less those of its base.
net() {
    echo "$(whole "$1" "$2") $(whole "$1" "$3")" | awk '{ if ($1 == "-") print "-"; else printf "%.2f\n", ($1 - $2) / 1e6 }'
}

# SCRIPT: its vertices, edges, faces.
counts() {
    "$program" < "$folder/$1.count" | tail -1 | cut -d' ' -f1-4
}

printf '%-9s %8s %8s %6s %6s %8s %8s' script paths segments ratio growth dropped segments
[ -z "$peer" ] || printf ' %8s %8s %6s' 'of peer' segments ratio
echo
for name; do
    [ "$(counts "$name.paths")" = "$(counts "$name.segments")" ] || { echo "path_scripts.sh: $name: other counts than the segments'" >&2; exit 1; }
    row="$name $(net program "$name.paths" nothing) $(net program "$name.segments" nothing) $(net program "$name.half" nothing)"
    for form in paths segments; do
        row="$row $(net program "$name.$form.dropped" "$name.$form")"
    done
    if [ -n "$peer" ]; then
        for form in paths segments; do
            row="$row $(net peer "$name.$form" nothing)"
            # Compared outside callgrind, under which floating-point numbers may be rounded in another way.
            "$peer" < "$folder/$name.$form.count" > "$folder/theirs"
            "$program" < "$folder/$name.$form.count" | cmp -s - "$folder/theirs" || { echo "path_scripts.sh: $name: other replies than the peer's" >&2; exit 1; }
        done
    fi
    echo "$row" | awk '{
        printf "%-9s %8.2f %8.2f %6.2f %6.2f %8.2f %8.2f", $1, $2, $3, $2 / $3, $2 / $4, $5, $6
        if (NF > 6) printf " %8s %8s %6s", $7, $8, $7 == "-" ? "-" : sprintf("%.2f", $2 / $7)
        print ""
    }'
done
