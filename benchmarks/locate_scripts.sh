#!/usr/bin/env bash
# Instructions of 10,000 locations, by callgrind, under each way of location, of the program and of another that reads the same language.
#
#   benchmarks/locate_scripts.sh PROGRAM [PEER]
#
# `made`: 400 segments that hardly cross, and points in their square; nearly all edges border the unbounded face. `dense`: 100 segments
# most pairs of which cross, and points in their square, a tenth of them at ends and middles of segments (but for landmarks: CGAL's
# answer some of these wrongly, or never). Each line has the millions of instructions of the whole run, those of the layer with one
# location, and the instructions of a further location; then the same of the other program. The replies of each run are compared with
# those by the walk.
set -eu
program=$(realpath "${1:?the path of the program planar}")
peer=${2:+$(realpath "$2")}
folder=$(mktemp -d)
trap 'rm -rf "$folder"' EXIT
cd "$folder"

python3 - <<'PYTHON'
import random

def made(count):
    x, lines = 1, []

    def draw():
        nonlocal x
        x = (1103515245 * x + 12345) % 2 ** 31
        return x // 65536
    for _ in range(count):
        a, b, c, d = draw(), draw(), draw(), draw()
        u, v = a - 16384, b - 16384
        lines.append('segment %d %d %d %d' % (u, v, u + c % 2048 - 1024, v + d % 2048 - 1024))
    return lines

def dense(count):
    draw, lines = random.Random(count), []
    while len(lines) < count:
        ends = [draw.randint(-1000, 1000) for _ in range(4)]
        if ends[:2] != ends[2:]:
            lines.append('segment %d %d %d %d' % tuple(ends))
    return lines

def locations(count, seed, size, segments):
    draw, lines = random.Random(seed), []
    for _ in range(count):
        if segments and draw.random() < .1:
            x, y, u, v = map(int, draw.choice(segments).split()[1:])
            lines.append('locate %d %d 1' % (x, y) if draw.random() < .5 else 'locate %d %d 2' % (x + u, y + v))
            continue
        w = draw.randint(1, 1000)
        lines.append('locate %d %d %d' % (draw.randint(-size * w, size * w), draw.randint(-size * w, size * w), w))
    return lines

for name, layer, seed, size in ('made', made(400), 5, 17000), ('dense', dense(100), 6, 1000):
    on = layer if name == 'dense' else None
    for script, lines in (name, locations(10000, seed, size, on)), (name + '.landmarks', locations(10000, seed, size, None)), \
            (name + '.one', locations(1, seed, size, None)):
        with open(script, 'w') as file:
            file.write('\n'.join(layer + lines) + '\n')
PYTHON

# Instructions of a program on a script under a way of location.
instructions() {
    valgrind --tool=callgrind --callgrind-out-file=/dev/null "$1" --locate "$3" < "$2" 2>&1 >/dev/null | sed -n 's/.*Collected : //p'
}
measure() {
    all=$(instructions "$1" "$2" "$4")
    one=$(instructions "$1" "$3" "$4")
    echo "$(((all + 50000) / 100000)) $(((one + 50000) / 100000)) $(((all - one) / 9999))" |
        awk '{ printf "%.1f, %.1f with one, %d a further one", $1 / 10, $2 / 10, $3 }'
}
for name in made dense; do
    for way in naive walk landmarks trapezoid; do
        script=$name
        [ "$way" != landmarks ] || script=$name.landmarks
        "$program" --locate "$way" < "$script" > answers
        "$program" --locate walk < "$script" | cmp -s - answers || { echo "$name, $way: other answers than by the walk" >&2; exit 1; }
        line="$name, $way: $(measure "$program" "$script" "$name.one" "$way")"
        if [ -n "$peer" ]; then
            "$peer" --locate walk < "$script" | cmp -s - answers || { echo "$name, $way: other answers than the other program's walk" >&2; exit 1; }
            line="$line; $(measure "$peer" "$script" "$name.one" "$way")"
        fi
        echo "$line"
    done
done
