#!/usr/bin/env bash
# What `batch` lines of eight points take, in thousands of instructions a line by callgrind, and beside them what eight `locate` lines of
# the same points take, under `walk` and under `trapezoid`: each time the run with fifty times eight points less the run with the first
# eight.
#
#   cd crates/planar && rt run < /dev/null && cd ../.. && benchmarks/batch_scripts.sh [PROGRAM [SCRIPT..]]
#
# PROGRAM may be any that reads the script's language, so that another one is measured with the same bytes; WORDS, where it is set, are the
# words of its command line. Scripts (all, unless some are named) are shapes of question_layers.py. Points are in the square of the
# segments; in `denseN` a tenth of them are at ends and middles of segments. It ends where a batch's answers aren't those of `locate`.
set -eu
cd "$(dirname "$0")/.."
program=${1:-crates/planar/out/planar}
shift || true
folder=$(mktemp -d)
trap 'rm -rf "$folder"' EXIT

# Scripts of a layer with 400 points and with the first eight of them, by `batch` and by `locate`.
write() {
    PYTHONPATH=benchmarks python3 -B - "$folder" "$1" <<'PYTHON'
import random, sys
from question_layers import layer
folder, name = sys.argv[1:]
lines, draw, points = layer(name), random.Random(6), []
size = 1000 if name.startswith('dense') else 17000
for _ in range(400):
    if size == 1000 and draw.random() < .1:
        x, y, u, v = map(int, draw.choice(lines).split()[1:])
        points.append(f'{x} {y} 1' if draw.random() < .5 else f'{x + u} {y + v} 2')
        continue
    w = draw.randint(1, 1000)
    points.append(f'{draw.randint(-size * w, size * w)} {draw.randint(-size * w, size * w)} {w}')
for kind, some in ('all', points), ('first', points[:8]):
    batches = ['batch ' + ' '.join(some[k : k + 8]) for k in range(0, len(some), 8)]
    for way, questions in ('batch', batches), ('locate', ['locate ' + point for point in some]):
        with open(f'{folder}/{way}.{kind}', 'w') as file:
            file.writelines(line + '\n' for line in lines + questions)
PYTHON
}

# Instructions of a whole run.
instructions() {
    # shellcheck disable=SC2086
    valgrind --tool=callgrind --callgrind-out-file=/dev/null "$program" ${WORDS:-} "${@:2}" < "$1" 2>&1 >/dev/null | sed -n 's/.*Collected : //p'
}

# WAY WORD..: thousands of instructions for eight further points.
for_eight() {
    local all first
    all=$(instructions "$folder/$1.all" "${@:2}")
    first=$(instructions "$folder/$1.first" "${@:2}")
    echo "$(((all - first) / 490))" | awk '{ printf "%.1f", $1 / 100 }'
}

if [ $# = 0 ]; then
    set -- kept400 dense100
fi
for name; do
    write "$name"
    row=
    for way in walk trapezoid; do
        # shellcheck disable=SC2086
        "$program" ${WORDS:-} --locate $way < "$folder/batch.all" | grep -v '^batch \|^end$' > "$folder/answers"
        # shellcheck disable=SC2086
        "$program" ${WORDS:-} --locate $way < "$folder/locate.all" | cmp -s - "$folder/answers" ||
            { echo "batch_scripts.sh: $name, $way: other answers than by locate" >&2; exit 1; }
        row="$row; $way: a batch $(for_eight batch --locate $way), eight locations $(for_eight locate --locate $way)"
    done
    echo "$name$row"
done
