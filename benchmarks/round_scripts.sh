#!/usr/bin/env bash
# Instructions of rounds: 12,500 pins and unpins of points in the faces of a grid of 1,012 edges, 100,000 rounds in all, without observers and
# with its mirrors seated before. What the mirrors' snapshots take is measured apart and taken off. It takes the program's path, and how many
# mirrors it has (4; one with eight is built in a copy of the repository whose crates/planar/src/main.rt says MIRRORS = 8).
set -eu
program=${1:?the path of the program planar}
mirrors=${2:-4}
folder=$(mktemp -d)
trap 'rm -rf "$folder"' EXIT

python3 - "$folder" "$mirrors" <<'PYTHON'
import random, sys
folder, mirrors = sys.argv[1], int(sys.argv[2])
random.seed(7)
grid = [line for i in range(23) for line in (f"segment 0 {10 * i} 220 {10 * i}", f"segment {10 * i} 0 {10 * i} 220")]
seats = [f"attach {i}" for i in range(1, mirrors + 1)]
rounds = []
for _ in range(12_500):
    x, y = (5 + 10 * random.randrange(22) for _ in "xy")
    rounds += [f"pin {x} {y} 1", f"unpin {x} {y} 1"]
for name, lines in {"grid": grid, "seats": grid + seats, "alone": grid + rounds, "told": grid + seats + rounds}.items():
    with open(f"{folder}/{name}", "w") as script:
        script.write("\n".join(lines) + "\n")
PYTHON

count() {
    valgrind --tool=callgrind --callgrind-out-file=/dev/null "$program" <"$folder/$1" 2>&1 >/dev/null |
        sed -n 's/.*Collected : //p'
}
grid=$(count grid)
seats=$(count seats)
alone=$(count alone)
told=$(count told)
echo "a snapshot of 1,012 edges, a mirror: $(((seats - grid) / mirrors)) instructions"
echo "a round over $mirrors mirrors: $(((told - alone - (seats - grid)) / 100000)) instructions"
