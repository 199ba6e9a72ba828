#!/usr/bin/env bash
# The search graphs of the trapezoidal map, outside the gate, of twelve kinds of maps: how many nodes, how deep, and what building takes.
#
#   benchmarks/search_graphs.sh [PROGRAM]
#
# Builds the program in benchmarks/search_graphs/ over copies of the crates, or takes one that was built before. Each line has the
# edges of the map, the nodes of its graph, nodes an edge, the depth, the milliseconds of processor time of a build (eleven builds less
# one, by ten, the least of five runs), and the kilobytes that the process holds more at most with a build than without one.
set -eu
cd "$(dirname "$0")/.."
folder=$(mktemp -d)
trap 'rm -rf "$folder"' EXIT
program=${1:+$(realpath "$1")}
if [ -z "$program" ]; then
  uses='arrangement locate_trapezoid dcel_records slab_laws exact_plane no_memory'
  crates=$(awk -v uses="$uses" -F': *' '
    function add(name, list, count, k) {
      if (!(name in below) || seen[name]++) return # (not in it: a crate of the kit)
      print name
      count = split(below[name], list, " ")
      for (k = 1; k <= count; k++) add(list[k])
    }
    /^[a-z]/ { below[$1] = $2 }
    END { total = split(uses, first, " "); for (n = 1; n <= total; n++) add(first[n]) }' crates.txt)
  mkdir "$folder/crates"
  cp HANDLES "$folder/"
  for crate in $crates; do
    cp -r "crates/$crate" "$folder/crates/"
    grep "^$crate:" crates.txt >> "$folder/crates.txt"
  done
  echo "search_graphs: $uses" >> "$folder/crates.txt"
  own=$folder/crates/search_graphs
  mkdir -p "$own/src" "$own/specs" "$own/proofs/answer_lines"
  for file in main graphs layers; do # the gate reads every .rt file of the repository, so they have other names here
    cp "benchmarks/search_graphs/$file.rt.txt" "$own/src/$file.rt"
  done
  cp benchmarks/search_graphs/answer_lines_invariants.antt.txt "$own/proofs/answer_lines/Invariants.antt"
  touch "$own/specs/Lib.antt" "$own/proofs/Lib.antt"
  git init -q "$folder"
  (cd "$own" && rt run < /dev/null > /dev/null)
  program=$own/out/search_graphs
fi

python3 - "$program" <<'PYTHON'
import os
import subprocess
import sys

sys.dont_write_bytecode = True
sys.path.insert(0, 'benchmarks')
from search_graphs import KINDS

program = sys.argv[1]


def run(lines, rounds):
    """What it writes, its processor time in milliseconds, and the most kilobytes that it held."""
    ran = subprocess.Popen([program], stdin=subprocess.PIPE, stdout=subprocess.PIPE)
    ran.stdin.write('\n'.join(lines + ['build %d' % rounds, '']).encode())
    ran.stdin.flush()
    written = ran.stdout.readline().decode()
    with open('/proc/%d/status' % ran.pid) as status: # (what wait4 tells counts this script's own memory in)
        held = next(int(line.split()[1]) for line in status if line.startswith('VmHWM'))
    ran.stdin.close()
    _, ended, used = os.wait4(ran.pid, 0)
    if ended:
        sys.exit('search_graphs.sh: the program ended with %d' % ended)
    return written, 1000 * used.ru_utime, held


for kind, (make, size) in KINDS.items():
    lines = ['segment %d %d %d %d' % ends for ends in make(size)]
    without = min(run(lines, 0)[2] for _ in range(3))
    ran = [run(lines, 1) for _ in range(5)]
    more = [run(lines, 11) for _ in range(5)]
    edges, nodes, depth = map(int, ran[0][0].split())
    each = (min(time for _, time, _ in more) - min(time for _, time, _ in ran)) / 10
    held = min(held for _, _, held in ran) - without
    print('%s: %d edges, %d nodes, %.1f an edge, depth %d, %.1f ms, %d kB' % (kind, edges, nodes, nodes / edges, depth, each, held), flush=True)
PYTHON
