#!/usr/bin/env bash
# The plane sweep, outside the gate: its events and statuses beside all pairs by brute force, and instructions an event.
#
#   benchmarks/sweep_calls.sh compare [CASES [SEED]]
#   benchmarks/sweep_calls.sh count
#
# Builds the program in benchmarks/sweep_calls/ over copies of the crates. `compare` writes the events of random inputs, with
# the status after each, beside what sweep_answers.py works out with Python's fractions; `count` runs it under callgrind (of
# valgrind), once and three times over made and dense segments, and prints the difference for one event.
set -eu
cd "$(dirname "$0")/.."
what=$1
shift
folder=$(mktemp -d)
trap 'rm -rf "$folder"' EXIT
below=$(sed -n 's/^sweep_events: //p' crates.txt)
mkdir "$folder/crates"
cp HANDLES "$folder/"
for crate in sweep_events $below; do
  cp -r "crates/$crate" "$folder/crates/"
  grep "^$crate:" crates.txt >> "$folder/crates.txt"
done
echo "sweep_calls: sweep_events slab_laws exact_plane no_memory" >> "$folder/crates.txt"
own=$folder/crates/sweep_calls
mkdir -p "$own/src" "$own/proofs/sweeps/count" "$own/proofs/write_events"
for file in main input sweeps; do # the gate reads every .rt file of the repository, so they have other names here
  cp "benchmarks/sweep_calls/$file.rt.txt" "$own/src/$file.rt"
done
cp benchmarks/sweep_calls/count_invariants.antt.txt "$own/proofs/sweeps/count/Invariants.antt"
cp benchmarks/sweep_calls/write_events_invariants.antt.txt "$own/proofs/write_events/Invariants.antt"
git init -q "$folder"
(cd "$own" && echo 'pin 0 0 1' | rt run > /dev/null)
program=$own/out/sweep_calls

if [ "$what" = compare ]; then
  python3 benchmarks/sweep_answers.py compare "$program" "${1:-2000}" "${2:-1}"
  exit
fi
instructions() {
  valgrind --tool=callgrind --callgrind-out-file=/dev/null "$program" < "$folder/script" 2>&1 > /dev/null |
    sed -n 's/.*Collected : //p'
}
for input in "made 500" "made 1000" "made 2000" "dense 100" "dense 200" "dense 400"; do
  python3 benchmarks/sweep_answers.py $input > "$folder/segments"
  (cat "$folder/segments"; echo 'count 1') > "$folder/script"
  events=$("$program" < "$folder/script")
  once=$(instructions)
  (cat "$folder/segments"; echo 'count 3') > "$folder/script"
  thrice=$(instructions)
  echo "$input: $events events, $(((thrice - once) / 2 / events)) instructions an event, $(((thrice - once) / 2000000)) million a sweep"
done
