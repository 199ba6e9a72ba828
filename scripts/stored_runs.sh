#!/usr/bin/env bash
# Runs of the program `planar` beside the one that `rt ci` makes: each script of crates/planar/cases/ under each way of location, lines
# that are refused, words outside the grammar, and what few lines give. It takes the program's path; without one it runs that of
# scripts/program.sh.
set -u
cd "$(dirname "$0")/.." || exit 1

program=$(scripts/program.sh "$@") || exit 1

wrote=$(mktemp)
wanted=$(mktemp)
trap 'rm -f "$wrote" "$wanted"' EXIT
failed=0

# check NAME STATUS SCRIPT REPLIES WORD..: the program with these words, run on the script, ends with this status, and
# writes the replies and no byte more.
check() {
    local name=$1 status=$2 script=$3 replies=$4
    shift 4
    printf '%s' "$replies" >"$wanted"
    printf '%s' "$script" | timeout 60 "$program" "$@" >"$wrote" 2>/dev/null
    local ended=${PIPESTATUS[1]}
    if [ "$ended" -ne "$status" ]; then
        echo "stored runs: $name: it ended with status $ended in place of $status" >&2
        failed=1
    fi
    if ! cmp -s "$wrote" "$wanted"; then
        echo "stored runs: $name: it wrote something else:" >&2
        diff "$wanted" "$wrote" >&2
        failed=1
    fi
}

# refuse WORD..: these words are answered by the usage line, whatever the script says.
usage=$'usage: planar [--locate naive|walk|landmarks|trapezoid] [--make N] [--seed N]\n'
refuse() {
    check "the words $*" 2 $'show\n' "$usage" "$@"
}

refuse wrong
refuse wrong words
refuse walk
refuse help
refuse ''
refuse -
refuse --
refuse -h
refuse --help
refuse --version
refuse -locate walk
refuse --loc walk
refuse --locate
refuse --locate ''
refuse --locate=
refuse --locate==walk
refuse --locate=wal
refuse --locate Walk
refuse --locate sideways
refuse $'--locate=\xff'
refuse --locate walk --locate=walk
refuse --locate=naive --locate walk
refuse --locate=walk script
refuse -- --locate=walk
refuse --locate=walk --
refuse --locate -- walk
refuse --make
refuse --make=
refuse --make 0
refuse --make 01
refuse --make 2001
refuse --make=2001
refuse --make -1
refuse --make=-1
refuse --make +1
refuse --make '1 '
refuse --make 99999999999999999999999999999999999999999999
refuse --make --seed 1
refuse --make 1 --make=1
refuse --mak 1
refuse --seed
refuse --seed --seed
refuse --seed 4294967296
refuse --seed=18446744073709551616
refuse --seed -1
refuse --seed=-1
refuse --seed -0
refuse --seed=-0
refuse --seed=00
refuse --seed five
refuse --seed 5 --seed=5
refuse --make=1 --seed=x
refuse --make=x --seed=1
refuse --make 1 --seed 1 --locate sideways

# No way of location, and no seed, changes a reply.
for case in crates/planar/cases/*.script; do
    # (a byte behind each, or the shell would take away the last ones if they are byte 10)
    script=$(cat "$case" && echo x)
    replies=$(cat "${case%.script}.replies" && echo x)
    for words in '' --locate=naive '--locate walk' --locate=landmarks '--locate trapezoid' '--seed 7'; do
        # shellcheck disable=SC2086
        check "$case $words" 0 "${script%x}" "${replies%x}" $words
    done
done

for words in '' --locate=naive --locate=walk --locate=landmarks --locate=trapezoid; do
    # shellcheck disable=SC2086
    check "an empty script $words" 0 '' '' $words
done
check 'one line' 0 $'show\n' $'arrangement 0 0 1\nf 0\nend\n'
check 'a last line without byte 10' 0 $'pin 0 0 1\nlocate 0 0 2' $'ok\nvertex 0 0 1\n'
check 'a byte that no line has' 0 $'pin\xc8\npin\t0 0 1\n# a\tb\ncount\r\n' $'refused 6\nrefused 6\nrefused 6\nrefused 6\n'

# A made script writes its last reply alone; a seed without one changes nothing.
check 'one made segment' 0 $'show\n' $'counts 2 1 1 1 0 1\n' --make 1
check 'two made segments' 0 $'show\n' $'counts 4 2 1 2 0 2\n' --make=2
check 'sixteen made segments' 0 '' $'counts 28 14 1 14 0 14\n' --make 16 --seed=7
check 'a hundred and twenty made segments' 0 '' $'counts 210 105 1 105 0 105\n' --make 120
for words in '--make 1200' '--make 1200 --locate=naive' '--locate walk --make=1200' '--make=1200 --seed 1 --locate=landmarks' '--seed=1 --make=1200 --locate=trapezoid'; do
    # shellcheck disable=SC2086
    check "a script made by $words" 0 '' $'counts 2318 1486 15 846 0 1050\n' $words
done
check 'seven made segments of the largest seed' 0 '' $'counts 14 7 1 7 0 7\n' --make=7 --seed=4294967295
check 'thirty made segments' 0 '' $'counts 54 27 1 27 0 27\n' --make=30 --seed 3
for words in '--seed 0' '--seed=4294967295' '--seed=20 --locate walk'; do
    # shellcheck disable=SC2086
    check "no script made by $words" 0 $'pin 0 0 1\n' $'ok\n' $words
done

# The last curve, the last pin and the last pieces that are let in, and the first that aren't; a text of more than 64 KiB.
check 'two thousand and one curves' 0 \
    "$(awk 'BEGIN { for (k = 0; k <= 2000; k++) print "segment", k, 0, k, 1 }')"$'\n' \
    "$(awk 'BEGIN { for (k = 1; k <= 2000; k++) print "ok", k; print "refused 17" }')"$'\n'
check 'ten thousand and one pins' 0 \
    "$(awk 'BEGIN { for (k = 0; k <= 10000; k++) print "pin", k, 0, 1 }')"$'\n' \
    "$(awk 'BEGIN { for (k = 0; k < 10000; k++) print "ok"; print "refused 17" }')"$'\n'
# A cut that would make a piece too many leaves all as it was; one that takes a piece from each curve is let in.
check 'ten thousand pieces' 0 \
    "$(awk 'BEGIN { for (k = 1; k <= 2000; k++) print "segment 0 0 20 0"; for (k = 1; k < 20; k++) print "pin", k, 0, 1
        for (k = 1; k < 10; k += 2) print "cut", k, 0, 1, k + 1, 0, 1
        print "count"; print "edge 9 0 1 10 0 1"; print "cut 0 0 1 1 0 1"; print "count" }')"$'\n' \
    "$(awk 'BEGIN { for (k = 1; k <= 2000; k++) print "ok", k; for (k = 1; k < 24; k++) print "ok"
        print "refused 17"; print "counts 21 16 1 5 0 2000"; printf "curves"; for (k = 1; k <= 2000; k++) printf " %d", k
        print ""; print "ok"; print "counts 20 15 1 4 1 2000" }')"$'\n'
check 'a long text' 0 \
    "$(awk 'BEGIN { for (k = 0; k < 1000; k++) printf "pin 1000000000000000%03d -9000000000000000001 8796093022207\n", k; print "show" }')"$'\n' \
    "$(awk 'BEGIN { for (k = 0; k < 1000; k++) print "ok"; print "arrangement 1000 0 1"
        for (k = 0; k < 1000; k++) printf "v %d 1000000000000000%03d -9000000000000000001 8796093022207 pin :\n", k + 1, k
        print "f 0"; for (k = 1; k <= 1000; k++) print "p", k; print "end" }')"$'\n'

[ "$failed" -eq 0 ] && echo 'stored runs: all as wanted'
exit "$failed"
