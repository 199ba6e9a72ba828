#!/usr/bin/env bash
# Runs the program `planar` on each script of examples/, and compares what it writes with the replies that stand beside it. It takes the
# program's path; without one it runs that of scripts/program.sh.
set -u
cd "$(dirname "$0")/.." || exit 1

program=$(scripts/program.sh "$@") || exit 1

wrote=$(mktemp)
trap 'rm -f "$wrote"' EXIT
failed=0

for script in examples/*.script; do
    replies=${script%.script}.replies
    timeout 60 "$program" <"$script" >"$wrote" 2>/dev/null
    ended=$?
    if [ "$ended" -ne 0 ]; then
        echo "examples: $script: it ended with status $ended in place of 0" >&2
        failed=1
    fi
    if ! cmp -s "$wrote" "$replies"; then
        echo "examples: $script: it wrote something else:" >&2
        diff "$replies" "$wrote" >&2
        failed=1
    fi
done

[ "$failed" -eq 0 ] && echo 'examples: all as wanted'
exit "$failed"
