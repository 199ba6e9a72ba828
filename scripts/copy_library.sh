#!/usr/bin/env bash
# copy_library.sh FOLDER: copies the crate `arrangement` and all crates that it stands on, as the last commit has them, into the repository
# FOLDER, and adds their lines to its crates.txt. It overwrites nothing: where FOLDER has one of these crates it stops before it writes.
set -eu
folder=${1:?copy_library.sh FOLDER}
folder=$(realpath "$folder")
cd "$(dirname "$0")/.."

# The crates below `arrangement` and `outside`, by crates.txt; what has no line there is the kit's.
crates=$(awk -F': *' '{ below[$1] = $2 }
    function visit(crate,    names, k, n) {
        if (!(crate in below) || crate in seen) return
        seen[crate] = 1
        n = split(below[crate], names, " ")
        for (k = 1; k <= n; k++) visit(names[k])
        print crate
    }
    END { visit("arrangement"); visit("outside") }' crates.txt)

[ -e "$folder/.git" ] || { echo "copy_library.sh: $folder is no repository; git init makes it one" >&2; exit 1; }
for crate in $crates; do
    [ ! -e "$folder/crates/$crate" ] || { echo "copy_library.sh: $folder has a crate $crate already" >&2; exit 1; }
done
# shellcheck disable=SC2086
git archive HEAD $(printf 'crates/%s ' $crates) | tar x -C "$folder"
for crate in $crates; do
    grep "^$crate:" crates.txt
done >>"$folder/crates.txt"
[ -e "$folder/.gitignore" ] || echo '/crates/*/out/' >"$folder/.gitignore"
[ -e "$folder/HANDLES" ] || cp HANDLES "$folder/HANDLES"
echo "copy_library.sh: $(echo "$crates" | wc -l) crates"
