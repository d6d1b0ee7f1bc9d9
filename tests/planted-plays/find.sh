#!/usr/bin/env bash
# Bugs that `simulator --every` has to find. Each file here that ends in .patch is one: what it breaks, the script
# that it is played on, and the edit. It is planted in a copy of the code, and the script is played there with mishaps
# at every moment, by the simulator without its proof, which would refuse it. The world that is found is shown. Before
# that the code as it is plays the same scripts, and nothing may be found.
#
#     tests/planted-plays/find.sh [NAME ..]      these bugs; all of them where none is named
#
# Status 0: all were found, and nothing else. What is unproved is run with checks of each step: seven minutes for the
# shortest script, and far more for the others.
set -eu
here=$(cd "$(dirname "$0")" && pwd)
root=$(dirname "$(dirname "$here")")
work=$(mktemp -d)
trap 'rm -rf "$work"' EXIT

# A copy of the code, for what is planted.
copy() {
    rm -rf "$work/code"
    mkdir "$work/code"
    tar -C "$root" --exclude=out -cf - crates crates.txt | tar -C "$work/code" -xf -
}

# Plays a script at every moment in the copy. True: a world was found in which something fails.
finds() {
    (cd "$work/code/crates/simulator" && rt try --steps 1 --seconds 14400 --data "$1=$here/$1" -- --every "$1") >"$work/found" 2>&1 || true
    grep -q 'nothing fails' "$work/found" || grep -q 'FAILS:' "$work/found" || { cat "$work/found"; exit 2; }
    grep -q 'FAILS:' "$work/found"
}

# The script that a bug is played on.
script_of() {
    sed -n 's/^script: //p' "$here/$1.patch"
}

[ $# -gt 0 ] || set -- $(cd "$here" && ls *.patch | sed 's/\.patch$//')
missed=0

copy
for script in $(for name; do script_of "$name"; done | sort -u); do
    if finds "$script"; then
        cat "$work/found"
        echo "with nothing planted, something is found"
        exit 1
    fi
done
echo "with nothing planted, nothing is found"

for name; do
    copy
    patch -s -p1 -d "$work/code" <"$here/$name.patch"
    printf '\n%s\n' "$name"
    if finds "$(script_of "$name")"; then
        sed 's/^/    /' "$work/found"
    else
        echo "    not found"
        missed=1
    fi
done
exit $missed
