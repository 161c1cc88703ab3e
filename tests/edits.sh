#!/bin/sh
# Tries the edits of tests/edits: each gives a function a wrong body, and the prover has to refuse the crate with it.
#     sh tests/edits.sh [CRATE..]
# of all crates that have some there, or of those that are given. In a copy of the crates these edits stand in must-fail/, in place of those that the gate tries, and
# `rt must-fail` tries them, over what `rt check` has proved here: check a crate and those below it first, or they are proved from nothing. A line tells of each
# edit. The last line is `N refused, M not refused, K bad`, and the status is 1 unless all are refused. A bad edit is one that cannot be tried.
set -eu
top=$(cd "$(dirname "$0")/.." && pwd)
work=$(mktemp -d)
trap 'rm -rf "$work"' EXIT
trap 'exit 1' HUP INT TERM
cp "$top/HANDLES" "$work"
# Links where they can be made: `rt` writes such files anew, and never into them.
links=l
ln "$top/crates.txt" "$work" 2> /dev/null || { links=; cp "$top/crates.txt" "$work"; }
for folder in "$top"/crates/*; do
    crate=$work/crates/$(basename "$folder")
    mkdir -p "$crate/out"
    for part in src specs proofs out/rlib out/incremental; do
        if [ -d "$folder/$part" ]; then cp -R$links "$folder/$part" "$crate/$part"; fi
    done
done

total=0
: > "$work/said"
cd "$top/tests/edits"
if [ $# -eq 0 ]; then set -- *; fi
for crate in "$@"; do
    cp -R "$crate" "$work/crates/$crate/must-fail"
    total=$((total + $(find "$crate" -name '*.edit' | wc -l)))
    (cd "$work" && rt must-fail "$crate" < /dev/null) | tee -a "$work/said"
done
refused=$(grep -c '^rt: must-fail .*: refused' "$work/said" || true)
missed=$(grep -c '^rt: must-fail .*: NOT REFUSED' "$work/said" || true)
echo "$refused refused, $missed not refused, $((total - refused - missed)) bad"
[ "$total" -gt 0 ] && [ "$refused" -eq "$total" ]
