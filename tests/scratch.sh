#!/bin/sh
# Runs a command in a copy of a program's folder, in a temporary repository that has the crates below it:
#     sh tests/scratch.sh bench/reading rt run
#     sh tests/scratch.sh tests/memory/growths sh count.sh
# A program's files end in .rt.in and are copied as src/NAME.rt, since the gate wants each .rt file in a crate of crates.txt.
# Its file shares names what it has from other places of bench/, one path a line, as rounds.rt.in.
# Its file stands_on names the crates that it stands on, where these are more than bac_value and bac_service.
# The libraries of the crates below are taken from their out/rlib folders, where these are there.
# SCRATCH=FOLDER keeps the repository in that folder with what was proved there, for the next time; otherwise it is removed.
set -eu
top=$(cd "$(dirname "$0")/.." && pwd)
folder=$1
name=$(basename "$folder")
shift
if [ -n "${SCRATCH:-}" ]; then
    work=$SCRATCH
    rm -f "$work/crates.txt"
else
    work=$(mktemp -d)
    trap 'rm -rf "$work"' EXIT
    trap 'exit 1' HUP INT TERM
fi
mkdir -p "$work/crates/$name/src"
needs="bac_value bac_service"
if [ -f "$top/$folder/stands_on" ]; then needs=$(cat "$top/$folder/stands_on"); fi
for need in $needs; do
    # the kit's own libraries stand elsewhere
    if [ -d "$top/crates/$need" ]; then
        mkdir -p "$work/crates/$need/out"
        (cd "$top/crates/$need" && tar -c --exclude=./out . && if [ -d out/rlib ]; then tar -c out/rlib; fi) | tar -xi -C "$work/crates/$need"
        grep "^$need:" "$top/crates.txt" >> "$work/crates.txt"
    fi
done
for file in "$top/$folder"/*; do
    case "$file" in
        *.rt.in) cp "$file" "$work/crates/$name/src/$(basename "$file" .in)" ;;
        *) cp "$file" "$work/crates/$name" ;;
    esac
done
if [ -f "$top/$folder/shares" ]; then
    while read -r shared; do
        cp "$top/bench/$shared" "$work/crates/$name/src/$(basename "$shared" .in)"
    done < "$top/$folder/shares"
fi
echo "$name: $needs" >> "$work/crates.txt"
cd "$work/crates/$name"
"$@"
