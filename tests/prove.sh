#!/bin/sh
# Proves the program `bac` and every crate below it, and builds it as crates/bac/out/bac:
#     sh tests/prove.sh
# Crates of tests, and libraries that the program does not use, are left out. `rt` works on one crate of a checkout at a time, so crates are proved side by side in
# copies of the repository, one for each core that has 4 GB of free memory (JOBS=N: N copies). Each copy gets the libraries that the others proved. A crate has as
# many jobs as there are cores that no other one can use. What an earlier run proved is kept. A line for each crate says how far it is. The last line is
# `proved: crates/bac/out/bac, S seconds`. If a crate is not proved, the script prints the end of what `rt` said, and its status is 1.
set -eu
top=$(cd "$(dirname "$0")/.." && pwd)

# Whether all that a crate stands on is proved.
is_ready() {
    while read -r lower; do
        if [ ! -e "$WORK/proved/$lower" ]; then return 1; fi
    done < "$WORK/below/$1"
}

# Takes the first crate that can be proved now, and names it; names none where there is no such crate.
take() {
    for name in $CRATES; do
        if [ ! -e "$WORK/taken/$name" ] && is_ready "$name" && mkdir "$WORK/taken/$name" 2> /dev/null; then
            echo "$name"
            return
        fi
    done
}

# How many jobs a crate has that begins now: its share of the cores, among the crates that are being proved or could be.
share() {
    others=0
    for name in $CRATES; do
        if [ ! -e "$WORK/proved/$name" ] && { [ -e "$WORK/taken/$name" ] || is_ready "$name"; }; then others=$((others + 1)); fi
    done
    echo $(((JOBS + others - 1) / others))
}

# Gives a folder of a crate's out/ from one checkout to another: `rt` writes such files anew, and never into them.
give() {
    if [ -d "$1/crates/$3/out/$4" ]; then
        rm -rf "$2/crates/$3/out/$4"
        mkdir -p "$2/crates/$3/out"
        cp -Rl "$1/crates/$3/out/$4" "$2/crates/$3/out/$4"
    fi
}

# Proves a crate in a copy, with so many jobs, and gives what it made to the others.
prove() {
    begun=$(date +%s)
    give "$top" "$1" "$2" incremental
    status=0
    (cd "$1/crates/$2" && rt lib --jobs "$3") > "$WORK/said/$2" 2>&1 < /dev/null || status=$?
    give "$1" "$top" "$2" incremental
    if [ "$status" -ne 0 ]; then
        tail -n 40 "$WORK/said/$2"
        echo "$2: not proved"
        kill -s TERM "$PPID" # the script ends, and with it all that it began
        exit 1
    fi
    for to in "$top" "$WORK"/copies/*; do
        if [ "$to" != "$1" ]; then give "$1" "$to" "$2" rlib; fi
    done
    echo "[$(($(ls "$WORK/proved" | wc -l) + 1))/$COUNT] $2: $(($(date +%s) - begun)) seconds"
    : > "$WORK/proved/$2"
}

# Proves crates in a copy, until each is taken.
if [ "${1:-}" = --in ]; then
    while [ "$(ls "$WORK/taken" | wc -l)" -lt $((COUNT - 1)) ]; do
        crate=$(take)
        if [ -n "$crate" ]; then prove "$2" "$crate" "$(share)"; else sleep 1; fi
    done
    exit 0
fi

begun_all=$(date +%s)
JOBS=${JOBS:-$(awk -v cores="$(nproc)" '/^MemAvailable:/ { rooms = int($2 / 4000000); print rooms < 1 ? 1 : rooms < cores ? rooms : cores }' /proc/meminfo)}
mkdir -p "$top/crates/bac/out"
WORK=$(mktemp -d "$top/crates/bac/out/proving.XXXXXX")
lanes=
finish() {
    for lane in $lanes; do kill -s TERM -- "-$lane" 2> /dev/null || true; done
    wait
    rm -rf "$WORK"
}
trap finish EXIT
trap 'exit 1' HUP INT TERM

# The program and all below it, each crate after those below it.
CRATES=$(awk '
    function visit(name, names, count, i) {
        if (!(name in below) || name in seen) return
        seen[name] = 1
        count = split(below[name], names, " ")
        for (i = 1; i <= count; i++) visit(names[i])
        print name
    }
    /^[^#]/ { split($0, sides, ":"); split(sides[1], words, " "); below[words[1]] = sides[2] }
    END { visit("bac") }' "$top/crates.txt")
COUNT=$(echo "$CRATES" | wc -l)
CRATES=$(echo "$CRATES" | sed '$d') # all but the program
export WORK JOBS CRATES COUNT
mkdir "$WORK/below" "$WORK/taken" "$WORK/proved" "$WORK/said" "$WORK/copies"
for crate in $CRATES; do
    for name in $(sed -n "s/^$crate\( [^:]*\)\{0,1\}://p" "$top/crates.txt"); do
        if [ -d "$top/crates/$name" ]; then echo "$name"; fi
    done > "$WORK/below/$crate"
done

for number in $(seq "$JOBS"); do
    copy=$WORK/copies/$number
    mkdir "$copy"
    tar -C "$top" -cf - --anchored --no-wildcards-match-slash --exclude='crates/*/out' crates crates.txt HANDLES | tar -C "$copy" -xf -
    for crate in $CRATES; do give "$top" "$copy" "$crate" rlib; done
done
for copy in "$WORK"/copies/*; do
    setsid sh "$0" --in "$copy" &
    lanes="$lanes $!"
done
for lane in $lanes; do wait "$lane"; done
lanes=

begun=$(date +%s)
# shellcheck disable=SC2046 # a word a line
if ! (cd "$top/crates/bac" && rt run -- $(cat args)) > "$WORK/out" 2> "$WORK/err" < /dev/null; then
    cat "$WORK/out" "$WORK/err" | tail -n 40
    echo "bac: not proved"
    exit 1
fi
echo "[$COUNT/$COUNT] bac: $(($(date +%s) - begun)) seconds"
cmp "$WORK/out" "$top/crates/bac/stdout"
sh "$top/tests/built.sh" > "$top/crates/bac/out/bac.build"
echo "proved: crates/bac/out/bac, $(($(date +%s) - begun_all)) seconds"
