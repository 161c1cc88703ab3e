#!/bin/sh
# Runs most scripts of this folder, one after the other, each for so many minutes at most (names.py and enumerations.py need tshark, faults.py and power.py cc):
#     sh tests/outside/all.sh PROGRAM
# A line tells of each `ok` or what is wrong, with its last line and the file with all that it printed, and the seconds. The last line is `N ok, M wrong`, and the
# status is 1 where one was wrong. On a busy machine some are wrong that are right otherwise.
set -eu
program=$(realpath "${1:?the program, such as crates/bac/out/bac}")
cd "$(dirname "$0")/../.."
out=$(mktemp -d)
right=0
wrong=0
running=
trap 'test -z "$running" || kill $running 2> /dev/null; exit 1' HUP INT TERM

# What a script is wrong with, by its status.
fault() { if [ "$1" -eq 124 ] || [ "$1" -eq 137 ]; then echo "not ended after $2 minutes"; else echo "status $1"; fi; }

while read -r minutes script words; do
    said=$out/${script%.py}
    begun=$(date +%s)
    status=0
    # shellcheck disable=SC2086 # the words of the table below
    timeout -k 10 "${minutes}m" python3 "tests/outside/$script" "$program" $words > "$said" 2>&1 < /dev/null &
    running=$!
    wait $running || status=$?
    took="$(($(date +%s) - begun)) s"
    if [ "$status" -eq 0 ]; then
        right=$((right + 1))
        echo "$script: ok, $took"
    else
        wrong=$((wrong + 1))
        echo "$script: $(fault "$status" "$minutes"), $took: $(tail -n 1 "$said") ($said)"
    fi
done << 'END'
5 browse.py
5 points.py
10 local.py
5 planted.py
5 escapes.py
5 foreign.py
5 amplified.py
10 forger.py
20 damages.py 200
5 keep.py 60
40 faults.py
10 attack.py 1 60 tests/outside/datagrams.tsv
20 ports.py
40 power.py
10 losses.py 1
10 restarts.py 1
10 tour.py
10 cookbook.py
10 objects.py
10 habits.py 40
5 names.py
5 enumerations.py
10 unit.py by-hand
END
if [ "$wrong" -eq 0 ]; then rm -r "$out"; fi
echo "$right ok, $wrong wrong"
[ "$wrong" -eq 0 ]
