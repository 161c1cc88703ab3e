#!/bin/sh
# Runs the memory tests and the memory rows with one allocation after the other refused:
#     sh tests/memory/refused.sh [CRATE..]
# of all crates that have some, or of those that are given. A memory test is one of a module memory, or one with a name that ends in was_refused; a memory row
# is one of a file stdin whose title ends in [memory]. `rt test` and `rt run` prove and build, and refuse.py refuses: each allocation once, in a run of its own;
# in the test commits_without_memory also each with all that come after it. It ends with a status other than 0 where a run does not go as it has to, or where a
# crate has nothing to run.
set -eu
top=$(cd "$(dirname "$0")/../.." && pwd)
memory=$top/tests/memory
work=$(mktemp -d)
trap 'rm -r "$work"' EXIT
"${CC:-cc}" -shared -fPIC -O2 -o "$work/refuse.so" "$memory/refuse.c"

refuse() {
    python3 "$memory/refuse.py" "$@" || echo failed > "$work/failed"
}

for crate in ${*:-bac_tests bac_stack_rows}; do
    cd "$top/crates/$crate"
    rest=
    if [ -f stdin ]; then
        rt run < stdin > "$work/log" 2>&1 || { tail -n 20 "$work/log"; exit 1; }
        program=$PWD/out/$crate
        mkdir "$work/$crate"
        runs=$(python3 "$memory/rows.py" stdin stdout "$work/$crate")
    else
        rt test > "$work/log" 2>&1 || { tail -n 20 "$work/log"; exit 1; }
        program=$PWD/out/${crate}_tests
        runs=$("$program" --list | sed -n -E 's/^(.*(memory::.*|was_refused)): test$/\1/p')
        rest=$(echo "$runs" | grep 'commits_without_memory$' || true)
    fi
    if [ -z "$runs" ]; then echo "$crate has nothing to run"; exit 1; fi
    echo "$crate:"
    refuse "$work/refuse.so" "$program" $runs
    if [ -n "$rest" ]; then
        echo "$crate, with all that come after it:"
        refuse --rest "$work/refuse.so" "$program" $rest
    fi
done
if [ -f "$work/failed" ]; then echo "some runs failed"; exit 1; fi
echo "each run went as it has to"
