#!/bin/sh
# Counts with valgrind how many allocations the transfer of each row takes, and how many its copies: what the program takes more than where it does
# neither. Fails where the two differ. After `rt run` in a crate made of this folder.
set -eu
count() {
    valgrind out/transfer "$1" "$2" 2>&1 | sed -n 's/.*total heap usage: \([0-9,]*\) allocs.*/\1/p' | tr -d ,
}
status=0
for row in 0 1 2 3 4; do
    nothing=$(count $row nothing)
    transfer=$(($(count $row transfer) - nothing))
    copies=$(($(count $row copies) - nothing))
    echo "row $row: the transfer takes $transfer allocations, its copies $copies"
    if [ $transfer -ne $copies ]; then status=1; fi
done
exit $status
