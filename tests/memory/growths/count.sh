#!/bin/sh
# Refuses one allocation after the other, from the first after the 13 of the pieces on, and writes what came of it: the call
# that was out of memory, and how many allocations there were. The last of these numbers is greater than all of them.
# Fails where that is not what expected.txt says.
set -eu
for refused in 14 15 16 17; do
    echo "allocation $refused refused:"
    rt try --fail-alloc "$refused" 2>&1 | grep -E 'no memory|refused$|allocations:' | sort -u
done > found.txt
diff expected.txt found.txt
echo "as expected"
