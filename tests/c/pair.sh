#!/bin/sh
# pair.sh OUT [BAC]: OUT/serve and OUT/ask with each other, run by RUN where it is set, as by valgrind or qemu; and with `BAC serve` and `BAC ask` where BAC
# is given.
set -eu
out=$1 bac=${2:-} failed=0
run=${RUN:-}

row() { # row WANT COMMAND..: prints, and holds against what is wanted
    want=$1
    shift
    got=$("$@" || true)
    [ "$got" = "$want" ] || { echo "wrong: $*: '$got', not '$want'"; failed=1; }
}

port_of() { # the port that a server printed first
    for _ in $(seq 50); do
        port=$(sed -n 's/^port //p' "$1")
        [ -z "$port" ] || break
        sleep 0.2
    done
    echo "$port"
}

: > "$out/served"
$run "$out/serve" 0 6 > "$out/served" &
served=$!
port=$(port_of "$out/served")
row "answered read 4441A00000" $run "$out/ask" "$port" 2 1 85
row "answered written" $run "$out/ask" "$port" 2 1 85 4443340000
row "answered error 1:31" $run "$out/ask" "$port" 0 9 85
if [ -n "$bac" ]; then
    row "answered read 4443340000" "$bac" ask --port "$port" read 2:1 85
    row "answered position 10" "$bac" ask --port "$port" append 10:1 AABB
    row "answered file 1 10 AABB" "$bac" ask --port "$port" get 10:1 10 100
else
    row "answered read 4443340000" $run "$out/ask" "$port" 2 1 85
    row "answered read 750B00636F6E74726F6C6C6572" $run "$out/ask" "$port" 8 77 77
    row "answered error 2:40" $run "$out/ask" "$port" 0 1 85 4443340000
fi
wait $served || failed=1
grep -q "^written 2:1 4443340000$" "$out/served" || { echo "wrong: the write was not told"; failed=1; }
if [ -n "$bac" ]; then
    # many turns, so that it outlives two asks under valgrind on a busy machine
    "$bac" serve --port 47909 --turns 1000 > "$out/house" &
    served=$!
    sleep 0.3
    row "answered read 444290999A" $run "$out/ask" 47909 0 5 85
    row "answered written" $run "$out/ask" 47909 2 1 85 4443340000
    kill $served || failed=1
fi
[ $failed = 0 ] && echo "serve and ask: all as wanted"
exit $failed
