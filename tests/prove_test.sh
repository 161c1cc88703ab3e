#!/bin/sh
# Tests tests/prove.sh:
#     sh tests/prove_test.sh
# First with a program in place of `rt` that proves nothing: the script must name each crate of `bac` once, after those below it, and no other crate; and a crate that
# fails must end it with status 1. Then as it is, over the proofs that an earlier `sh tests/prove.sh` kept: without those this takes as long as that does.
# It prints `prove.sh: right`, or what is wrong, with status 1.
set -eu
top=$(cd "$(dirname "$0")/.." && pwd)
work=$(mktemp -d)
trap 'rm -rf "$work"' EXIT
trap 'exit 1' HUP INT TERM

wrong() {
    echo "prove.sh: $1"
    cat "$work/out"
    exit 1
}

# The script, with that much in front of PATH: its output is in $work/out, its status in $status.
run() {
    status=0
    PATH="$1$PATH" sh "$top/tests/prove.sh" > "$work/out" 2>&1 || status=$?
}
ends_proved() {
    tail -n 1 "$work/out" | grep -Eqx 'proved: crates/bac/out/bac, [0-9]+ seconds'
}
# The crates that have a line, in order.
named() {
    sed -n 's/^\[[0-9]*\/[0-9]*\] \([a-z_0-9]*\): [0-9]* seconds$/\1/p' "$work/out"
}

mkdir "$work/bin"
cat > "$work/bin/rt" <<'STANDS_FOR'
#!/bin/sh
if [ "$(basename "$PWD")" = "${FAILS:-}" ]; then echo "this crate fails"; exit 1; fi
if [ "$1" = run ]; then
    # as the program: help has status 2
    if [ "$*" != "run -- $(paste -s -d ' ' args)" ]; then exit 2; fi
    cat stdout
fi
STANDS_FOR
chmod +x "$work/bin/rt"

run "$work/bin:"
if [ "$status" -ne 0 ] || ! ends_proved; then wrong "status $status, or another last line, where each crate is proved"; fi
named > "$work/named"
if [ -n "$(sort "$work/named" | uniq -d)" ]; then wrong "a crate is proved twice"; fi
count=$(wc -l < "$work/named")
grep -Eqx "\[$count/$count\] bac: [0-9]+ seconds" "$work/out" || wrong "bac is not the last of $count crates"
: > "$work/wanted"
# Each crate needs those below it before it, and only bac is needed by no other.
while read -r crate; do
    for name in $(sed -n "s/^$crate\( [^:]*\)\{0,1\}://p" "$top/crates.txt"); do
        if [ -d "$top/crates/$name" ]; then
            echo "$name" >> "$work/wanted"
            grep -qx "$name" "$work/before" 2> /dev/null || wrong "$crate comes before $name"
        fi
    done
    echo "$crate" >> "$work/before"
done < "$work/named"
echo bac >> "$work/wanted"
sort -u "$work/wanted" > "$work/needed"
sort "$work/named" | cmp -s - "$work/needed" || wrong "other crates than those that bac stands on"

for FAILS in bac_value bac_node bac; do
    export FAILS
    run "$work/bin:"
    if [ "$status" -ne 1 ] || ends_proved || ! grep -qx "$FAILS: not proved" "$work/out"; then wrong "status $status where $FAILS is not proved"; fi
done

unset FAILS
run ""
if [ "$status" -ne 0 ] || ! ends_proved; then wrong "status $status, or another last line"; fi
"$top/crates/bac/out/bac" answer 810A001101040005010C0C000000051955 | cmp -s - "$top/crates/bac/stdout" || wrong "out/bac does not answer"
echo "prove.sh: right"
