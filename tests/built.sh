#!/bin/sh
# Prints how a program that is built now is built, for the file bac.build beside it, which `bac version` tells: the commit, whether files were changed since, and the
# kit. Without a repository it prints the kit alone.
#     sh tests/built.sh
set -eu
cd "$(dirname "$0")/.."
commit=$(git log -1 --format=%h 2> /dev/null || true)
if [ -n "$commit" ]; then
    if ! git diff --quiet HEAD 2> /dev/null; then commit="$commit with changes"; fi
    commit="commit $commit, "
fi
echo "$commit$(rt version)"
