#!/bin/sh
# Prints the files beside bac_service that list the services: each names the four requests, or what three of them are answered with. A fifth service has to be
# added to each of them. Run it from the top of the repository.
set -eu

# names NAME..: the files that have each of these names
names() {
    files=$(grep -rlw --include='*.rt' --include='*.antt' -- "$1" crates | grep -v '^crates/bac_service/\|/out/')
    shift
    for name in "$@"; do
        files=$(printf '%s\n' "$files" | xargs grep -lw -- "$name" || true)
    done
    printf '%s\n' "$files"
}

{
    names ReadFile WriteFile ReadProperty WriteProperty
    names FileRead FileWritten PropertyRead
    names FileRead StreamWritten RecordsWritten PropertyRead
} | grep . | sort -u
