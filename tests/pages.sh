#!/usr/bin/env bash
# No line of a page, a source or a definition is above 160 bytes, rows of tables apart.
set -euo pipefail
cd "$(dirname "${BASH_SOURCE[0]}")/.."

# the lines of a file that are too long: MOST, and then the file
long() {
    awk -v most="$1" 'length($0) > most && !/^\|/ { print FILENAME ":" FNR ": " length($0) }' "$2"
}

made=$(mktemp)
trap 'rm "$made"' EXIT
printf '%0161d\n%0160d\n| %0161d\n' 0 0 0 > "$made"
[ "$(LC_ALL=C long 160 "$made")" = "$made:1: 161" ] || { echo "pages: the test itself is broken"; exit 1; }

found=$(for f in *.md docs/*.md host/*.md oracle/*.md crates/*/src/*.rt crates/*/specs/*.antt; do LC_ALL=C long 160 "$f"; done)
[ -z "$found" ] || { echo "$found"; exit 1; }
echo "pages: no line is too long"
