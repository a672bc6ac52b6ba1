#!/usr/bin/env bash
# The host's test: writes the archives where they are absent, then runs the Rust tests, the example, the wrapper with libedge.a alone, the C
# program and the tool. It passes if its last line is 'host ok'.
set -euo pipefail
here=$(cd "$(dirname "${BASH_SOURCE[0]}")" && pwd -P)
for name in edge edge_compare; do
    if [ -z "${PIVOTFERN_LIB:-}" ] && [ ! -e "$here/../target/staticlib/lib$name.a" ]; then
        "$here/archives.sh" "$name"
    fi
done
lib=$(cd "$here" && cd "${PIVOTFERN_LIB:-../target/staticlib}" && pwd -P)
dir=$(mktemp -d)
trap 'rm -r "$dir"' EXIT

"$here/build.sh" cargo test --offline
"$here/build.sh" cargo run --quiet --offline --example night

if [ "$(uname -m)" = x86_64 ]; then
    # a box that makes the three calls alone: its folder has no other archive
    ln -s "$lib/libedge.a" "$dir/libedge.a"
    PIVOTFERN_LIB=$dir "$here/build.sh" cargo test --quiet --offline -p pivotfern --test hall
else
    echo "host: build.sh links both archives here, the wrapper with libedge.a alone is not tried"
fi

# the expected line is document 01's case 3
if [ "$(uname -m)" = x86_64 ] && command -v cc >/dev/null; then
    cc -std=c99 -pedantic-errors -Wall -Wextra -o "$dir/hall" "$here/c/hall.c" "$lib/libedge.a"
    [ "$("$dir/hall")" = "out 1" ]
else
    echo "host: no C compiler for x86-64 at hand, c/hall.c is not tried"
fi

# the tool itself: what it writes, and its exit status for a file that is wrong
cases=$here/tools/tests/cases
out=$("$here/cases" <"$cases/hall.txt")
[ "$out" = "$(grep -v -e '^#' -e '^$' "$cases/hall.answers")" ]
status=0
message=$("$here/cases" <"$cases/bad_name.txt" 2>&1 >/dev/null) || status=$?
[ "$status" = 2 ]
[ "$message" = "$(cat "$cases/bad_name.error")" ]
echo "host ok"
