#!/bin/sh
# Writes the archives that the packages here link:  archives.sh [edge] [edge_compare], with no name both.
# Each is the static library edge_c or edge_compare_c of the repository, proved and built, and put into ../target/staticlib under the name that its
# callers link, libedge.a or libedge_compare.a.
set -eu
here=$(cd "$(dirname "$0")" && pwd -P)
lib=$here/../target/staticlib
[ $# != 0 ] || set -- edge edge_compare
mkdir -p "$lib"
for name in "$@"; do
    (cd "$here/../crates/${name}_c" && rt lib)
    cp "$here/../crates/${name}_c/out/lib${name}_c.a" "$lib/lib$name.a"
done
