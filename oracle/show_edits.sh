#!/bin/sh
# Every difference between the original Rust (original/) and the compiled files.
HERE=$(cd "$(dirname "$0")" && pwd)
SOURCES=${SOURCES:-$HERE/original/src}
for f in linalg/mod linalg/regularization linalg/schur/jacobian_ops linalg/schur/partition linalg/schur/pcg \
    linalg/sparse/pattern linalg/sparse/schur/implicit linearizer/cpu/mod; do
    echo "== $f.rs"
    diff "$SOURCES/$f.rs.txt" "$HERE/apex/src/$f.rs" && echo identical
done
true
