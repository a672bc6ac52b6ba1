#!/bin/sh
# Builds apex/src out of the original Rust (original/). Files marked VERBATIM are byte copies; the only edits
# to original text are the ones under EDITS, which ./show_edits.sh prints as diffs.
# Then links the crates that the original needs, from Debian's packages, into vendor/.
set -eu
HERE=$(cd "$(dirname "$0")" && pwd)
SOURCES=${SOURCES:-$HERE/original/src}
S=$HERE/apex/src
rm -rf "$S"
mkdir -p "$S/core" "$S/linalg/schur" "$S/linalg/sparse/schur" "$S/linearizer/cpu"
verbatim() { cp "$SOURCES/$1.rs.txt" "$S/$1.rs"; }
# VERBATIM
for f in linalg/mod linalg/regularization linalg/schur/jacobian_ops linalg/schur/partition linalg/schur/pcg \
    linalg/sparse/pattern linalg/sparse/schur/implicit linearizer/cpu/mod; do verbatim "$f"; done
# EDITS
# 1. implicit.rs: row_chunk_len returns L when one is set
sed -i 's|^    nrows.div_ceil(chunks).max(MIN_CHUNK_ROWS)$|    crate::oracle_l::or(nrows.div_ceil(chunks).max(MIN_CHUNK_ROWS))|' \
    "$S/linalg/sparse/schur/implicit.rs"
# 2. implicit.rs: appended accessor module (child modules see private items)
printf '\n#[path = "../../../../access/implicit_access.rs"]\npub mod oracle_access;\n' >> "$S/linalg/sparse/schur/implicit.rs"
# 3. partition.rs: appended accessor module
printf '\n#[path = "../../../access/partition_access.rs"]\npub mod oracle_access;\n' >> "$S/linalg/schur/partition.rs"
# 4. implicit.rs: appended accessor module of the bench
printf '\n#[path = "../../../../access/bench_access.rs"]\npub mod bench_access;\n' >> "$S/linalg/sparse/schur/implicit.rs"
# STAND-INS (not original text)
A=$HERE/apex/stand_in
cp "$A/lib.rs"              "$S/lib.rs"
cp "$A/core_mod.rs"         "$S/core/mod.rs"
cp "$A/core_variable.rs"    "$S/core/variable.rs"
cp "$A/dense.rs"            "$S/linalg/dense.rs"
cp "$A/covariance.rs"       "$S/linalg/covariance.rs"
cp "$A/schur_mod.rs"        "$S/linalg/schur/mod.rs"
cp "$A/sparse_mod.rs"       "$S/linalg/sparse/mod.rs"
cp "$A/sparse_schur_mod.rs" "$S/linalg/sparse/schur/mod.rs"
echo 'pub mod cpu;' > "$S/linearizer/mod.rs"
: > "$S/linearizer/cpu/dense.rs"
: > "$S/linearizer/cpu/sparse.rs"
# error.rs: only its logging part, cut out of the original unchanged
{ echo '// stand-in head; the rest is cut from the original error.rs'
  sed -n '/^pub use logging::/,$p' "$SOURCES/error.rs.txt"; } > "$S/error.rs"
# VENDOR: rayon, slotmap, tracing and thiserror as Debian ships them
dpkg -s librust-rayon-dev librust-slotmap-dev librust-tracing-dev librust-thiserror-dev >/dev/null 2>&1 || {
    apt-get update -qq
    apt-get install -y -qq librust-rayon-dev librust-slotmap-dev librust-tracing-dev librust-thiserror-dev >/dev/null
}
R=$(dpkg -L librust-rayon-dev | grep -m1 '/registry$')
rm -rf "$HERE/vendor" && mkdir "$HERE/vendor"
for k in autocfg cfg-if crossbeam-channel crossbeam-deque crossbeam-epoch crossbeam-utils either libc log memoffset num_cpus \
    once_cell pin-project-lite proc-macro2 quote rayon rayon-core scopeguard slotmap syn thiserror thiserror-impl tracing \
    tracing-attributes tracing-core unicode-ident version_check; do
    for d in "$R/$k"-[0-9]*; do ln -s "$d" "$HERE/vendor/$(basename "$d")"; done
done
mkdir -p "$HERE/.cargo"
printf '[source.crates-io]\nreplace-with = "debian"\n[source.debian]\ndirectory = "vendor"\n[net]\noffline = true\n' > "$HERE/.cargo/config.toml"
