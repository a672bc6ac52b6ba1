#!/usr/bin/env bash
# The host's declarations, in Rust and in its C header, agree with the source of the exports: name, parameters, result. Without a Rust compiler it
# says so and passes.
set -euo pipefail
cd "$(dirname "${BASH_SOURCE[0]}")/.."

if ! command -v rustc > /dev/null; then
    echo "signatures: no Rust compiler here, not looked at"
    exit 0
fi
dir=$(mktemp -d)
trap 'rm -r "$dir"' EXIT
export CARGO_MANIFEST_DIR=$PWD/host/pivotfern
rustc --edition 2021 --test host/pivotfern/tests/signatures.rs -o "$dir/signatures" 2> "$dir/log" || { cat "$dir/log"; exit 1; }
"$dir/signatures" > "$dir/log" || { cat "$dir/log"; exit 1; }
echo "signatures: the declarations of the host, in Rust and in C, agree with the exports"
