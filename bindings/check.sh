#!/usr/bin/env bash
# Builds the static library, and tests the Rust crate and the C header over it. Where VALWYDR_LIB_DIR names a folder with an archive,
# that one is tested.
set -euo pipefail

root=$(cd "$(dirname "${BASH_SOURCE[0]}")/.." && pwd)
cd "$root"

# Proves the library and writes its archive, for any x86-64 processor; what rt says is shown where it fails.
build_archive() {
    local said
    said=$(cd crates/valwydr && rt lib --cpu=x86-64 2>&1) || { echo "$said"; return 1; }
    echo "${said##*$'\n'}"
}

[[ -n ${VALWYDR_LIB_DIR-} ]] || build_archive
VALWYDR_LIB_DIR=$(realpath "${VALWYDR_LIB_DIR-crates/valwydr/out}")
export VALWYDR_LIB_DIR
(cd bindings/rust && cargo fmt --check && cargo test --offline --quiet)
bindings/c/check.sh "$VALWYDR_LIB_DIR/libvalwydr.a"
