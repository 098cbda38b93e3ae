#!/usr/bin/env bash
# Times each entry of the library beside the commit's Rust, and prints tables in Markdown:
#
#   bindings/bench/run.sh [--rounds N] [--stack] [PART OF AN ENTRY'S NAME]
#
# With --stack it measures the stack that each entry needs instead. The archive is that of crates/valwydr/out, or of the folder that
# VALWYDR_LIB_DIR names; the commit's files are found as the oracle finds them.
set -euo pipefail

root=$(cd "$(dirname "${BASH_SOURCE[0]}")/../.." && pwd)
cd "$root"
VALWYDR_LIB_DIR=$(realpath "${VALWYDR_LIB_DIR-crates/valwydr/out}")
ALPENGLOW_SRC=$(realpath "${ALPENGLOW_SRC-../shared/docs/src}")
export VALWYDR_LIB_DIR ALPENGLOW_SRC
(cd "$ALPENGLOW_SRC" && sha256sum --check --strict --quiet "$root/oracle/sources.sha256")

cd bindings/bench
cargo build --release --quiet
# What the Rust frees it can have again without asking the system.
MALLOC_TRIM_THRESHOLD_=1000000000 MALLOC_MMAP_THRESHOLD_=1000000000 exec ../../target/bench/release/bench "$@"
