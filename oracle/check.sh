#!/usr/bin/env bash
# Checks the oracle and the model: `check.sh model`, `check.sh oracle`, `check.sh compare`, or all three where nothing is named.
# `check.sh build` builds the oracle and checks nothing.
# What this machine lacks is said in a line and passed over.
set -euo pipefail

root=$(cd "$(dirname "${BASH_SOURCE[0]}")/.." && pwd)
cd "$root"
sources=${ALPENGLOW_SRC-../shared/docs/src}
binary=target/oracle/release/oracle
cases=20000
export CARGO_TARGET_DIR=$root/target/oracle PYTHONDONTWRITEBYTECODE=1

source oracle/lacks.sh

# The model's own tests, and the stored lists against the model.
check_model() {
    has python3 || { skip model "python3 is not installed"; return 0; }
    python3 oracle/model/test_model.py
    python3 oracle/model/store.py --check
}

# Whether the oracle can be built; says what is lacking.
can_build() {
    [[ -d $sources ]] || { skip oracle "there is no folder '$sources' with the commit's files"; return 1; }
    has cargo || { skip oracle "cargo is not installed"; return 1; }
}

# The oracle's binary alone.
check_build() {
    can_build || return 0
    (cd oracle && cargo build --release --offline --quiet)
    echo "oracle: built $binary"
}

# The commit's files against their hashes; the oracle's layout, tests and build.
check_oracle() {
    can_build || return 0
    (cd "$sources" && sha256sum --check --strict --quiet "$root/oracle/sources.sha256")
    cd oracle
    if has rustfmt; then
        cargo fmt --all --check
        # No crate's own tree holds the probes, so cargo does not find them.
        rustfmt --check --edition 2024 alpenglow/probes/*.rs
    fi
    cargo test --release --offline --quiet
    cd ..
    check_build
}

# The oracle against the model.
check_compare() {
    [[ -x $binary ]] || { skip compare "the oracle is not built"; return 0; }
    has python3 || { skip compare "python3 is not installed"; return 0; }
    python3 oracle/model/compare.py "$binary" "$cases"
}

[[ $# -gt 0 ]] || set -- model oracle compare
for name in "$@"; do
    "check_$name"
done
