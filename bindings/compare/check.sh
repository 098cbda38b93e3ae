#!/usr/bin/env bash
# Compares the static library with the oracle and the model: `check.sh [SECONDS] [PART...]`. SECONDS is how long `compare` goes on,
# 20 where nothing is said; the parts are `faults`, `compare` and `memory`, all three where none is named.
# The archive is libvalwydr.a in the folder that VALWYDR_LIB_DIR names, or else in crates/valwydr/out,
# where `rt lib --cpu=x86-64` writes it; `rt ci` removes it there.
# What this machine lacks is said in a line and passed over.
set -euo pipefail

root=$(cd "$(dirname "${BASH_SOURCE[0]}")/../.." && pwd)
cd "$root"
source oracle/lacks.sh
here=bindings/compare
archive=${VALWYDR_LIB_DIR-crates/valwydr/out}/libvalwydr.a
build=target/compare
oracle=target/oracle/release/oracle
# The functions between which and the driver faults.c stands.
wrapped=(iid_sample_quorum decaying_acceptance_sample_one weighted_shuffle stake_sub)
export PYTHONDONTWRITEBYTECODE=1

# Links the driver with the archive: the name of the program, then what else is linked.
link() {
    cc -std=c11 -D_POSIX_C_SOURCE=200809L -O2 -Wall -Wextra -Wpedantic -Wconversion -Werror -Ibindings/include \
        "$here"/driver/*.c "${@:2}" "$archive" -o "$build/$1"
}

# Whether the comparison reports what it has to.
check_faults() {
    link faulty_driver "$here/faults.c" "${wrapped[@]/#/-Wl,--wrap=valwydr_}"
    FAULTY=$build/faulty_driver python3 "$here/test_comparison.py"
}

# The library against the model, and the oracle against the model where the commit's files are there.
check_compare() {
    oracle/check.sh build
    local asked=()
    [[ ! -x $oracle ]] || asked=(--oracle "$oracle")
    python3 "$here/compare_library.py" --driver "$build/driver" "${asked[@]}" --seconds "$seconds"
}

# Limits and damaged cases where each lent buffer is a heap block of just its length, so that a stray byte is caught.
check_memory() {
    has valgrind || { skip memory "valgrind is not installed"; return 0; }
    python3 "$here/compare_library.py" --driver "valgrind --quiet --error-exitcode=9 $build/driver exact" \
        --sources listed,limits,damaged --calls 6000 --seconds 30
}

seconds=20
if [[ ${1-} =~ ^[0-9]+$ ]]; then
    seconds=$1
    shift
fi
[[ $# -gt 0 ]] || set -- faults compare memory
has cc || { skip comparison "cc is not installed"; exit 0; }
has python3 || { skip comparison "python3 is not installed"; exit 0; }
[[ -f $archive ]] || { skip comparison "there is no '$archive'"; exit 0; }
mkdir -p "$build"
link driver
for name in "$@"; do
    "check_$name"
done
