#!/usr/bin/env bash
# Compiles test.c against an archive of the library and runs it: `check.sh [ARCHIVE]`, by default the archive that
# `rt lib --cpu=x86-64` writes in crates/valwydr. The header is also read as C++.
set -euo pipefail

here=$(cd "$(dirname "${BASH_SOURCE[0]}")" && pwd)
archive=${1-$here/../../crates/valwydr/out/libvalwydr.a}
[[ -f $archive ]] || { echo "check.sh: there is no archive '$archive'" >&2; exit 1; }

built=$(mktemp -d)
trap 'rm -rf "$built"' EXIT
warnings=(-Wall -Wextra -Wpedantic -Werror -Wconversion -Wshadow)

g++ -x c++ -fsyntax-only "${warnings[@]}" "$here/../include/valwydr.h"
gcc -std=c11 "${warnings[@]}" -Wstrict-prototypes "$here/test.c" "$archive" -o "$built/test"
"$built/test"
