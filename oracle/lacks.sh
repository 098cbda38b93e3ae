#!/usr/bin/env bash
# Sourced by scripts that pass over what a machine lacks.
set -euo pipefail

# Says that a check is passed over, and why.
skip() {
    echo "$1: skipped, $2"
}

# Whether a program is there.
has() {
    command -v "$1" >/dev/null
}
