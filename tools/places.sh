#!/usr/bin/env bash
# Counts the places that docs/DESIGN-PASS.md speaks of, in the sources of this checkout: a line for each command.
set -euo pipefail
cd "$(dirname "${BASH_SOURCE[0]}")/.."
shopt -s globstar nullglob
src=(crates/*/src/**/*.rt)

# Prints a point, how many lines its command gave, and what it looks for.
count() {
    local point=$1 what=$2
    shift 2
    printf '%-4s %5d  %s\n' "$point" "$({ "$@" || true; } | wc -l)" "$what"
}

lines() { grep -nE "$1" "${src[@]}"; }
words() { grep -noE "$1" "${src[@]}"; }

# The names of functions that stand in more than one file, `new` and `main` left out.
same_names() { grep -hoE '\bfn [a-z_0-9]+' "${src[@]}" | sort | uniq -d | grep -vE 'fn (new|main)$'; }

# What three clauses or more ask, or promise, in the same words; $1 is the word that begins them.
same_clauses() { grep -hoE "^ *$1 .*\{.*\}" "${src[@]}" | sed -E "s/^ *$1 [a-z_]* *//" | sort | uniq -c | awk '$1 >= 3'; }

# Functions with more than seven parameters.
long_lists() {
    awk '/^ *(pub )?(extern "C" )?fn .*\($/ { n = 0; at = FILENAME ":" FNR; open = 1; next }
         open && /^ *\) *(->.*)?( \{)?$/ { if (n > 7) print at; open = 0; next }
         open && /,$/ { n++ }' "${src[@]}"
}

count 1a 'enums' lines '^(pub )?enum '
count 1b 'variants for nothing or for a refusal' lines '^ +(Refused\(u64\)|NoWord|NoRoom|None|Number\(u64\)),'
count 1c 'flags in a struct' lines '^ +(pub )?[a-z_]+: bool,'
count 1d 'constants for numbers of refusals' lines 'const (LIST_LENGTH|SIZE|TRIES_ALLOWED|MAX_SAMPLES|FANOUT|NOT_BELOW|SHORT_BUFFER|SUM_PAST|TOTAL_ZERO|COUNT_LIMIT|EMPTY_BIN|NO_WORD(_LEFT)?|LAST_TRY_REJECTED): u64 '
count 1e 'uses of such a constant' words 'refusals::[A-Z_]{2,}'
count 2a 'names of functions in more than one place' same_names
count 2b 'functions named for their type or size' lines 'fn [a-z_]+_(u8|u32|u64|bytes)\b'
count 3a 'while loops' lines '^ *while '
count 3b 'loop loops' lines '^ *loop '
count 4a 'equality, order, default, printing by hand' lines 'fn (eq|cmp|min|default|fmt|compare|write_decimal|held)[(<]'
count 4b 'arithmetic of std by its function' words 'std::num::[a-z_0-9]+'
count 5a 'requirements that stand in three contracts or more' same_clauses requires
count 5b 'promises that stand in three contracts or more' same_clauses ensures
count 5c 'parameters for a list of words' lines '\b(list|first|second): &\[u64\],?'
count 5d 'parameters for a column of pieces' words '\b(piece_)?(bins|validators|piece_stakes): &mut \[u64\]'
count 5e 'functions with more than seven parameters' long_lists
count 6a 'a place in a text beside the text' words 'text: &\[u8\], at: usize'
count 6b 'states in arrays' words '\bWords\b = \[u64; 1\]|&mut Words\b'
count 6c 'weights with their running sums beside them' words 'sums: &(mut )?\[u64\]'
count 7a 'switches on the number of an operation' lines 'match operation|operation == '
count 8a 'files of answers and invariants' find crates/*/proofs \( -name Answers.antt -o -name Invariants.antt -o -name Proof.antt \)
count 8b 'lines of them' bash -c "find crates/*/proofs \( -name Answers.antt -o -name Invariants.antt -o -name Proof.antt \) -exec cat {} +"
count 8c 'lines of proofs in all' bash -c "find crates/*/proofs -name '*.antt' -exec cat {} +"
