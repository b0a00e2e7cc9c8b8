#!/usr/bin/env bash
# Assembles the statements of the instructions' tests, and then those of generated instructions, with
# an outside assembler, and compares its words with the table's. Skips where neither GNU as for riscv64 nor
# llvm-mc is at hand.
set -euo pipefail
cd "$(dirname "$0")/.."

# shellcheck source=checks/lib/outside.sh
. checks/lib/outside.sh

tests=(crates/rv64i_decode/src/tests.rt crates/rv64i_step/src/tests.rt)
generated=4000

# compare KIND ASSEMBLER FUNCTION: the words, against those that the assembler makes of the statements.
compare() {
    "$3" "$work/statements" "$work/bytes"
    words_of "$work/bytes" > "$work/outside"
    if ! diff "$work/words" "$work/outside" > "$work/differences"; then
        say "the $1 words ('<') are not those of $2 ('>'), by line:"
        cat "$work/differences"
        exit 1
    fi
    say "$(wc -l < "$work/words") $1 words are as $2 writes them"
}

need_outside_assembler

rows=$(grep -ohE '\(0x[0-9a-f]{8}, "[^"]+"' "${tests[@]}")
sed -E 's/^\((0x[0-9a-f]{8}), .*/\1/' <<< "$rows" > "$work/words"
sed -E 's/^[^"]*"([^"]+)"/\1/' <<< "$rows" > "$work/statements"
with_each_assembler compare "tests'"

generate "$generated"
with_each_assembler compare generated
