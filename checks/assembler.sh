#!/usr/bin/env bash
# Assembles two texts with rvsnap and with an outside assembler, and compares the bytes: one of generated instructions,
# and one of statements with labels, data, comments and blanks. Skips where neither GNU as for riscv64 nor llvm-mc is at
# hand.
set -euo pipefail
cd "$(dirname "$0")/.."

# shellcheck source=checks/lib/outside.sh
. checks/lib/outside.sh

statements=4000

# compare KIND ASSEMBLER FUNCTION: the bytes of the text, against those that the assembler makes of it.
compare() {
    "$3" "$work/text" "$work/outside"
    if ! cmp "$work/bytes" "$work/outside"; then
        fail "the bytes of the $1 aren't those of $2"
    fi
    say "the $(wc -c < "$work/bytes") bytes of the $1 are as $2 makes them"
}

# assemble KIND: the bytes of the text by rvsnap, compared with those of each assembler at hand.
assemble() {
    local status=0
    rm -f "$work/bytes"
    "$rvsnap" asm image="$work/text" out="$work/bytes" > "$work/printed" || status=$?
    if [ "$status" -ne 0 ] || [ "$(cat "$work/printed")" != "assembled $(wc -c < "$work/bytes") bytes" ]; then
        say "rvsnap ended with status $status on the $1, and printed this:"
        cat "$work/printed"
        exit 1
    fi
    with_each_assembler compare "$1"
}

need_outside_assembler
build_rvsnap_or_skip

awk -v statements="$statements" -f checks/lib/labelled_text.awk > "$work/text"
assemble "text with labels"

generate "$statements"
cp "$work/statements" "$work/text"
assemble "text of instructions"
