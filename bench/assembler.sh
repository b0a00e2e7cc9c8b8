#!/usr/bin/env bash
# Times the assembler on its largest texts and its largest answer: bench/assembler.sh. The program is proved and built
# first where it is not there or is older than a source of it.
set -euo pipefail
cd "$(dirname "$0")/.."

# shellcheck source=checks/lib/programs.sh
. checks/lib/programs.sh

# The most bytes of a text.
most=1048576

# time_text KIND: the time of the text.
time_text() {
    local begin end
    rm -f "$work/bytes"
    begin=$(date +%s%N)
    "$rvsnap" asm image="$work/text" out="$work/bytes" > "$work/printed" || fail "rvsnap refused the $1: $(cat "$work/printed")"
    end=$(date +%s%N)
    say "$1, $(wc -c < "$work/text") bytes: $(cat "$work/printed") in $(((end - begin) / 1000000)) ms"
}

build_rvsnap_or_skip

# A label and a jump on each line, half of the jumps to labels that come later.
awk 'BEGIN {
    lines = 31000
    for (i = 0; i < lines; i += 1) {
        printf "label_%d: jal x%d, label_%d\n", i, i % 32, (i + lines / 2) % lines
    }
}' > "$work/text"
time_text "labels and jumps"

awk -v most="$most" 'BEGIN { for (i = 0; i < most; i += 1) print "" }' > "$work/text"
time_text "empty lines"

echo '.zero 67108864' > "$work/text"
time_text "the most bytes of an answer"
