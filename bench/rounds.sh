#!/usr/bin/env bash
# Times rounds on one vCPU with 64 MiB of RAM: bench/rounds.sh [PHASES]. One guest computes and makes no access, and one
# loads, adds and stores over many pages. Prints how many instructions of each the machine finishes in a second of
# processor time, the median of several turns, and the ratio of the two. A phase has 1,000,000 instructions; there are 20
# without the argument, and the time that the first takes with the boot is not counted. The programs are proved and
# built first where they are not there or are older than a source of theirs.
set -euo pipefail
cd "$(dirname "$0")/.."

# shellcheck source=checks/lib/programs.sh
. checks/lib/programs.sh

phases=${1:-20}
turns=5
program=crates/rounds_per_second/out/rounds_per_second

# milliseconds_of GUEST PHASES: the processor time of a run.
milliseconds_of() {
    local TIMEFORMAT='%3U %3S'
    { time "$program" "$work/$1.bin" "$2" > "$work/printed"; } 2> "$work/time"
    awk '{ printf "%d", ($1 + $2) * 1000 }' "$work/time"
}

# rate_of GUEST: thousands of instructions a second.
rate_of() {
    local first all
    first=$(milliseconds_of "$1" 1)
    all=$(milliseconds_of "$1" $((phases + 1)))
    echo $((phases * 1000000 / (all - first)))
}

build_or_skip rounds_per_second crates/{rounds_per_second,flat_machine,rv64i_step,rv64i_decode,serial_timer,ram_block}/src
build_rvsnap_or_skip

for guest in compute pages; do
    "$rvsnap" asm image=bench/$guest.s out="$work/$guest.bin" > "$work/printed" || fail "rvsnap refused bench/$guest.s"
done
for _ in $(seq "$turns"); do
    for guest in compute pages; do
        rate_of "$guest" >> "$work/$guest.rates"
    done
done
compute=$(median < "$work/compute.rates")
pages=$(median < "$work/pages.rates")
say "$compute thousand instructions a second that compute, $pages that load and store over many pages, $((pages * 100 / compute)) to 100"
