#!/usr/bin/env bash
# Times the save of the largest machine: bench/save.sh [FOLDER]. RAM has 8 blocks of 2,048 pages, none of them zeros. Prints
# the time of a save in which the guest stands still, of one in which it runs on for 1,000,000 instructions, of a check and of
# a restore; and the floor, which is the time of writing the same bytes in writes of one MiB with one sync at the end, with the
# ratio of the first to it. Each is the median of several turns, on the disk of the folder (the system's for temporary files
# without the argument). The program is proved and built first where it is missing or older than a source.
set -euo pipefail
cd "$(dirname "$0")/.."

# shellcheck source=checks/lib/programs.sh
. checks/lib/programs.sh

turns=5
disk=$(mktemp -d -p "${1:-${TMPDIR:-/tmp}}")
trap 'rm -rf "$work" "$disk"' EXIT
image=$work/large.img
snapshot=$disk/large.snap
shape=(blocks=8 pages=2048)

# time_save COMMAND...: the middle one of several turns, in milliseconds. What stands for the output is removed before each.
time_save() {
    for _ in $(seq "$turns"); do
        rm -f "$disk/output"
        milliseconds "$@"
    done | median
}

build_rvsnap_or_skip

# A loop of two instructions, addi x5, x5, 1 and jal x0, -4, and bytes at random behind it.
{
    printf '\x93\x82\x12\x00\x6f\xf0\xdf\xff'
    head -c $((64 * 1048576 - 8)) /dev/urandom
} > "$image"
"$rvsnap" save image="$image" out="$snapshot" "${shape[@]}" > "$work/report"
grep -q '^ram pages 16384 nonzero 16384 ' "$work/report" || fail "the report is $(cat "$work/report")"

still=$(time_save "$rvsnap" save image="$image" out="$disk/output" "${shape[@]}")
runs=$(time_save "$rvsnap" save image="$image" out="$disk/output" "${shape[@]}" run=1000000)
floor=$(time_save dd if="$snapshot" of="$disk/output" bs=1M conv=fsync status=none)
check=$(median_time "$turns" "$rvsnap" check in="$snapshot")
restore=$(median_time "$turns" "$rvsnap" restore in="$snapshot" run=1000)
say "a save of $(wc -c < "$snapshot") bytes takes $still ms, with 1,000,000 instructions $runs ms; the floor is $floor ms ($((still * 100 / floor)) to 100); a check takes $check ms, a restore $restore ms"
