#!/usr/bin/env bash
# Times a record of nearly as many events as an order may have, and its replay: bench/orders.sh [INSTRUCTIONS]. Eight vCPUs make
# 1,000,000 instructions each without the argument, the most that a phase has. But for the first one each is a load, which has two
# events, so the order has 15,999,992 members of at most 16,000,000. Prints how long the record takes, how long the replay of what
# it wrote takes, each the median of several turns, and the most memory that either used at once.
#
# How it is measured: the image is one straight line of loads from page 0, so no vCPU makes a jump. Both programs are timed from
# outside, so the reading of the image, the boot, the order file and the report are counted too. The memory is the largest that the
# system saw the process have, which is looked up in /proc while it runs, a hundred times a second. Each replay has to print what
# the record printed. The program is proved and built first where it is missing or older than a source.
set -euo pipefail
cd "$(dirname "$0")/.."

# shellcheck source=checks/lib/programs.sh
. checks/lib/programs.sh

run=${1:-1000000}
turns=5
shape=(vcpus=8 pages=1024)
members=$((8 * (2 * run - 1)))

# image COUNT: auipc x5, 0, and so many of ld x7, 0(x5).
image() {
    printf '\x97\x02\x00\x00'
    { yes $'\x83\xb3\x02' | tr '\n' '\0' || true; } 2> "$work/gone" | head -c $((4 * $1))
}

# most_memory COMMAND...: the most kilobytes that it had at once; what it prints stands in $work/printed.
most_memory() {
    local most=0 now
    "$@" > "$work/printed" &
    while now=$(awk '$1 == "VmHWM:" { print $2 }' "/proc/$!/status" 2> "$work/gone") && [ -n "$now" ]; do
        most=$now
        sleep 0.01
    done
    wait $!
    echo "$most"
}

# record: the order is written anew.
record() {
    rm -f "$work/order"
    "$rvsnap" record image="$work/image" out="$work/order" "${shape[@]}" run="$run"
}

replay() {
    "$rvsnap" replay image="$work/image" in="$work/order" "${shape[@]}"
}

build_rvsnap_or_skip
image $((run - 1)) > "$work/image"
for _ in $(seq "$turns"); do
    milliseconds record >> "$work/records"
    mv "$work/printed" "$work/report"
    milliseconds replay >> "$work/replays"
    cmp -s "$work/report" "$work/printed" || fail "a replay prints another report than its record"
done
size=$(wc -c < "$work/order")
[ "$size" -eq $((20 + members / 2)) ] || fail "the order file has $size bytes"
record=$(median < "$work/records")
replay=$(median < "$work/replays")
rm -f "$work/order"
record_memory=$(most_memory "$rvsnap" record image="$work/image" out="$work/order" "${shape[@]}" run="$run")
replay_memory=$(most_memory "$rvsnap" replay image="$work/image" in="$work/order" "${shape[@]}")
say "$members members, $size bytes: a record takes $record ms and $((record_memory / 1024)) MiB, its replay $replay ms and $((replay_memory / 1024)) MiB"
