#!/usr/bin/env bash
# Measures a save on threads from outside: bench/stop.sh [FOLDER]. RAM is 64 MiB, none of it zeros; one and four vCPUs walk over
# it and store to each page. Prints how long all vCPUs stood still at the start of the second phase, without the sync of the shut
# gate byte and with it; the guest's speed while it is saved, as a part of its speed alone; and the time until the file is durable,
# beside the time of writing the same bytes in writes of one MiB with one sync at the end. Then each write of a page takes 5 ms
# longer, and a vCPU stores once to each page: prints for how many pages it waited, and how long in all, without a relay and over
# one of 16 pages. Each is the median of several turns, on the disk of the folder (the system's for temporary files without the
# argument).
#
# How it is measured: a small library that is loaded before the program's own (bench/lib/call_times.c) notes when each thread
# begins and ends, when the output is opened, and when its syncs return. A vCPU more than those that are counted halts at its first
# instruction. It is the last one, and its turns are made by the thread that starts all others, so every vCPU that runs is a thread
# of its own. All stood still from the end of the last thread of the first phase to the beginning of the first vCPU's of the second,
# where the thread that is made first is the saver's. The speed is by the life of a vCPU's thread in each phase, for as many
# instructions, few enough that it ends before the save does. The file is durable when the last sync returns; that is counted from
# the opening of the output. The first phase is short where the stop is measured, since what its threads did is put into one order
# behind it. The same library makes the writes slow. Between its stores the vCPU has next to nothing to do, so it waits nearly as
# long as its thread lives, which is the one that is made last; the pages that it waited for are the faults of the report. The saver
# sweeps meanwhile: a relay is soon full of pages that no vCPU waits for, and from then on a vCPU waits as it does without one.
set -euo pipefail
cd "$(dirname "$0")/.."

# shellcheck source=checks/lib/programs.sh
. checks/lib/programs.sh

turns=5
has cc || skip "there is no C compiler"
disk=$(mktemp -d -p "${1:-${TMPDIR:-/tmp}}")
trap 'rm -rf "$work" "$disk"' EXIT
snapshot=$disk/output

build_rvsnap_or_skip
cc -O2 -shared -fPIC -o "$work/call_times.so" bench/lib/call_times.c

# image BYTES: assembles the text that is read, and puts random bytes behind it up to so many.
image() {
    cat > "$work/guest.s"
    rm -f "$work/code" "$work/image"
    "$rvsnap" asm image="$work/guest.s" out="$work/code" > "$work/printed"
    {
        cat "$work/code"
        head -c $(($1 - $(wc -c < "$work/code"))) /dev/urandom
    } > "$work/image"
}

# guest VCPUS: its image has 64 MiB. vCPU number VCPUS halts; each other one stores to every page of its own part of RAM, again
# and again.
guest() {
    image $((64 * 1048576)) << GUEST
        addi  x6, x0, $1
        beq   x10, x6, stop
        auipc x5, 0
        addi  x5, x5, -8
        slli  x6, x10, $((26 - ($1 > 1 ? 2 : 0)))
        add   x5, x5, x6
        addi  x8, x0, 1
        slli  x8, x8, $((26 - ($1 > 1 ? 2 : 0)))
        add   x8, x8, x5
        lui   x9, 1
walk:   addi  x6, x5, 0
visit:  ld    x7, 2040(x6)
        addi  x7, x7, 1
        sd    x7, 2040(x6)
        add   x6, x6, x9
        bltu  x6, x8, visit
        jal   x0, walk
stop:   ebreak
GUEST
}

# guest_once PAGES: its image has so many. vCPU 1 halts, and vCPU 0 once it has stored to each page.
guest_once() {
    image $((4096 * $1)) << GUEST
        bne   x10, x0, stop
        auipc x5, 0
        addi  x5, x5, -4
        addi  x8, x0, $1
        slli  x8, x8, 12
        add   x8, x8, x5
        lui   x9, 1
visit:  sd    x8, 2040(x5)
        add   x5, x5, x9
        bltu  x5, x8, visit
stop:   ebreak
GUEST
}

# watch VCPUS INSTRUCTIONS: a save behind so many instructions, while the guest runs as many more. Prints, in microseconds, how
# long all stood still, how long the first sync took, the mean life of a vCPU's thread in the first phase and in the second, and
# the time until the file was durable.
watch() {
    rm -f "$snapshot"
    CALL_TIMES=$work/calls LD_PRELOAD=$work/call_times.so "$rvsnap" save image="$work/image" out="$snapshot" \
        vcpus=$(($1 + 1)) blocks=8 pages=2048 stop="$2" run="$2" mode=threads > "$work/report"
    grep -q '^save complete ' "$work/report" || fail "the report is $(head -n 1 "$work/report")"
    awk -v output="$snapshot" -v vcpus="$1" '
        $2 == "open" && $3 == output { opened = $1 }
        $2 == "begin" { began[$3] = $1 }
        $2 == "begin" && $3 > vcpus + 1 && (!again || $1 < again) { again = $1 }
        $2 == "end" && $3 <= vcpus { last = $1 > last ? $1 : last; alone += $1 - began[$3] }
        $2 == "end" && $3 > vcpus + 1 { saved += $1 - began[$3] }
        $2 == "sync" && $3 == 0 { sync = $4 }
        $2 == "sync" { durable = $1 }
        END {
            printf "%d %d %d %d %d\n", (again - last) / 1000, sync / 1000, alone / vcpus / 1000, saved / vcpus / 1000, (durable - opened) / 1000
        }' "$work/calls"
}

# watch_slow PAGES RELAY: a save over such a relay, in which each write of a page takes 5 ms longer. Prints for how many pages vCPU 0
# waited, and how long it ran, in microseconds.
watch_slow() {
    rm -f "$snapshot"
    CALL_TIMES=$work/calls CALL_DELAY=5000 LD_PRELOAD=$work/call_times.so "$rvsnap" save image="$work/image" out="$snapshot" \
        vcpus=2 pages="$1" run=$((3 * $1 + 7)) mode=threads relay="$2" > "$work/report"
    grep -q '^save complete ' "$work/report" || fail "the report is $(head -n 1 "$work/report")"
    awk '
        FNR == NR && FNR == 1 { faults = $6 }
        FNR != NR && $2 == "begin" { began[$3] = $1; last = $3 > last ? $3 : last }
        FNR != NR && $2 == "end" { ended[$3] = $1 }
        END { printf "%d %d\n", faults, (ended[last] - began[last]) / 1000 }' "$work/report" "$work/calls"
}

# column NUMBER: the median of a column of what was watched.
column() {
    awk -v n="$1" '{ print $n }' "$work/watched" | median
}

for vcpus in 1 4; do
    guest "$vcpus"
    for _ in $(seq "$turns"); do watch "$vcpus" 1000; done > "$work/watched"
    still=$(column 1)
    sync=$(column 2)
    for _ in $(seq "$turns"); do watch "$vcpus" $((400000 / vcpus)); done > "$work/watched"
    alone=$(column 3)
    saved=$(column 4)
    durable=$(column 5)
    floor=$(for _ in $(seq "$turns"); do
        rm -f "$disk/copy"
        milliseconds dd if="$snapshot" of="$disk/copy" bs=1M conv=fsync status=none
    done | median)
    say "vCPUs: $vcpus; all stood still for $((still - sync)) us, with the sync $still us; while saved they ran at $((100 * alone / saved)) of 100 of their speed; the file was durable after $((durable / 1000)) ms, where the floor is $floor ms"
done

for pages in 16 64 256; do
    guest_once "$pages"
    for _ in $(seq "$turns"); do watch_slow "$pages" 0; done > "$work/watched"
    faults=$(column 1)
    waited=$(column 2)
    for _ in $(seq "$turns"); do watch_slow "$pages" 16; done > "$work/watched"
    say "pages: $pages; where each write takes 5 ms longer, a vCPU waits for $faults pages, $((waited / 1000)) ms in all; over a relay of 16 pages for $(column 1), $(($(column 2) / 1000)) ms in all"
done
