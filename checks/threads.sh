#!/usr/bin/env bash
# Saves 64 MiB while eight vCPUs on threads write to all of its pages, again and again, without a relay and over one:
# checks/threads.sh [SECONDS]. Each vCPU writes to pages of its own, so its pace changes no byte: each file has to be the one that
# a save on one thread writes of the same instant, and the machine that ran on has to be the same. One save of each kind, or saves
# at other instants for so many seconds. Skips where rvsnap isn't built and can't be.
set -euo pipefail
cd "$(dirname "$0")/.."

# shellcheck source=checks/lib/programs.sh
. checks/lib/programs.sh

seconds=${1:-0}

build_rvsnap_or_skip

text=$work/pages.s
image=$work/pages.img
cat > "$text" << 'GUEST'
        auipc x5, 0
        slli  x6, x10, 23        # the 2,048 pages of this vCPU
        add   x5, x5, x6
        lui   x8, 2048
        add   x8, x8, x5
        lui   x9, 1
walk:   addi  x6, x5, 0
visit:  ld    x7, 2040(x6)
        addi  x7, x7, 1
        sd    x7, 2040(x6)
        add   x6, x6, x9
        bltu  x6, x8, visit
        jal   x0, walk
GUEST
expect 0 $'assembled 52 bytes\n' asm image="$text" out="$image"

# save MODE RELAY STOP FILE: the guest is saved into the file behind so many instructions, and its report is printed.
save() {
    timeout "$patience" "$rvsnap" save image="$image" out="$4" vcpus=8 blocks=8 pages=2048 stop="$3" run=200000 mode="$1" relay="$2"
}

saves=0
until=$((SECONDS + seconds))
while [ "$saves" -eq 0 ] || [ "$SECONDS" -lt "$until" ]; do
    stop=$((20000 + RANDOM))
    rm -f "$work/still.snap"
    save sliced 0 "$stop" "$work/still.snap" > "$work/still" || fail "status $? from a save on one thread behind $stop instructions"
    for relay in 0 16; do
        rm -f "$work/threads.snap"
        save threads "$relay" "$stop" "$work/threads.snap" > "$work/threads" || fail "status $? from a save with relay=$relay behind $stop instructions"
        cmp "$work/still.snap" "$work/threads.snap" || fail "with relay=$relay the file isn't the instant's, behind $stop instructions"
        cmp <(tail -n +2 "$work/still") <(tail -n +2 "$work/threads") || fail "with relay=$relay the machine that ran on is another, behind $stop instructions"
        grep -q '^ram pages 16384 nonzero 16384 ' "$work/threads" || fail "some page was never written"
        expect 0 $'ok vcpus 8 blocks 8 pages 2048\n' check in="$work/threads.snap"
        read -r -a line < "$work/threads"
        [ "$((line[5] + line[7]))" -eq 16384 ] || fail "the counts are not those of all pages: ${line[*]}"
        saves=$((saves + 1))
    done
done
say "$saves saves of eight vCPUs on threads, each the file of its instant; the last: ${line[*]}"
