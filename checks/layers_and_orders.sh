#!/usr/bin/env bash
# Real files of layers and orders: a file and a layer of it join to the machine that the file runs on to, and a replay of what
# eight vCPUs did on threads prints what their record printed.
set -euo pipefail
cd "$(dirname "$0")/.."

# shellcheck source=checks/lib/programs.sh
. checks/lib/programs.sh

build_rvsnap_or_skip

# Each vCPU adds one to a word of its own in page 2, and to one that all share in page 3.
cat > "$work/guest.S" << 'END'
        auipc x5, 2
        slli  x6, x10, 3
        add   x6, x5, x6
        lui   x8, 1
        add   x8, x5, x8
        addi  x9, x0, 1
loop:   ld    x7, 0(x6)
        addi  x7, x7, 1
        sd    x7, 0(x6)
        amoadd.d x11, x9, (x8)
        jal   x0, loop
END
shape=(vcpus=8 pages=8)
"$rvsnap" asm image="$work/guest.S" out="$work/guest" > "$work/assembled"

"$rvsnap" save image="$work/guest" out="$work/base" "${shape[@]}" stop=1000 > "$work/saved"
"$rvsnap" layer in="$work/base" out="$work/layer" run=2000 > "$work/layered"
[ "$(cat "$work/layered")" = "layer pages 2" ] || fail "a layer of two pages is told as '$(cat "$work/layered")'"
"$rvsnap" join in="$work/base" image="$work/layer" out="$work/joined" > "$work/joined_line"
[ "$(cat "$work/joined_line")" = "ok vcpus 8 blocks 1 pages 8" ] || fail "a join prints '$(cat "$work/joined_line")'"
"$rvsnap" restore in="$work/base" run=2000 > "$work/run_on"
"$rvsnap" restore in="$work/joined" > "$work/as_joined"
cmp "$work/run_on" "$work/as_joined" || fail "a file and its layer join to another machine"
say "a file of $(wc -c < "$work/base") bytes and a layer of $(wc -c < "$work/layer") join to the machine that the file runs on to"

"$rvsnap" record image="$work/guest" out="$work/order" "${shape[@]}" run=20000 > "$work/recorded"
"$rvsnap" replay image="$work/guest" in="$work/order" "${shape[@]}" > "$work/replayed"
cmp "$work/recorded" "$work/replayed" || fail "a replay prints another report than its record"
status=0
"$rvsnap" replay image="$work/guest" in="$work/order" vcpus=7 pages=8 > "$work/refused" || status=$?
[ "$status $(cat "$work/refused")" = "12 fault 12 order vcpus 8" ] || fail "an order of eight vCPUs is no order of seven: $(cat "$work/refused")"
say "a replay of the $(wc -c < "$work/order") bytes of an order of eight vCPUs prints what their record printed"
