#!/usr/bin/env bash
# Times the load of a snapshot of 64 MiB: bench/load.sh. The file has 8 blocks of 2,048 pages, all of them saved, and one
# vCPU. Prints the time of a load, of reading the same file into memory in one piece, and of reading it by pieces that are
# thrown away, and then of a restore of that file with run=1000, eager and with mode=lazy, each the median of several turns over
# a file that the system has in memory. The programs are proved and built first where they are not there or are older than
# a source of their own.
set -euo pipefail
cd "$(dirname "$0")/.."

# shellcheck source=checks/lib/programs.sh
. checks/lib/programs.sh

turns=7
program=crates/load_once/out/load_once
file=$work/large.snap

# bytes HEXADECIMAL: the bytes themselves.
bytes() {
    local text=$1 i
    for ((i = 0; i < ${#text}; i += 2)); do
        printf '%b' "\\x${text:i:2}"
    done
}

# be N VALUE: a number in N bytes, the highest first, in hexadecimal.
be() {
    printf '%0*x' $((2 * $1)) "$2"
}

# put PLACE HEXADECIMAL: these bytes at this place of the file.
put() {
    bytes "$2" | dd of="$file" bs=4096 seek="$1" oflag=seek_bytes conv=notrunc status=none
}

make_file() {
    local ram0=72616d30 at=47 block pages bitmap
    put 0 "5145564d$(be 4 3)07$(be 4 9)$(printf rvsnap-64 | od -An -v -tx1 | tr -d ' \n')"
    put 22 "01$(be 4 2)0372616d$(be 4 0)$(be 4 4)$(be 8 $((64 * 1048576 + 4)))"
    for block in 0 1 2 3 4 5 6 7; do
        bitmap=$((at + 41))
        pages=$(((bitmap + 256 + 1048575) / 1048576 * 1048576))
        put "$at" "04$(printf '%x' $((0x$ram0 + block)))$(be 8 8388608)$(be 4 1)$(be 8 4096)$(be 8 "$bitmap")$(be 8 "$pages")"
        put "$bitmap" "$(printf 'ff%.0s' $(seq 256))"
        head -c 8388608 /dev/urandom | dd of="$file" bs=1M seek="$pages" oflag=seek_bytes conv=notrunc status=none
        at=$((pages + 8388608))
    done
    put "$at" "$(be 8 16)7e$(be 4 2)03$(be 4 2)$(be 8 16)7e$(be 4 2)"
    put $((at + 31)) "04$(be 4 3)03637075$(be 4 0)$(be 4 1)$(printf '00%.0s' $(seq 248))$(be 8 2147483648)$(be 8 0)007e$(be 4 3)"
    put $((at + 318)) "04$(be 4 4)0673657269616c$(be 4 0)$(be 4 2)$(be 8 0)$(be 4 0)$(be 4 0)7e$(be 4 4)"
    put $((at + 359)) "04$(be 4 5)0574696d6572$(be 4 0)$(be 4 1)$(be 8 0)$(be 8 0)7e$(be 4 5)00"
}

build_or_skip load_once crates/{load_once,loader,vm_cli,file_plan,device_state,mig_stream,medium,ram_block}/src
make_file
load=$(median_time "$turns" "$program" "$file")
[ "$(cat "$work/printed")" = "16384 pages" ] || fail "printed '$(cat "$work/printed")', not '16384 pages'"
read=$(median_time "$turns" dd if="$file" of=/dev/null bs=128M count=1 status=none)
passed=$(median_time "$turns" dd if="$file" of=/dev/null bs=64K status=none)
build_rvsnap_or_skip
eager=$(median_time "$turns" "$rvsnap" restore in="$file" run=1000)
cp "$work/printed" "$work/eager"
lazy=$(median_time "$turns" "$rvsnap" restore in="$file" run=1000 mode=lazy)
tail -n +2 "$work/printed" | cmp -s - "$work/eager" || fail "a lazy restore prints another report than an eager one"
say "a load of $(wc -c < "$file") bytes takes $load ms, reading them into memory $read ms ($((load * 100 / read)) to 100), reading and dropping them $passed ms"
say "a restore of it with run=1000 takes $eager ms, with mode=lazy $lazy ms"
