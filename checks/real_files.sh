#!/usr/bin/env bash
# Runs rvsnap on real files, and compares what it leaves and prints with bytes and texts written by hand: what stands
# between the proofs and the disk tells no content, so no proof says what a file holds. Skips where rvsnap isn't built
# and can't be.
set -euo pipefail
cd "$(dirname "$0")/.."

# shellcheck source=checks/lib/programs.sh
. checks/lib/programs.sh

build_rvsnap_or_skip

# put FILE PLACE BYTES: these bytes, as printf writes them, at this place of a file.
put() {
    printf "$3" | dd of="$1" bs=1 seek="$2" conv=notrunc status=none
}

guest=$work/guest.img
printf '\x93\x02\x10\x00\x73\x00\x00\x00' > "$guest"

# A save: the file is the one that the format says, byte for byte.
by_hand=$work/by_hand
truncate -s 1053072 "$by_hand"
put "$by_hand" 0 'QEVM\x00\x00\x00\x03\x07\x00\x00\x00\x09rvsnap-64'
put "$by_hand" 22 '\x01\x00\x00\x00\x02\x03ram\x00\x00\x00\x00\x00\x00\x00\x04'
put "$by_hand" 39 '\x00\x00\x00\x00\x00\x00\x10\x04\x04ram0\x00\x00\x00\x00\x00\x00\x10\x00'
put "$by_hand" 60 '\x00\x00\x00\x01\x00\x00\x00\x00\x00\x00\x10\x00\x00\x00\x00\x00\x00\x00\x00\x58\x00\x00\x00\x00\x00\x10\x00\x00\x01'
put "$by_hand" 1048576 '\x93\x02\x10\x00\x73'
put "$by_hand" 1052672 '\x00\x00\x00\x00\x00\x00\x00\x10\x7e\x00\x00\x00\x02'
put "$by_hand" 1052685 '\x03\x00\x00\x00\x02\x00\x00\x00\x00\x00\x00\x00\x10\x7e\x00\x00\x00\x02'
put "$by_hand" 1052703 '\x04\x00\x00\x00\x03\x03cpu\x00\x00\x00\x00\x00\x00\x00\x01'
put "$by_hand" 1052968 '\x00\x00\x00\x00\x80\x00\x00\x00\x00\x00\x00\x00\x00\x00\x00\x00\x00\x7e\x00\x00\x00\x03'
put "$by_hand" 1052990 '\x04\x00\x00\x00\x04\x06serial\x00\x00\x00\x00\x00\x00\x00\x02'
put "$by_hand" 1053026 '\x7e\x00\x00\x00\x04\x04\x00\x00\x00\x05\x05timer\x00\x00\x00\x00\x00\x00\x00\x01'
put "$by_hand" 1053066 '\x7e\x00\x00\x00\x05'
snapshot=$work/guest.snap
expect 0 'save complete blocked 0 faults 0 sweep 1
clock 0
cpu 0 running pc 0000000080000000 steps 0
serial 0 lost 0
timer 0000000000000000
ram pages 1 nonzero 1 sum 0000007300100293
' save image="$guest" out="$snapshot" pages=1
cmp "$snapshot" "$by_hand" || fail "the file of a save isn't the one written by hand"
say "the $(wc -c < "$snapshot") bytes of a saved file are those written by hand"

# The largest machine: its file has its length, and its devices stand behind the last page.
printf '\x73\x00\x10\x00' > "$work/ebreak"
"$rvsnap" save image="$work/ebreak" out="$work/largest" vcpus=8 blocks=8 pages=2048 stop=1 > "$work/printed" || fail "status $? from the largest save"
head -n 3 "$work/printed" | cmp -s - <(printf '%s\n' 'save complete blocked 0 faults 0 sweep 16384' 'clock 8' 'cpu 0 ebreak pc 0000000080000000 steps 0') || fail "printed '$(cat "$work/printed")' by the largest save"
[ "$(wc -c < "$work/largest")" -eq 75499881 ] || fail "the largest file has $(wc -c < "$work/largest") bytes"
cmp -s -i 75497503:0 -n 10 "$work/largest" <(printf '\x04\x00\x00\x00\x03\x03cpu\x00') || fail "the devices of the largest file stand elsewhere"

# A file with bytes is refused, and neither cut nor written.
expect 8 $'fault 8 not-empty 1053072\n' save image="$guest" out="$snapshot" pages=1
cmp "$snapshot" "$by_hand" || fail "a file with bytes was changed"
printf 'ecall\nebreak\n' > "$work/text"
printf 'kept' > "$work/kept"
expect 8 $'fault 8 not-empty 4\n' asm image="$work/text" out="$work/kept"
[ "$(cat "$work/kept")" = kept ] || fail "a file with bytes was changed"

# An assembly: its bytes, and its line whole.
expect 0 $'assembled 8 bytes\n' asm image="$work/text" out="$work/bytes"
printf '\x73\x00\x00\x00\x73\x00\x10\x00' | cmp - "$work/bytes" || fail "the assembled bytes aren't those of the text"

# A sync that fails is told: a device that takes bytes and can't be synced.
expect 4 $'fault 4 file-fault\n' asm image="$work/text" out=/dev/null

# A console that fails is told by the status, and the bytes stand.
status=0
"$rvsnap" asm image="$work/text" out="$work/more" > /dev/full 2> "$work/errors" || status=$?
[ "$status" -eq 5 ] || fail "status $status, not 5, with a console that takes nothing"
cmp "$work/more" "$work/bytes" || fail "the bytes don't stand where the console failed"

# An empty word, and one that isn't UTF-8, are words.
expect 1 $'fault 1 usage 2 no-equals\n' asm image="$work/text" '' out="$work/none"
expect 1 $'fault 1 usage 0 command\n' ''
expect 1 $'fault 1 usage 2 no-equals\n' asm image="$work/text" $'\xff' out="$work/none"
[ ! -e "$work/none" ] || fail "a line that is refused made a file"

# Want of memory is told, and leaves no file.
printf '.zero 67108864\n' > "$work/large"
status=0
(ulimit -v 40000; "$rvsnap" asm image="$work/large" out="$work/none" > "$work/printed") 2> "$work/errors" || status=$?
[ "$status" -eq 7 ] || fail "status $status, not 7, where memory is refused"
[ "$(cat "$work/printed")" = "fault 7 no-memory" ] || fail "printed '$(cat "$work/printed")' where memory is refused"
[ ! -e "$work/none" ] || fail "want of memory made a file"
say "refusals, faults and want of memory are told, and change no file"
