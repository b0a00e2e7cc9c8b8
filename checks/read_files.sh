#!/usr/bin/env bash
# Runs rvsnap on real files as inputs: one that a save wrote, and what is no snapshot file, as a folder, a missing file, an
# empty one, one that is cut, bytes at random, and 3 GiB of zeros. Each ends with a status of its own in a moment, and no
# file is changed. Skips where rvsnap isn't built and can't be.
set -euo pipefail
cd "$(dirname "$0")/.."

# shellcheck source=checks/lib/programs.sh
. checks/lib/programs.sh

build_rvsnap_or_skip

# Each line ends in a moment.
# shellcheck disable=SC2034 # expect reads it
patience=10

# expect_both STATUS TEXT FILE: so do a check and a restore of this file.
expect_both() {
    expect "$1" "$2" check in="$3"
    expect "$1" "$2" restore in="$3" run=1
}

# The file of a save is read back, and its machine runs on.
guest=$work/guest.img
snapshot=$work/guest.snap
printf '\x93\x02\x10\x00\x73\x00\x10\x00' > "$guest"
expect 0 'save complete blocked 0 faults 0 sweep 1
clock 0
cpu 0 running pc 0000000080000000 steps 0
serial 0 lost 0
timer 0000000000000000
ram pages 1 nonzero 1 sum 0010007300100293
' save image="$guest" out="$snapshot" pages=1
cp "$snapshot" "$work/kept"
chmod a-w "$snapshot"
expect 0 $'ok vcpus 1 blocks 1 pages 1\n' check in="$snapshot"
expect 0 'clock 0
cpu 0 running pc 0000000080000000 steps 0
serial 0 lost 0
timer 0000000000000000
ram pages 1 nonzero 1 sum 0010007300100293
' restore in="$snapshot"
expect 0 'clock 2
cpu 0 ebreak pc 0000000080000004 steps 1
x5 0000000000000001
serial 0 lost 0
timer 0000000000000000
ram pages 1 nonzero 1 sum 0010007300100293
' restore run=1000000 in="$snapshot"
cmp "$snapshot" "$work/kept" || fail "a file that was read was changed"
say "a file that a save wrote is checked, and its machine runs on"

# A console that takes nothing.
for line in check restore; do
    status=0
    "$rvsnap" "$line" in="$snapshot" > /dev/full 2> "$work/errors" || status=$?
    [ "$status" -eq 5 ] || fail "status $status, not 5, from a $line with a console that takes nothing"
done

# What can't be read.
expect_both 4 $'fault 4 file-fault\n' "$work/missing"
expect_both 4 $'fault 4 file-fault\n' "$work"
printf 'QEVM' | expect_both 4 $'fault 4 file-fault\n' /dev/stdin
[ ! -e "$work/missing" ] || fail "an input that is missing was made"

# What is no snapshot file.
: > "$work/empty"
expect_both 3 $'fault 3 file truncated 0\n' "$work/empty"
expect_both 3 $'fault 3 file truncated 0\n' /dev/null
expect_both 3 $'fault 3 file magic 0\n' /dev/zero
truncate -s 3G "$work/zeros"
expect_both 3 $'fault 3 file magic 0\n' "$work/zeros"
cp "$work/kept" "$work/longer"
truncate -s 3G "$work/longer"
expect_both 3 $'fault 3 file trailing 1053072\n' "$work/longer"
cut_at=$((RANDOM * 32768 % 1053072 + RANDOM % 1000))
[ "$cut_at" -lt 1053072 ] || cut_at=1053071
for len in "$cut_at" 1053071; do
    head -c "$len" "$work/kept" > "$work/cut"
    status=0
    timeout 10 "$rvsnap" check in="$work/cut" > "$work/printed" || status=$?
    [ "$status" -eq 3 ] || fail "status $status, not 3, from a file that is cut to $len bytes"
    grep -Eqx 'fault 3 file truncated [0-9]+' "$work/printed" || fail "printed '$(cat "$work/printed")' of a file that is cut to $len bytes"
done
for _ in 1 2 3 4 5; do
    head -c 2000000 /dev/urandom > "$work/random"
    status=0
    timeout 10 "$rvsnap" check in="$work/random" > "$work/printed" || status=$?
    [ "$status" -eq 3 ] || fail "status $status, not 3, from bytes at random"
    grep -Eqx 'fault 3 file magic [0-9]+' "$work/printed" || fail "printed '$(cat "$work/printed")' of bytes at random"
done
say "what is no snapshot file is refused in a moment, also 3 GiB of it, and no file is changed"
