#!/usr/bin/env bash
# Builds rvsnap where it is missing, assembles a small guest for two vCPUs, saves the machine in the middle of its run while it
# runs on, checks the file, and runs the machine of the file on to the same end.
# Usage: demo/snapshot.sh [FILE], where FILE is the snapshot file to be written.
set -u -o pipefail
cd "$(dirname "$0")/.." || exit 1

program=$PWD/crates/rvsnap/out/rvsnap
text=demo/guest.s
image=demo/guest.img
own_snapshot=demo/guest.snap
snapshot=${1:-$own_snapshot}
log=demo/build.log
work=$(mktemp -d)
trap 'rm -rf "$work"' EXIT

fail() {
    echo "demo: $*" >&2
    exit 1
}

# run STATUS WORD...: shows a line, and what rvsnap prints to it. It has to end with this status.
run() {
    local wanted=$1 status=0
    shift
    echo "rvsnap $*"
    "$program" "$@" || status=$?
    [ "$status" -eq "$wanted" ] || fail "rvsnap ended with status $status: docs/COMMAND_LINE.md says what it means"
}

if [ $# -gt 0 ] && [ -s "$snapshot" ]; then
    fail "$snapshot has bytes already, and rvsnap writes over none: remove it, or name another file"
fi

if [ ! -x "$program" ]; then
    command -v rt >/dev/null 2>&1 || fail "the command rt isn't on the PATH: install the kit that README.md names"
    echo "Building rvsnap. Only proved code is built: the first build proves all it needs, in many minutes."
    # The program ends with status 1 here, since it is given no words: what counts is that it was built.
    (cd crates/rvsnap && rt run) >"$log" 2>&1
    [ -x "$program" ] || fail "the build failed: see $log"
fi

# What the demo wrote itself is made anew.
rm -f "$image" "$own_snapshot"

echo "A guest, and the bytes that it assembles to:"
cat "$text"
run 0 asm image="$text" out="$image"
od -A d -t x1 "$image"

echo "A text with a wrong line is refused, with status 9:"
printf 'ecall\naddi x1, x2\n' >"$work/wrong.s"
cat "$work/wrong.s"
(cd "$work" && run 9 asm image=wrong.s out=wrong.img) || exit 1

echo "The machine of two vCPUs runs 100 instructions on each, and is saved while it runs on:"
run 0 save image="$image" out="$snapshot" vcpus=2 pages=4 stop=100 run=1000 turns=0101010101010101ssss | tee "$work/saved"
echo "$snapshot has $(wc -c <"$snapshot") bytes. It begins with its magic, version and sections:"
od -A d -t x1z -N 96 "$snapshot"

echo "The file is read back and checked; and a file that is cut is refused, with status 3:"
run 0 check in="$snapshot"
head -c 1000000 "$snapshot" >"$work/cut.snap"
(cd "$work" && run 3 check in=cut.snap) || exit 1

echo "The machine of the file, as it was at the instant; and run on until it halts:"
run 0 restore in="$snapshot"
run 0 restore in="$snapshot" run=1000 | tee "$work/restored"

# The first line of the one is that of the command, and the second that of the save.
cmp -s <(tail -n +3 "$work/saved") <(tail -n +2 "$work/restored") || fail "the machine of the file ran to another end"
echo "The machine that ran on while it was saved ended as the one of the file."
