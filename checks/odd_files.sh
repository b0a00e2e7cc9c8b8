#!/usr/bin/env bash
# Runs rvsnap where files aren't plain ones or the system gets in the way: devices, pipes and files of the system as
# output, standard descriptors that are closed, a limit on the size of files, and calls that a signal interrupts. What
# no proof reaches is shown here: that no byte that was there is lost. A part whose tool or right is missing is left
# out.
set -euo pipefail
cd "$(dirname "$0")/.."

# shellcheck source=checks/lib/programs.sh
. checks/lib/programs.sh

build_rvsnap_or_skip

source=$work/source
printf 'ecall\nebreak\n' > "$source"
printf '\x73\x00\x00\x00\x73\x00\x10\x00' > "$work/assembled"
done_line=$'assembled 8 bytes\n'
not_empty=$'fault 8 not-empty 4\n'
file_fault=$'fault 4 file-fault\n'

# expect STATUS TEXT COMMAND...: the command ends so, and prints just this.
expect() {
    local wanted=$1 text=$2 status=0
    shift 2
    "$@" > "$work/printed" || status=$?
    [ "$status" -eq "$wanted" ] || fail "status $status, not $wanted, from: $*"
    printf '%s' "$text" | cmp -s - "$work/printed" || fail "printed '$(cat "$work/printed")', not '$text', by: $*"
}

assemble() {
    "$rvsnap" asm image="$source" out="$1"
}

# holds FILE BYTES: the file begins with these bytes.
holds() {
    cmp -s -n "$(wc -c < "$2")" "$1" "$2" || fail "$1 doesn't hold what $2 does"
}

keeps_four_bytes() {
    [ "$(cat "$1")" = kept ] || fail "$1 had bytes, and was changed by: $2"
}

# A block device has its length, though its inode tells 0.
block_device() {
    local device
    printf 'kept' > "$work/disk"
    cp "$work/disk" "$work/start"
    truncate -s 1048576 "$work/disk"
    if ! has losetup || ! device=$(losetup --find --show "$work/disk" 2> "$work/errors"); then
        say "no loop device can be made, so none is tried"
        return
    fi
    trap 'losetup -d "$device"; rm -rf "$work"' EXIT
    expect 8 $'fault 8 not-empty 1048576\n' assemble "$device"
    holds "$device" "$work/start"
    losetup -d "$device"
    trap 'rm -rf "$work"' EXIT
}

# A file of the system has bytes where its length is told as 0. This one is the shell's own, and is left as it was.
system_file() {
    local file=/proc/$$/coredump_filter before
    before=$(cat "$file" 2> "$work/errors") || return 0
    printf '.byte 0x31\n.byte 0x0a\n' > "$work/number"
    expect 4 "$file_fault" "$rvsnap" asm image="$work/number" out="$file"
    [ "$(cat "$file")" = "$before" ] || fail "a file of the system was written over"
}

from_a_pipe() {
    printf 'kept' | "$rvsnap" asm image="$source" out=/dev/stdin
}

# What has no places takes no byte, and what keeps no place counts as no file.
without_places() {
    mkfifo "$work/pipe"
    expect 4 "$file_fault" assemble "$work/pipe"
    expect 4 "$file_fault" from_a_pipe
    expect 4 "$file_fault" assemble /dev/zero
    if has script && script -qec true "$work/typed" > "$work/printed" < /dev/null; then
        script -qec "'$rvsnap' asm 'image=$source' out=/dev/tty" "$work/typed" > "$work/printed" < /dev/null || true
        grep -q 'fault 4 file-fault' "$work/printed" || fail "a terminal as output: '$(cat "$work/printed")'"
    fi
}

# closed DESCRIPTORS FILE: assembles into a file where these descriptors are closed.
closed() (
    for descriptor in $1; do
        eval "exec $descriptor>&-"
    done
    exec "$rvsnap" asm image="$source" out="$2"
)

# No file gets a standard descriptor, so nothing that is printed goes into one.
closed_descriptors() {
    local descriptors status line
    for descriptors in 0 1 2 '0 1' '0 2' '1 2' '0 1 2'; do
        status=0 line=$done_line
        case $descriptors in *1*) status=5 line= ;; esac
        rm -f "$work/new"
        expect "$status" "$line" closed "$descriptors" "$work/new"
        cmp -s "$work/new" "$work/assembled" || fail "without descriptors $descriptors a new file isn't the text's bytes"
        printf 'kept' > "$work/old"
        line=$not_empty
        case $descriptors in *1*) line= ;; esac
        expect 8 "$line" closed "$descriptors" "$work/old"
        keeps_four_bytes "$work/old" "an assembly without descriptors $descriptors"
    done
}

# closed_input IMAGE: a text is read from an input that is closed.
closed_input() (
    exec 0<&-
    exec "$rvsnap" asm image=/dev/stdin out="$work/none"
)

# limited: saves under a limit of 1,024 bytes a file.
limited() (
    ulimit -f 1
    exec "$rvsnap" save image="$work/assembled" out="$work/limited" pages=1
)

limited_and_told() (
    trap '' XFSZ
    limited
)

# A limit on the size of files: told where its signal is ignored. Else the system ends the program. Either way no whole
# file stands there: the first byte is 0.
size_limit() {
    local status=0
    printf '\x00' > "$work/start"
    expect 4 'save failed blocked 0 faults 0 sweep 0
clock 0
cpu 0 running pc 0000000080000000 steps 0
serial 0 lost 0
timer 0000000000000000
ram pages 1 nonzero 1 sum 0010007300000073
'"$file_fault" limited_and_told
    holds "$work/limited" "$work/start"
    rm "$work/limited"
    (limited) > "$work/printed" 2> "$work/errors" || status=$?
    [ "$status" -gt 128 ] || fail "status $status, where the system ends the program"
    holds "$work/limited" "$work/start"
}

# interrupted CALL FILE: the first such call on this file is interrupted.
interrupted() {
    strace -o "$work/calls" -P "$2" -e trace="$1" -e inject="$1:error=EINTR:when=1" \
        "$rvsnap" asm image="$source" out="$work/interrupted"
}

# A call that a signal interrupts is made again.
interrupted_calls() {
    local call
    rm -f "$work/interrupted"
    expect 0 "$done_line" interrupted read "$source"
    for call in read write fsync; do
        rm "$work/interrupted"
        expect 0 "$done_line" interrupted "$call" "$work/interrupted"
        cmp -s "$work/interrupted" "$work/assembled" || fail "an interrupted $call: the file isn't the text's bytes"
        grep -q INJECTED "$work/calls" || fail "no $call on the output was interrupted"
    done
}

# unheld CLOSING FILE: assembles into a file where these redirections close descriptors and nothing can hold them.
unheld() {
    strace -o "$work/calls" -P / -e trace=openat -e inject=openat:error=EACCES \
        bash -c "exec $1; exec '$rvsnap' asm image='$source' out='$2'"
}

# Then no file is opened as one of them.
unheld_descriptors() {
    local closing
    printf 'kept' > "$work/old"
    for closing in '1>&-' '0>&- 1>&-' '0>&- 1>&- 2>&-'; do
        expect 6 '' unheld "$closing" "$work/old"
        keeps_four_bytes "$work/old" "an assembly without what $closing closes"
        grep -q INJECTED "$work/calls" || fail "nothing that holds a descriptor was refused"
    done
    expect 6 $'fault 6 image-fault\n' unheld '2>&-' "$work/old"
    expect 8 "$not_empty" unheld '3>&-' "$work/old"
    keeps_four_bytes "$work/old" "an assembly that holds no descriptor"
}

# What only a tracer can bring about.
traced() {
    if ! has strace || ! strace -o "$work/calls" true 2> "$work/errors"; then
        say "no call can be made to fail without strace, so none is"
        return
    fi
    interrupted_calls
    unheld_descriptors
}

block_device
system_file
without_places
say "an output that is a device, a pipe or a file of the system is refused, and isn't written"
closed_descriptors
expect 6 $'fault 6 image-fault\n' closed_input
[ ! -e "$work/none" ] || fail "an input that is closed was read"
say "no output gets what is printed, whichever descriptors are closed"
size_limit
traced
say "a limit on files is told, and an interrupted call is made again"
