#!/usr/bin/env bash
# Builds a C program for rv64ia with each RISC-V toolchain at hand, and runs it on four vCPUs that fill a table and add to
# shared words by AMO. It is saved in the middle of its run, and the machine that ran on, the machine of the file, which runs
# on after a restore, and the machine that ran without a save end with one and the same report. Two saves of the instant by
# other turns are the same file byte for byte. What the guest computed is compared with the same C code on this machine. Skips
# where neither GNU gcc for riscv64 nor clang with lld is at hand.
set -euo pipefail
cd "$(dirname "$0")/.."

# shellcheck source=checks/lib/outside.sh
. checks/lib/outside.sh

cat > "$work/work.h" <<'C'
// What each vCPU does: it fills its part of a table, adds it up by AMO, and counts itself.
struct results {
    unsigned long table[4][2048];
    unsigned long total;
    unsigned long finished;
};

static struct results results;

static void work(unsigned long vcpu) {
    unsigned long x = vcpu + 1;
    for (int i = 0; i < 2048; i += 1) {
        x ^= x << 13;
        x ^= x >> 7;
        x ^= x << 17;
        results.table[vcpu][i] = x;
        __atomic_fetch_add(&results.total, x ^ (x >> 5), __ATOMIC_RELAXED);
    }
    __atomic_fetch_add(&results.finished, 1, __ATOMIC_RELAXED);
}
C

cat > "$work/guest.c" <<'C'
#include "work.h"

unsigned char stacks[4 * 1024] __attribute__((aligned(16)));

__asm__(".section .text.start\n"
        ".globl _start\n"
        "_start:\n"
        "    la sp, stacks\n"
        "    addi t0, a0, 1\n"
        "    slli t0, t0, 10\n"
        "    add sp, sp, t0\n"
        "    call run\n"
        // An AMO leaves in a register what it found, which depends on the order of the events.
        "    li a0, 0\n"
        "    li a1, 0\n"
        "    li a2, 0\n"
        "    li a3, 0\n"
        "    li a4, 0\n"
        "    li a5, 0\n"
        "    li a6, 0\n"
        "    li a7, 0\n"
        "    li t0, 0\n"
        "    li t1, 0\n"
        "    li t2, 0\n"
        "    ebreak\n"
        ".text\n");

__attribute__((used)) void run(unsigned long vcpu) {
    work(vcpu);
}
C

cat > "$work/here.c" <<'C'
#include <stdio.h>
#include "work.h"

int main(void) {
    for (unsigned long vcpu = 0; vcpu < 4; vcpu += 1) {
        work(vcpu);
    }
    return fwrite(&results, sizeof results, 1, stdout) == 1 ? 0 : 1;
}
C

put_linker_script "$work/guest.ld"

flags=(-march=rv64ia -mabi=lp64 -mcmodel=medany -mno-relax -O2 -ffreestanding -fno-pic -nostdlib -static)

with_gnu() {
    riscv64-unknown-elf-gcc "${flags[@]}" -T "$work/guest.ld" -o "$work/guest.elf" "$work/guest.c"
    riscv64-unknown-elf-nm "$work/guest.elf" > "$work/symbols"
}

with_llvm() {
    clang --target=riscv64-unknown-elf "${flags[@]}" -c -o "$work/guest.o" "$work/guest.c"
    ld.lld -static -T "$work/guest.ld" -o "$work/guest.elf" "$work/guest.o"
    llvm-nm "$work/guest.elf" > "$work/symbols"
}

has_gnu() {
    has riscv64-unknown-elf-gcc && has riscv64-unknown-elf-nm
}

has_llvm() {
    has clang && has ld.lld && has llvm-nm && clang --print-targets | grep -q riscv64
}

# line NAME WORD...: what rvsnap prints to these words goes to a file; it has to end with status 0.
line() {
    local printed=$work/$1 status=0
    shift
    "$rvsnap" "$@" > "$printed" || status=$?
    [ "$status" -eq 0 ] || fail "status $status from: rvsnap $*: $(cat "$printed")"
}

# same NAME NAME: two texts are the same from the line of the clock on.
same() {
    cmp <(sed '/^save /d' "$work/$1") <(sed '/^save /d' "$work/$2") || fail "$1 and $2 print other reports"
}

# try TOOLCHAIN FUNCTION: the guest that the function builds is saved, restored and run without a save.
try() {
    rm -f "$work"/*.snap
    "$2"
    local shape=(image="$work/guest.elf" vcpus=4 pages=64)
    line saved save "${shape[@]}" out="$work/middle.snap" stop=10000 run=1000000 seed=3
    line again save "${shape[@]}" out="$work/other.snap" stop=10000 run=0 turns=ssss0123
    line started save "${shape[@]}" out="$work/start.snap"
    line ended save "${shape[@]}" out="$work/end.snap" stop=1000000
    line restored restore in="$work/middle.snap" run=1000000
    line unsaved restore in="$work/start.snap" run=1000000
    line checked check in="$work/middle.snap"
    [ "$(cat "$work/checked")" = "ok vcpus 4 blocks 1 pages 64" ] || fail "printed '$(cat "$work/checked")' of the file"
    [ "$(grep -c '^cpu [0-3] ebreak ' "$work/saved")" -eq 4 ] || fail "a vCPU didn't come to its end: $(cat "$work/saved")"
    same saved restored
    same saved unsaved
    same saved ended
    cmp "$work/middle.snap" "$work/other.snap" || fail "two saves of one instant are two files"
    # RAM follows the first MiB of the file, from the guest's address 0x80000000 on.
    local at
    at=$(awk '$3 == "results" { print $1 }' "$work/symbols")
    dd if="$work/end.snap" of="$work/results" bs=65536 iflag=skip_bytes,count_bytes status=none \
        skip=$((0x100000 + 16#$at - 0x80000000)) count="$(wc -c < "$work/wanted")"
    cmp "$work/wanted" "$work/results" || fail "the guest that $1 built computed something else than the code does here"
    say "the guest that $1 built, saved in the middle of its run: $(head -n 1 "$work/saved"); restored and without a save it ends alike"
}

has_gnu || has_llvm || skip "neither riscv64-unknown-elf-gcc nor clang with ld.lld is installed"
has cc || skip "no C compiler for this machine is installed"
build_rvsnap_or_skip

cc -O1 -o "$work/here" "$work/here.c"
"$work/here" > "$work/wanted"

if has_gnu; then
    try "GNU gcc" with_gnu
fi
if has_llvm; then
    try "clang" with_llvm
fi
