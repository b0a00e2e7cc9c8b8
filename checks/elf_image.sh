#!/usr/bin/env bash
# Builds a small C program for rv64i with each RISC-V toolchain at hand, gives rvsnap the ELF file as it is, and
# compares the first page of RAM in the snapshot with the program's bytes and with zeros behind them. Skips where
# neither GNU gcc for riscv64 nor clang with lld is at hand.
set -euo pipefail
cd "$(dirname "$0")/.."

# shellcheck source=checks/lib/outside.sh
. checks/lib/outside.sh

pages_at=$((0x100000))
page=4096

cat > "$work/guest.c" <<'C'
// Writes a line to the serial device, counts the calls in memory, and ends at an ebreak.
static const char line[] = "hello from an ELF file\n";
static unsigned long calls = 7;
static volatile unsigned char seen[64];

static void send(char byte) {
    *(volatile char *)0x10000000 = byte;
    calls += 1;
    seen[calls & 63] = (unsigned char)byte;
}

__attribute__((section(".text.start"))) void _start(void) {
    for (const char *at = line; *at != 0; at += 1) {
        send(*at);
    }
    __asm__ volatile("ebreak");
    for (;;) {
    }
}
C

put_linker_script "$work/guest.ld"

flags=(-march=rv64i -mabi=lp64 -mcmodel=medany -mno-relax -O1 -ffreestanding -fno-pic -nostdlib -static)

with_gnu() {
    riscv64-unknown-elf-gcc "${flags[@]}" -T "$work/guest.ld" -o "$work/guest.elf" "$work/guest.c"
    riscv64-unknown-elf-objcopy -O binary "$work/guest.elf" "$work/guest.bin"
}

with_llvm() {
    clang --target=riscv64-unknown-elf "${flags[@]}" -c -o "$work/guest.o" "$work/guest.c"
    ld.lld -static -T "$work/guest.ld" -o "$work/guest.elf" "$work/guest.o"
    llvm-objcopy -O binary "$work/guest.elf" "$work/guest.bin"
}

has_gnu() {
    has riscv64-unknown-elf-gcc && has riscv64-unknown-elf-objcopy
}

has_llvm() {
    has clang && has ld.lld && has llvm-objcopy && clang --print-targets | grep -q riscv64
}

# accept TOOLCHAIN FUNCTION: the file that the function builds is accepted, and its bytes stand in RAM.
accept() {
    rm -f "$work/guest.elf" "$work/guest.bin" "$work/guest.snap"
    "$2"
    local status=0
    "$rvsnap" save image="$work/guest.elf" out="$work/guest.snap" vcpus=1 blocks=1 pages=1 stop=0 run=0 > "$work/printed" || status=$?
    if [ "$status" -ne 0 ]; then
        fail "rvsnap ended with status $status on the file that $1 built"
    fi
    local len
    len=$(wc -c < "$work/guest.bin")
    { cat "$work/guest.bin"; head -c $((page - len)) /dev/zero; } > "$work/wanted"
    dd if="$work/guest.snap" of="$work/ram" bs="$page" iflag=skip_bytes skip="$pages_at" count=1 status=none
    if ! cmp "$work/wanted" "$work/ram"; then
        fail "the first page of RAM isn't the program that $1 built"
    fi
    say "the ELF file that $1 built is accepted, and its $len bytes stand at the start of RAM"
}

has_gnu || has_llvm || skip "neither riscv64-unknown-elf-gcc nor clang with ld.lld is installed"
build_rvsnap_or_skip

if has_gnu; then
    accept "GNU gcc" with_gnu
fi
if has_llvm; then
    accept "clang" with_llvm
fi
