# What the checks share: the outside assemblers, and what they are compared with. A check sources this file at the top of
# the repository.
# shellcheck shell=bash

# shellcheck source=checks/lib/programs.sh
. checks/lib/programs.sh

# generate COUNT: generated words in $work/words, and their statements in $work/statements, a line for each.
generate() {
    build_or_skip instruction_words crates/instruction_words/src crates/rv64i_decode/src
    crates/instruction_words/out/instruction_words "$1" > "$work/lines" || fail "instruction_words failed"
    local count
    count=$(wc -l < "$work/lines")
    [ "$count" = "$1" ] || fail "instruction_words printed $count lines, not $1"
    cut -d ' ' -f 1 "$work/lines" > "$work/words"
    cut -d ' ' -f 2- "$work/lines" > "$work/statements"
}

has_gnu_as() {
    has riscv64-unknown-elf-as && has riscv64-unknown-elf-objcopy
}

has_llvm_mc() {
    has llvm-mc && has llvm-objcopy
}

need_outside_assembler() {
    has_gnu_as || has_llvm_mc || skip "neither riscv64-unknown-elf-as nor llvm-mc is installed"
}

# with_each_assembler FUNCTION WORD...: the function, with the words and then the name of each assembler at hand and the
# function that makes bytes with it.
with_each_assembler() {
    if has_gnu_as; then
        "$@" "GNU as" gnu_bytes
    fi
    if has_llvm_mc; then
        "$@" "llvm-mc" llvm_bytes
    fi
}

# gnu_bytes TEXT BYTES, llvm_bytes TEXT BYTES: the bytes that a text assembles to. An assembler that refuses a statement
# says so itself, and ends the check.

# GNU as reads a number in a target's place as an address, so an offset is written from here.
gnu_bytes() {
    sed -E 's/^((b[a-z]+|jal|\.insn b) .*, )(-?[0-9]+)$/\1. + \3/' "$1" > "$work/code.s"
    riscv64-unknown-elf-as -march=rv64ima_zicsr_zifencei -mno-relax -o "$work/code.o" "$work/code.s"
    riscv64-unknown-elf-objcopy -O binary -j .text "$work/code.o" "$2"
}

llvm_bytes() {
    llvm-mc --triple=riscv64 --mattr=+m,+a --filetype=obj -o "$work/code.o" "$1"
    llvm-objcopy -O binary -j .text "$work/code.o" "$2"
}

# words_of BYTES: the little-endian words of a file, a line for each.
words_of() {
    od -An -v -w4 -tx4 --endian=little "$1" | sed 's/^ */0x/'
}

# put_linker_script FILE: how a toolchain links a guest: code from the start of RAM on, and its data behind it.
put_linker_script() {
    cat > "$1" <<'LD'
ENTRY(_start)
PHDRS {
    code PT_LOAD FLAGS(5);
    data PT_LOAD FLAGS(6);
}
SECTIONS {
    . = 0x80000000;
    .text : { *(.text.start) *(.text .text.*) } :code
    .rodata : { *(.rodata .rodata.* .srodata .srodata.*) } :code
    .data : { *(.data .data.* .sdata .sdata.*) } :data
    .bss : { *(.bss .bss.* .sbss .sbss.*) } :data
    /DISCARD/ : { *(.comment) *(.note*) *(.eh_frame*) *(.riscv.attributes) }
}
LD
}
