# A text for an assembler, of so many statements: awk -v statements=COUNT -f labelled_text.awk. Each run prints the same.
# Every fourth statement has a label. Branches go to one of the 51 labels around them, jumps to any. A byte is followed
# by a second one at once, so that all other statements stand at even places; the bytes are whole words in the end, since
# some assemblers add to them else.

# The next number of a fixed sequence (Park and Miller's), below a limit.
function draw(below) {
    state = (state * 16807) % 2147483647
    return state % below
}

function pick(words,    list) {
    return list[1 + draw(split(words, list, " "))]
}

# Blanks, and blanks or none.
function blank() {
    return draw(4) ? " " : draw(2) ? "\t" : "  \t "
}

function maybe_blank() {
    return draw(4) ? "" : blank()
}

# The end of a line: a comment or none, and a carriage return or none.
function ending() {
    return maybe_blank() (draw(3) ? "" : pick("# #x1,: #(a_0: #.byte")) (draw(3) ? "" : "\r")
}

function register() {
    return "x" draw(32)
}

function number(least, most,    n) {
    n = least + draw(most - least + 1)
    if (draw(3)) {
        return n
    }
    return (n < 0 ? "-" : "") sprintf(draw(2) ? "0x%x" : "0x%X", n < 0 ? -n : n)
}

# A number of so many halves of a word, which awk itself may have no place for.
function large_number(halves,    text) {
    for (text = "0x"; halves > 0; halves -= 1) {
        text = text sprintf("%04x", draw(65536))
    }
    return text
}

function near_label(    i) {
    i = int(line / 4) + draw(51) - 25
    return i < 0 ? names[0] : i < labels ? names[i] : names[labels - 1]
}

function comma() {
    return maybe_blank() "," maybe_blank()
}

function two(mnemonics, first, second) {
    return pick(mnemonics) blank() first comma() second
}

function three(mnemonics, first, second, third) {
    return two(mnemonics, first, second) comma() third
}

function at_register(n) {
    return n maybe_blank() "(" maybe_blank() register() maybe_blank() ")"
}

function data(directive, n) {
    return directive blank() n
}

function zeros(n) {
    pairs += n / 2
    return data(".zero", n)
}

function two_bytes() {
    pairs += 1
    return data(".byte", number(-128, 255)) ending() "\n" data(".byte", number(-128, 255))
}

function statement(    kind) {
    kind = draw(17)
    if (kind == 0) return three("add sub sll srl sra slt sltu xor or and", register(), register(), register())
    if (kind == 1) return three("addw subw sllw srlw sraw", register(), register(), register())
    if (kind == 2) return three("addi slti sltiu xori ori andi addiw", register(), register(), number(-2048, 2047))
    if (kind == 3) return three("slli srli srai", register(), register(), number(0, 63))
    if (kind == 4) return three("slliw srliw sraiw", register(), register(), number(0, 31))
    if (kind == 5) return two("lb lbu lh lhu lw lwu ld jalr", register(), at_register(number(-2048, 2047)))
    if (kind == 6) return two("sb sh sw sd", register(), at_register(number(-2048, 2047)))
    if (kind == 7) return two("lui auipc", register(), number(0, 1048575))
    if (kind == 8) return three(amo(), register(), register(), at_register(""))
    if (kind == 9) return pick("fence ecall ebreak")
    if (kind == 10) return two("jal", register(), names[draw(labels)])
    if (kind == 11) return data(pick(".word .dword"), number(-100000, 100000))
    if (kind == 12) return draw(2) ? data(".word", large_number(2)) : data(".dword", large_number(4))
    if (kind == 13) return zeros(2 + 2 * draw(8))
    if (kind == 14) return two_bytes()
    return three("beq bne blt bltu bge bgeu", register(), register(), near_label())
}

function amo() {
    return pick("amoadd amoswap amoxor amoor amoand amomin amomax amominu amomaxu") \
        pick(".w .d") (draw(4) ? pick(".aq .rl .aqrl") : "")
}

# A label, on the line of the statement that follows or on lines of its own.
function label(name) {
    return name maybe_blank() ":" maybe_blank() (draw(3) ? "" : ending() "\n" ending() "\n" maybe_blank())
}

BEGIN {
    state = 1
    labels = int((statements + 3) / 4)
    for (i = 0; i < labels; i += 1) {
        names[i] = pick("a _b C_ d_9") "_" i
    }
    print ".byte -128\n.byte 255\n.zero 2\n.word -2147483648\n.word 4294967295"
    print ".dword -9223372036854775808\n.dword 18446744073709551615"
    for (line = 0; line < statements; line += 1) {
        print maybe_blank() (line % 4 ? "" : label(names[line / 4])) statement() ending()
    }
    if (pairs % 2) print zeros(2)
}
