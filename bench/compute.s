# Computes for ever, and makes no access: a mix of shifts, sums and comparisons of a state in x8 and x9, and a count in x20.
        lui   x8, 0x243f6
        addi  x8, x8, 0x457
        addi  x9, x0, 1
mix:    slli  x5, x8, 13
        xor   x8, x8, x5
        srli  x6, x8, 7
        xor   x8, x8, x6
        add   x9, x9, x8
        sltu  x7, x9, x8
        add   x9, x9, x7
        srai  x6, x9, 3
        sub   x8, x8, x6
        andi  x7, x8, 0x3f
        addiw x20, x20, 1
        beq   x7, x0, mix
        ori   x9, x9, 1
        jal   x0, mix
