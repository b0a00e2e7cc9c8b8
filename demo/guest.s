# Each vCPU counts to 100 in a page of its own, and halts.
        auipc x5, 1
        slli  x6, x10, 12
        add   x5, x5, x6
        addi  x8, x0, 100
again:  ld    x7, 0(x5)
        addi  x7, x7, 1
        sd    x7, 0(x5)
        bne   x7, x8, again
        ebreak
