# Walks over every fourth page of 64 MiB of RAM for ever. In each it loads a number, adds to it and stores it, and keeps a
# count of its walk in x20, which it stores too.
        lui   x5, 0x80001        # the count, sign-extended: its upper half is cleared below
        slli  x5, x5, 32
        srli  x5, x5, 32
        lui   x11, 0x84000       # the end of RAM
        slli  x11, x11, 32
        srli  x11, x11, 32
        lui   x12, 4             # the bytes of four pages
        lui   x13, 3
        add   x13, x13, x5       # the first page of a walk
walk:   addi  x6, x13, 0
visit:  ld    x7, 0(x6)
        addi  x7, x7, 1
        sd    x7, 0(x6)
        addi  x20, x20, 1
        sd    x20, 0(x5)
        add   x6, x6, x12
        bltu  x6, x11, visit
        jal   x0, walk
