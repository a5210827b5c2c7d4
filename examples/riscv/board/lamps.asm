// Counts on the lamps: word 64 of `data` grows by one about three times a second, where the clock has 12 MHz.
        li   s0, 0x100
count:  addi a0, a0, 1
        sw   a0, s0, 0
        lui  a1, 0x100              // 2^20 rounds
wait:   addi a1, a1, -1
        bneb a1, zero, wait
        jb   count
