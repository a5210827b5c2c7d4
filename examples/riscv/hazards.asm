// A load and an addition that needs its word, forwarding, a branch that isn't taken, and one that is.
        li   a0, 0x100
        lw   a1, a0, 0
        add  a2, a1, a1
        add  a3, a2, a1
        bne  a3, a3, stop
        beq  a3, a3, on
        li   a4, 1
on:     li   a5, 2
stop:   ecall
