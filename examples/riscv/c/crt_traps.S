# Start and end of a program that takes traps. The program's stack ends 4 KiB below that of the handler, which mscratch names.
# At the end it stands still, by a jump to itself.
    .option arch, +zicsr
    .section .text.start
    .globl _start
_start:
    .option push
    .option norelax
    la   gp, __global_pointer$
    .option pop
    la   t0, trap
    csrw mtvec, t0
    la   t0, stack_top
    csrw mscratch, t0
    li   t1, 0x1000
    sub  sp, t0, t1
    li   a0, 0
    li   a1, 0
    li   a2, 0
    call main
    la   t0, result
    sw   a0, 0(t0)
stop:
    j    stop

# All registers go into a frame, x[n] at its place n, and the handler may change them there. It answers where to go on.
    .align 2
trap:
    csrrw sp, mscratch, sp
    addi sp, sp, -128
    .irp n, 1, 3, 4, 5, 6, 7, 8, 9, 10, 11, 12, 13, 14, 15, 16, 17, 18, 19, 20, 21, 22, 23, 24, 25, 26, 27, 28, 29, 30, 31
    sw   x\n, 4 * \n(sp)
    .endr
    csrr t0, mscratch
    sw   t0, 8(sp)
    sw   zero, 0(sp)
    mv   a0, sp
    csrr a1, mcause
    csrr a2, mtval
    csrr a3, mepc
    call handle
    csrw mepc, a0
    lw   t0, 8(sp)
    csrw mscratch, t0
    .irp n, 1, 3, 4, 5, 6, 7, 8, 9, 10, 11, 12, 13, 14, 15, 16, 17, 18, 19, 20, 21, 22, 23, 24, 25, 26, 27, 28, 29, 30, 31
    lw   x\n, 4 * \n(sp)
    .endr
    addi sp, sp, 128
    csrrw sp, mscratch, sp
    mret

    .section .bss
    .globl result
    .align 2
result: .space 4
