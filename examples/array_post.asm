// Fills an array, data 4 to 9, with 3, 6, 9 and so on, and then stores the sum of its words at data 0: array.asm, in
// which a load moves its address on by itself.
      li   r1, 4          // the address of a word
      addi r2, r1, 6      // the address after the last
fill: addi r3, r3, 3
      st   r3, r1, 0
      addi r1, r1, 1
      bne  r1, r2, fill

      li   r1, 4
sum:  ldp  r3, r1, 1
      add  r4, r4, r3
      bne  r1, r2, sum
      st   r4, r0, 0
      halt
