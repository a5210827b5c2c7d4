// Fibonacci's numbers, in turn in r2 and r1: each is the sum of the two before it.
      addi r1, r0, 1
loop: add r2, r1, r2
      add r1, r1, r2
      jump loop
