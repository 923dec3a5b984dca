# Loads a double word at address 1.
    .text
    addi a7, zero, 1
    ld t1, 1(zero)
