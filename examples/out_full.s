# Sends without an end.
    .text
    addi a7, zero, 3        # the number of SEND
again:
    ecall                   # sends a0, which is 0
    jal zero, again
