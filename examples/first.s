# Ends with the code 42.
    .text
    addi a7, zero, 1        # the number of EXIT
    addi a0, zero, 42       # the code
    ecall
