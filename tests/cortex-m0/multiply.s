@ The low 64 bits of a product by the ARM run-time ABI: r0:r1 times r2:r3, low words first, to r0:r1. The processor multiplies words to a
@ word, so the low words are multiplied by halves.
    .syntax unified
    .cpu cortex-m0
    .thumb

    .section .text.__aeabi_lmul, "ax"
    .balign 4
    .global __aeabi_lmul
    .thumb_func
__aeabi_lmul:
    push {r4, r5, lr}
    muls r1, r2
    muls r3, r0
    adds r1, r3             @ of the high words
    lsrs r3, r0, #16
    lsrs r4, r2, #16
    uxth r0, r0
    uxth r2, r2
    movs r5, r3
    muls r5, r4
    adds r1, r5             @ high half by high half
    muls r3, r2
    muls r4, r0
    muls r0, r2             @ low half by low half
    adds r3, r4
    movs r4, #0
    adcs r4, r4
    lsls r4, r4, #16
    adds r1, r4             @ what the sum of the two middle ones is too large by
    lsls r4, r3, #16
    lsrs r3, r3, #16
    adds r0, r4
    adcs r1, r3
    pop {r4, r5, pc}
