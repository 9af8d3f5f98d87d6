@ Counts the calls of the division routines, where the linker gives them these for those (--wrap).
    .syntax unified
    .cpu cortex-m0
    .thumb

    .macro counted name
    .section .text.__wrap_\name, "ax"
    .balign 4
    .global __wrap_\name
    .thumb_func
__wrap_\name:
    push {r4-r6, lr}
    ldr r4, =divisions
    ldr r5, [r4]
    adds r5, #1
    str r5, [r4]
    bl __real_\name
    pop {r4-r6, pc}
    .ltorg
    .endm

    counted __aeabi_ldivmod
    counted __aeabi_uldivmod
