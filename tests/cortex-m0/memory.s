@ The memory routines of the ARM run-time ABI. A copy goes from r1 to r0 with the count in r2; a fill goes to r0 with the count in r1 and
@ the byte in r2. A name that ends in 4 or 8 has its addresses at multiples of that.
    .syntax unified
    .cpu cortex-m0
    .thumb
    .section .text.memory, "ax"
    .balign 4

    .macro routine names:vararg
    .irp name, \names
    .global \name
    .thumb_func
\name:
    .endr
    .endm

@ Forwards, a copy to a place within the source would overwrite what is still to be copied.
    routine __aeabi_memmove, __aeabi_memmove4, __aeabi_memmove8
    subs r3, r0, r1
    cmp r3, r2
    blo backwards

    routine __aeabi_memcpy
    movs r3, r0
    eors r3, r1
    lsls r3, r3, #30
    beq together
    subs r2, #4
    blo 2f
1:  ldrb r3, [r1]
    strb r3, [r0]
    ldrb r3, [r1, #1]
    strb r3, [r0, #1]
    ldrb r3, [r1, #2]
    strb r3, [r0, #2]
    ldrb r3, [r1, #3]
    strb r3, [r0, #3]
    adds r0, #4
    adds r1, #4
    subs r2, #4
    bhs 1b
2:  adds r2, #4
    beq 4f
last_bytes:
    adds r0, r2
    adds r1, r2
    rsbs r2, r2, #0
3:  ldrb r3, [r1, r2]
    strb r3, [r0, r2]
    adds r2, #1
    bne 3b
4:  bx lr

backwards:
    subs r2, #1
    blo 4b
    ldrb r3, [r1, r2]
    strb r3, [r0, r2]
    b backwards

@ Both addresses are as far from a multiple of four.
1:  subs r2, #1
    blo 4b
    ldrb r3, [r1]
    strb r3, [r0]
    adds r0, #1
    adds r1, #1
together:
    lsls r3, r0, #30
    bne 1b

    routine __aeabi_memcpy4, __aeabi_memcpy8
    push {r4-r6, lr}
    subs r2, #16
    blo 2f
1:  ldmia r1!, {r3-r6}
    stmia r0!, {r3-r6}
    subs r2, #16
    bhs 1b
2:  adds r2, #12
    blo 4f
3:  ldmia r1!, {r3}
    stmia r0!, {r3}
    subs r2, #4
    bhs 3b
4:  adds r2, #4
    beq 5f
    bl last_bytes
5:  pop {r4-r6, pc}

    routine __aeabi_memclr, __aeabi_memclr4, __aeabi_memclr8
    movs r2, #0
    routine __aeabi_memset, __aeabi_memset4, __aeabi_memset8
    uxtb r2, r2
    lsls r3, r2, #8
    orrs r2, r3
    lsls r3, r2, #16
    orrs r2, r3
    b 2f
1:  subs r1, #1
    blo 6f
    strb r2, [r0]
    adds r0, #1
2:  lsls r3, r0, #30
    bne 1b
    subs r1, #4
    blo 4f
3:  stmia r0!, {r2}
    subs r1, #4
    bhs 3b
4:  adds r1, #4
5:  subs r1, #1
    blo 6f
    strb r2, [r0, r1]
    b 5b
6:  bx lr
