@ Division of 64-bit numbers by the ARM run-time ABI: r0:r1 by r2:r3, low words first; the quotient to r0:r1, the remainder to r2:r3.
@ No divisor is 0: that is proved where the division stands.
    .syntax unified
    .cpu cortex-m0
    .thumb

    .macro routine name
    .section .text.\name, "ax"
    .global \name
    .thumb_func
\name:
    .endm

    routine __aeabi_uldivmod
    .thumb_func
divided:                    @ for the one with signs: count.s counts calls by the routine's name
    cmp r0, r2
    mov r12, r1
    sbcs r1, r3
    mov r1, r12
    bhs 1f
    movs r2, r0             @ below the divisor
    movs r3, r1
    movs r0, #0
    movs r1, #0
    bx lr
1:  push {r4-r7, lr}
    lsrs r4, r2, #31
    orrs r4, r3
    bne wide
    movs r4, r0
    cmp r1, r2
    bhs 2f
    movs r3, r1             @ the quotient has one word
    movs r1, #0
    b 3f
2:  movs r0, r1
    bl word
    movs r1, r0
3:  movs r0, r4
    bl word
    movs r2, r3
    movs r3, #0
    pop {r4-r7, pc}

@ r0:r1 by r2:r3 of 2^31 or more: the divisor is doubled until its high word is that of the dividend or more, and halved again.
wide:
    movs r4, #0
    movs r5, #0
    movs r7, #0
1:  cmp r3, r1
    bhs 2f
    cmp r3, #0
    bmi 2f
    adds r2, r2
    adcs r3, r3
    adds r7, #1
    b 1b
2:  cmp r1, r3
    blo 4f
    bhi 3f
    cmp r0, r2
    blo 4f
3:  subs r0, r2
    sbcs r1, r3
4:  adcs r4, r4             @ the carry is the quotient's bit
    adcs r5, r5
    lsls r6, r3, #31
    lsrs r3, r3, #1
    lsrs r2, r2, #1
    orrs r2, r6
    subs r7, #1
    bpl 2b
    movs r2, r0
    movs r3, r1
    movs r0, r4
    movs r1, r5
    pop {r4-r7, pc}

@ One bit of the quotient. It stays in the carry, and the next one shifts it into r0, which the dividend leaves at its upper end.
    .macro bit
    adcs r0, r0
    adcs r3, r3
    cmp r3, r2
    blo 1f
    subs r3, r2
1:
    .endm
bit_size = 5 * 2            @ five instructions of two bytes

@ r3:r0 by r2, where r3 < r2 < 2^31: the quotient to r0, the remainder to r3. Of the quotient's four bytes, leading ones that are 0
@ are passed over, but for the last.
word:
    movs r7, #24 * bit_size
1:  lsrs r5, r3, #24
    bne 2f
    lsls r5, r3, #8
    lsrs r6, r0, #24
    orrs r5, r6
    cmp r5, r2
    bhs 2f
    movs r3, r5
    lsls r0, r0, #8
    subs r7, #8 * bit_size
    bne 1b
2:  adr r5, last_byte
    subs r5, r5, r7
    adds r5, #1             @ Thumb code, and no carry
    bx r5
    .balign 4
    .rept 24
    bit
    .endr
last_byte:
    .rept 8
    bit
    .endr
    adcs r0, r0
    bx lr

@ Changes the sign if `sign` is -1, and nothing if it is 0.
    .macro signed low, high, sign
    eors \low, \sign
    eors \high, \sign
    subs \low, \sign
    sbcs \high, \sign
    .endm

    routine __aeabi_ldivmod
    push {r4-r6, lr}
    asrs r4, r1, #31
    asrs r5, r3, #31
    signed r0, r1, r4
    signed r2, r3, r5
    bl divided
    eors r5, r4
    signed r0, r1, r5
    signed r2, r3, r4
    pop {r4-r6, pc}
