; Copies sixteen numbers from the BIOS into the inner RAM and sorts them there, signed, by insertion.

        mov   r0, #0x03000000
        add   r1, pc, #0x50   ; r1 is the table
        mov   r2, #16
copy:   ldr   r3, [r1], #4
        str   r3, [r0], #4
        subs  r2, r2, #1
        bne   copy
        mov   r0, #0x03000000
        add   r4, r0, #4      ; the next number to put in
next:   ldr   r5, [r4]
        mov   r6, r4
look:   ldr   r7, [r6, #-4]   ; the number before it
        cmp   r7, r5
        ble   put
        str   r7, [r6], #-4   ; moves up
        cmp   r6, r0
        bne   look
put:    str   r5, [r6]
        add   r4, r4, #4
        sub   r8, r4, r0
        cmp   r8, #64
        bne   next
stay:   b     stay
table:  .word 7
        .word 0xfffffffe      ; -2
        .word 0x00000010
        .word 0x80000000      ; the least signed number
        .word 0x7fffffff      ; the greatest
        .word 0x00000000
        .word 0x00000007      ; again
        .word 0xffffffff      ; -1
        .word 0x12345678
        .word 0x0000ffff
        .word 0x00010000
        .word 0xfedcba98
        .word 0x00000001
        .word 0xdeadbeef
        .word 0x00000042
        .word 0xfffffff0      ; -16
        .space 16228
