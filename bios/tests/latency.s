; Timer 0 interrupts a loop in the inner RAM 200 times, with periods that grow, so that each place in the loop is met.
; The handler stores at 02000000 the most cycles from an interrupt to its first instruction, the number of interrupts,
; r0, and whether r1 to r3 and r12 of the loop were kept.

        b     begin
        .space 0xae
        .byte 0x96
        .space 10
        .byte 0x51
        .space 2
begin:  mov   r0, #0x04000000
        ldr   r1, handler_at
        add   r1, r1, #0x08000000
        str   r1, [r0, #-4]
        add   r4, r0, #0x100
        add   r5, r0, #0x200
        mov   r1, #8
        strh  r1, [r5]
        mov   r6, #0x02000000
        mov   r9, #0x03000000
        add   r9, r9, #0x400         ; the period's reload
        ldr   r1, first
        str   r1, [r9]
        orr   r1, r1, #0x00c00000
        str   r1, [r4]
        mov   r7, #0x03000000
        ldr   r1, loop_1             ; the loop
        str   r1, [r7]
        ldr   r1, loop_2
        str   r1, [r7, #4]
        ldr   r1, loop_3
        str   r1, [r7, #8]
        mov   r1, #1
        strh  r1, [r5, #8]
        ldr   r1, ones
        add   r2, r1, r1
        add   r3, r2, r1
        add   r12, r3, r1
        add   lr, r12, r1
        add   r0, lr, r1
        mov   r8, #0
        mov   r10, r1
        mov   pc, r7
done:   mov   r8, #0
        cmp   r2, r10, lsl #1
        addeq r8, r10, r2
        cmpeq r3, r8
        addeq r8, r8, r10
        cmpeq r12, r8
        addeq r8, r8, r10
        cmpeq lr, r8
        addeq r8, r8, r10
        cmpeq r0, r8
        cmpeq r1, r10
        moveq r8, #1
        movne r8, #2
        str   r8, [r6, #12]
end:    b     end
handler:
        ldr   r1, [r0, #0x100]
        mov   r2, #0x03000000
        add   r2, r2, #0x400
        ldr   r3, [r2]
        mov   r1, r1, lsl #16
        rsb   r1, r3, r1, lsr #16
        mov   r12, #0x02000000
        ldr   r3, [r12]
        cmp   r1, r3
        strhi r1, [r12]
        str   r0, [r12, #8]
        ldr   r3, [r12, #4]
        add   r3, r3, #1
        str   r3, [r12, #4]
        ldr   r1, [r2]
        sub   r1, r1, #1             ; a longer period
        str   r1, [r2]
        add   r2, r0, #0x100
        strh  r1, [r2]               ; from the next overflow on: the timer starts anew
        mov   r1, #0
        strh  r1, [r2, #2]
        cmp   r3, #200
        movne r1, #0xc0              ; but not after the last one
        strneh r1, [r2, #2]
        add   r2, r2, #0x100
        mov   r1, #8
        strh  r1, [r2, #2]
        ldreq r1, done_at            ; the loop is left
        addeq r1, r1, #0x08000000
        streq r1, [r12, #0x10]
        ldreq r1, leave
        moveq r2, #0x03000000
        streq r1, [r2]
        ldreq r1, done_at
        addeq r1, r1, #0x08000000
        streq r1, [r2, #4]
        mov   r1, #0x5a
        mov   r2, #0x5b
        mov   r3, #0x5c
        mov   r12, #0x5d
        bx    lr
loop_1: .word 0xe1a08008             ; mov r8, r8
loop_2: .word 0xe1a00000             ; mov r0, r0
loop_3: .word 0xeafffffc             ; to the first
leave:  .word 0xe51ff004             ; ldr pc, [pc, #-4]
ones:   .word 0x11111111
first:  .word 0x0000fb00
handler_at:
        .word handler
done_at:
        .word done
        .word end
