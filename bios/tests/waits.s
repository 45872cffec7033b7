; Steps of a table, whose number it begins with. Each has four words: what is written to IE (low halfword) and IME
; (bit 16), with the bit 31 for interrupts masked in CPSR; the halfword that is put at 03007ff8 before; r0; and r1.
; The number of the call is in the bits 24 to 30 of the first word. Behind the call its step's line of the picture,
; the halfword at 03007ff8, IME, the numbers of handled interrupts of VBlank, HBlank and timer 0, and the cycles by
; the timers 2 and 3 are stored, eight words for a step from 02000000 on, the last one the picture's number. Timer 0
; overflows each 4096 cycles. The handler puts what it handles into 03007ff8.

        b     begin
        .space 0xae
        .byte 0x96
        .space 10
        .byte 0x51
        .space 2
begin:  mov   r4, #0x04000000
        ldr   r0, handler_at
        add   r0, r0, #0x08000000
        str   r0, [r4, #-4]
        mov   r0, #0x18              ; interrupts of VBlank and HBlank
        strh  r0, [r4, #4]
        add   r5, r4, #0x100
        add   r6, r4, #0x200
        ldr   r0, timer
        str   r0, [r5]
        ldr   r8, table
        mov   r9, #0x02000000
        ldr   r7, [r8], #4
        mov   r11, #0x03000000
        add   r11, r11, #0x400
next:   ldmia r8!, {r2, r3}
        ldmia r8!, {r0, r1}
        mov   r10, #0
        str   r10, [r11]
        str   r10, [r11, #4]
        str   r10, [r11, #8]
        strh  r3, [r4, #-8]
        mvn   r10, #0
        strh  r10, [r6, #2]
        mov   r3, r2, lsl #18
        mov   r3, r3, lsr #18
        strh  r3, [r6]
        mov   r3, r2, lsr #16
        strh  r3, [r6, #8]
        movs  r3, r2
        movmi r3, #0x9f
        movpl r3, #0x1f
        msr   cpsr_c, r3
        mov   r2, r2, lsl #1
        mov   r2, r2, lsr #25        ; the call's number
        mov   r3, #0x00840000
        str   r3, [r5, #12]
        mov   r3, #0x00800000
        str   r3, [r5, #8]
        cmp   r2, #2
        beq   do_halt
        cmp   r2, #3
        beq   do_stop
        cmp   r2, #4
        beq   do_wait
        cmp   r2, #5
        beq   do_vblank
        mov   r2, #0
        swi   #0x270000
        b     did
do_halt:
        swi   #0x020000
        b     did
do_stop:
        swi   #0x030000
        b     did
do_wait:
        swi   #0x040000
        b     did
do_vblank:
        swi   #0x050000
did:    mov   r3, #0
        strh  r3, [r5, #10]
        msr   cpsr_c, #0x9f
        ldrh  r0, [r4, #6]
        ldrh  r1, [r4, #-8]
        ldrh  r2, [r6, #8]
        ldrh  r3, [r5, #8]
        ldrh  r10, [r5, #12]
        orr   r3, r3, r10, lsl #16
        stmia r9!, {r0-r2}
        mov   r10, #0
        strh  r10, [r5, #14]
        ldmia r11, {r0-r2}
        stmia r9!, {r0-r2}
        stmia r9!, {r3}
        ldr   r0, [r11, #12]
        stmia r9!, {r0}
        subs  r7, r7, #1
        bne   next
end:    b     end
handler:
        add   r3, r0, #0x200
        ldrh  r1, [r3, #2]
        ldrh  r2, [r3]
        and   r1, r1, r2
        strh  r1, [r3, #2]
        ldrh  r2, [r0, #-8]
        orr   r2, r2, r1
        strh  r2, [r0, #-8]
        mov   r2, #0x03000000
        add   r2, r2, #0x400
        tst   r1, #1
        ldrne r3, [r2]
        addne r3, r3, #1
        strne r3, [r2]
        ldrne r3, [r2, #12]
        addne r3, r3, #1
        strne r3, [r2, #12]
        tst   r1, #2
        ldrne r3, [r2, #4]
        addne r3, r3, #1
        strne r3, [r2, #4]
        tst   r1, #8
        ldrne r3, [r2, #8]
        addne r3, r3, #1
        strne r3, [r2, #8]
        bx    lr
handler_at:
        .word handler
timer:  .word 0x00c0f000
table:  .word 0x08001000
        .word end
