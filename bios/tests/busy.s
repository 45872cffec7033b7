; Copies what the table's first entries say, of three words each: a source, a target and a number of sixteen bytes,
; which is 0 in the last one. Then makes the calls of the cases, whose number stands before them, while timer 2
; interrupts them. A case has the word of its SWI, the timer's reload, CPSR, a word that isn't used, and r0 to r3.
; From 0203c000 on it stores four words for each: the cycles, by the timers 0 and 1, how many interrupts there were,
; the most cycles from one to its handler, and the r0 of the handler.

        b     begin
        .space 0xae
        .byte 0x96
        .space 10
        .byte 0x51
        .space 2
begin:  ldr   r8, table
copies: ldmia r8!, {r0-r2}
        cmp   r2, #0
        beq   cases
more:   ldmia r0!, {r3-r6}
        stmia r1!, {r3-r6}
        subs  r2, r2, #1
        bne   more
        b     copies
cases:  mov   r10, #0x04000000
        ldr   r0, handler_at
        add   r0, r0, #0x08000000
        str   r0, [r10, #-4]
        add   r11, r10, #0x200
        mov   r0, #0x20              ; timer 2
        strh  r0, [r11]
        mov   r0, #1
        strh  r0, [r11, #8]
        add   r10, r10, #0x100
        ldr   r9, cycles
        ldr   r7, [r8], #4
        ldr   r6, return
        mov   r5, #0x03000000
        add   r5, r5, #0x7800        ; where the call stands, and behind it the handler's numbers
        str   r6, [r5, #4]
next:   ldmia r8!, {r0-r3}
        str   r0, [r5]
        mov   r4, #0
        str   r4, [r5, #0x10]
        str   r4, [r5, #0x14]
        str   r1, [r5, #0x18]
        msr   cpsr_c, r2
        mov   r4, #0x00840000        ; timer 1 counts the overflows of timer 0
        str   r4, [r10, #4]
        mov   r4, #0x00800000
        orr   r1, r1, #0x00c00000
        ldr   r6, zero
        str   r1, [r10, #8]
        ldmia r8!, {r0-r3}
        str   r4, [r10]
        mov   lr, pc
        mov   pc, r5
        strh  r6, [r10, #2]
        strh  r6, [r10, #10]
        ldrh  r4, [r10]
        ldrh  r0, [r10, #4]
        orr   r4, r4, r0, lsl #16
        str   r6, [r10, #4]
        add   r0, r5, #0x10
        ldmia r0, {r1-r3, r12}
        stmia r9!, {r4}
        stmia r9!, {r1, r2, r12}
        msr   cpsr_c, #0x9f
        mvn   r0, #0
        add   r1, r10, #0x100
        strh  r0, [r1, #2]
        subs  r7, r7, #1
        bne   next
end:    b     end
handler:
        ldr   r1, [r0, #0x108]       ; timer 2
        mov   r1, r1, lsl #16
        mov   r2, #0x03000000
        add   r2, r2, #0x7800
        ldr   r3, [r2, #0x18]
        rsb   r1, r3, r1, lsr #16
        ldr   r3, [r2, #0x14]
        cmp   r1, r3
        strhi r1, [r2, #0x14]
        ldr   r3, [r2, #0x10]
        add   r3, r3, #1
        str   r3, [r2, #0x10]
        str   r0, [r2, #0x1c]
        add   r3, r0, #0x200
        mov   r1, #0x20
        strh  r1, [r3, #2]
        bx    lr
return: .word 0xe1a0f00e             ; mov pc, lr
zero:   .word 0
handler_at:
        .word handler
table:  .word 0x08001000
cycles: .word 0x0203c000
        .word end
