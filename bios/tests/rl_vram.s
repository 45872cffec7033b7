; Copies what the table's first entries say, of three words each: a source, a target and a number of sixteen bytes,
; which is 0 in the last one. Then calls RLUnCompVram with the registers r0 to r3 of each case, whose number stands
; before them, and stores the cycles of the calls, measured by the timers 0 and 1, from 0203c000 on.

        b     begin
        .space 0xae
        .byte 0x96
        .space 10
        .byte 0x51
        .space 2
begin:  ldr   r8, table
copies: ldmia r8!, {r0-r2}
        cmp   r2, #0
        beq   cases
more:   ldmia r0!, {r3-r6}
        stmia r1!, {r3-r6}
        subs  r2, r2, #1
        bne   more
        b     copies
cases:  ldr   r9, cycles
        mov   r10, #0x04000000
        add   r10, r10, #0x100
        ldr   r7, [r8], #4
next:   ldmia r8!, {r0-r3}
        mov   r4, #0x00840000        ; timer 1 counts the overflows of timer 0
        str   r4, [r10, #4]
        mov   r4, #0x00800000
        mov   r5, #0
        str   r4, [r10]
        swi   #0x150000
        strh  r5, [r10, #2]
        ldrh  r4, [r10]
        ldrh  r6, [r10, #4]
        orr   r4, r4, r6, lsl #16
        str   r4, [r9], #4
        str   r5, [r10, #4]
        subs  r7, r7, #1
        bne   next
end:    b     end
table:  .word 0x08001000
cycles: .word 0x0203c000
        .word end
