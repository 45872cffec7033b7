; Calls Sqrt with the registers r0 to r3 of each case of the table, which begins with their number, and stores r0, r1,
; r3 and the cycles of the call, measured by timer 0, in the work RAM.

        b     begin
        .space 0xae
        .byte 0x96
        .space 10
        .byte 0x51
        .space 2
begin:  ldr   r8, table
        mov   r9, #0x02000000
        mov   r10, #0x04000000
        add   r10, r10, #0x100
        mov   r4, #0x00800000        ; the timer runs from 0
        mov   r5, #0
        ldr   r7, [r8], #4
next:   ldmia r8!, {r0-r3}
        str   r4, [r10]
        swi   #0x080000         ; in ARM state the number is in the bits 16 to 23
        strh  r5, [r10, #2]
        ldrh  r6, [r10]
        stmia r9!, {r0, r1, r3, r6}
        subs  r7, r7, #1
        bne   next
end:    b     end
table:  .word 0x08001000
        .word end
