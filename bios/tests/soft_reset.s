; Changes the registers of all modes and the last 200h bytes of the inner RAM at the first start, sets IME, and calls
; SoftReset with the byte 03007ffa as the table's first word says. At the next start it stays, and so does the code
; that it put at 02000000 before.

        b     begin
        .space 0xae
        .byte 0x96
        .space 10
        .byte 0x51
        .space 2
begin:  mov   r0, #0x02000000
        ldr   r1, [r0, #4]
        cmp   r1, #0
        bne   end
        mov   r1, #1
        str   r1, [r0, #4]
        ldr   r1, stays
        str   r1, [r0]
        mov   r1, #0x03000000
        add   r1, r1, #0x7d00
        mvn   r2, #0
        mov   r3, #0xc0
fill:   str   r2, [r1], #4
        subs  r3, r3, #1
        bne   fill
        mov   r0, #0x04000000
        ldr   r1, table
        ldr   r1, [r1]
        strb  r1, [r0, #-6]
        add   r1, r0, #0x200
        mov   r3, #1
        strh  r3, [r1, #8]
        mvn   r3, #0
        msr   cpsr_c, #0xd2
        mov   lr, r3
        msr   spsr_fsxc, r3
        sub   sp, sp, #32
        msr   cpsr_c, #0xd3
        mov   lr, r3
        msr   spsr_fsxc, r3
        msr   cpsr_c, #0xdb
        mov   lr, r3
        msr   spsr_fsxc, r3
        msr   cpsr_c, #0xd7
        mov   lr, r3
        msr   spsr_fsxc, r3
        msr   cpsr_c, #0xd1
        mov   lr, r3
        msr   spsr_fsxc, r3
        msr   cpsr_c, #0x1f
        msr   cpsr_f, #0x60000000
        mov   r4, r3
        mov   r5, r3
        mov   r6, r3
        mov   r7, r3
        mov   r8, r3
        mov   r9, r3
        mov   r10, r3
        mov   r11, r3
        mov   r12, r3
        mov   lr, r3
        sub   sp, sp, #0x40
        swi   #0x000000
end:    b     end
stays:  .word 0xeafffffe
table:  .word 0x08001000
        .word end
