; Calls Div 1536 times with all flags set, 7919 times the round by 7, and stores r0, r1, r3 and CPSR from 02000000 on,
; while two timers interrupt it, whose periods differ a little. The handler counts its calls from 0, calls Sqrt in
; interrupt mode with 9973 times its number, then lets interrupts in, in system mode, and calls Div there with minus
; 104729 times its number by 37; it stores the results of both, r0 of Sqrt and r0 and r1 of Div, from 02020000 on. The
; number of the handler's calls is stored at 03000400, and the greatest depth of them at 03000408.

        b     begin
        .space 0xae
        .byte 0x96
        .space 10
        .byte 0x51
        .space 2
begin:  mov   r0, #0x04000000
        ldr   r1, handler_at
        add   r1, r1, #0x08000000
        str   r1, [r0, #-4]
        add   r4, r0, #0x100
        add   r5, r0, #0x200
        ldr   r1, first
        str   r1, [r4]
        ldr   r1, second
        str   r1, [r4, #4]
        mov   r1, #0x18
        strh  r1, [r5]
        mov   r1, #1
        strh  r1, [r5, #8]
        mov   r4, #0
        mov   r5, #0x02000000
        ldr   r6, factor
next:   mul   r0, r4, r6
        mov   r1, #7
        msr   cpsr_f, #0xf0000000
        swi   #0x060000
        mrs   r8, cpsr
        stmia r5!, {r0, r1, r3, r8}
        add   r4, r4, #1
        cmp   r4, #1536
        bne   next
        mov   r4, #0x04000000
        add   r4, r4, #0x200
        mov   r0, #0
        strh  r0, [r4, #8]
end:    b     end
handler:
        stmdb sp!, {r4-r6, lr}
        add   r1, r0, #0x200
        ldrh  r2, [r1, #2]
        and   r2, r2, #0x18
        strh  r2, [r1, #2]
        mov   r6, #0x03000000
        add   r6, r6, #0x400
        ldr   r4, [r6]
        add   r1, r4, #1
        str   r1, [r6]
        ldr   r1, [r6, #4]
        add   r1, r1, #1
        str   r1, [r6, #4]
        ldr   r2, [r6, #8]
        cmp   r1, r2
        strhi r1, [r6, #8]
        ldr   r0, root
        mul   r0, r4, r0
        swi   #0x080000
        mov   r6, #0x02000000
        add   r6, r6, #0x20000
        add   r6, r6, r4, lsl #4
        str   r0, [r6]
        mrs   r5, spsr
        msr   cpsr_c, #0x1f
        ldr   r0, minus
        mul   r0, r4, r0
        mov   r1, #37
        msr   cpsr_f, #0             ; other flags than those of the call that was interrupted
        swi   #0x060000
        str   r0, [r6, #4]
        str   r1, [r6, #8]
        msr   cpsr_c, #0x92
        msr   spsr_fsxc, r5
        mov   r6, #0x03000000
        add   r6, r6, #0x400
        ldr   r1, [r6, #4]
        sub   r1, r1, #1
        str   r1, [r6, #4]
        ldmia sp!, {r4-r6, lr}
        bx    lr
handler_at:
        .word handler
first:  .word 0x00c0f2b1
second: .word 0x00c0f2a5
factor: .word 7919
root:   .word 9973
minus:  .word 0xfffe66e7
        .word end
