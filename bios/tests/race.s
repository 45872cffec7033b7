; Timer 0 overflows each 1024 cycles. 512 times this waits for a new interrupt of it by IntrWait, then some 400 cycles
; and one more each time, and then by IntrWait for the next one, so that it comes at each place within that call.
; Stores the number of handled interrupts at 02000000.

        b     begin
        .space 0xae
        .byte 0x96
        .space 10
        .byte 0x51
        .space 2
begin:  mov   r4, #0x04000000
        ldr   r0, handler_at
        add   r0, r0, #0x08000000
        str   r0, [r4, #-4]
        add   r5, r4, #0x100
        add   r6, r4, #0x200
        mov   r0, #8
        strh  r0, [r6]
        mov   r0, #1
        strh  r0, [r6, #8]
        mov   r9, #0x03000000
        ldr   r8, delay_at
        add   r8, r8, #0x08000000
        ldmia r8!, {r0-r3}
        stmia r9!, {r0-r3}
        ldmia r8!, {r0-r3}
        stmia r9!, {r0-r3}
        mov   r8, #0x03000000
        ldr   r0, timer
        str   r0, [r5]
        mov   r7, #0
next:   mov   r0, #1
        mov   r1, #8
        swi   #0x040000
        add   r2, r7, #0x190
        mov   r0, r2, lsr #2
        and   r1, r2, #3
        rsb   r1, r1, #3
        mov   lr, pc
        mov   pc, r8
        mov   r0, #0
        mov   r1, #8
        swi   #0x040000
        add   r7, r7, #1
        cmp   r7, #512
        bne   next
        mov   r0, #0
        strh  r0, [r6, #8]
end:    b     end
handler:
        mov   r1, #8
        add   r2, r0, #0x200
        strh  r1, [r2, #2]
        strh  r1, [r0, #-8]
        mov   r2, #0x02000000
        ldr   r1, [r2]
        add   r1, r1, #1
        str   r1, [r2]
        bx    lr
handler_at:
        .word handler
delay_at:
        .word delay
timer:  .word 0x00c0fc00
delay:  subs  r0, r0, #1             ; 4 cycles a round, and then 3 minus r1
        bne   delay
        add   pc, pc, r1, lsl #2
        mov   r0, r0
        mov   r0, r0
        mov   r0, r0
        mov   r0, r0
        mov   pc, lr
        .word end
