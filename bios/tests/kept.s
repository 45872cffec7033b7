; Calls the numbers that the table tells, each with all registers, in a mode and a state of its own, and stores what
; they are then. The table begins with the number of cases; a case has the call's number, 1 for Thumb state and else
; 0, CPSR, IME in the low and IE in the high halfword, r0 to r3 and sp. 17 words are stored for each from 02020000 on:
; r0 to r14, CPSR, and IME and IE. Timer 0 requests its interrupt all the time, and the flags for IntrWait are 9
; before each call. A case in user mode has to be the last one.

        b     begin
        .space 0xae
        .byte 0x96
        .space 10
        .byte 0x51
        .space 2
begin:  mov   r10, #0x03000000
        mov   r11, #0x08000000
        ldr   r0, place
        add   r0, r0, r11
        mov   r1, r10
        mov   r2, #104
copy:   ldr   r3, [r0], #4           ; the block below goes to the inner RAM
        str   r3, [r1], #4
        subs  r2, r2, #1
        bne   copy
        ldr   r0, back_at
        add   r0, r0, r11
        str   r0, [r10, #0x138]
        mov   r0, #0x04000000
        add   r0, r0, #0x100
        ldr   r1, timer
        str   r1, [r0]
        ldr   r8, table
        mov   r9, #0x02000000
        add   r9, r9, #0x20000
        ldr   r7, [r8], #4
next:   cmp   r7, #0
        beq   end
        ldmia r8!, {r0-r6, r12}      ; of the registers, r4 to r6 and r12 are r0 to r3
        add   r11, r10, #0x140
        stmia r11, {r4-r6, r12}
        ldr   r4, [r8], #4
        str   r4, [r10, #0x174]      ; sp
        cmp   r1, #0
        bne   short
        mov   r4, #0xef000000        ; SWI
        orr   r4, r4, r0, lsl #16
        ldr   r5, leave
        ldr   r6, after
        add   r11, r10, #0x80
        stmia r11, {r4-r6}
        b     ready
short:  ldr   r4, swi_nop
        orr   r4, r4, r0
        ldr   r5, bx_nop             ; to ARM state behind
        ldr   r6, leave
        ldr   r12, after
        add   r11, r10, #0x80
        stmia r11, {r4-r6, r12}
        add   r11, r11, #1
ready:  str   r11, [r10, #0x178]     ; lr
        add   r11, r10, #0x400
        sub   r7, r7, #1
        stmia r11, {r7-r9}
        mov   r4, #0x04000000
        mov   r5, #9
        strh  r5, [r4, #-8]
        add   r4, r4, #0x200
        strh  r3, [r4, #8]
        mov   r3, r3, lsr #16
        strh  r3, [r4]
        msr   cpsr_fc, r2
        mov   pc, r10
back:   msr   cpsr_c, #0x1f
        mov   r10, #0x03000000
        add   r11, r10, #0x400
        ldmia r11, {r7-r9}
        add   r11, r10, #0x180
        ldmia r11!, {r0-r6, r12}
        stmia r9!, {r0-r6, r12}
        ldmia r11!, {r0-r6, r12}
        stmia r9!, {r0-r6, r12}
        mov   r4, #0x04000000
        add   r4, r4, #0x200
        ldrh  r0, [r4, #8]
        ldrh  r1, [r4]
        orr   r0, r0, r1, lsl #16
        str   r0, [r9], #4
        b     next
end:    b     end
place:  .word block
back_at:
        .word back
table:  .word 0x08001000
timer:  .word 0x00c0fff0
leave:  .word 0xe51ff004             ; ldr pc, [pc, #-4]
after:  .word 0x030000c0
swi_nop:
        .word 0x46c0df00
bx_nop: .word 0x46c04778

; From 03000000 on:
block:  ldr   r0, [pc, #0x138]       ; from 140
        ldr   r1, [pc, #0x138]
        ldr   r2, [pc, #0x138]
        ldr   r3, [pc, #0x138]
        ldr   r4, [pc, #0x138]
        ldr   r5, [pc, #0x138]
        ldr   r6, [pc, #0x138]
        ldr   r7, [pc, #0x138]
        ldr   r8, [pc, #0x138]
        ldr   r9, [pc, #0x138]
        ldr   r10, [pc, #0x138]
        ldr   r11, [pc, #0x138]
        ldr   r12, [pc, #0x138]
        ldr   sp, [pc, #0x138]
        ldr   lr, [pc, #0x138]
        bx    lr
        .space 0x40                  ; to 80, where the call stands
        .space 0x40
        str   r0, [pc, #0xb8]        ; c0: to 180
        str   r1, [pc, #0xb8]
        str   r2, [pc, #0xb8]
        str   r3, [pc, #0xb8]
        str   r4, [pc, #0xb8]
        str   r5, [pc, #0xb8]
        str   r6, [pc, #0xb8]
        str   r7, [pc, #0xb8]
        str   r8, [pc, #0xb8]
        str   r9, [pc, #0xb8]
        str   r10, [pc, #0xb8]
        str   r11, [pc, #0xb8]
        str   r12, [pc, #0xb8]
        str   sp, [pc, #0xb8]
        str   lr, [pc, #0xb8]
        mrs   r0, cpsr
        str   r0, [pc, #0xb4]        ; to 1bc
        ldr   pc, [pc, #0x2c]        ; from 138
        .space 0x30
        .space 8
        .space 16                    ; 140: r0 to r3
        .word 0x44444444, 0x55555555, 0x66666666, 0x77777777, 0x88888888, 0x99999999, 0xaaaaaaaa, 0xbbbbbbbb, 0xcccccccc
        .space 0x20
        .word end
