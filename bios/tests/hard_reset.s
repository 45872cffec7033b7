; Counts its starts in the SRAM. At the first one it changes memories and registers and calls HardReset, in interrupt
; mode and with interrupts on.

        b     begin
        .space 0xae
        .byte 0x96
        .space 10
        .byte 0x51
        .space 2
begin:  mov   r0, #0x0e000000
        ldrb  r1, [r0]
        add   r1, r1, #1
        strb  r1, [r0]
        tst   r1, #0xff
        bne   end
        mov   r0, #0x02000000
        mvn   r1, #0
        str   r1, [r0, #0x100]
        mov   r0, #0x03000000
        str   r1, [r0, #0x100]
        mov   r0, #0x04000000
        strb  r1, [r0, #-6]
        strh  r1, [r0, #0x12]
        strh  r1, [r0, #0x20]
        add   r2, r0, #0x200
        mov   r1, #1
        strh  r1, [r2]
        strh  r1, [r2, #8]
        mov   r0, #0x05000000
        strh  r0, [r0, #2]
        mov   r0, #0x06000000
        strh  r0, [r0, #2]
        msr   cpsr_c, #0x12
        swi   #0x260000
end:    b     end
        .word end
