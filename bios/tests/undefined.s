; Comes to an undefined instruction in ARM and in Thumb state, and stays behind both with the flags that it set
; before.

        b     begin
        .space 0xae
        .byte 0x96
        .space 10
        .byte 0x51
        .space 2
begin:  ldr   r0, short
        add   r0, r0, #0x08000000
        add   r0, r0, #1
        msr   cpsr_f, #0xf0000000
        .word 0xe7f000f0
        mov   r1, #1
        bx    r0
        .thumb
thumb:  .half 0xe800
        mov   r2, #2
        bx    pc
        mov   r8, r8
        .arm
end:    b     end
short:  .word thumb
        .word end
