; A cartridge that in each round looks at its flash, programs a byte of it, erases a sector and takes the other bank, adds up the
; pressed keys, sends that on the cable, and halts up to the next interrupt.

        b     begin           ; the header
        .space 0xae
        .byte 0x96            ; its fixed byte
        .space 10
        .byte 0x51            ; its check, 0 minus the bytes a0h to bch minus 19h
        .space 2

begin:  mov   r8, #0x03000000
        mov   r9, #0x04000000
        add   r10, r9, #0x100
        mov   r7, #0
round:  ldr   r1, where
        add   r1, r1, #0x08000000
flash:  ldmia r1!, {r2, r3}
        cmp   r2, #0
        strneb r3, [r2]
        bne   flash
        mov   r2, #0x0e000000
        ldrb  r3, [r2, #1]
        add   r7, r7, r3
        ldrh  r3, [r10, #0x30] ; KEYINPUT
        add   r7, r7, r3
        str   r7, [r8, #0x80]
        strh  r7, [r10, #0x2a]
        ldr   r0, go
        strh  r0, [r10, #0x28]
        strb  r0, [r9, #0x301] ; the halt
        b     round

go:     .word 0x6083
where:  .word commands
commands:
        .word 0x0e005555, 0xaa, 0x0e002aaa, 0x55, 0x0e005555, 0xb0, 0x0e000000, 0 ; bank 0
        .word 0x0e005555, 0xaa, 0x0e002aaa, 0x55, 0x0e005555, 0x90                ; who it is
        .word 0x0e005555, 0xf0
        .word 0x0e005555, 0xaa, 0x0e002aaa, 0x55, 0x0e005555, 0xa0, 0x0e000123, 0x5a
        .word 0x0e005555, 0xaa, 0x0e002aaa, 0x55, 0x0e005555, 0x80
        .word 0x0e005555, 0xaa, 0x0e002aaa, 0x55, 0x0e001000, 0x30                ; a sector
        .word 0x0e005555, 0xaa, 0x0e002aaa, 0x55, 0x0e005555, 0xb0, 0x0e000000, 1 ; bank 1
        .word 0, 0
