; Counts its own starts in the first byte of its save, which is ff before the first start. The BIOS jumps to the
; header's first word. The code stands in the first view of the ROM, where a word costs 8 cycles after a jump or a store
; and else 6, and each access to the SRAM costs 5.

        b     begin           ; the header
        .space 0xae
        .byte 0x96            ; its fixed byte
        .space 10
        .byte 0x51            ; its check, 0 minus the bytes a0h to bch minus 19h
        .space 2
begin:  mov   r1, #0x0e000000
        ldrb  r2, [r1]
        add   r2, r2, #1
        strb  r2, [r1]
stay:   b     stay
