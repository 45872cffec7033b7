; Counts its own starts in its flash. It finds out which flash it has, reads the count at f000h, which is ff before the
; first start, erases the sector of 4,096 bytes there and programs the next count. The BIOS jumps to the header's first
; word. The code stands in the first view of the ROM, where a word costs 8 cycles after a jump or a store and else 6, and
; each access to the flash costs 5.

        b     begin           ; the header
        .space 0xae
        .byte 0x96            ; its fixed byte
        .space 10
        .byte 0x51            ; its check, 0 minus the bytes a0h to bch minus 19h
        .space 2
begin:  mov   r1, #0x0e000000
        add   r6, r1, #0x5500
        add   r6, r6, #0x55   ; 0e005555h and 0e002aaah, where commands are written
        add   r7, r1, #0x2a00
        add   r7, r7, #0xaa
        mov   r8, #0xaa
        mov   r9, #0x55
        bl    opens           ; 90h: it says what it is
        mov   r0, #0x90
        strb  r0, [r6]
        ldrb  r2, [r1]        ; c2, its maker
        ldrb  r3, [r1, #1]    ; 1c of 65,536 bytes, or 09 of 131,072
        bl    opens           ; f0h: it reads its bytes again
        mov   r0, #0xf0
        strb  r0, [r6]
        add   r10, r1, #0xf000
        ldrb  r4, [r10]
        add   r5, r4, #1
        bl    opens           ; 80h, and 30h in the sector: its bytes are ff
        mov   r0, #0x80
        strb  r0, [r6]
        bl    opens
        mov   r0, #0x30
        strb  r0, [r10]
        bl    opens           ; a0h, and the byte to be programmed
        mov   r0, #0xa0
        strb  r0, [r6]
        strb  r5, [r10]
stay:   b     stay

; The two writes before each command. A call takes 20 cycles, each store 13 and the way back 20.
opens:  strb  r8, [r6]
        strb  r9, [r7]
        mov   r15, r14
