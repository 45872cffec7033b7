; Draws a checksum of the whole BIOS, 4,096 words: each word is added to the sum so far, turned left by one. The sum
; goes to the beginning of the inner RAM.

        mov   r1, #0
        mov   r0, #0
        mov   r2, #0x4000
next:   ldr   r3, [r1], #4
        add   r0, r3, r0, ror #31
        cmp   r1, r2
        bne   next
        mov   r4, #0x03000000
        str   r0, [r4]
stay:   b     stay
        .space 16344
