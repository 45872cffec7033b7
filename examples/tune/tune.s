; Draws four square waves into the work RAM, a quarter of a second each at 16,384 samples a second, and has DMA1 play
; them: 512, 630, 819 and 1,024 Hz.

        mov   r0, #0x02000000
        add   r4, pc, #0x6c    ; r4 is the table
        mov   r5, #4
note:   ldrb  r6, [r4], #1     ; half a period in samples
        mov   r7, #4096        ; samples of a note, a quarter of a second
        mov   r8, #64
        mov   r9, r6
wave:   strb  r8, [r0], #1
        subs  r9, r9, #1
        rsbeq r8, r8, #0       ; the wave turns
        moveq r9, r6
        subs  r7, r7, #1
        bne   wave
        subs  r5, r5, #1
        bne   note
        mov   r1, #0x04000000
        mov   r2, #0x80
        strh  r2, [r1, #0x84]  ; sound on
        mov   r2, #0x304       ; queue A to both sides, at full volume, by timer 0
        strh  r2, [r1, #0x82]
        mov   r3, #0x02000000
        str   r3, [r1, #0xbc]  ; DMA1's source
        add   r3, r1, #0xa0
        str   r3, [r1, #0xc0]  ; its destination is queue A
        mov   r3, #0xb6000000  ; enabled, at requests of the queue, again and again
        str   r3, [r1, #0xc4]
        mov   r3, #0x00800000
        add   r3, r3, #0xfc00  ; 16,384 overflows a second
        str   r3, [r1, #0x100] ; timer 0
here:   b     here
table:  .byte 16, 13, 10, 8    ; 1024 Hz at last
        .space 16260
