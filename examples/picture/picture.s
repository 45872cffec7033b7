; Draws two text backgrounds. BG1 has the word of the file `letters`, its seven letters as tiles 2 to 8; BG0 is full
; of tile 1 in the sixteen palettes, one after the other from left to right, each row one palette further. The
; palettes fade from blue to red.

        mov   r0, #0x04000000
        mov   r1, #0x05000000     ; the palettes
        mov   r2, #0x7c00         ; blue
        add   r3, r1, #2          ; colour 1 of palette 0
blend:  strh  r2, [r3], #32
        add   r2, r2, #2          ; red by 2 more
        subs  r2, r2, #0x800      ; blue by 2 less
        bpl   blend
        mvn   r2, #0x8000
        strh  r2, [r1, #4]        ; colour 2 of palette 0 is white
        mov   r1, #0x06000000     ; the tiles
        add   r3, r1, #0x20       ; tile 1
        ldr   r2, ones
        mov   r4, #8
solid:  str   r2, [r3], #4
        subs  r4, r4, #1
        bne   solid
        add   r5, pc, #0xa0       ; the letters
        mov   r6, #56             ; rows of eight dots
row:    ldrb  r7, [r5], #1
        mov   r2, #0
        mov   r4, #8
dot:    movs  r7, r7, lsr #1      ; bit 0 is the left dot
        mov   r2, r2, ror #4
        orrcs r2, r2, #0x20000000
        subs  r4, r4, #1
        bne   dot
        str   r2, [r3], #4
        subs  r6, r6, #1
        bne   row
        add   r3, r1, #0x4000     ; BG0's map
        mov   r2, #1              ; tile 1 in palette 0
        mov   r4, #640            ; twenty rows of 32
cell:   strh  r2, [r3], #2
        add   r2, r2, #0x1000     ; the next palette
        sub   r4, r4, #1
        tst   r4, #31
        addeq r2, r2, #0x1000     ; a row further
        cmp   r4, #0
        bne   cell
        add   r3, r1, #0x4a00     ; BG1's map, row 9, column 11
        add   r3, r3, #0x56
        mov   r2, #2
place:  strh  r2, [r3], #2
        add   r2, r2, #1
        cmp   r2, #9
        bne   place
        mov   r2, #0x800
        orr   r2, r2, #1
        strh  r2, [r0, #8]        ; BG0: its map at 4000h, behind BG1
        mov   r2, #0x900
        strh  r2, [r0, #0xa]      ; BG1: its map at 4800h
        mov   r2, #0xfc
        strh  r2, [r0, #0x14]     ; BG1 four dots to the right
        strh  r2, [r0, #0x16]     ; and four down
        mov   r2, #0x300
        strh  r2, [r0]            ; mode 0, BG0 and BG1
stay:   b     stay
ones:   .word 0x11111111
table:  .word 0x7b03633e          ; the rows of G, B, A, L, I, N, K, two words a letter, the upper rows low
        .word 0x007e6363
        .word 0x3f63633f
        .word 0x003f6363
        .word 0x6363361c
        .word 0x0063637f
        .word 0x03030303
        .word 0x007f0303
        .word 0x0c0c0c3f
        .word 0x003f0c0c
        .word 0x7b6f6763
        .word 0x00636373
        .word 0x0f1b3363
        .word 0x0063331b
        .space 16092
