; Diagonal stripes that move one dot to the left with each picture. BG0 is full of tile 0, whose rows have the colours
; 1 to 8, each row one dot further; the colours go from blue to red. All is ready before line 0 is drawn, and the
; scroll changes in line 160, below the picture. Up to the loop the comments begin with the clock at the end.

        mov   r0, #0x04000000 ; 1
        mov   r1, #0x05000000 ; 2, the palettes
        add   r1, r1, #2      ; 3, colour 1
        mov   r2, #0x7c00     ; 4, blue
blend:  strh  r2, [r1], #2
        add   r2, r2, #4      ; red by 4 more
        subs  r2, r2, #0x1000 ; blue by 4 less
        bpl   blend           ; 58, after eight times 7 cycles but 2
        mov   r1, #0x06000000 ; 59, tile 0
        ldr   r2, row         ; 62
        mov   r3, #8          ; 63
tile:   str   r2, [r1], #4
        mov   r2, r2, ror #4  ; the next row begins one dot further
        subs  r3, r3, #1
        bne   tile            ; 125, after eight times 8 cycles but 2
        mov   r2, #0x100      ; 126
        strh  r2, [r0, #8]    ; 128, BG0: its map, all tile 0, at 800h
        strh  r2, [r0]        ; 130, mode 0, BG0
        mov   r3, #0          ; 131, the scroll
line:   ldrh  r2, [r0, #6]    ; the line
        cmp   r2, #160
        bne   line
        add   r3, r3, #1
        strh  r3, [r0, #0x10] ; one dot further
gone:   ldrh  r2, [r0, #6]
        cmp   r2, #160
        beq   gone
        b     line
row:    .word 0x87654321      ; the left dot lowest
        .space 16268

; Each of the two loops reads the line each 7 cycles, and 8 cycles after the read that ends it the other one reads for
; the first time.
