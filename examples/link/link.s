; Four consoles send each other three words, and then each draws the four words that it got last and plays a note. All four
; run these words, in step with one another. Each sends its own number from 1 to 4 in the highest digit, and the round in the
; lowest; player 0's write of bit 7 starts a transfer, and the others' is dropped. Then each waits for the transfer's
; interrupt bit in IF.
;
; The picture is a bitmap that is shown four times as large: on the player's own colour the words of players 0 to 3 from the
; top, the own one in black and the others in white. The note is that of the word of the player before it: a square wave of
; four samples, which DMA1 plays by timer 0.

         mov   r0, #0x04000000
         add   r0, r0, #0x120   ; the serial registers
         add   r1, r0, #0xe0    ; IE, and IF behind it
         mov   r2, #0           ; the round
         strh  r2, [r0, #0x14]  ; RCNT: the serial modes
         mov   r3, #0x2000
         orr   r3, r3, #3       ; Multi, at 115,200 bits a second
         strh  r3, [r0, #8]     ; SIOCNT
wait:    ldrh  r4, [r0, #8]
         tst   r4, #8           ; whether all are in Multi
         beq   wait
         and   r4, r4, #0x30    ; the player's number times 10h
         mov   r4, r4, lsl #8
         add   r4, r4, #0x1000  ; the word of round 0
         orr   r3, r3, #0x4000  ; with its interrupt
         orr   r3, r3, #0x80
next:    strh  r4, [r0, #0xa]   ; the word to send
         mov   r5, #64
rest:    subs  r5, r5, #1       ; 256 cycles, so that all have stored theirs
         bne   rest
         strh  r3, [r0, #8]     ; player 0 starts the transfer
stop:    ldrh  r5, [r1, #2]
         tst   r5, #0x80        ; whether it has ended
         beq   stop
         strh  r5, [r1, #2]     ; the bit is taken back
         add   r4, r4, #1
         add   r2, r2, #1
         cmp   r2, #3
         bne   next
         mov   r6, #0x04000000
         mov   r2, #0x400
         orr   r2, r2, #3
         strh  r2, [r6]         ; mode 3, BG2
         mov   r2, #0x40
         strh  r2, [r6, #0x20]  ; four times as wide
         strh  r2, [r6, #0x26]  ; and four times as high
         mov   r4, r4, lsr #12  ; the player's number and 1
         add   r5, pc, #0xe8    ; the colours, 184 on
         ldr   r5, [r5, r4, lsl #2]
         mov   r7, #0x06000000
         mov   r8, #0x12c0      ; forty lines
fill:    str   r5, [r7], #4
         subs  r8, r8, #1
         bne   fill
         mov   r7, #0x06000000  ; line 4, column 14
         add   r7, r7, #0x780
         add   r7, r7, #0x1c
         mov   r8, #0           ; whose word it is
word:    ldrh  r9, [r0], #2
         mov   r9, r9, lsl #16
         add   r8, r8, #1
         cmp   r8, r4
         mvn   r10, #0x8000     ; white
         moveq r10, #0          ; its own word black
         mov   r11, #4
digit:   mov   r1, r9, lsr #28
         mov   r9, r9, lsl #4
         add   r12, pc, #0xc0   ; the digits, 1ac on
         add   r12, r12, r1, lsl #3
         mov   r1, #8
line:    ldrb  r2, [r12], #1
         mov   r3, #8
dot:     movs  r2, r2, lsr #1   ; bit 0 is the left dot
         strcsh r10, [r7]
         add   r7, r7, #2
         subs  r3, r3, #1
         bne   dot
         add   r7, r7, #0x1d0   ; a line down, eight dots back
         subs  r1, r1, #1
         bne   line
         sub   r7, r7, #0xef0   ; eight lines up, eight dots on
         subs  r11, r11, #1
         bne   digit
         add   r7, r7, #0xec0   ; eight lines down, 32 dots back
         cmp   r8, #4
         bne   word
         sub   r0, r0, #8
         sub   r4, r4, #2       ; the number of the player before it
         and   r4, r4, #3
         mov   r4, r4, lsl #1
         ldrh  r4, [r0, r4]     ; the word of that one
         mov   r4, r4, lsr #12
         add   r5, pc, #0x44    ; the notes, 194 on
         ldr   r5, [r5, r4, lsl #2]
         mov   r2, #0x80
         strh  r2, [r6, #0x84]  ; sound on
         mov   r2, #0x304       ; queue A to both sides, at full volume, by timer 0
         strh  r2, [r6, #0x82]
         mov   r3, #0x02000000
         ldr   r2, wave
         str   r2, [r3]
         str   r3, [r6, #0xbc]  ; DMA1's source is this word
         add   r2, r6, #0xa0
         str   r2, [r6, #0xc0]  ; its destination is queue A
         mov   r2, #0xb7000000  ; enabled, at requests of the queue, again and again
         str   r2, [r6, #0xc4]
         str   r5, [r6, #0x100] ; timer 0 by the note
stay:    b     stay
colours: .word 0x10981098       ; red, two dots
         .word 0x1a021a02       ; green
         .word 0x69046904       ; blue
         .word 0x01bb01bb       ; orange
notes:   .word 0x0080e000       ; 8,192 cycles a sample
         .word 0x0080e600       ; 6,656
         .word 0x0080ec00       ; 5,120
         .word 0x0080f000       ; 4,096
wave:    .word 0xc0c04040       ; 64, 64, -64, -64
table:   .word 0x6b73633e
         .word 0x003e6367
         .word 0x18181c18
         .word 0x007e1818
         .word 0x3060633e
         .word 0x007f060c
         .word 0x3c60633e
         .word 0x003e6360
         .word 0x33363c38
         .word 0x0030307f
         .space 15916
