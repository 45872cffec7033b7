; A duel of two players, who run these words in step. In each round both send a word over the cable: 4000h and the
; round, or with A pressed 8000h and the round. The first round in which one has pressed A is the last; who alone has
; pressed has won. Then each draws the end: the ground is green who has won, red who has lost, and yellow where both
; have pressed; on the left stands a white square where player 0 has pressed, and on the right where player 1 has. And
; each plays a note: high who has won, low who has lost, and one between them where both have pressed.
;
; The numbers are clocks, up to the first start of a transfer. It ends 5,220 cycles after its start. The 12th round is
; over at 66,599, where the drawing begins, and timer 0 is started at 101,861, or 1,604 later where both have pressed.

         mov   r0, #0x04000000 ; 0
         add   r0, r0, #0x120  ; 1, the serial registers
         add   r1, r0, #0xe0   ; 2, IE, and IF behind it
         mov   r2, #0          ; 3, the round
         strh  r2, [r0, #0x14] ; 4, RCNT: the serial modes
         mov   r3, #0x2000     ; 6
         orr   r3, r3, #3      ; 7, Multi, at 115,200 bits a second
         strh  r3, [r0, #8]    ; 8, SIOCNT: the other knows it at 520
wait:    ldrh  r4, [r0, #8]    ; 10, and each 7 cycles until 521
         tst   r4, #8          ; whether both are in Multi
         beq   wait
         and   r4, r4, #0x30   ; 526, the own number times 10h
         orr   r3, r3, #0x4000 ; 527, with its interrupt
         orr   r3, r3, #0x80   ; 528
round:   add   r5, r2, #0x4000 ; 529, the word of who waits
         ldrh  r6, [r0, #0x10] ; 530, the keys, 0 for pressed
         tst   r6, #1          ; 533
         addeq r5, r5, #0x4000 ; 534, the word of who has pressed A
         strh  r5, [r0, #0xa]  ; 535, the word to send
         mov   r6, #64         ; 537
rest:    subs  r6, r6, #1      ; 538, 254 cycles, so that both have stored theirs
         bne   rest
         strh  r3, [r0, #8]    ; 792, player 0 starts the transfer
stop:    ldrh  r6, [r1, #2]    ; 794, and each 7 cycles until 5,224 after the start
         tst   r6, #0x80       ; whether it has ended
         beq   stop
         strh  r6, [r1, #2]    ; the bit is taken back
         add   r2, r2, #1
         ldrh  r7, [r0]        ; the word of player 0
         ldrh  r8, [r0, #2]    ; the word of player 1
         orr   r6, r7, r8
         tst   r6, #0x8000     ; whether one has pressed
         beq   round           ; 5,240 after the start; the next one comes 266 later
         mov   r6, #0x04000000
         mov   r2, #0x400
         orr   r2, r2, #3
         strh  r2, [r6]        ; mode 3, BG2
         mov   r2, #0x40
         strh  r2, [r6, #0x20] ; four times as wide
         strh  r2, [r6, #0x26] ; and four times as high
         mov   r9, r7, lsr #15
         mov   r10, r8, lsr #15
         tst   r4, #0x10       ; whether this is player 0
         addeq r9, r9, r10, lsl #1
         addne r9, r10, r9, lsl #1 ; 1 for won, 2 for lost, 3 for both
         add   r5, pc, #0xa0     ; the colours, a8 on
         ldr   r5, [r5, r9, lsl #2]
         mov   r1, #0x06000000
         mov   r2, #0x12c0     ; forty lines
fill:    str   r5, [r1], #4
         subs  r2, r2, #1
         bne   fill
         mov   r11, #0x06000000
         add   r11, r11, #0x1680 ; line 12
         add   r11, r11, #0xc  ; column 6
         tst   r7, #0x8000
         blne  square
         add   r11, r11, #0x40 ; column 38
         tst   r8, #0x8000
         blne  square
         add   r5, pc, #0x74   ; the notes, 7c on
         ldr   r5, [r5, r9, lsl #2]
         mov   r2, #0x80
         strh  r2, [r6, #0x84] ; sound on
         mov   r2, #0x304      ; queue A to both sides, at full volume, by timer 0
         strh  r2, [r6, #0x82]
         mov   r3, #0x02000000
         ldr   r2, wave
         str   r2, [r3]
         str   r3, [r6, #0xbc] ; DMA1's source is this word
         add   r2, r6, #0xa0
         str   r2, [r6, #0xc0] ; its destination is queue A
         mov   r2, #0xb7000000 ; enabled, at requests of the queue, again and again
         str   r2, [r6, #0xc4]
         str   r5, [r6, #0x100] ; timer 0 by the note
stay:    b     stay
square:  mov   r5, r11         ; 16 lines of 16 dots from r11 on, in 1,604 cycles with the return
         mvn   r10, #0x8000    ; white
         mov   r12, #16
line:    mov   r2, #16
dot:     strh  r10, [r5], #2
         subs  r2, r2, #1
         bne   dot
         add   r5, r5, #0x1c0  ; a line down, 16 dots back
         subs  r12, r12, #1
         bne   line
         bx    lr
colours: .word 0
         .word 0x02c002c0      ; won: green, two dots
         .word 0x00120012      ; lost: red
         .word 0x02940294      ; both: yellow
notes:   .word 0
         .word 0x0080f000      ; won: 4,096 cycles a sample
         .word 0x0080e000      ; lost: 8,192
         .word 0x0080e800      ; both: 6,144
wave:    .word 0xc0c04040      ; 64, 64, -64, -64
         .space 16000
