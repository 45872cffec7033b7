; Four words go round a ring of four consoles. Player K begins with the word K * 100h; in each round it sends the word
; that the player before it sent in the last one, plus 1. Eight rounds take each word round the ring twice.

        mov   r0, #0x04000000
        add   r0, r0, #0x120     ; the serial registers
        add   r1, r0, #0xe0      ; IE, and IF behind it
        mov   r2, #0             ; the round
        strh  r2, [r0, #0x14]    ; RCNT: the serial modes
        mov   r3, #0x2000
        orr   r3, r3, #3         ; Multi, at 115,200 bits a second
        strh  r3, [r0, #8]       ; SIOCNT
wait:   ldrh  r4, [r0, #8]
        tst   r4, #8             ; whether all are in Multi
        beq   wait
        and   r4, r4, #0x30      ; the player's number times 10h
        add   r6, r4, #0x30
        and   r6, r6, #0x30      ; that of the player before, times 10h
        add   r6, r0, r6, lsr #3 ; the place of its word
        mov   r4, r4, lsl #4     ; the first word
        orr   r3, r3, #0x4000    ; with its interrupt
        orr   r3, r3, #0x80
next:   strh  r4, [r0, #0xa]     ; the word to send
        mov   r5, #64
rest:   subs  r5, r5, #1         ; 256 cycles, so that all have stored theirs
        bne   rest
        strh  r3, [r0, #8]       ; player 0 starts the transfer
stop:   ldrh  r5, [r1, #2]
        tst   r5, #0x80          ; whether it has ended
        beq   stop
        strh  r5, [r1, #2]       ; the bit is taken back
        ldrh  r4, [r6]
        add   r4, r4, #1
        add   r2, r2, #1
        cmp   r2, #8
        bne   next
stay:   b     stay
        .space 16252
