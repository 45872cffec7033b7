; The other side of `first.s`: console 1 has its next word ready before the next start, which comes to it 512 cycles
; late.

        mov   r0, #0x04000000
        add   r0, r0, #0x120  ; the serial registers
        add   r1, r0, #0xe0   ; IE, and IF behind it
        mov   r2, #0
        strh  r2, [r0, #0x14] ; RCNT: the serial modes
        mov   r3, #0x6000
        orr   r3, r3, #3      ; Multi with its interrupt, at 115,200 bits a second
        strh  r3, [r0, #8]    ; SIOCNT, at 8
        mov   r4, #0x2000     ; the counter
next:   strh  r4, [r0, #0xa]  ; the word to send
stop:   ldrh  r5, [r1, #2]
        tst   r5, #0x80       ; whether a transfer has ended
        beq   stop
        strh  r5, [r1, #2]    ; the bit is taken back
        add   r4, r4, #1
        b     next
        .space 16320
