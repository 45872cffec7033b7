; The other side of `first.s`: console 1 takes the clock from outside. It is ready again before the next start, which
; comes to it 512 cycles late.

        mov   r0, #0x04000000
        add   r0, r0, #0x120  ; the serial registers
        add   r1, r0, #0xe0   ; IE, and IF behind it
        mov   r2, #0
        strh  r2, [r0, #0x14] ; RCNT: the serial modes
        ldr   r3, mode
        ldr   r4, word
next:   str   r4, [r0]        ; the word to send
        strh  r3, [r0, #8]    ; it is ready
stop:   ldrh  r5, [r1, #2]
        tst   r5, #0x80       ; whether a transfer has ended
        beq   stop
        strh  r5, [r1, #2]    ; the bit is taken back
        ldr   r4, [r0]        ; the word that came
        add   r4, r4, #1
        b     next
mode:   .word 0x5080          ; 32 bits with the outside clock and the interrupt
word:   .word 0x89abcdef
        .space 16312
