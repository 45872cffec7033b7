; Two consoles exchange 32 bits four times in Normal mode. Each sends at first a word of its own, and then always the
; word that it got, plus 1. This is console 0, which gives the clock and starts each transfer. Up to the first start
; the comments begin with its clock.

        mov   r0, #0x04000000 ; 0
        add   r0, r0, #0x120  ; 1, the serial registers
        add   r1, r0, #0xe0   ; 2, IE, and IF behind it
        mov   r2, #0          ; 3, the round
        strh  r2, [r0, #0x14] ; 4, RCNT: the serial modes
        ldr   r3, mode        ; 6
        ldr   r4, word        ; 9
next:   str   r4, [r0]        ; 12, the word to send
        strh  r3, [r0, #8]    ; 14, the start
stop:   ldrh  r5, [r1, #2]
        tst   r5, #0x80       ; whether the transfer has ended
        beq   stop
        strh  r5, [r1, #2]    ; the bit is taken back
        ldr   r4, [r0]        ; the word that came
        add   r4, r4, #1
        add   r2, r2, #1
        cmp   r2, #4
        bne   next
stay:   b     stay
mode:   .word 0x5081          ; the start of 32 bits with the inside clock of 256 kHz and the interrupt
word:   .word 0x01234567
        .space 16300

; A transfer of 32 bits at this speed lasts 32 * 64 = 2,048 cycles: the first ends at 14 + 2,048 = 2,062. IF is read 2
; cycles after the start and then each 7, so it shows the end 2 + 293 * 7 = 2,053 cycles after the start, and the next
; start comes 18 cycles later: transfer n, from 0, ends at 2,062 + 2,071 * n.
