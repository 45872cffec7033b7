; Console 0 counts up from 1000h and console 1 from 2000h; five times each sends its counter and gets the other's.
; This is console 0, which waits until console 1 is in Multi too, and then starts each transfer. Up to the first start
; the comments begin with its clock.

        mov   r0, #0x04000000 ; 0
        add   r0, r0, #0x120  ; 1, the serial registers
        add   r1, r0, #0xe0   ; 2, IE, and IF behind it
        mov   r2, #0          ; 3, the round
        strh  r2, [r0, #0x14] ; 4, RCNT: the serial modes
        mov   r3, #0x6000     ; 6
        orr   r3, r3, #3      ; 7, Multi with its interrupt, at 115,200 bits a second
        strh  r3, [r0, #8]    ; 8, SIOCNT
        mov   r4, #0x1000     ; 10, the counter
wait:   ldrh  r5, [r0, #8]    ; 11, and each 7 cycles until 522
        tst   r5, #8          ; whether both are in Multi
        beq   wait
        orr   r3, r3, #0x80   ; 527
next:   strh  r4, [r0, #0xa]  ; 528, the word to send
        strh  r3, [r0, #8]    ; 530, the start
stop:   ldrh  r5, [r1, #2]
        tst   r5, #0x80       ; whether the transfer has ended
        beq   stop
        strh  r5, [r1, #2]    ; the bit is taken back
        add   r4, r4, #1
        add   r2, r2, #1
        cmp   r2, #5
        bne   next
stay:   b     stay
        .space 16288

; Console 1 tells at 8 that it is in Multi, which is known here 512 cycles later, at 520. A transfer of two consoles
; at this speed lasts 18 * 2 * 145 = 5,220 cycles. The first ends at 530 + 5,220 = 5,750. IF is read 2 cycles after
; the start and then each 7, so it shows the end 2 + 746 * 7 = 5,224 cycles after the start, and the next start comes
; 15 cycles later: transfer n, from 0, ends at 5,750 + 5,239 * n.
