; Plays sixteen notes on the tone channels: a melody on channel 1 to both sides, a second voice on channel 2 to the left, a
; bass of a wave's digits on channel 3 to both, and noise on channel 4 to the right. Timer 0 wakes the processor each
; 3,145,728 cycles, three sixteenths of a second, for the next note.

        mov   r1, #0x04000000
        mov   r2, #0x80
        strh  r2, [r1, #0x84]  ; sound on
        mov   r2, #0x7d00      ; channels 1 to 3 left, and 1, 3 and 4 right
        add   r2, r2, #0x77    ; at full volume
        add   r2, r2, #0x20000 ; and full ratio
        str   r2, [r1, #0x80]
        add   r4, pc, #0x84    ; r4 is the wave, behind which the notes are
        ldmia r4!, {r6-r9}
        add   r3, r1, #0x90
        stmia r3, {r6-r9}
        mov   r2, #0xf200      ; channel 1: volume 15, less by 1 at every second tick, high for four places of eight
        add   r2, r2, #0x80
        strh  r2, [r1, #0x62]
        mov   r2, #0xa200      ; channel 2: volume 10, alike, high for two places
        add   r2, r2, #0x40
        strh  r2, [r1, #0x68]
        mov   r2, #0x6100      ; channel 4: volume 6, less by 1 at every tick
        strh  r2, [r1, #0x78]
        mov   r2, #0xc0        ; channel 3 plays the bank that was written
        add   r2, r2, #0x20000000
        str   r2, [r1, #0x70]  ; at full volume
        mov   r5, #0x80000     ; timer 0's interrupt: acknowledged
        add   r5, r5, #8       ; and enabled
        mov   r2, #0xc20000    ; timer 0: 12,288 times 256 cycles
        add   r2, r2, #0xd000
        str   r2, [r1, #0x100]
note:   ldr   r6, [r4], #4
        cmp   r6, #0
        beq   done
        strh  r6, [r1, #0x64]
        mov   r6, r6, lsr #16
        strh  r6, [r1, #0x6c]
        ldr   r6, [r4], #4
        strh  r6, [r1, #0x74]
        mov   r6, r6, lsr #16
        strh  r6, [r1, #0x7c]
        str   r5, [r1, #0x200]
        strb  r0, [r1, #0x301] ; halt
        b     note
done:   str   r0, [r1, #0x200]
        strb  r0, [r1, #0x301]
        .byte 0x01, 0x23, 0x45, 0x67, 0x89, 0xab, 0xcd, 0xef
        .byte 0xfe, 0xdc, 0xba, 0x98, 0x76, 0x54, 0x32, 0x10
; Each note starts the four channels, by what is written to their controls.
        .half 0x8739, 0x8705, 0x860b, 0x8021
        .half 0x8739, 0x8705, 0x860b, 0x8010
        .half 0x8744, 0x8721, 0x8511, 0x8021
        .half 0x8759, 0x8739, 0x860b, 0x8028
        .half 0x8759, 0x8739, 0x860b, 0x8021
        .half 0x8744, 0x8721, 0x8511, 0x8010
        .half 0x8739, 0x8705, 0x860b, 0x8021
        .half 0x8721, 0x86f7, 0x8563, 0x8028
        .half 0x8705, 0x86d6, 0x85ac, 0x8021
        .half 0x8705, 0x86d6, 0x85ac, 0x8010
        .half 0x8721, 0x86f7, 0x8563, 0x8021
        .half 0x8739, 0x8705, 0x860b, 0x8028
        .half 0x8739, 0x8705, 0x860b, 0x8021
        .half 0x8721, 0x86f7, 0x8563, 0x8010
        .half 0x8721, 0x86f7, 0x8563, 0x8021
        .half 0x8721, 0x86f7, 0x860b, 0x8028
        .space 16072
