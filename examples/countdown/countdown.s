; Counts r0 down from 250,000 by SUBS and BNE: a million cycles. The comments begin with the cycles.

        mov   r0, #0x3d000  ; 1
        add   r0, r0, #0x90 ; 1, r0 is 250,000
again:  subs  r0, r0, #1    ; 1
        bne   again         ; 3, and 1 where it falls through
stay:   b     stay          ; not reached in a million cycles
        .space 16364

; 1 + 1 + 249,999 * (1 + 3) + 1 + 1 = 1,000,000 cycles. At the end r0 is 0, Z and C are set.
