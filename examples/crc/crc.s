; Draws the CRC-32 of the whole BIOS, 16,384 bytes, in Thumb state: each byte goes into the low bits of the remainder,
; and for each of eight bits the remainder is halved and, where a bit leaves, the polynomial taken away. BX leads
; there and back, and the remainder, turned over, goes to the beginning of the inner RAM.

        mov   r0, #0
        add   r6, pc, #5      ; the address 10 with bit 0 set
        bx    r6              ; to Thumb state
        b     0x0c
        .thumb
        mov   r1, #0
        mov   r4, #1
        lsl   r4, r4, #14
        mvn   r0, r1
        ldr   r5, [pc, #0x28]
next:   ldrb  r2, [r1, #0]
        add   r1, #1
        eor   r0, r2
        mov   r3, #8
bit:    lsr   r0, r0, #1
        bcc   skip
        eor   r0, r5
skip:   sub   r3, #1
        bne   bit
        cmp   r1, r4
        bcc   next
        mvn   r0, r0
        mov   r8, r8
        bx    pc
        mov   r8, r8
        .arm
back:   mov   r4, #0x03000000
        str   r0, [r4]
stay:   b     stay
poly:   .word 0xedb88320      ; the polynomial, lowest power at the left
        .space 16312
