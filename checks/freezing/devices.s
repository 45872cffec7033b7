; A BIOS that turns on what a frozen file tells of, by a table of writes, and goes on in the cartridge: waits, direct sound by
; DMA and timers, the tones, DMA at each HBlank and at once, interrupts, the keypad and the cable.

        b     start           ; reset
        movs  pc, r14         ; an undefined instruction
        movs  pc, r14         ; SWI
        .word 0, 0, 0
        b     handler         ; an interrupt
        .word 0

; Takes what is raised back, and adds it up.
handler:
        stmdb sp!, {r0-r3}
        mov   r0, #0x04000000
        add   r0, r0, #0x200
        ldrh  r1, [r0, #2]
        strh  r1, [r0, #2]
        mov   r2, #0x03000000
        ldr   r3, [r2, #0x40]
        add   r3, r3, r1
        str   r3, [r2, #0x40]
        ldmia sp!, {r0-r3}
        subs  pc, r14, #4

start:  mov   r0, #0xd2
        msr   cpsr_c, r0
        mov   sp, #0x03000000
        add   sp, sp, #0x7f00
        ldr   r1, where
next:   ldmia r1!, {r2, r3}
        cmp   r2, #0
        strneh r3, [r2]
        bne   next
        mov   r0, #0x1f
        msr   cpsr_c, r0
        mov   pc, #0x08000000

where:  .word table
table:  .word 0x04000204, 0x4317 ; WAITCNT
        .word 0x04000134, 0x0000 ; RCNT: the serial modes
        .word 0x0400012a, 0x1234 ; the word to send
        .word 0x04000128, 0x6003 ; SIOCNT: Multi
        .word 0x04000084, 0x0080 ; the sound
        .word 0x04000082, 0xfb0e ; both queues, emptied
        .word 0x04000080, 0xff77
        .word 0x04000060, 0x0011 ; tone 1: a sweep
        .word 0x04000062, 0xf1bf
        .word 0x04000064, 0xc7f0
        .word 0x04000068, 0xf200 ; tone 2
        .word 0x0400006c, 0x87f8
        .word 0x04000070, 0x0040 ; tone 3: the bank that isn't played is written
        .word 0x04000090, 0x1234
        .word 0x04000092, 0xabcd
        .word 0x0400009e, 0x8421
        .word 0x04000070, 0x00a0
        .word 0x04000072, 0x2000
        .word 0x04000074, 0x87fc
        .word 0x04000078, 0xf100 ; tone 4
        .word 0x0400007c, 0x8000
        .word 0x040000d4, 0x00c0 ; DMA3: 24 words of the cartridge, with its interrupt
        .word 0x040000d6, 0x0800
        .word 0x040000d8, 0x0000
        .word 0x040000da, 0x0200
        .word 0x040000dc, 0x0018
        .word 0x040000de, 0xc400
        .word 0x040000b0, 0x0000 ; DMA0: four colours at each HBlank
        .word 0x040000b2, 0x0200
        .word 0x040000b4, 0x0000
        .word 0x040000b6, 0x0500
        .word 0x040000b8, 0x0004
        .word 0x040000ba, 0xa260
        .word 0x040000bc, 0x0000 ; DMA1: sound of the cartridge
        .word 0x040000be, 0x0800
        .word 0x040000c0, 0x00a0
        .word 0x040000c2, 0x0400
        .word 0x040000c6, 0xb600
        .word 0x040000c8, 0x0040 ; DMA2: the same for the other queue
        .word 0x040000ca, 0x0800
        .word 0x040000cc, 0x00a4
        .word 0x040000ce, 0x0400
        .word 0x040000d2, 0xb600
        .word 0x04000100, 0xffc0 ; timer 0: each 64 cycles
        .word 0x04000102, 0x0080
        .word 0x04000104, 0xfffc ; timer 1: each four of these, with its interrupt
        .word 0x04000106, 0x00c4
        .word 0x0400010c, 0xfff0 ; timer 3: each 16 times 64 cycles
        .word 0x0400010e, 0x0081
        .word 0x04000004, 0x0010 ; the interrupt of HBlank
        .word 0x04000132, 0x4001 ; the interrupt of the key A
        .word 0x04000200, 0x1892 ; IE: HBlank, timer 1, the cable, DMA3, the keys
        .word 0x04000208, 0x0001
        .word 0x04000128, 0x6083 ; the start of a transfer
        .word 0, 0
        .space 15816
