; Stays where the BIOS jumps to, so that all registers are seen as they are at the start.

stay:   b     stay
        .space 0xae
        .byte 0x96
        .space 10
        .byte 0x51
        .space 2
        .word stay
