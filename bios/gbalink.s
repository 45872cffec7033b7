; A BIOS of this project's own. It starts a cartridge, calls the handler of interrupts, and has the functions that a
; program calls by SWI, as GBATEK's section "BIOS Functions" describes them. docs/PROFILE.md says what it leaves out.
;
; A function is called with its number in the byte at lr - 2, in ARM and Thumb state. It gets its parameters in r0 to
; r3, gives results in r0, r1 and r3, and keeps all other registers, the flags, the mode and the state. It runs in
; system mode on the caller's stack, with the caller's I and F bits, so that interrupts are taken within it. The
; routines below are free to change r0 to r3, r11 and r12, since the caller's r2, r11 and r12 are put back for them;
; what else they change they keep on the stack. 'Cycles' are those of a routine by itself, with its stack in the inner
; RAM; the call of a function takes 49 more, and more where the caller's code costs more than 1 a word.
;
; Some addresses: the halfword 03007ff8 has the flags of interrupts that handlers have seen, for IntrWait; the byte
; 03007ffa tells SoftReset where to go; the word 03007ffc is the handler. They are reached below 04000000, where the
; inner RAM is seen again.

; ---------------------------------------------------------------------------------------------------------------------
; Vectors

        b     start
        b     undefined
        b     call_entry
        b     other_exception        ; prefetch abort
        b     other_exception        ; data abort
        b     other_exception        ; not used
        b     interrupt
        b     other_exception        ; fast interrupt

; An undefined instruction is passed over.
undefined:
        movs  pc, lr

; The other exceptions don't come on this console.
other_exception:
        subs  pc, lr, #4

; The entry of an interrupt: keeps what a called routine may change, calls the handler with r0 = 04000000 in interrupt
; mode with interrupts off, and goes on where the interrupt came. 24 bytes of the interrupt's stack. 20 cycles to
; the handler, 11 back.
interrupt:
        stmdb sp!, {r0-r3, r12, lr}
        mov   r0, #0x04000000
        mov   lr, pc                 ; behind the next instruction
        ldr   pc, [r0, #-4]
        ldmia sp!, {r0-r3, r12, lr}
        subs  pc, lr, #4

; ---------------------------------------------------------------------------------------------------------------------
; Calls

; The entry of a call: 16 bytes of the supervisor's stack and 8 of the caller's. A number above 2a returns. 32 cycles
; to the function and 17 back.
call_entry:
        stmdb sp!, {r11, r12, lr}
        mrs   r11, spsr
        stmdb sp!, {r11}             ; a call from a handler of interrupts makes it anew
        ldrb  r12, [lr, #-2]         ; the number
        and   r11, r11, #0xc0        ; the caller's I and F
        orr   r11, r11, #0x1f        ; system mode
        msr   cpsr_c, r11
        stmdb sp!, {r2, lr}
        cmp   r12, #0x2a
        ldrls r11, call_table_place
        mov   lr, pc                 ; call_end
        ldrls pc, [r11, r12, lsl #2]
call_end:
        ldmia sp!, {r2, lr}
        msr   cpsr_c, #0xd3          ; the supervisor's mode, masked: an interrupt's call would change its SPSR
        ldmia sp!, {r11}
        msr   spsr_fsxc, r11
        ldmia sp!, {r11, r12, lr}
        movs  pc, lr

call_table_place:
        .word call_table
call_table:
        .word soft_reset, register_ram_reset, halt, halt                     ; 00 to 03
        .word interrupt_wait, vblank_wait, divide, divide_swapped            ; 04 to 07
        .word square_root, arc_tangent, arc_tangent_2, copy_units            ; 08 to 0b
        .word copy_blocks, bios_checksum, background_affine, sprite_affine   ; 0c to 0f
        .word unpack_bits, unpack_lz77_bytes, unpack_lz77_halves             ; 10 to 12
        .word unpack_huffman, unpack_runs_bytes, unpack_runs_halves          ; 13 to 15
        .word unfilter_bytes, unfilter_bytes_halves, unfilter_halves         ; 16 to 18
        .word sound_bias, nothing, nothing, nothing                          ; 19 to 1c
        .word nothing, nothing, key_to_frequency, nothing                    ; 1d to 20
        .word nothing, nothing, nothing, nothing                             ; 21 to 24
        .word multi_boot, hard_reset, custom_halt, nothing                   ; 25 to 28
        .word nothing, nothing                                               ; 29 and 2a

; The sound driver's functions: return, with all registers kept.
nothing:
        mov   pc, lr

; 25 MultiBoot: r0 becomes 1, the answer for a failure.
multi_boot:
        mov   r0, #1
        mov   pc, lr

; ---------------------------------------------------------------------------------------------------------------------
; Start and resets

; 26 HardReset: all memories and registers as after a start, and then a start. Doesn't return.
hard_reset:
        msr   cpsr_c, #0xdf          ; system mode, masked: the handler is cleared too
        ldr   sp, system_stack       ; in what isn't cleared
        mov   r0, #0xff
        bl    register_ram_reset

; The start, also at reset: gives some I/O registers their values, and goes to the cartridge at 08000000, or halts
; where there is none: each cartridge has the byte 96 at b2. 378 cycles from reset.
start:
        msr   cpsr_c, #0xd3          ; the supervisor's mode, interrupts off
        mov   r12, #0x04000000
        add   r11, r12, #0x100
        mov   r0, #1
        strb  r0, [r12, #0x300]      ; POSTFLG
        mov   r0, #0x80
        strh  r0, [r12]              ; DISPCNT: a blank picture
        mov   r0, #0x8000
        strh  r0, [r11, #0x34]       ; RCNT
        mov   r0, #0x200
        strh  r0, [r12, #0x88]       ; SOUNDBIAS
        mov   r0, #0x100
        strh  r0, [r12, #0x20]       ; the scales of the affine backgrounds: PA and PD of 2 and 3
        strh  r0, [r12, #0x26]
        strh  r0, [r12, #0x30]
        strh  r0, [r12, #0x36]
        mov   r4, #0                 ; to the cartridge
        mov   r0, #0x08000000
        ldrb  r0, [r0, #0xb2]
        teq   r0, #0x96
        beq   reset_to
        mov   r0, #0
        add   r11, r12, #0x200
        strh  r0, [r11]              ; IE: nothing ends the halt
no_cartridge:
        strb  r0, [r12, #0x301]
        b     no_cartridge

; 00 SoftReset: goes to 08000000, or to 02000000 where the byte 03007ffa isn't 0. IME becomes 0; 03007e00 to 03007fff,
; r0 to r12, the lr and the SPSR of all modes become 0; the stacks of supervisor, interrupt and system begin anew;
; system mode, interrupts not masked. 342 cycles.
soft_reset:
        mov   r12, #0x04000000
        ldrb  r4, [r12, #-6]
reset_to:
        msr   cpsr_c, #0xd3
        mov   r0, #0
        add   r11, r12, #0x200
        strh  r0, [r11, #8]          ; IME
        mov   r1, #0
        mov   r2, #0
        mov   r3, #0
        mov   r11, #0x03000000
        add   r11, r11, #0x7e00
        mov   r12, #32
reset_stacks:
        stmia r11!, {r0-r3}
        subs  r12, r12, #1
        bne   reset_stacks
        msr   cpsr_c, #0xd1          ; fast interrupt
        mov   lr, #0
        msr   spsr_fsxc, r0
        msr   cpsr_c, #0xd7          ; abort
        mov   lr, #0
        msr   spsr_fsxc, r0
        msr   cpsr_c, #0xdb          ; undefined
        mov   lr, #0
        msr   spsr_fsxc, r0
        msr   cpsr_c, #0xd3          ; supervisor
        ldr   sp, supervisor_stack
        mov   lr, #0
        msr   spsr_fsxc, r0
        msr   cpsr_c, #0xd2          ; interrupt
        ldr   sp, interrupt_stack
        mov   lr, #0
        msr   spsr_fsxc, r0
        msr   cpsr_c, #0x1f          ; system
        ldr   sp, system_stack
        mov   lr, #0
        cmp   r4, #0
        mov   r4, #0
        mov   r5, #0
        mov   r6, #0
        mov   r7, #0
        mov   r8, #0
        mov   r9, #0
        mov   r10, #0
        mov   r11, #0
        mov   r12, #0
        bne   reset_to_ram
        msr   cpsr_f, #0
        mov   pc, #0x08000000
reset_to_ram:
        msr   cpsr_f, #0
        mov   pc, #0x02000000

supervisor_stack:
        .word 0x03007fe0
interrupt_stack:
        .word 0x03007fa0
system_stack:
        .word 0x03007f00

; 01 RegisterRamReset: r0 says by its bits what becomes as after a start: 0 the work RAM, 1 the inner RAM but for its
; last 200h bytes, 2 the palette, 3 VRAM, 4 OAM, 5 the serial registers, 6 those of sound, 7 all others, IME among
; them. The picture becomes blank in any case. Memories take at most twice the cycles of their writes, registers some
; 800 in all.
register_ram_reset:
        stmdb sp!, {r4-r8, lr}
        mov   r12, #0x04000000
        mov   r3, #0x80
        strh  r3, [r12]              ; DISPCNT
        mov   r3, #0
        mov   r4, #0
        mov   r5, #0
        mov   r6, #0
        mov   r7, #0
        mov   r8, #0
        mov   r11, #0
        mov   r12, #0
        tst   r0, #0x01
        movne r1, #0x02000000
        movne r2, #0x40000
        blne  clear_memory
        tst   r0, #0x02
        movne r1, #0x03000000
        movne r2, #0x7e00
        blne  clear_memory
        tst   r0, #0x04
        movne r1, #0x05000000
        movne r2, #0x400
        blne  clear_memory
        tst   r0, #0x08
        movne r1, #0x06000000
        movne r2, #0x18000
        blne  clear_memory
        tst   r0, #0x10
        movne r1, #0x07000000
        movne r2, #0x400
        blne  clear_memory
        mov   r12, #0x04000000
        add   r4, r12, #0x100        ; the registers from 100h and from 200h
        add   r5, r12, #0x200
        tst   r0, #0x20
        blne  reset_serial
        tst   r0, #0x40
        blne  reset_sound
        tst   r0, #0x80
        blne  reset_others
        ldmia sp!, {r4-r8, pc}

; Clears r2 bytes, a multiple of 32 but not 0, from r1 on: r3 to r8, r11 and r12 are 0. 13 cycles and what eight
; writes cost above 1 each for 32 bytes.
clear_memory:
        stmia r1!, {r3-r8, r11, r12}
        subs  r2, r2, #32
        bne   clear_memory
        mov   pc, lr

; Clears r2 halfwords of the registers from r1 on: r3 is 0. 6 cycles each.
clear_registers:
        strh  r3, [r1], #2
        subs  r2, r2, #1
        bne   clear_registers
        mov   pc, lr

; The three parts of the registers. r12, r4 and r5 are 04000000, 04000100 and 04000200, and r3 is 0.
reset_serial:
        mov   r6, lr
        add   r1, r4, #0x20          ; the words, SIOCNT and the word to send
        mov   r2, #6
        bl    clear_registers
        strh  r3, [r4, #0x40]        ; JOYCNT
        add   r1, r4, #0x50          ; the words of the JOY bus, and its state
        mov   r2, #5
        bl    clear_registers
        mov   r1, #0x8000
        strh  r1, [r4, #0x34]        ; RCNT
        mov   pc, r6

reset_sound:
        mov   r6, lr
        add   r1, r12, #0x90         ; the wave
        mov   r2, #8
        bl    clear_registers
        add   r1, r12, #0x60         ; the tones
        mov   r2, #17
        bl    clear_registers
        mov   r1, #0x8800
        strh  r1, [r12, #0x82]       ; the queues become empty
        strh  r3, [r12, #0x82]
        strh  r3, [r12, #0x84]
        mov   r1, #0x200
        strh  r1, [r12, #0x88]       ; SOUNDBIAS
        mov   pc, r6

reset_others:
        mov   r6, lr
        strh  r3, [r5, #8]           ; IME
        strh  r3, [r5]               ; IE
        add   r1, r12, #0x04         ; the picture
        mov   r2, #41
        bl    clear_registers
        mov   r1, #0x100
        strh  r1, [r12, #0x20]       ; the scales of the affine backgrounds
        strh  r1, [r12, #0x26]
        strh  r1, [r12, #0x30]
        strh  r1, [r12, #0x36]
        add   r1, r12, #0xb0         ; DMA
        mov   r2, #24
        bl    clear_registers
        mov   r1, r4                 ; the timers
        mov   r2, #8
        bl    clear_registers
        strh  r3, [r4, #0x32]        ; KEYCNT
        mvn   r1, #0
        strh  r1, [r5, #2]           ; IF
        strh  r3, [r5, #4]           ; WAITCNT
        mov   pc, r6

; ---------------------------------------------------------------------------------------------------------------------
; Halts

; 02 Halt and 03 Stop: wait until an interrupt is requested that IE has, also where interrupts are off. 4 cycles and
; the halt.
halt:
        mov   r12, #0x04000000
        mov   r11, #0
        strb  r11, [r12, #0x301]
        mov   pc, lr

; 27 CustomHalt: the same with r2 as the number that is written.
custom_halt:
        mov   r12, #0x04000000
        strb  r2, [r12, #0x301]
        mov   pc, lr

; 05 VBlankIntrWait: waits for a new interrupt of VBlank.
vblank_wait:
        mov   r0, #1
        mov   r1, #1

; 04 IntrWait: waits until a handler has put one of the interrupts r1 into the halfword 03007ff8. Where r0 isn't 0,
; those that are there before are taken away first. IME becomes 1; those of r1 that came are taken away, and no
; others. The flags are looked at with IME 0, and the halt comes before it is 1 again, so that no interrupt can come
; between, be handled and be waited for in vain. 23 cycles for an old flag; else 23 and, for each interrupt that
; comes, its handler and 21.
interrupt_wait:
        mov   r12, #0x04000000
        add   r2, r12, #0x200
interrupt_look:
        mov   r3, #0
        strh  r3, [r2, #8]           ; IME
        ldrh  r11, [r12, #-8]
        bic   r3, r11, r1
        strh  r3, [r12, #-8]
        cmp   r0, #0                 ; whether these are old flags
        movne r11, #0
        mov   r0, #0
        mov   r3, #1
        tst   r11, r1
        streqb r0, [r12, #0x301]
        strh  r3, [r2, #8]           ; the handler is called behind this
        beq   interrupt_look
        mov   pc, lr

; ---------------------------------------------------------------------------------------------------------------------
; Arithmetic

; 07 DivArm: Div with r0 and r1 the other way round.
divide_swapped:
        mov   r3, r0
        mov   r0, r1
        mov   r1, r3

; 06 Div: r0 becomes the signed quotient r0 / r1, cut towards 0, r1 the remainder, which has the numerator's sign, and
; r3 the quotient without its sign. A denominator of 0 gives 1, or -1 for a numerator below 0, with the numerator as
; the remainder and r3 = 1. 146 cycles, and by DivArm 149.
divide:
        cmp   r1, #0
        beq   divide_by_zero
        stmdb sp!, {r4, lr}
        mov   r3, r0                 ; the remainder's sign
        eor   r4, r0, r1             ; the quotient's sign
        cmp   r0, #0
        rsblt r0, r0, #0
        cmp   r1, #0
        rsblt r1, r1, #0
        bl    divide_unsigned
        cmp   r3, #0
        rsblt r1, r1, #0
        mov   r3, r0
        cmp   r4, #0
        rsblt r0, r0, #0
        ldmia sp!, {r4, pc}
divide_by_zero:
        mov   r1, r0
        mov   r3, #1
        mov   r0, r0, asr #31
        orr   r0, r0, #1
        mov   pc, lr

; r0 becomes r0 / r1 and r1 the remainder, all unsigned and r1 from 1 to 80000000h; r2, r11 and r12 are changed. Each
; bit of the quotient takes three steps: twice the remainder and the numerator's next bit, minus the denominator,
; which is added again where there was a borrow; the carry is the quotient's bit, and goes into r0 behind the
; numerator. 121 cycles.
divide_unsigned:
        rsb   r2, r1, #0             ; the denominator's negative
        mov   r1, #0                 ; the remainder
        mov   r11, #4                ; times eight bits
        adds  r0, r0, r0
divide_bits:
        adcs  r1, r2, r1, lsl #1
        subcc r1, r1, r2
        adcs  r0, r0, r0
        adcs  r1, r2, r1, lsl #1
        subcc r1, r1, r2
        adcs  r0, r0, r0
        adcs  r1, r2, r1, lsl #1
        subcc r1, r1, r2
        adcs  r0, r0, r0
        adcs  r1, r2, r1, lsl #1
        subcc r1, r1, r2
        adcs  r0, r0, r0
        adcs  r1, r2, r1, lsl #1
        subcc r1, r1, r2
        adcs  r0, r0, r0
        adcs  r1, r2, r1, lsl #1
        subcc r1, r1, r2
        adcs  r0, r0, r0
        adcs  r1, r2, r1, lsl #1
        subcc r1, r1, r2
        adcs  r0, r0, r0
        adcs  r1, r2, r1, lsl #1
        subcc r1, r1, r2
        adcs  r0, r0, r0
        sub   r11, r11, #1
        teq   r11, #0                ; keeps the carry
        bne   divide_bits
        mov   pc, lr

; 08 Sqrt: r0 becomes the root of r0, unsigned and rounded down. 148 cycles.
square_root:
        mov   r2, r0                 ; what is left of the square
        mov   r0, #0
        mov   r11, #0x40000000
square_root_bit:
        add   r12, r0, r11
        cmp   r2, r12
        subcs r2, r2, r12
        mov   r0, r0, lsr #1
        addcs r0, r0, r11
        movs  r11, r11, lsr #2
        bne   square_root_bit
        mov   pc, lr

; 09 ArcTan: r0 becomes the angle whose tangent is its low halfword, signed with 14 bits behind the point: -4000h to
; 4000h for a quarter of a turn each way, a signed halfword extended, to the nearest within one. 29 cycles.
arc_tangent:
        mov   r0, r0, lsl #16
        mov   r3, r0, asr #31        ; the sign
        mov   r0, r0, asr #14
        eor   r0, r0, r3
        sub   r0, r0, r3             ; without it, with 16 bits behind the point

; The same of r0 with 16 bits behind the point, 0 to 20000h, and with the sign of r3, 0 or -1. The table has the
; angles of each 128th, and between them the line is taken. r1, r2 and r12 are changed.
arc_tangent_line:
        ldr   r12, arc_tangent_place
        mov   r2, r0, lsr #9
        add   r12, r12, r2, lsl #1
        sub   r2, r0, r2, lsl #9     ; the place on the line, of 512
        ldrh  r0, [r12]
        ldrh  r12, [r12, #2]
        sub   r12, r12, r0
        mul   r12, r2, r12
        add   r0, r12, r0, lsl #9
        add   r0, r0, #0x400         ; rounded: the table has two more bits and the line nine
        mov   r0, r0, lsr #11
        eor   r0, r0, r3
        sub   r0, r0, r3
        mov   pc, lr

arc_tangent_place:
        .word arc_tangent_table

; 0A ArcTan2: r0 becomes the angle of the point (r0, r1), both signed halfwords, 0 to FFFFh for a turn, to the nearest
; within one. The angle of the greater of both is that of the axis, and the rest has a tangent of at most 1. At most
; 191 cycles.
arc_tangent_2:
        mov   r0, r0, lsl #16
        mov   r1, r1, lsl #16
        orrs  r2, r0, r1
        moveq pc, lr                 ; no angle: 0
        stmdb sp!, {r4-r6, lr}
        mov   r4, r0, asr #16        ; x
        mov   r5, r1, asr #16        ; y
        cmp   r4, #0
        rsblt r0, r4, #0
        movge r0, r4
        cmp   r5, #0
        rsblt r1, r5, #0
        movge r1, r5
        cmp   r0, r1
        bcc   arc_tangent_2_steep
        mov   r6, r4, lsr #31        ; near the x axis: half a turn where x is below 0
        mov   r6, r6, lsl #15
        mov   r2, r0
        mov   r0, r1, lsl #16
        mov   r1, r2
        eor   r3, r4, r5
        b     arc_tangent_2_add
arc_tangent_2_steep:
        cmp   r5, #0                 ; near the y axis: a quarter of a turn, or three
        movge r6, #0x4000
        movlt r6, #0xc000
        mov   r0, r0, lsl #16
        eor   r3, r4, r5
        mvn   r3, r3                 ; the tangent is -x / y
arc_tangent_2_add:
        bl    divide_unsigned
        mov   r3, r3, asr #31
        bl    arc_tangent_line
        add   r0, r0, r6
        mov   r0, r0, lsl #16
        mov   r0, r0, lsr #16
        ldmia sp!, {r4-r6, pc}

; 0D GetBiosChecksum: r0 becomes the sum of the words of this image. 11,278 cycles.
bios_checksum:
        stmdb sp!, {r4-r7}
        mov   r12, #0
        mov   r0, #0
bios_checksum_words:
        ldmia r12!, {r1-r7, r11}
        add   r0, r0, r1
        add   r0, r0, r2
        add   r0, r0, r3
        add   r0, r0, r4
        add   r0, r0, r5
        add   r0, r0, r6
        add   r0, r0, r7
        add   r0, r0, r11
        cmp   r12, #0x4000
        bcc   bios_checksum_words
        ldmia sp!, {r4-r7}
        mov   pc, lr

; ---------------------------------------------------------------------------------------------------------------------
; Copies and fills
;
; All of them have the source in r0 and the target in r1. Sources in the BIOS are refused: then nothing is written.

; Z is set where r0 is no source for r3 bytes: where the bits 25 to 27 of its address, or of the end, are 0. r11 is
; changed. 8 cycles.
check_source:
        tst   r0, #0x0e000000
        addne r11, r0, r3
        tstne r11, #0x0e000000
        mov   pc, lr

; 0C CpuFastSet: the bits 0 to 20 of r2 are a number of words, rounded up to a multiple of eight; bit 24 asks for a
; fill by the source's first word. Some 50 cycles, and for eight words 23 of a copy or 13 of a fill and what their
; accesses cost above 1 each.
copy_blocks:
        mov   r3, r2, lsl #11
        movs  r3, r3, lsr #9         ; in bytes
        moveq pc, lr
        stmdb sp!, {r4-r10, lr}
        bl    check_source
        beq   copy_end
        add   r3, r3, #31
        bic   r3, r3, #31
        tst   r2, #0x01000000
        bne   copy_blocks_fill
        bl    copy_words
        ldmia sp!, {r4-r10, pc}
copy_blocks_fill:
        bic   r0, r0, #3
        ldr   r2, [r0]
        bl    fill_words
copy_end:
        ldmia sp!, {r4-r10, pc}

; 0B CpuSet: the bits 0 to 20 of r2 are a number of halfwords, or of words where bit 26 is set; bit 24 asks for a fill
; by the source's first one. Units are copied from the first to the last: an overlapping target repeats the source.
; Memories are copied by blocks of words, which makes no difference to them; halfwords of registers and of the SRAM
; one by one. Some 100 cycles, and for eight words of a memory 23 of a copy or 13 of a fill, for eight halfwords whose
; places in their words differ 23, for a unit alone at most 7, and what their accesses cost above 1 each.
copy_units:
        mov   r3, r2, lsl #11
        tst   r2, #0x04000000
        moveq r3, r3, lsr #10        ; in bytes
        movne r3, r3, lsr #9
        cmp   r3, #0
        moveq pc, lr
        stmdb sp!, {r4-r10, lr}
        bl    check_source
        beq   copy_end
        tst   r2, #0x04000000
        beq   copy_halves
        bic   r0, r0, #3
        bic   r1, r1, #3
        tst   r2, #0x01000000
        ldrne r2, [r0]
        blne  fill_words
        bne   copy_end
        mov   r11, r0
        bl    check_memory
        mov   r11, r1
        bleq  check_memory
        beq   copy_word_units        ; between registers or in the SRAM: they may overlap
        bl    repeat_overlap
        bl    copy_words
        ldmia sp!, {r4-r10, pc}
copy_word_units:
        bl    copy_words_rest
        ldmia sp!, {r4-r10, pc}

; Z is set where the address r11 is one of registers or of the SRAM, which tell words from halfwords. r11 is changed.
; 7 cycles.
check_memory:
        and   r11, r11, #0x0f000000
        teq   r11, #0x04000000
        teqne r11, #0x0e000000
        teqne r11, #0x0f000000
        mov   pc, lr

; Copies r3 bytes, a multiple of 4 and maybe 0, from r0 to r1: by eight words, and then by one. r2 and r4 to r10 are
; changed.
copy_words:
        subs  r3, r3, #32
        bcc   copy_words_few
copy_words_block:
        ldmia r0!, {r2, r4-r10}
        stmia r1!, {r2, r4-r10}
        subs  r3, r3, #32
        bcs   copy_words_block
copy_words_few:
        adds  r3, r3, #32
        moveq pc, lr
copy_words_rest:
        ldr   r2, [r0], #4
        str   r2, [r1], #4
        subs  r3, r3, #4
        bne   copy_words_rest
        mov   pc, lr

; Fills r3 bytes, a multiple of 4 and maybe 0, from r1 on with r2. Z is clear. r4 to r10 are changed.
fill_words:
        mov   r4, r2
        mov   r5, r2
        mov   r6, r2
        mov   r7, r2
        mov   r8, r2
        mov   r9, r2
        mov   r10, r2
        subs  r3, r3, #32
        bcc   fill_words_few
fill_words_block:
        stmia r1!, {r2, r4-r10}
        subs  r3, r3, #32
        bcs   fill_words_block
fill_words_few:
        add   r3, r3, #32
fill_words_rest:
        subs  r3, r3, #4
        strcs r2, [r1], #4
        bcs   fill_words_rest
        mov   pc, lr

; CpuSet with halfwords.
copy_halves:
        bic   r0, r0, #1
        bic   r1, r1, #1
        mov   r11, r1
        tst   r2, #0x01000000
        bne   fill_halves
        bl    check_memory
        mov   r11, r0
        blne  check_memory
        beq   copy_half_units
        bl    repeat_overlap
        cmp   r3, #0
        beq   copy_end
        tst   r1, #2
        ldrneh r2, [r0], #2          ; up to a word of the target
        strneh r2, [r1], #2
        subne r3, r3, #2
        tst   r0, #2
        bne   copy_halves_turned
        and   r11, r3, #2
        bic   r3, r3, #3
        bl    copy_words
        movs  r3, r11
        beq   copy_end
copy_half_units:
        bl    copy_halves_rest
        ldmia sp!, {r4-r10, pc}

; Copies r3 bytes, a multiple of 2 but not 0, from r0 to r1 by halfwords: 4 at once, and then by one. r2 is changed.
copy_halves_rest:
        subs  r3, r3, #8
        bcc   copy_halves_few
copy_halves_four:
        ldrh  r2, [r0], #2
        strh  r2, [r1], #2
        ldrh  r2, [r0], #2
        strh  r2, [r1], #2
        ldrh  r2, [r0], #2
        strh  r2, [r1], #2
        ldrh  r2, [r0], #2
        strh  r2, [r1], #2
        subs  r3, r3, #8
        bcs   copy_halves_four
copy_halves_few:
        adds  r3, r3, #8
        moveq pc, lr
copy_halves_one:
        ldrh  r2, [r0], #2
        strh  r2, [r1], #2
        subs  r3, r3, #2
        bne   copy_halves_one
        mov   pc, lr

; The target is at a word, and the source in the middle of one: r2 is the halfword that was read and not yet written.
copy_halves_turned:
        subs  r3, r3, #16
        bcc   copy_halves_turned_few
        ldrh  r2, [r0], #2
copy_halves_turned_block:
        ldmia r0!, {r4-r7}
        orr   r2, r2, r4, lsl #16
        mov   r4, r4, lsr #16
        orr   r4, r4, r5, lsl #16
        mov   r5, r5, lsr #16
        orr   r5, r5, r6, lsl #16
        mov   r6, r6, lsr #16
        orr   r6, r6, r7, lsl #16
        stmia r1!, {r2, r4-r6}
        mov   r2, r7, lsr #16
        subs  r3, r3, #16
        bcs   copy_halves_turned_block
        sub   r0, r0, #2
copy_halves_turned_few:
        adds  r3, r3, #16
        beq   copy_end
        b     copy_half_units

; CpuSet's fill with halfwords.
fill_halves:
        ldrh  r2, [r0]
        bl    check_memory
        beq   fill_halves_units
        orr   r2, r2, r2, lsl #16
        tst   r1, #2
        strneh r2, [r1], #2          ; up to a word of the target
        subne r3, r3, #2
        and   r0, r3, #2
        bic   r3, r3, #3
        bl    fill_words
        cmp   r0, #0
        strneh r2, [r1]
        ldmia sp!, {r4-r10, pc}
fill_halves_units:
        strh  r2, [r1], #2
        subs  r3, r3, #2
        bne   fill_halves_units
        ldmia sp!, {r4-r10, pc}

; Where the target begins less than 32 bytes behind the source, in the same memory or in one of its repeats, units
; that were written are read again, and what is written repeats itself. So the first bytes are copied by halfwords, a
; multiple of that distance and at least 32, and then the source moves back to where they were written, which has the
; same bytes as the place to which it had come. r0, r1 and r3 are as for a copy, of memories; r2, r4, r5, r11 and r12
; are changed.
repeat_overlap:
        eor   r11, r0, r1
        tst   r11, #0x0f000000
        movne pc, lr
        and   r12, r1, #0x0f000000
        mov   r4, #17                ; the bits above an address in the inner RAM; in VRAM parts of 32 KiB repeat
        cmp   r12, #0x02000000
        moveq r4, #14                ; the work RAM
        cmp   r12, #0x05000000
        cmpne r12, #0x07000000
        moveq r4, #22                ; the palette and OAM
        sub   r11, r1, r0
        mov   r11, r11, lsl r4
        movs  r11, r11, lsr r4
        moveq pc, lr
        cmp   r11, #32
        movcs pc, lr
        mov   r4, r11
repeat_overlap_length:
        cmp   r4, #32
        addcc r4, r4, r11
        bcc   repeat_overlap_length
        cmp   r4, r3
        movcs r4, r3
        sub   r3, r3, r4
        mov   r5, r4
repeat_overlap_unit:
        ldrh  r2, [r0], #2
        strh  r2, [r1], #2
        subs  r5, r5, #2
        bne   repeat_overlap_unit
        sub   r0, r1, r4
        mov   pc, lr

; ---------------------------------------------------------------------------------------------------------------------
; Unpacking
;
; All of them have the source in r0 and the target in r1. Sources in the BIOS are refused: then nothing is written.
; Just the bytes of the unpacked size are changed: where a store is wider than what is left, the bytes behind are read
; and written back. The forms for VRAM store halfwords alone; the byte at an even address waits in r7 for the one
; above it.

; Reads the header at r0: r3 becomes the unpacked size, and r0 the address behind. Z is set where there is nothing to
; do: the source is refused, or the size is 0. r11 is changed. By bytes, so that the source may be anywhere.
read_header:
        ldrb  r3, [r0, #1]
        ldrb  r11, [r0, #2]
        orr   r3, r3, r11, lsl #8
        ldrb  r11, [r0, #3]
        orrs  r3, r3, r11, lsl #16
        tstne r0, #0x0e000000
        addne r11, r0, r3
        tstne r11, #0x0e000000
        add   r0, r0, #4
        mov   pc, lr

; Begins a form for VRAM: where the target is odd, the byte below it waits.
begin_halves:
        tst   r1, #1
        ldrneb r7, [r1, #-1]
        mov   pc, lr

; Ends a form for VRAM: where a byte waits, it is stored with the one above, which stays. r11 is changed.
end_halves:
        tst   r1, #1
        ldrneb r11, [r1]
        orrne r7, r7, r11, lsl #8
        strneh r7, [r1, #-1]
        mov   pc, lr

; 11 LZ77UnCompWram: a byte of eight flags, the highest first, and eight blocks: a byte for the flag 0, and for 1 two,
; of which the high four bits are a number minus 3 and the rest is a distance minus 1 back in what was unpacked. A
; block ends where the size is reached. At most 18 cycles a byte and what the accesses cost above 1 each.
unpack_lz77_bytes:
        stmdb sp!, {r4-r6, lr}
        bl    read_header
        beq   lz77_bytes_end
lz77_bytes_flags:
        ldrb  r4, [r0], #1
        mov   r4, r4, lsl #24
        orr   r4, r4, #0x00800000    ; behind the last flag
lz77_bytes_next:
        movs  r4, r4, lsl #1
        beq   lz77_bytes_flags
        bcs   lz77_bytes_block
        ldrb  r11, [r0], #1
        strb  r11, [r1], #1
        subs  r3, r3, #1
        bne   lz77_bytes_next
lz77_bytes_end:
        ldmia sp!, {r4-r6, pc}
lz77_bytes_block:
        ldrb  r5, [r0], #1
        ldrb  r6, [r0], #1
        orr   r6, r6, r5, lsl #8
        bic   r6, r6, #0xf000
        sub   r6, r1, r6             ; the byte behind the first one
        mov   r5, r5, lsr #4
        add   r5, r5, #3
        cmp   r5, r3
        movhi r5, r3
        sub   r3, r3, r5
lz77_bytes_copy:
        ldrb  r11, [r6, #-1]
        add   r6, r6, #1
        strb  r11, [r1], #1
        subs  r5, r5, #1
        bne   lz77_bytes_copy
        cmp   r3, #0
        bne   lz77_bytes_next
        ldmia sp!, {r4-r6, pc}

; 12 LZ77UnCompVram: the same by halfwords. A distance of one repeats the last byte, r11, which may still wait. At
; most 24 cycles a byte and what the accesses cost above 1 each.
unpack_lz77_halves:
        stmdb sp!, {r4-r7, lr}
        bl    read_header
        beq   lz77_halves_end
        bl    begin_halves
        ldrb  r11, [r1, #-1]
lz77_halves_flags:
        ldrb  r4, [r0], #1
        mov   r4, r4, lsl #24
        orr   r4, r4, #0x00800000
lz77_halves_next:
        movs  r4, r4, lsl #1
        beq   lz77_halves_flags
        bcs   lz77_halves_block
        ldrb  r11, [r0], #1
        tst   r1, #1
        moveq r7, r11
        orrne r7, r7, r11, lsl #8
        strneh r7, [r1, #-1]
        add   r1, r1, #1
        subs  r3, r3, #1
        bne   lz77_halves_next
lz77_halves_last:
        bl    end_halves
lz77_halves_end:
        ldmia sp!, {r4-r7, pc}
lz77_halves_block:
        ldrb  r5, [r0], #1
        ldrb  r6, [r0], #1
        orr   r6, r6, r5, lsl #8
        bic   r12, r6, #0xf000
        sub   r6, r1, r12
        sub   r6, r6, #1
        mov   r5, r5, lsr #4
        add   r5, r5, #3
        cmp   r5, r3
        movhi r5, r3
        sub   r3, r3, r5
lz77_halves_copy:
        cmp   r12, #0
        ldrneb r11, [r6], #1
        tst   r1, #1
        moveq r7, r11
        orrne r7, r7, r11, lsl #8
        strneh r7, [r1, #-1]
        add   r1, r1, #1
        subs  r5, r5, #1
        bne   lz77_halves_copy
        cmp   r3, #0
        bne   lz77_halves_next
        b     lz77_halves_last

; 14 RLUnCompWram: a byte of which bit 7 says whether its other bits are a number minus 3, of which the next byte is
; to be repeated, or a number minus 1 of bytes that follow. A run ends where the size is reached. At most 26 cycles a
; byte.
unpack_runs_bytes:
        stmdb sp!, {r4, r5, lr}
        bl    read_header
        beq   runs_bytes_end
runs_bytes_next:
        ldrb  r4, [r0], #1
        and   r5, r4, #0x7f
        add   r5, r5, #1
        tst   r4, #0x80
        addne r5, r5, #2
        ldrneb r11, [r0], #1
        cmp   r5, r3
        movhi r5, r3
        sub   r3, r3, r5
runs_bytes_put:
        tst   r4, #0x80
        ldreqb r11, [r0], #1
        strb  r11, [r1], #1
        subs  r5, r5, #1
        bne   runs_bytes_put
        cmp   r3, #0
        bne   runs_bytes_next
runs_bytes_end:
        ldmia sp!, {r4, r5, pc}

; 15 RLUnCompVram: the same by halfwords. At most 30 cycles a byte.
unpack_runs_halves:
        stmdb sp!, {r4, r5, r7, lr}
        bl    read_header
        beq   runs_halves_end
        bl    begin_halves
runs_halves_next:
        ldrb  r4, [r0], #1
        and   r5, r4, #0x7f
        add   r5, r5, #1
        tst   r4, #0x80
        addne r5, r5, #2
        ldrneb r11, [r0], #1
        cmp   r5, r3
        movhi r5, r3
        sub   r3, r3, r5
runs_halves_put:
        tst   r4, #0x80
        ldreqb r11, [r0], #1
        tst   r1, #1
        moveq r7, r11
        orrne r7, r7, r11, lsl #8
        strneh r7, [r1, #-1]
        add   r1, r1, #1
        subs  r5, r5, #1
        bne   runs_halves_put
        cmp   r3, #0
        bne   runs_halves_next
        bl    end_halves
runs_halves_end:
        ldmia sp!, {r4, r5, r7, pc}

; 16 Diff8bitUnFilterWram: each byte is the difference to the one before, and the first one to 0. 10 cycles a byte.
unfilter_bytes:
        stmdb sp!, {lr}
        bl    read_header
        ldmeqia sp!, {pc}
        mov   r12, #0
unfilter_bytes_next:
        ldrb  r11, [r0], #1
        add   r12, r12, r11
        strb  r12, [r1], #1
        subs  r3, r3, #1
        bne   unfilter_bytes_next
        ldmia sp!, {pc}

; 17 Diff8bitUnFilterVram: the same by halfwords. 15 cycles a byte.
unfilter_bytes_halves:
        stmdb sp!, {r7, lr}
        bl    read_header
        beq   unfilter_bytes_halves_end
        bl    begin_halves
        mov   r12, #0
unfilter_bytes_halves_next:
        ldrb  r11, [r0], #1
        add   r12, r12, r11
        and   r12, r12, #0xff
        tst   r1, #1
        moveq r7, r12
        orrne r7, r7, r12, lsl #8
        strneh r7, [r1, #-1]
        add   r1, r1, #1
        subs  r3, r3, #1
        bne   unfilter_bytes_halves_next
        bl    end_halves
unfilter_bytes_halves_end:
        ldmia sp!, {r7, pc}

; 18 Diff16bitUnFilter: the same of halfwords. An odd last byte has no difference, and isn't written. 10 cycles a
; halfword.
unfilter_halves:
        stmdb sp!, {lr}
        bl    read_header
        ldmeqia sp!, {pc}
        bic   r0, r0, #1
        bic   r1, r1, #1
        movs  r3, r3, lsr #1
        mov   r12, #0
unfilter_halves_next:
        ldrneh r11, [r0], #2
        addne r12, r12, r11
        strneh r12, [r1], #2
        subnes r3, r3, #1
        bne   unfilter_halves_next
        ldmia sp!, {pc}

; 10 BitUnPack: r2 points to the number of the source's bytes, a halfword; the bits of a source's and of a target's
; unit, a byte each; and a word whose bits 0 to 30 are added to each unit that isn't 0, and to those that are where
; its bit 31 is set. Units are taken from the low bits of a byte up, and stored from the low bits of a word up, whole
; words alone. Other widths than 1, 2, 4 and 8, and 1 to 32, do nothing. At most 17 cycles a unit, and 8 a byte of the
; source.
unpack_bits:
        ldrh  r3, [r2]
        cmp   r3, #0
        moveq pc, lr
        stmdb sp!, {r4-r10, lr}
        bl    check_source
        beq   unpack_bits_end
        ldrb  r4, [r2, #2]
        ldrb  r5, [r2, #3]
        ldr   r6, [r2, #4]
        sub   r11, r4, #1
        tst   r4, r11
        bne   unpack_bits_end
        cmp   r11, #8
        bcs   unpack_bits_end
        sub   r12, r5, #1
        tst   r5, r12
        bne   unpack_bits_end
        cmp   r12, #32
        bcs   unpack_bits_end
        mov   r10, #1
        mov   r10, r10, lsl r4
        sub   r10, r10, #1           ; the bits of a source's unit
        movs  r2, r6                 ; what a unit of 0 becomes
        bic   r6, r6, #0x80000000
        movmi r2, r6
        movpl r2, #0
        mov   r7, #0                 ; the word
        mov   r8, #0                 ; its bits so far
unpack_bits_byte:
        ldrb  r11, [r0], #1
        mov   r9, #8
unpack_bits_unit:
        ands  r12, r11, r10
        addne r12, r12, r6
        moveq r12, r2
        orr   r7, r7, r12, lsl r8
        add   r8, r8, r5
        tst   r8, #32
        strne r7, [r1], #4
        movne r7, #0
        movne r8, #0
        mov   r11, r11, lsr r4
        subs  r9, r9, r4
        bne   unpack_bits_unit
        subs  r3, r3, #1
        bne   unpack_bits_byte
unpack_bits_end:
        ldmia sp!, {r4-r10, pc}

; 13 HuffUnComp: the header's low four bits are the bits of a symbol, 1, 2, 4 or 8, of which a word is packed from its
; low bits up and then stored. A byte follows that leads over the tree to the stream, whose words give bits, the
; highest first. The tree's first byte is its root. The two nodes below a node are side by side, two bytes and twice
; the low six bits of the node behind its even address; the bit 7 says of the first one, which the bit 0 takes, that
; it is a symbol, and bit 6 of the second. Symbols of other widths do nothing. At most 15 cycles a bit and what the
; accesses cost, and with symbols of one or two bits at most 17.
;
; r0 is a node's address and r10 the node; r5 is the root and r6 the address of the two nodes below it. r8 has the
; bits that are left of a word of the stream, and a 1 behind them: where a shift takes that out, r8 is 0 and the carry
; is set, and goes behind the next word's bits. r9 has the word that is packed, with a 1 above it that goes out with
; its last symbol.
unpack_huffman:
        stmdb sp!, {r4-r10, lr}
        ldrb  r4, [r0]
        bl    read_header
        beq   huffman_end
        ldrb  r7, [r0]
        add   r7, r7, #1
        add   r7, r0, r7, lsl #1     ; the stream
        ldrb  r5, [r0, #1]
        add   r0, r0, #1
        bic   r6, r0, #1
        and   r2, r5, #0x3f
        add   r6, r6, r2, lsl #1
        add   r6, r6, #2
        mov   r8, #0x80000000
        mov   r9, #0x80000000
        and   r4, r4, #15
        cmp   r4, #4
        beq   huffman_fours
        cmp   r4, #8
        beq   huffman_eights
        rsb   r12, r4, #32
        sub   r11, r4, #1
        cmp   r11, #2
        bcc   huffman_few
huffman_end:
        ldmia sp!, {r4-r10, pc}

; Symbols of eight bits. Below the root:
huffman_eights:
        movs  r8, r8, lsl #1
        beq   huffman_eights_word
huffman_eights_bit:
        tstcc r5, #0x80
        tstcs r5, #0x40
        adc   r0, r6, #0
        ldrb  r10, [r0]
        beq   huffman_eights_node
        movs  r9, r9, lsr #8
        orr   r9, r9, r10, lsl #24
        bcc   huffman_eights
huffman_eights_store:
        subs  r3, r3, #4
        bcc   huffman_part
        str   r9, [r1], #4
        mov   r9, #0x80000000
        bne   huffman_eights
        ldmia sp!, {r4-r10, pc}
; Below another node:
huffman_eights_node:
        movs  r8, r8, lsl #1
        beq   huffman_eights_node_word
huffman_eights_node_bit:
        and   r2, r10, #0x3f
        adc   r2, r2, r2             ; with the bit
        movcs r10, r10, lsl #1
        tst   r10, #0x80
        bic   r0, r0, #1
        add   r0, r0, #2
        ldrb  r10, [r0, r2]!
        beq   huffman_eights_node
        movs  r9, r9, lsr #8
        orr   r9, r9, r10, lsl #24
        bcc   huffman_eights
        b     huffman_eights_store
; The next word of the stream:
huffman_eights_word:
        ldr   r8, [r7], #4
        adcs  r8, r8, r8
        b     huffman_eights_bit
huffman_eights_node_word:
        ldr   r8, [r7], #4
        adcs  r8, r8, r8
        b     huffman_eights_node_bit

; The last word has r3 + 4 bytes, 1 to 3: those behind stay.
huffman_part:
        rsb   r3, r3, #0
        mov   r3, r3, lsl #3         ; the bits that stay
        mvn   r2, #0
        mov   r2, r2, lsr r3         ; those that are written
        and   r9, r9, r2
        ldr   r11, [r1]
        bic   r11, r11, r2
        orr   r9, r9, r11
        str   r9, [r1]
        ldmia sp!, {r4-r10, pc}

; Symbols of four bits, in the same way.
huffman_fours:
        movs  r8, r8, lsl #1
        beq   huffman_fours_word
huffman_fours_bit:
        tstcc r5, #0x80
        tstcs r5, #0x40
        adc   r0, r6, #0
        ldrb  r10, [r0]
        beq   huffman_fours_node
        movs  r9, r9, lsr #4
        orr   r9, r9, r10, lsl #28
        bcc   huffman_fours
huffman_fours_store:
        subs  r3, r3, #4
        bcc   huffman_part
        str   r9, [r1], #4
        mov   r9, #0x80000000
        bne   huffman_fours
        ldmia sp!, {r4-r10, pc}
huffman_fours_node:
        movs  r8, r8, lsl #1
        beq   huffman_fours_node_word
huffman_fours_node_bit:
        and   r2, r10, #0x3f
        adc   r2, r2, r2
        movcs r10, r10, lsl #1
        tst   r10, #0x80
        bic   r0, r0, #1
        add   r0, r0, #2
        ldrb  r10, [r0, r2]!
        beq   huffman_fours_node
        movs  r9, r9, lsr #4
        orr   r9, r9, r10, lsl #28
        bcc   huffman_fours
        b     huffman_fours_store
huffman_fours_word:
        ldr   r8, [r7], #4
        adcs  r8, r8, r8
        b     huffman_fours_bit
huffman_fours_node_word:
        ldr   r8, [r7], #4
        adcs  r8, r8, r8
        b     huffman_fours_node_bit

; Symbols of r4 bits, one or two, in the same way; r12 is 32 minus that.
huffman_few:
        movs  r8, r8, lsl #1
        beq   huffman_few_word
huffman_few_bit:
        tstcc r5, #0x80
        tstcs r5, #0x40
        adc   r0, r6, #0
        ldrb  r10, [r0]
        beq   huffman_few_node
        movs  r9, r9, lsr r4
        orr   r9, r9, r10, lsl r12
        bcc   huffman_few
huffman_few_store:
        subs  r3, r3, #4
        bcc   huffman_part
        str   r9, [r1], #4
        mov   r9, #0x80000000
        bne   huffman_few
        ldmia sp!, {r4-r10, pc}
huffman_few_node:
        movs  r8, r8, lsl #1
        beq   huffman_few_node_word
huffman_few_node_bit:
        and   r2, r10, #0x3f
        adc   r2, r2, r2
        movcs r10, r10, lsl #1
        tst   r10, #0x80
        bic   r0, r0, #1
        add   r0, r0, #2
        ldrb  r10, [r0, r2]!
        beq   huffman_few_node
        movs  r9, r9, lsr r4
        orr   r9, r9, r10, lsl r12
        bcc   huffman_few
        b     huffman_few_store
huffman_few_word:
        ldr   r8, [r7], #4
        adcs  r8, r8, r8
        b     huffman_few_bit
huffman_few_node_word:
        ldr   r8, [r7], #4
        adcs  r8, r8, r8
        b     huffman_few_node_bit

; ---------------------------------------------------------------------------------------------------------------------
; Turned and scaled pictures

; 0E BgAffineSet: for r2 entries of 20 bytes at r0, which are the picture's middle x and y, words with 8 bits behind
; the point, the screen's middle x and y, the scales of x and y with 8 bits behind the point, and an angle of which
; the high eight bits of 16 count, all halfwords, the four parameters and the place of the screen's first dot are
; stored at r1: PA = x scale * cosine, PB = -(x scale * sine), PC = y scale * sine, PD = y scale * cosine, the
; products rounded down, as halfwords, and the picture's middle minus them times the screen's, as words. At most 93
; cycles an entry.
background_affine:
        cmp   r2, #0
        moveq pc, lr
        stmdb sp!, {r4-r10, lr}
background_affine_next:
        add   r11, r0, #12           ; the scales and the angle
        bl    turn
        strh  r5, [r1], #2
        strh  r6, [r1], #2
        strh  r7, [r1], #2
        strh  r8, [r1], #2
        ldrsh r9, [r0, #8]
        ldrsh r10, [r0, #10]
        ldmia r0, {r3, r4}
        mul   r11, r5, r9
        sub   r3, r3, r11
        mul   r11, r6, r10
        sub   r3, r3, r11
        mul   r11, r7, r9
        sub   r4, r4, r11
        mul   r11, r8, r10
        sub   r4, r4, r11
        stmia r1!, {r3, r4}
        add   r0, r0, #20
        subs  r2, r2, #1
        bne   background_affine_next
        ldmia sp!, {r4-r10, pc}

; 0F ObjAffineSet: for r2 entries of 8 bytes at r0, which are the scales of x and y and the angle, the four parameters
; are stored as halfwords from r1 on, each r3 bytes behind the one before. At most 64 cycles an entry.
sprite_affine:
        cmp   r2, #0
        moveq pc, lr
        stmdb sp!, {r4-r10, lr}
sprite_affine_next:
        mov   r11, r0
        bl    turn
        strh  r5, [r1], r3
        strh  r6, [r1], r3
        strh  r7, [r1], r3
        strh  r8, [r1], r3
        add   r0, r0, #8
        subs  r2, r2, #1
        bne   sprite_affine_next
        ldmia sp!, {r4-r10, pc}

; r5 to r8 become PA, PB, PC and PD, signed halfwords extended, of the x scale, the y scale and the angle, three
; halfwords at r11. r9 to r12 are changed. The table of the sine has 14 bits behind the point; the cosine is the sine
; a quarter of a turn on. At most 47 cycles.
turn:
        ldrsh r9, [r11]
        ldrsh r10, [r11, #2]
        ldrb  r5, [r11, #5]          ; the angle's high byte
        ldr   r12, sine_place
        mov   r6, r5, lsl #1
        ldrsh r6, [r12, r6]          ; sine
        add   r5, r5, #64
        and   r5, r5, #0xff
        mov   r5, r5, lsl #1
        ldrsh r5, [r12, r5]          ; cosine
        mul   r7, r6, r10
        mul   r8, r5, r10
        mul   r11, r5, r9
        mul   r12, r6, r9
        mov   r5, r11, lsl #2        ; as they are stored
        mov   r5, r5, asr #16
        mov   r6, r12, asr #14
        rsb   r6, r6, #0
        mov   r6, r6, lsl #16
        mov   r6, r6, asr #16
        mov   r7, r7, lsl #2
        mov   r7, r7, asr #16
        mov   r8, r8, lsl #2
        mov   r8, r8, asr #16
        mov   pc, lr

sine_place:
        .word sine_table

; ---------------------------------------------------------------------------------------------------------------------
; Sound

; 19 SoundBias: the level of SOUNDBIAS, its bits 1 to 9, goes by steps of one to 200h, or to 0 where r0 is 0; its
; other bits stay. 12 cycles a step.
sound_bias:
        mov   r12, #0x04000000
        cmp   r0, #0
        movne r0, #0x200
        ldrh  r1, [r12, #0x88]
sound_bias_step:
        mov   r2, r1, lsl #22        ; the level, without the bits above
        movs  r2, r2, lsr #22
        bic   r2, r2, #1
        cmp   r2, r0
        moveq pc, lr
        addcc r1, r1, #2
        subcs r1, r1, #2
        strh  r1, [r12, #0x88]
        b     sound_bias_step

; 1F MidiKey2Freq: r0 becomes the frequency at which the key r1 plays the wave at r0, whose second word is its
; frequency at the key 180: that times 2 ^ ((r1 - 180) / 12), and for r2 of 256 parts of a halftone the place on the
; line to the next key; the whole number below, or one beside it. From the key 180 on it is the highest below. At most
; 170 cycles.
key_to_frequency:
        stmdb sp!, {r4, r5, lr}
        ldr   r4, [r0, #4]
        mov   r5, r2, lsl #24        ; the part of a halftone
        mov   r0, r1
        cmp   r0, #180
        movcs r0, #179
        movcs r5, #0xff000000
        mov   r1, #12
        bl    divide_unsigned        ; the octave, and the key within it
        ldr   r12, halftone_place
        add   r12, r12, r1, lsl #2
        ldmia r12, {r1, r2}
        sub   r2, r2, r1             ; modulo 2 ^ 32, so that the last one is right too
        umull r12, r11, r2, r5
        adds  r12, r12, #0x80000000  ; rounded
        adc   r1, r1, r11            ; the octave's first key is 2 ^ 31
        umull r12, r11, r1, r4
        rsb   r0, r0, #14
        mov   r0, r11, lsr r0
        ldmia sp!, {r4, r5, pc}

halftone_place:
        .word halftone_table

; ---------------------------------------------------------------------------------------------------------------------
; Tables

; The angle whose tangent is k / 128, for k from 0 to 256: a turn is 40000h, rounded to the nearest,
; round(40000h * atan(k / 128) / (2 * pi)).
arc_tangent_table:
        .half 0, 326, 652, 978, 1303, 1629, 1954, 2279
        .half 2604, 2929, 3253, 3577, 3900, 4223, 4545, 4867
        .half 5188, 5509, 5829, 6148, 6467, 6784, 7101, 7418
        .half 7733, 8047, 8361, 8673, 8985, 9296, 9605, 9914
        .half 10221, 10527, 10832, 11136, 11439, 11740, 12040, 12339
        .half 12637, 12933, 13228, 13522, 13814, 14105, 14394, 14682
        .half 14968, 15253, 15537, 15819, 16100, 16379, 16656, 16932
        .half 17206, 17479, 17750, 18020, 18288, 18554, 18819, 19083
        .half 19344, 19604, 19862, 20119, 20374, 20627, 20879, 21129
        .half 21378, 21624, 21870, 22113, 22355, 22595, 22834, 23070
        .half 23306, 23539, 23771, 24001, 24230, 24457, 24682, 24906
        .half 25128, 25349, 25568, 25785, 26001, 26215, 26427, 26638
        .half 26848, 27056, 27262, 27467, 27670, 27871, 28072, 28270
        .half 28467, 28663, 28857, 29050, 29241, 29430, 29619, 29805
        .half 29991, 30175, 30357, 30538, 30718, 30896, 31073, 31248
        .half 31423, 31595, 31767, 31937, 32106, 32273, 32439, 32604
        .half 32768, 32930, 33091, 33251, 33410, 33567, 33723, 33878
        .half 34032, 34184, 34336, 34486, 34635, 34783, 34929, 35075
        .half 35219, 35363, 35505, 35646, 35786, 35925, 36063, 36200
        .half 36335, 36470, 36604, 36736, 36868, 36999, 37128, 37257
        .half 37385, 37512, 37637, 37762, 37886, 38009, 38131, 38252
        .half 38372, 38491, 38610, 38727, 38844, 38960, 39074, 39188
        .half 39302, 39414, 39526, 39636, 39746, 39855, 39963, 40071
        .half 40178, 40283, 40389, 40493, 40597, 40699, 40802, 40903
        .half 41004, 41104, 41203, 41301, 41399, 41496, 41593, 41688
        .half 41783, 41878, 41971, 42065, 42157, 42249, 42340, 42430
        .half 42520, 42609, 42698, 42786, 42873, 42960, 43046, 43132
        .half 43217, 43301, 43385, 43468, 43551, 43633, 43715, 43796
        .half 43876, 43956, 44036, 44115, 44193, 44271, 44348, 44425
        .half 44501, 44577, 44653, 44727, 44802, 44876, 44949, 45022
        .half 45094, 45166, 45238, 45309, 45379, 45449, 45519, 45588
        .half 45657, 45725, 45793, 45861, 45928, 45995, 46061, 46127
        .half 46192

; The sine of k of 256 steps of a turn, for k from 0 to 255: 1 is 4000h, cut towards 0,
; trunc(4000h * sin(2 * pi * k / 256)), as halfwords in two's complement.
sine_table:
        .half 0, 402, 803, 1205, 1605, 2005, 2404, 2801
        .half 3196, 3589, 3980, 4369, 4756, 5139, 5519, 5896
        .half 6269, 6639, 7005, 7366, 7723, 8075, 8423, 8765
        .half 9102, 9434, 9759, 10079, 10393, 10701, 11002, 11297
        .half 11585, 11866, 12139, 12406, 12665, 12916, 13159, 13395
        .half 13622, 13842, 14053, 14255, 14449, 14634, 14810, 14978
        .half 15136, 15286, 15426, 15557, 15678, 15790, 15892, 15985
        .half 16069, 16142, 16206, 16260, 16305, 16339, 16364, 16379
        .half 16384, 16379, 16364, 16339, 16305, 16260, 16206, 16142
        .half 16069, 15985, 15892, 15790, 15678, 15557, 15426, 15286
        .half 15136, 14978, 14810, 14634, 14449, 14255, 14053, 13842
        .half 13622, 13395, 13159, 12916, 12665, 12406, 12139, 11866
        .half 11585, 11297, 11002, 10701, 10393, 10079, 9759, 9434
        .half 9102, 8765, 8423, 8075, 7723, 7366, 7005, 6639
        .half 6269, 5896, 5519, 5139, 4756, 4369, 3980, 3589
        .half 3196, 2801, 2404, 2005, 1605, 1205, 803, 402
        .half 0, 65134, 64733, 64331, 63931, 63531, 63132, 62735
        .half 62340, 61947, 61556, 61167, 60780, 60397, 60017, 59640
        .half 59267, 58897, 58531, 58170, 57813, 57461, 57113, 56771
        .half 56434, 56102, 55777, 55457, 55143, 54835, 54534, 54239
        .half 53951, 53670, 53397, 53130, 52871, 52620, 52377, 52141
        .half 51914, 51694, 51483, 51281, 51087, 50902, 50726, 50558
        .half 50400, 50250, 50110, 49979, 49858, 49746, 49644, 49551
        .half 49467, 49394, 49330, 49276, 49231, 49197, 49172, 49157
        .half 49152, 49157, 49172, 49197, 49231, 49276, 49330, 49394
        .half 49467, 49551, 49644, 49746, 49858, 49979, 50110, 50250
        .half 50400, 50558, 50726, 50902, 51087, 51281, 51483, 51694
        .half 51914, 52141, 52377, 52620, 52871, 53130, 53397, 53670
        .half 53951, 54239, 54534, 54835, 55143, 55457, 55777, 56102
        .half 56434, 56771, 57113, 57461, 57813, 58170, 58531, 58897
        .half 59267, 59640, 60017, 60397, 60780, 61167, 61556, 61947
        .half 62340, 62735, 63132, 63531, 63931, 64331, 64733, 65134
        .align

; The frequency of k halftones above an octave's first key, for k from 0 to 12: an octave is 80000000h,
; round(80000000h * 2 ^ (k / 12)), and the last one, 2 ^ 32, as 0.
halftone_table:
        .word 0x80000000, 0x879c7c97, 0x8facd61e, 0x9837f052, 0xa14517cc
        .word 0xaadc0848, 0xb504f334, 0xbfc886bb, 0xcb2ff52a, 0xd744fccb
        .word 0xe411f03a, 0xf1a1bf39, 0x00000000

        .space 10976
