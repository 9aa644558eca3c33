// A UART whose level-sensitive SPI 33 is asserted while it has input: what comes is written back, until a line ends.
        .include "common.inc"
        .text
_start: setup
        mov     w1, #2
        str     w1, [x9, #0x84]                 // GICD_IGROUPR1: 33
        str     w1, [x9, #0x104]                // GICD_ISENABLER1: 33
        add     x13, x9, #0x6, lsl #12
        str     xzr, [x13, #0x108]              // GICD_IROUTER33: vCPU 0
        device  x12, 0x0900
        mov     w13, #1
        str     w13, [x12, #8]                  // the UART may interrupt
        sleep
interrupted:
        cmp     w14, #33
        b.ne    bad
        device  x12, 0x0900
        ldr     w13, [x12]
        str     w13, [x12]
        msr     S3_0_C12_C12_1, x14
        cmp     w13, #10
        b.eq    good
        eret
good:   end     0
bad:    end     1
        .balign 4
        body
