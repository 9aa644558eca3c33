// An ITS that the guest sets up in its own memory: device 8, event 3, LPI 8195.
        .include "common.inc"
        .text
.macro word offset, high, low                   // a doubleword of the queue, at x17
        movz    x13, #\low
        movk    x13, #\high, lsl #32
        str     x13, [x17, #\offset]
.endm
_start: setup
        mov     w13, #0xA1                      // LPI 8195 is enabled, at priority 0xA0
        mov     x17, #0x3000
        strb    w13, [x17, #3]
        mov     x13, #0x300D                    // GICR_PROPBASER: the table, 14 bits of INTIDs
        str     x13, [x10, #0x70]
        movz    x13, #1, lsl #16                // GICR_PENDBASER: a table of zeros
        movk    x13, #0x4000, lsl #48
        str     x13, [x10, #0x78]
        mov     w13, #1
        str     w13, [x10]                      // GICR_CTLR: EnableLPIs
        movz    x16, #0x0808, lsl #16           // the ITS
        mov     x17, #0x1000
        movz    x13, #0x1000
        movk    x13, #0x8000, lsl #48
        str     x13, [x16, #0x80]               // GITS_CBASER
        mov     w13, #1
        str     w13, [x16]                      // GITS_CTLR
        word    0x00, 8, 8                      // MAPD
        word    0x08, 0, 3
        movz    x13, #0x2000
        movk    x13, #0x8000, lsl #48
        str     x13, [x17, #0x10]
        word    0x20, 0, 9                      // MAPC: collection 0 to vCPU 0
        movz    x13, #0
        movk    x13, #0x8000, lsl #48
        str     x13, [x17, #0x30]
        word    0x40, 8, 10                     // MAPTI
        word    0x48, 8195, 3
        word    0x50, 0, 0
        mov     x13, #0x60
        str     x13, [x16, #0x88]               // GITS_CWRITER
        ldr     x13, [x16, #0x90]               // GITS_CREADR
        cmp     x13, #0x60
        b.ne    bad
        say     mapped
        device  x12, 0x0902                     // the device sends its event 3
        mov     w13, #3
        str     w13, [x12]
        sleep
interrupted:
        mov     w13, #8195
        cmp     w14, w13
        b.ne    bad
        msr     S3_0_C12_C12_1, x14
        say     lpi
        end     0
bad:    end     1
mapped: .asciz  "mapped\n"
lpi:    .asciz  "LPI 8195\n"
        .balign 4
        body
