// A timer: PPI 27, three times.
        .include "common.inc"
        .text
_start: setup
        mov     x21, #0
        device  x12, 0x0901
        mov     w13, #3
        str     w13, [x12]
        sleep
interrupted:
        cmp     w14, #27
        b.ne    bad
        device  x12, 0x0901                     // the timer is served, and its wire falls
        str     wzr, [x12]
        say     tick
        msr     S3_0_C12_C12_1, x14
        add     x21, x21, #1
        cmp     x21, #3
        b.eq    good
        device  x12, 0x0901
        mov     w13, #3
        str     w13, [x12]
        eret
good:   end     0
bad:    end     1
tick:   .asciz  "tick\n"
        .balign 4
        body
