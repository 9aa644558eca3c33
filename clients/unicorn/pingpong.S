// Two vCPUs that send SGI 5 to each other.
        .include "common.inc"
        .text
_start: setup
        mov     x21, #0
        cbnz    x20, 1f
        bl      send
1:      sleep
send:   movz    x13, #0x0500, lsl #16           // ICC_SGI1R_EL1: SGI 5 to the other vCPU
        mov     x12, #2
        lsr     x12, x12, x20
        orr     x13, x13, x12
        msr     S3_0_C12_C11_5, x13
        ret
interrupted:
        cmp     w14, #5
        b.ne    bad
        msr     S3_0_C12_C12_1, x14
        cbz     x20, 1f
        say     ping
        bl      send
        eret
1:      say     pong
        add     x21, x21, #1
        cmp     x21, #3
        b.eq    good
        bl      send
        eret
good:   end     0
bad:    end     1
ping:   .asciz  "vCPU 1: ping\n"
pong:   .asciz  "vCPU 0: pong\n"
        .balign 4
        body
