/* The first path: a guest enables SPI 40 for vCPU 0, a device raises it, and the guest takes it and ends it. */
#include "risvamey.h"
#include <stdio.h>

enum { DIST = 0x08000000, REDIST = 0x080A0000, ITS = 0x08080000 };
#define ICC_PMR RV_SYSREG(3, 0, 4, 6, 0)
#define ICC_IAR1 RV_SYSREG(3, 0, 12, 12, 0)
#define ICC_EOIR1 RV_SYSREG(3, 0, 12, 12, 1)
#define ICC_IGRPEN1 RV_SYSREG(3, 0, 12, 12, 7)

int main(void)
{
    struct rv_spec spec = {.size = sizeof spec, .vcpus = 2, .spis = 32, .dist = DIST, .redist = REDIST, .its = ITS};
    struct rv_machine gic = {0};
    struct rv_done done;
    if (rv_abi() != RV_ABI || rv_create(&spec, &gic) != 0)
        return 1;
    rv_mmio(&gic, 0, DIST + 0x0000, 4, RV_WRITE, 0x2, &done);           /* GICD_CTLR: group 1          */
    rv_mmio(&gic, 0, DIST + 0x0084, 4, RV_WRITE, 1 << 8, &done);        /* GICD_IGROUPR1: 40           */
    rv_mmio(&gic, 0, DIST + 0x0104, 4, RV_WRITE, 1 << 8, &done);        /* GICD_ISENABLER1: 40         */
    rv_mmio(&gic, 0, DIST + 0x6000 + 8 * 40, 8, RV_WRITE, 0, &done);    /* GICD_IROUTER40: vCPU 0      */
    rv_sysreg(&gic, 0, ICC_PMR, RV_WRITE, 0xF0, &done);
    rv_sysreg(&gic, 0, ICC_IGRPEN1, RV_WRITE, 1, &done);

    rv_wire(&gic, 40, 0, 1, &done);                                     /* a device raises its wire    */
    printf("changed 0x%x, lines of vCPU 0: %d\n", done.changed, rv_lines(&gic, 0));
    rv_sysreg(&gic, 0, ICC_IAR1, RV_READ, 0, &done);
    printf("IAR1 %u, lines of vCPU 0: %d\n", (unsigned)done.value, rv_lines(&gic, 0));
    rv_wire(&gic, 40, 0, 0, &done);                                     /* its driver has served it    */
    rv_sysreg(&gic, 0, ICC_EOIR1, RV_WRITE, 40, &done);
    rv_sysreg(&gic, 0, ICC_IAR1, RV_READ, 0, &done);
    printf("IAR1 %u\n", (unsigned)done.value);
    return rv_destroy(&gic);
}
