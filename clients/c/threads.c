/* One machine a thread: machines share nothing, so each thread reads the same. */
#include "risvamey.h"
#include <pthread.h>
#include <stdio.h>

enum { THREADS = 4, ROUNDS = 2000, DIST = 0x08000000, ITS = 0x08080000, REDIST = 0x080A0000 };

/* What a machine reads in a run of its own, as one number; 0 where a call fails. */
static uint64_t sum_of_a_run(void)
{
    struct rv_spec spec = {.size = sizeof spec, .vcpus = 2, .spis = 32, .dist = DIST, .redist = REDIST, .its = ITS};
    struct rv_machine machine = {0};
    struct rv_done done;
    uint64_t sum = 1;
    int32_t status = rv_create(&spec, &machine);
    status |= rv_mmio(&machine, 0, DIST, 4, RV_WRITE, 3, &done);
    status |= rv_mmio(&machine, 0, DIST + 0x84, 4, RV_WRITE, 0xFFFFFFFF, &done);
    status |= rv_mmio(&machine, 0, DIST + 0x104, 4, RV_WRITE, 0xFFFFFFFF, &done);
    status |= rv_sysreg(&machine, 0, RV_SYSREG(3, 0, 4, 6, 0), RV_WRITE, 0xF0, &done);
    status |= rv_sysreg(&machine, 0, RV_SYSREG(3, 0, 12, 12, 7), RV_WRITE, 1, &done);
    for (uint32_t round = 0; round < ROUNDS; round++) {
        status |= rv_message(&machine, 32 + round % 32, &done);
        sum = sum * 31 + done.changed;
        status |= rv_sysreg(&machine, 0, RV_SYSREG(3, 0, 12, 12, 0), RV_READ, 0, &done);
        sum = sum * 31 + done.value;
        status |= rv_sysreg(&machine, 0, RV_SYSREG(3, 0, 12, 12, 1), RV_WRITE, done.value, &done);
        sum = sum * 31 + (uint64_t)rv_lines(&machine, 0);
    }
    status |= rv_destroy(&machine);
    return status == 0 ? sum : 0;
}

static void *run(void *sum)
{
    *(uint64_t *)sum = sum_of_a_run();
    return NULL;
}

int main(void)
{
    pthread_t threads[THREADS];
    uint64_t sums[THREADS], sum = sum_of_a_run();
    for (int thread = 0; thread < THREADS; thread++)
        if (pthread_create(&threads[thread], NULL, run, &sums[thread]) != 0)
            return 2;
    for (int thread = 0; thread < THREADS; thread++) {
        pthread_join(threads[thread], NULL);
        if (sum == 0 || sums[thread] != sum) {
            printf("thread %d read something else\n", thread);
            return 1;
        }
    }
    printf("%d threads read the same\n", THREADS);
    return 0;
}
