/* Each function of risvamey.h with each of its refusals, and CALLS drawn calls.
 *
 *   test                      the refusals alone
 *   test SCENARIO READS       also draws calls; writes them as a scenario of gicrun, and what they read as the lines that `gicrun run` has to answer
 *
 * It is linked with --wrap=malloc, so that it can refuse memory. */
#include "risvamey.h"
#include <errno.h>
#include <inttypes.h>
#include <stdbool.h>
#include <stdio.h>
#include <stdlib.h>
#include <string.h>

enum { DIST = 0x08000000, ITS = 0x08080000, REDIST = 0x080A0000, REDIST_BYTES = 0x20000, SGI_FRAME = 0x10000 };
enum { VCPUS = 3, SPIS = 64, ESPIS = 32, LPIS = 16, RAM = 0x3FFF8, CALLS = 10000, SAVED_CALLS = 200 };
/* where the guest has the commands of the ITS, its LPIs' configuration, and the pending tables, one a vCPU */
enum { QUEUE = 0x1000, QUEUE_BYTES = 0x1000, CONFIGURATION = 0x3000, PENDING = 0x10000, PENDING_BITS = 0x400 };
/* registers of the ITS, and of a redistributor */
enum { GITS_CTLR = 0, GITS_CBASER = 0x80, GITS_CWRITER = 0x88, GITS_CREADR = 0x90, GICR_CTLR = 0, GICR_PROPBASER = 0x70, GICR_PENDBASER = 0x78 };
#define VALID 0x8000000000000000u
#define TABLE_OF_ZEROS 0x4000000000000000u

static const struct rv_spec SPEC = {.size = sizeof(struct rv_spec), .vcpus = VCPUS, .spis = SPIS, .espis = ESPIS, .lpis = LPIS,
                                    .dist = DIST, .redist = REDIST, .its = ITS};

/* The guest's memory, from address 0 on. */
static uint8_t ram[RAM];

static int failures;

static void check(bool holds, const char *what, int line)
{
    if (!holds) {
        printf("line %d: not so: %s\n", line, what);
        failures++;
    }
}
#define CHECK(what) check(what, #what, __LINE__)

/* Memory that is refused: the allocation of this number from now on, counted from 1; 0 refuses none. */
static unsigned refused_at;
void *__real_malloc(size_t bytes);
void *__wrap_malloc(size_t bytes);
void *__wrap_malloc(size_t bytes)
{
    if (refused_at > 0 && --refused_at == 0)
        return NULL;
    return __real_malloc(bytes);
}

static bool is_zero(const struct rv_done *done)
{
    return done->value == 0 && done->changed == 0 && done->length == 0 && done->address == 0;
}

/* A call that is refused with this number, and shows zeros. */
#define REFUSED(number, call)                    \
    do {                                         \
        memset(&done, 0xA5, sizeof done);        \
        CHECK((call) == -(number));              \
        CHECK(is_zero(&done));                   \
    } while (0)

static void each_function_refuses(struct rv_machine *machine)
{
    struct rv_done done;
    CHECK(rv_destroy(machine) == -EINVAL);
    CHECK(rv_lines(machine, 0) == -EINVAL);
    REFUSED(EINVAL, rv_mmio(machine, 0, DIST, 4, RV_READ, 0, &done));
    REFUSED(EINVAL, rv_sysreg(machine, 0, RV_SYSREG(3, 0, 4, 6, 0), RV_READ, 0, &done));
    REFUSED(EINVAL, rv_wire(machine, 40, 0, 1, &done));
    REFUSED(EINVAL, rv_message(machine, 40, &done));
    REFUSED(EINVAL, rv_msi(machine, 8, 3, &done));
    CHECK(rv_feed(machine, ram, 32) == -EINVAL);
    REFUSED(EINVAL, rv_reset(machine, &done));
    REFUSED(EINVAL, rv_reset_vcpu(machine, 0, &done));
    uint64_t needed = 1;
    CHECK(rv_save(machine, ram, RAM, &needed) == -EINVAL && needed == 0);
    REFUSED(EINVAL, rv_restore(machine, (const uint8_t *)"{}", 2, &done));
}

#define NOT_OPENED(field, number)                          \
    do {                                                   \
        struct rv_spec bad = SPEC;                         \
        bad.field = (number);                              \
        CHECK(rv_create(&bad, &machine) == -EINVAL);       \
        CHECK(rv_lines(&machine, 0) == -EINVAL);           \
    } while (0)

static void openings(void)
{
    struct rv_machine machine = {0};
    struct rv_done done;
    CHECK(rv_abi() == RV_ABI);
    each_function_refuses(&machine);
    NOT_OPENED(size, sizeof(struct rv_spec) - 8);
    NOT_OPENED(size, sizeof(struct rv_spec) + 8);
    NOT_OPENED(reserved0, 1);
    NOT_OPENED(reserved1, 1);
    NOT_OPENED(reserved2, 1);
    NOT_OPENED(vcpus, 0);
    NOT_OPENED(vcpus, 33);
    NOT_OPENED(spis, 33);
    NOT_OPENED(spis, 992);
    NOT_OPENED(espis, 1056);
    NOT_OPENED(lpis, 2);
    NOT_OPENED(lpis, 24);
    NOT_OPENED(lpis, 8192);
    NOT_OPENED(dist, DIST + 0x1000);
    NOT_OPENED(dist, REDIST + 0x20000);
    NOT_OPENED(its, UINT64_MAX - 0xFFFF);
    CHECK(rv_create(&SPEC, &machine) == 0);
    CHECK(rv_create(&SPEC, &machine) == -EINVAL);
    /* still there */
    CHECK(rv_mmio(&machine, 0, DIST, 4, RV_READ, 0, &done) == 0 && done.value == 0x50);
    CHECK(rv_destroy(&machine) == 0);
    each_function_refuses(&machine);
    /* the room serves again */
    CHECK(rv_create(&SPEC, &machine) == 0);
    CHECK(rv_destroy(&machine) == 0);
    CHECK(rv_destroy(&machine) == -EINVAL);
}

static void refused_memory(void)
{
    struct rv_machine machine = {0};
    unsigned number = 1;
    for (;; number++) {
        refused_at = number;
        int32_t status = rv_create(&SPEC, &machine);
        bool was_asked = refused_at == 0;
        refused_at = 0;
        if (!was_asked) {
            CHECK(status == 0);
            break;
        }
        CHECK(status == -ENOMEM);
        each_function_refuses(&machine);
    }
    printf("%u requests for memory, each refused once\n", number - 1);
    CHECK(number > 1);
    /* none after the opening, but where a machine is saved or restored */
    struct rv_done done;
    refused_at = 1;
    CHECK(rv_mmio(&machine, 0, DIST, 4, RV_WRITE, 3, &done) == 0);
    CHECK(rv_wire(&machine, 40, 0, 1, &done) == 0);
    CHECK(rv_reset(&machine, &done) == 0);
    CHECK(refused_at == 1);
    refused_at = 0;
    CHECK(rv_destroy(&machine) == 0);
}

static void arguments(void)
{
    struct rv_machine machine = {0};
    struct rv_done done;
    CHECK(rv_create(&SPEC, &machine) == 0);
    /* frames */
    REFUSED(EINVAL, rv_mmio(&machine, VCPUS, DIST, 4, RV_READ, 0, &done));
    REFUSED(EINVAL, rv_mmio(&machine, UINT32_MAX, DIST, 4, RV_READ, 0, &done));
    REFUSED(EINVAL, rv_mmio(&machine, 0, DIST, 0, RV_READ, 0, &done));
    REFUSED(EINVAL, rv_mmio(&machine, 0, DIST, 3, RV_READ, 0, &done));
    REFUSED(EINVAL, rv_mmio(&machine, 0, DIST, 16, RV_READ, 0, &done));
    REFUSED(EINVAL, rv_mmio(&machine, 0, DIST, 4, 2, 3, &done));
    REFUSED(ENOENT, rv_mmio(&machine, 0, DIST - 1, 1, RV_READ, 0, &done));
    REFUSED(ENOENT, rv_mmio(&machine, 0, DIST + 0x10000, 4, RV_READ, 0, &done));
    REFUSED(ENOENT, rv_mmio(&machine, 0, REDIST + VCPUS * REDIST_BYTES, 4, RV_READ, 0, &done));
    REFUSED(ENOENT, rv_mmio(&machine, 0, UINT64_MAX, 1, RV_READ, 0, &done));
    CHECK(rv_mmio(&machine, 0, DIST + 2, 4, RV_READ, 0, &done) == 0 && is_zero(&done));
    /* system registers */
    REFUSED(EINVAL, rv_sysreg(&machine, VCPUS, RV_SYSREG(3, 0, 4, 6, 0), RV_READ, 0, &done));
    REFUSED(EINVAL, rv_sysreg(&machine, 0, RV_SYSREG(3, 0, 4, 6, 0), 2, 0, &done));
    REFUSED(ENOENT, rv_sysreg(&machine, 0, RV_SYSREG(3, 0, 4, 6, 1), RV_READ, 0, &done));
    REFUSED(ENOENT, rv_sysreg(&machine, 0, 0x10000 | RV_SYSREG(3, 0, 4, 6, 0), RV_READ, 0, &done));
    REFUSED(EACCES, rv_sysreg(&machine, 0, RV_SYSREG(3, 0, 12, 12, 0), RV_WRITE, 0, &done));
    REFUSED(EACCES, rv_sysreg(&machine, 0, RV_SYSREG(3, 0, 12, 12, 1), RV_READ, 0, &done));
    /* devices */
    REFUSED(EINVAL, rv_wire(&machine, 40, 0, 2, &done));
    REFUSED(ENOENT, rv_wire(&machine, 3, 0, 1, &done));
    REFUSED(ENOENT, rv_wire(&machine, 27, VCPUS, 1, &done));
    REFUSED(ENOENT, rv_wire(&machine, 32 + SPIS, 0, 1, &done));
    REFUSED(ENOENT, rv_wire(&machine, 8192, 0, 1, &done));
    REFUSED(ENOENT, rv_message(&machine, 31, &done));
    REFUSED(ENOENT, rv_message(&machine, 4096 + ESPIS, &done));
    /* memory that nobody asked for */
    CHECK(rv_feed(&machine, ram, 0) == -EINVAL);
    CHECK(rv_feed(&machine, ram, 32) == -EINVAL);
    /* vCPUs */
    CHECK(rv_lines(&machine, VCPUS) == -EINVAL);
    REFUSED(EINVAL, rv_reset_vcpu(&machine, VCPUS, &done));
    /* nothing of that is left */
    CHECK(rv_mmio(&machine, 0, DIST, 4, RV_READ, 0, &done) == 0 && done.value == 0x50);
    CHECK(rv_mmio(&machine, 0, DIST + 0x204, 4, RV_READ, 0, &done) == 0 && done.value == 0);
    CHECK(rv_destroy(&machine) == 0);
    /* a machine without an ITS */
    struct rv_spec plain = SPEC;
    plain.lpis = 0;
    CHECK(rv_create(&plain, &machine) == 0);
    REFUSED(ENOENT, rv_msi(&machine, 8, 3, &done));
    CHECK(rv_destroy(&machine) == 0);
}

/* Writes to memory what is stored there, little endian. */
static void put(uint64_t address, uint64_t value)
{
    for (unsigned byte = 0; byte < 8; byte++)
        ram[address + byte] = (uint8_t)(value >> 8 * byte);
}

/* Hands in what the machine asks for: zeros for what is no memory. */
static int32_t feed(struct rv_machine *machine, const struct rv_done *asked)
{
    static uint8_t bytes[1 << 20];
    memset(bytes, 0, sizeof bytes);
    for (uint64_t at = 0; at < asked->length && asked->address + at < RAM; at++)
        bytes[at] = ram[asked->address + at];
    return rv_feed(machine, bytes, asked->length);
}

/* The call asks for this range of memory. */
#define ASKED(at, bytes, call)                                                              \
    do {                                                                                    \
        memset(&done, 0xA5, sizeof done);                                                   \
        CHECK((call) == RV_FETCH);                                                          \
        CHECK(done.value == 0 && done.changed == 0 && done.reserved == 0);                  \
        CHECK(done.address == (at) && done.length == (bytes));                              \
    } while (0)

static int32_t write_its(struct rv_machine *machine, uint32_t offset, uint64_t value, struct rv_done *done)
{
    return rv_mmio(machine, 0, ITS + offset, 8, RV_WRITE, value, done);
}

static int32_t write_redist(struct rv_machine *machine, uint32_t vcpu, uint32_t offset, uint32_t size, uint64_t value, struct rv_done *done)
{
    return rv_mmio(machine, 0, REDIST + vcpu * REDIST_BYTES + offset, size, RV_WRITE, value, done);
}

static void memory(void)
{
    struct rv_machine machine = {0};
    struct rv_done done;
    CHECK(rv_create(&SPEC, &machine) == 0);
    /* none of this asks for memory of the host */
    refused_at = 1;
    CHECK(write_redist(&machine, 0, GICR_PROPBASER, 8, CONFIGURATION | 0xD, &done) == 0);
    CHECK(write_redist(&machine, 1, GICR_PROPBASER, 8, CONFIGURATION | 0xD, &done) == 0);
    CHECK(write_redist(&machine, 2, GICR_PROPBASER, 8, 0x7FFFFFF00D, &done) == 0);
    CHECK(write_its(&machine, GITS_CBASER, VALID | QUEUE, &done) == 0);
    CHECK(rv_mmio(&machine, 0, ITS + GITS_CTLR, 4, RV_WRITE, 1, &done) == 0);
    for (unsigned at = 0; at < QUEUE_BYTES; at += 32)
        put(QUEUE + at, 5);                                                     /* SYNC */
    /* a command, then each table once: that of vCPUs 0 and 1, and one that is no memory */
    ASKED(QUEUE, 32, write_its(&machine, GITS_CWRITER, 32, &done));
    CHECK(rv_feed(&machine, ram, 0) == -EINVAL);
    CHECK(rv_feed(&machine, ram, 24) == -EINVAL);
    CHECK(rv_feed(&machine, ram, 40) == -EINVAL);
    ASKED(QUEUE, 32, write_its(&machine, GITS_CWRITER, 32, &done));
    CHECK(feed(&machine, &done) == 0);
    ASKED(CONFIGURATION, LPIS, write_its(&machine, GITS_CWRITER, 32, &done));
    CHECK(feed(&machine, &done) == 0);
    ASKED(0x7FFFFFF000, LPIS, write_its(&machine, GITS_CWRITER, 32, &done));
    CHECK(feed(&machine, &done) == 0);
    CHECK(write_its(&machine, GITS_CWRITER, 32, &done) == 0 && is_zero(&done));
    CHECK(rv_mmio(&machine, 0, ITS + GITS_CREADR, 8, RV_READ, 0, &done) == 0 && done.value == 32);
    CHECK(rv_feed(&machine, ram, 32) == -EINVAL);
    /* all that was fed is dropped by another call, also one of other arguments, and one that is refused */
    ASKED(QUEUE + 32, 32, write_its(&machine, GITS_CWRITER, 64, &done));
    CHECK(feed(&machine, &done) == 0);
    CHECK(rv_lines(&machine, 0) == 0);
    CHECK(rv_feed(&machine, ram, LPIS) == -EINVAL);
    ASKED(QUEUE + 32, 32, write_its(&machine, GITS_CWRITER, 64, &done));
    CHECK(feed(&machine, &done) == 0);
    ASKED(QUEUE + 32, 64, write_its(&machine, GITS_CWRITER, 96, &done));
    CHECK(feed(&machine, &done) == 0);
    ASKED(CONFIGURATION, LPIS, write_its(&machine, GITS_CWRITER, 96, &done));
    REFUSED(EINVAL, rv_wire(&machine, 40, 0, 2, &done));
    CHECK(rv_feed(&machine, ram, LPIS) == -EINVAL);
    ASKED(QUEUE + 32, 64, write_its(&machine, GITS_CWRITER, 96, &done));
    REFUSED(EINVAL, rv_mmio(&machine, VCPUS, ITS, 4, RV_READ, 0, &done));
    CHECK(rv_feed(&machine, ram, 64) == -EINVAL);
    /* a refused feed drops nothing, and nothing of this was done */
    ASKED(QUEUE + 32, QUEUE_BYTES - 64, write_its(&machine, GITS_CWRITER, QUEUE_BYTES - 32, &done));
    CHECK(feed(&machine, &done) == 0);
    CHECK(rv_feed(&machine, ram, LPIS + 8) == -EINVAL);
    ASKED(CONFIGURATION, LPIS, write_its(&machine, GITS_CWRITER, QUEUE_BYTES - 32, &done));
    CHECK(rv_mmio(&machine, 0, ITS + GITS_CREADR, 8, RV_READ, 0, &done) == 0 && done.value == 32);
    /* round the end of the queue */
    while (write_its(&machine, GITS_CWRITER, QUEUE_BYTES - 32, &done) == RV_FETCH)
        CHECK(feed(&machine, &done) == 0);
    ASKED(QUEUE + QUEUE_BYTES - 32, 32, write_its(&machine, GITS_CWRITER, 64, &done));
    CHECK(feed(&machine, &done) == 0);
    ASKED(QUEUE, 64, write_its(&machine, GITS_CWRITER, 64, &done));
    CHECK(feed(&machine, &done) == 0);
    ASKED(CONFIGURATION, LPIS, write_its(&machine, GITS_CWRITER, 64, &done));
    /* a pending table */
    CHECK(write_redist(&machine, 1, GICR_PENDBASER, 8, 2 * PENDING, &done) == 0);
    ASKED(2 * PENDING + PENDING_BITS, 8, write_redist(&machine, 1, GICR_CTLR, 4, 1, &done));
    CHECK(feed(&machine, &done) == 0);
    CHECK(write_redist(&machine, 1, GICR_CTLR, 4, 1, &done) == 0);
    CHECK(write_redist(&machine, 2, GICR_PENDBASER, 8, TABLE_OF_ZEROS | 3 * PENDING, &done) == 0);
    CHECK(write_redist(&machine, 2, GICR_CTLR, 4, 1, &done) == 0);
    CHECK(refused_at == 1);
    refused_at = 0;
    CHECK(rv_destroy(&machine) == 0);
}

/* The largest queue, and a table for each of 32 vCPUs: all that a machine asks for at once. */
static void most_memory(void)
{
    struct rv_spec spec = SPEC;
    struct rv_machine machine = {0};
    struct rv_done done;
    uint64_t bytes = 0;
    spec.vcpus = 32;
    spec.lpis = 4096;
    spec.its = REDIST + 32 * REDIST_BYTES;
    CHECK(rv_create(&spec, &machine) == 0);
    refused_at = 1;
    for (uint32_t vcpu = 0; vcpu < 32; vcpu++)
        CHECK(write_redist(&machine, vcpu, GICR_PROPBASER, 8, (0x100000u + 0x1000 * vcpu) | 0xD, &done) == 0);
    CHECK(rv_mmio(&machine, 0, spec.its + GITS_CBASER, 8, RV_WRITE, VALID | 0x200000 | 0xFF, &done) == 0);
    CHECK(rv_mmio(&machine, 0, spec.its + GITS_CTLR, 4, RV_WRITE, 1, &done) == 0);
    while (rv_mmio(&machine, 0, spec.its + GITS_CWRITER, 8, RV_WRITE, 0xFFFE0, &done) == RV_FETCH) {
        bytes += done.length;
        CHECK(feed(&machine, &done) == 0);
    }
    CHECK(bytes == 0xFFFE0 + 32 * 4096);
    CHECK(refused_at == 1);
    refused_at = 0;
    CHECK(rv_destroy(&machine) == 0);
}

/* An image of a machine, and one more of it. */
enum { IMAGE = 1 << 20 };
static uint8_t image[IMAGE], again[IMAGE];

static uint64_t save(struct rv_machine *machine, uint8_t *bytes)
{
    uint64_t needed = 0;
    CHECK(rv_save(machine, bytes, IMAGE, &needed) == 0);
    CHECK(needed > 0 && needed <= IMAGE);
    return needed;
}

/* What is no image of this machine is refused, as is each request for memory, and all stays as it was. */
static void images(void)
{
    static const char *const NONE[] = {"", "{", "{}", "[]", "{\"bases\":[0],\"image\":{}}"};
    struct rv_spec small = {.size = sizeof small, .vcpus = 1, .dist = DIST, .redist = REDIST, .its = ITS};
    struct rv_machine machine = {0}, other = {0};
    struct rv_done done;
    CHECK(rv_create(&SPEC, &machine) == 0);
    CHECK(rv_create(&small, &other) == 0);
    CHECK(rv_mmio(&machine, 0, DIST, 4, RV_WRITE, 2, &done) == 0);
    CHECK(rv_mmio(&machine, 0, DIST + 0x84, 4, RV_WRITE, 0x100, &done) == 0);
    CHECK(rv_mmio(&machine, 0, DIST + 0x104, 4, RV_WRITE, 0x100, &done) == 0);
    CHECK(rv_sysreg(&machine, 0, RV_SYSREG(3, 0, 4, 6, 0), RV_WRITE, 0xF0, &done) == 0);
    CHECK(rv_sysreg(&machine, 0, RV_SYSREG(3, 0, 12, 12, 7), RV_WRITE, 1, &done) == 0);
    CHECK(rv_wire(&machine, 40, 0, 1, &done) == 0 && done.changed == 1);
    uint64_t bytes = save(&machine, image), needed;
    /* it is written whole or not at all */
    memset(again, 0xA5, sizeof again);
    CHECK(rv_save(&machine, again, 0, &needed) == -ERANGE && needed == bytes && again[0] == 0xA5);
    CHECK(rv_save(&machine, again, bytes - 1, &needed) == -ERANGE && needed == bytes && again[0] == 0xA5);
    CHECK(rv_save(&machine, again, bytes, &needed) == 0 && needed == bytes && again[bytes] == 0xA5);
    CHECK(memcmp(image, again, bytes) == 0);
    for (unsigned at = 0; at < sizeof NONE / sizeof *NONE; at++)
        REFUSED(EINVAL, rv_restore(&machine, (const uint8_t *)NONE[at], strlen(NONE[at]), &done));
    REFUSED(EINVAL, rv_restore(&machine, image, bytes - 1, &done));
    REFUSED(EINVAL, rv_restore(&other, image, bytes, &done));
    uint64_t others = save(&other, again);
    REFUSED(EINVAL, rv_restore(&machine, again, others, &done));
    /* memory */
    for (int is_restore = 0; is_restore < 2; is_restore++) {
        for (unsigned number = 1;; number++) {
            refused_at = number;
            memset(&done, 0xA5, sizeof done);
            int32_t status = is_restore ? rv_restore(&machine, image, bytes, &done) : rv_save(&machine, again, IMAGE, &needed);
            bool was_asked = refused_at == 0;
            refused_at = 0;
            if (!was_asked) {
                CHECK(status == 0 && number > 1);
                break;
            }
            CHECK(status == -ENOMEM);
            CHECK(rv_lines(&machine, 0) == RV_IRQ);
        }
    }
    CHECK(done.changed == 0 && done.value == 0);
    /* it goes back, and the line falls */
    CHECK(rv_reset(&machine, &done) == 0 && done.changed == 1);
    CHECK(rv_restore(&machine, image, bytes, &done) == 0 && done.changed == 1 && rv_lines(&machine, 0) == RV_IRQ);
    CHECK(rv_sysreg(&machine, 0, RV_SYSREG(3, 0, 12, 12, 0), RV_READ, 0, &done) == 0 && done.value == 40);
    CHECK(rv_restore(&machine, image, bytes, &done) == 0 && done.changed == 1);
    CHECK(rv_sysreg(&machine, 0, RV_SYSREG(3, 0, 12, 12, 0), RV_READ, 0, &done) == 0 && done.value == 40);
    CHECK(rv_destroy(&machine) == 0 && rv_destroy(&other) == 0);
}

/* The calls that are drawn, as a machine does them and as a scenario says them. */
struct run {
    struct rv_machine machines[2];
    struct rv_machine *machine;
    FILE *scenario, *reads;
    unsigned steps, calls, feeds, saves;
    uint64_t drawn;
    uint32_t queue_end;
    bool is_up[4096 + ESPIS], is_private_up[VCPUS][32];
    uint32_t taken[VCPUS];
    unsigned takes;
};

static uint32_t draw(struct run *run, uint32_t below)
{
    run->drawn = run->drawn * 6364136223846793005u + 1442695040888963407u;
    return (uint32_t)(run->drawn >> 33) % below;
}

static void step(struct run *run)
{
    fputs(run->steps++ ? ",\n" : "\n", run->scenario);
}

static void answered(struct run *run, const int32_t *lines, int32_t status, const struct rv_done *done, bool is_read)
{
    uint32_t changed = 0;
    CHECK(status == 0);
    run->calls++;
    for (uint32_t vcpu = 0; vcpu < VCPUS; vcpu++)
        if (rv_lines(run->machine, vcpu) != lines[vcpu])
            changed |= 1u << vcpu;
    CHECK(done->changed == changed);
    if (is_read)
        fprintf(run->reads, "%u 0x%016" PRIx64 "\n", run->steps, done->value);
}

static void lines_now(struct run *run, int32_t *lines)
{
    for (uint32_t vcpu = 0; vcpu < VCPUS; vcpu++)
        lines[vcpu] = rv_lines(run->machine, vcpu);
}

static void access_frame(struct run *run, uint32_t vcpu, const char *frame, uint32_t of, uint32_t offset, uint32_t size, bool is_write, uint64_t value)
{
    static const uint64_t BASES[] = {DIST, REDIST, ITS};
    uint64_t base = BASES[frame[3] == 'd' ? 0 : frame[3] == 'r' ? 1 : 2];
    struct rv_done done;
    int32_t lines[VCPUS];
    if (size < 8)
        value &= (1ull << 8 * size) - 1;
    step(run);
    fprintf(run->scenario, "{\"vcpu\":[0,%u],\"%s\":%u,\"size\":%u", vcpu, frame, offset, size);
    if (frame[3] == 'r')
        fprintf(run->scenario, ",\"of\":%u", of);
    if (is_write)
        fprintf(run->scenario, ",\"write\":%" PRIu64, value);
    fputs("}", run->scenario);
    lines_now(run, lines);
    int32_t status;
    while ((status = rv_mmio(run->machine, vcpu, base + of * REDIST_BYTES + offset, size, is_write, value, &done)) == RV_FETCH) {
        CHECK(feed(run->machine, &done) == 0);
        run->feeds++;
    }
    answered(run, lines, status, &done, !is_write);
}

static void write_dist(struct run *run, uint32_t offset, uint32_t size, uint64_t value)
{
    access_frame(run, 0, "gicd", 0, offset, size, true, value);
}

static const struct {
    const char *name;
    uint32_t reg;
    bool is_read, is_written;
} REGISTERS[] = {
    {"IAR1", RV_SYSREG(3, 0, 12, 12, 0), true, false},   {"IAR0", RV_SYSREG(3, 0, 12, 8, 0), true, false},
    {"EOIR1", RV_SYSREG(3, 0, 12, 12, 1), false, true},  {"EOIR0", RV_SYSREG(3, 0, 12, 8, 1), false, true},
    {"HPPIR1", RV_SYSREG(3, 0, 12, 12, 2), true, false}, {"HPPIR0", RV_SYSREG(3, 0, 12, 8, 2), true, false},
    {"DIR", RV_SYSREG(3, 0, 12, 11, 1), false, true},    {"RPR", RV_SYSREG(3, 0, 12, 11, 3), true, false},
    {"PMR", RV_SYSREG(3, 0, 4, 6, 0), true, true},       {"BPR0", RV_SYSREG(3, 0, 12, 8, 3), true, true},
    {"BPR1", RV_SYSREG(3, 0, 12, 12, 3), true, true},    {"CTLR", RV_SYSREG(3, 0, 12, 12, 4), true, true},
    {"IGRPEN0", RV_SYSREG(3, 0, 12, 12, 6), true, true}, {"IGRPEN1", RV_SYSREG(3, 0, 12, 12, 7), true, true},
    {"AP0R0", RV_SYSREG(3, 0, 12, 8, 4), true, true},    {"AP1R0", RV_SYSREG(3, 0, 12, 9, 0), true, true},
    {"SRE", RV_SYSREG(3, 0, 12, 12, 5), true, true},     {"SGI1R", RV_SYSREG(3, 0, 12, 11, 5), false, true},
};
enum { IAR1, IAR0, EOIR1, EOIR0, DIR = 6, PMR = 8, CTLR = 11, IGRPEN0 = 12, IGRPEN1 = 13, SGI1R = 17, REGISTER_COUNT = 18 };

static void access_register(struct run *run, uint32_t vcpu, uint32_t at, bool is_write, uint64_t value)
{
    struct rv_done done;
    int32_t lines[VCPUS];
    step(run);
    fprintf(run->scenario, "{\"vcpu\":[0,%u],\"icc\":\"%s\"", vcpu, REGISTERS[at].name);
    if (is_write)
        fprintf(run->scenario, ",\"write\":%" PRIu64, value);
    fputs("}", run->scenario);
    lines_now(run, lines);
    int32_t status = rv_sysreg(run->machine, vcpu, REGISTERS[at].reg, is_write, value, &done);
    answered(run, lines, status, &done, !is_write);
    if (at == IAR1 || at == IAR0) {
        /* a line is asserted exactly where the read takes an interrupt */
        bool is_taken = done.value < 1020 || done.value > 1023;
        CHECK(is_taken == ((lines[vcpu] & (at == IAR1 ? RV_IRQ : RV_FIQ)) != 0));
        if (is_taken) {
            run->taken[vcpu] = (uint32_t)done.value;
            run->takes++;
        }
    }
}

static void move_wire(struct run *run, uint32_t intid, uint32_t vcpu)
{
    bool *is_up = intid < 32 ? &run->is_private_up[vcpu][intid] : &run->is_up[intid];
    struct rv_done done;
    int32_t lines[VCPUS];
    *is_up = !*is_up;
    step(run);
    fprintf(run->scenario, "{\"dev\":[0,0],\"wire\":%u,\"up\":%s", intid, *is_up ? "true" : "false");
    if (intid < 32)
        fprintf(run->scenario, ",\"vcpu\":%u", vcpu);
    fputs("}", run->scenario);
    lines_now(run, lines);
    int32_t status = rv_wire(run->machine, intid, vcpu, *is_up, &done);
    answered(run, lines, status, &done, false);
    /* the same again is nothing */
    CHECK(rv_wire(run->machine, intid, vcpu, *is_up, &done) == 0 && is_zero(&done));
}

static void send(struct run *run, bool is_msi, uint32_t first, uint32_t second)
{
    struct rv_done done;
    int32_t lines[VCPUS];
    step(run);
    if (is_msi)
        fprintf(run->scenario, "{\"dev\":[0,0],\"msi\":[%u,%u]}", first, second);
    else
        fprintf(run->scenario, "{\"dev\":[0,0],\"message\":%u}", first);
    lines_now(run, lines);
    int32_t status = is_msi ? rv_msi(run->machine, first, second, &done) : rv_message(run->machine, first, &done);
    answered(run, lines, status, &done, false);
}

/* A vCPU stores into its memory, of which the machine hears nothing. */
static void store(struct run *run, uint64_t address, uint64_t value)
{
    step(run);
    fprintf(run->scenario, "{\"vcpu\":[0,0],\"ram\":%" PRIu64 ",\"size\":8,\"write\":%" PRIu64 "}", address, value);
    put(address, value);
}

/* A command at the end of the queue, which the ITS is not told of. */
static void queue_command(struct run *run, uint64_t first, uint64_t second, uint64_t third)
{
    store(run, QUEUE + run->queue_end, first);
    store(run, QUEUE + run->queue_end + 8, second);
    store(run, QUEUE + run->queue_end + 16, third);
    run->queue_end = (run->queue_end + 32) % QUEUE_BYTES;
}

static void take_commands(struct run *run)
{
    access_frame(run, 0, "gits", 0, GITS_CWRITER, 8, true, run->queue_end);
    access_frame(run, 0, "gits", 0, GITS_CREADR, 8, false, 0);
}

#define DEVICE (8ull << 32)
enum { INT = 3, CLEAR = 4, MAPD = 8, MAPC = 9, MAPTI = 10, INV = 12, MOVI = 1 };

/* The ITS has device 8 with the events 0 to 3 for the LPIs 8192 to 8195, in one collection a vCPU. Some LPIs are pending at vCPU 0 before. */
static void start_its(struct run *run)
{
    store(run, CONFIGURATION, 0xA1A1A1A1A1A1A1A1);
    store(run, CONFIGURATION + 8, 0xA1A1A1A1A1A1A1A1);
    store(run, PENDING + PENDING_BITS, 0x0106);
    for (uint32_t vcpu = 0; vcpu < VCPUS; vcpu++) {
        access_frame(run, 0, "gicr", vcpu, GICR_PROPBASER, 8, true, CONFIGURATION | 0xD);
        access_frame(run, 0, "gicr", vcpu, GICR_PENDBASER, 8, true, (vcpu ? TABLE_OF_ZEROS : 0) | PENDING * (vcpu + 1));
        access_frame(run, 0, "gicr", vcpu, GICR_CTLR, 4, true, 1);
    }
    access_frame(run, 0, "gits", 0, GITS_CBASER, 8, true, VALID | QUEUE);
    access_frame(run, 0, "gits", 0, GITS_CTLR, 4, true, 1);
    queue_command(run, MAPD | DEVICE, 3, VALID | 0x2000);
    for (uint32_t vcpu = 0; vcpu < VCPUS; vcpu++)
        queue_command(run, MAPC, 0, VALID | vcpu << 16 | vcpu);
    for (uint32_t event = 0; event < 4; event++)
        queue_command(run, MAPTI | DEVICE, event | (8192ull + event) << 32, event % VCPUS);
    take_commands(run);
}

/* A new configuration of an LPI, with an INV that makes the GIC read it; or another command. */
static void drawn_commands(struct run *run)
{
    for (uint32_t count = 1 + draw(run, 3); count > 0; count--) {
        uint32_t event = draw(run, 4);
        switch (draw(run, 6)) {
        case 0: queue_command(run, INT | DEVICE, event, 0); break;
        case 1: queue_command(run, CLEAR | DEVICE, event, 0); break;
        case 2: queue_command(run, MOVI | DEVICE, event, draw(run, VCPUS)); break;
        default:
            store(run, CONFIGURATION, ((uint64_t)draw(run, 32) << 3 | (draw(run, 4) ? 1 : 0)) * 0x0101010101010101u);
            queue_command(run, INV | DEVICE, event, 0);
            break;
        }
    }
    take_commands(run);
}

static void start_guest(struct run *run)
{
    write_dist(run, 0, 4, 3);
    for (uint32_t word = 1; word <= SPIS / 32; word++) {
        write_dist(run, 0x80 + 4 * word, 4, 0xFFFFFF0F);
        write_dist(run, 0x100 + 4 * word, 4, 0xFFFFFFFF);
    }
    for (uint32_t intid = 32; intid < 32 + SPIS; intid++) {
        write_dist(run, 0x400 + intid, 1, draw(run, 32) * 8);
        write_dist(run, 0x6000 + 8 * intid, 8, draw(run, VCPUS));
    }
    for (uint32_t vcpu = 0; vcpu < VCPUS; vcpu++) {
        access_frame(run, vcpu, "gicr", vcpu, SGI_FRAME + 0x80, 4, true, 0xFFFF0FFF);
        access_frame(run, vcpu, "gicr", vcpu, SGI_FRAME + 0x100, 4, true, 0xFFFFFFFF);
        access_register(run, vcpu, PMR, true, 0xF0);
        access_register(run, vcpu, IGRPEN0, true, 1);
        access_register(run, vcpu, IGRPEN1, true, 1);
    }
}

/* A value that leaves most of what the vCPU is asked for possible. */
static uint64_t drawn_value(struct run *run, uint32_t vcpu, uint32_t at)
{
    switch (at) {
    case SGI1R: return (uint64_t)draw(run, 16) << 24 | draw(run, 8);
    case IGRPEN0: case IGRPEN1: return draw(run, 4) != 0;
    case PMR: return draw(run, 4) ? 0xF0 : draw(run, 32) * 8;
    case CTLR: return draw(run, 4) ? 0 : draw(run, 4);
    case DIR: case EOIR0: case EOIR1: return run->taken[vcpu];
    default: return draw(run, 256);
    }
}

static void drawn_call(struct run *run)
{
    /* IGROUPR, ISENABLER, ICENABLER, ISPENDR, ICPENDR, ISACTIVER, ICACTIVER, ICFGR */
    static const uint32_t PARTS[] = {0x80, 0x100, 0x180, 0x200, 0x280, 0x300, 0x380, 0xC00};
    uint32_t vcpu = draw(run, VCPUS), kind = draw(run, 16);
    uint32_t part = PARTS[draw(run, 8)], at = draw(run, REGISTER_COUNT);
    uint64_t bits = draw(run, 4) ? 1ull << draw(run, 32) : (uint64_t)draw(run, 0x7FFFFFFF) << 1;
    bool is_write = draw(run, 2);
    switch (kind) {
    case 0: case 1: case 2: access_register(run, vcpu, draw(run, 4) ? IAR1 : IAR0, false, 0); break;
    case 3: case 4: access_register(run, vcpu, draw(run, 4) ? EOIR1 : EOIR0, true, draw(run, 8) ? run->taken[vcpu] : draw(run, 100)); break;
    case 5:
        is_write = REGISTERS[at].is_written && (!REGISTERS[at].is_read || is_write);
        access_register(run, vcpu, at, is_write, drawn_value(run, vcpu, at));
        break;
    case 6: access_register(run, vcpu, PMR, true, drawn_value(run, vcpu, PMR)); break;
    case 7: access_register(run, vcpu, SGI1R, true, (uint64_t)draw(run, 16) << 24 | (draw(run, 4) ? draw(run, 8) : 1ull << 40)); break;
    case 8: case 9: move_wire(run, draw(run, 4) ? 32 + draw(run, SPIS) : 16 + draw(run, 16), vcpu); break;
    case 10: send(run, false, draw(run, 8) ? 32 + draw(run, SPIS) : 4096 + draw(run, ESPIS), 0); break;
    case 11: send(run, true, 8, draw(run, 6)); break;
    case 12: access_frame(run, vcpu, "gicd", 0, part + 4 * draw(run, 4), 4, is_write, bits); break;
    case 13: access_frame(run, vcpu, "gicr", draw(run, VCPUS), SGI_FRAME + part, 4, is_write, bits); break;
    /* any but GICD_TYPER, of which a machine tells more */
    case 14: access_frame(run, vcpu, "gicd", 0, 8 + draw(run, 0xFFF8), 1u << draw(run, 4), false, 0); break;
    default: drawn_commands(run); break;
    }
}

/* The machine is saved, and goes on as another one, which tells that it is the same. */
static void go_on_elsewhere(struct run *run)
{
    struct rv_machine *other = &run->machines[run->machine == run->machines];
    struct rv_done done;
    uint32_t asserted = 0;
    uint64_t bytes = save(run->machine, image);
    CHECK(rv_create(&SPEC, other) == 0);
    CHECK(rv_restore(other, image, bytes, &done) == 0);
    for (uint32_t vcpu = 0; vcpu < VCPUS; vcpu++) {
        int32_t lines = rv_lines(run->machine, vcpu);
        CHECK(rv_lines(other, vcpu) == lines);
        asserted |= lines ? 1u << vcpu : 0;
    }
    CHECK(done.changed == asserted && done.value == 0);
    CHECK(save(other, again) == bytes && memcmp(image, again, bytes) == 0);
    CHECK(rv_destroy(run->machine) == 0);
    run->machine = other;
    run->saves++;
}

static void drawn_calls(const char *scenario, const char *reads)
{
    static struct run run = {.drawn = 51};
    run.machine = run.machines;
    run.scenario = fopen(scenario, "w");
    run.reads = fopen(reads, "w");
    if (!run.scenario || !run.reads) {
        perror("test");
        exit(2);
    }
    fprintf(run.scenario, "{\"pes\":%u,\"lrs\":16,\"guests\":[{\"vcpus\":%u,\"spis\":%u,\"espis\":%u,\"lpis\":%u,\"ram\":%u}],\"steps\":[", VCPUS, VCPUS, SPIS, ESPIS,
            LPIS, RAM);
    CHECK(rv_create(&SPEC, run.machine) == 0);
    start_its(&run);
    start_guest(&run);
    while (run.calls < CALLS) {
        drawn_call(&run);
        if (run.calls > CALLS - SAVED_CALLS)
            go_on_elsewhere(&run);
    }
    CHECK(rv_destroy(run.machine) == 0);
    fputs("\n]}\n", run.scenario);
    fclose(run.scenario);
    fclose(run.reads);
    printf("%u calls drawn, in which %u interrupts were taken, and memory was asked for %u times; the machine went on elsewhere %u times\n", run.calls, run.takes, run.feeds,
           run.saves);
    CHECK(run.takes > CALLS / 50);
    CHECK(run.feeds > CALLS / 50);
}

int main(int count, char **words)
{
    openings();
    refused_memory();
    arguments();
    memory();
    most_memory();
    images();
    if (count == 3)
        drawn_calls(words[1], words[2]);
    printf(failures ? "%d failures\n" : "all as it should be\n", failures);
    return failures != 0;
}
