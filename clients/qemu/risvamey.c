/* A GICv3 with its ITS for QEMU's virt machine, by librisvamey (risvamey.h).
 *
 * QEMU's big lock is the one lock that the machine asks for: MMIO holds it, and so does each register below, by ARM_CP_IO. What the guest accesses goes to
 * rv_mmio or rv_sysreg, what devices raise to rv_wire or rv_msi, and which vCPUs' lines a call changed is looked up by rv_lines.
 *
 * Not here: migration, KVM, EL2 and EL3, 32-bit guests, more than 16 CPUs (from there on the board counts in Aff1). */
#include "qemu/osdep.h"
#include "qapi/error.h"
#include "qemu/module.h"
#include "exec/address-spaces.h"
#include "hw/irq.h"
#include "hw/pci/msi.h"
#include "hw/qdev-properties.h"
#include "hw/sysbus.h"
#include "migration/blocker.h"
#include "cpu.h"
#include "target/arm/cpregs.h"
#include "risvamey.h"

#define TYPE_RISVAMEY "risvamey"
OBJECT_DECLARE_SIMPLE_TYPE(Risvamey, RISVAMEY)

enum {
    MAX_CPUS = 16,
    PRIVATE_COUNT = 32,         /* SGIs and PPIs of a CPU               */
    FIRST_SPI = 32,
    LPIS = 4096,                /* LPIs, 8192 to 12287                  */
};

/* Where the machine has its frames: it decodes addresses itself, and the board maps each region where it likes. */
#define DIST_BASE 0x0000000u
#define DIST_BYTES 0x10000u
#define ITS_BASE 0x0020000u
#define ITS_BYTES 0x20000u
#define REDIST_BASE 0x1000000u
#define REDIST_BYTES 0x20000u
#define TRANSLATER 0x10040u     /* GITS_TRANSLATER, in the frames of the ITS */

/* Frames of the machine as QEMU maps them. */
typedef struct Frames {
    MemoryRegion region;
    Risvamey *gic;
    uint64_t base;
} Frames;

struct Risvamey {
    SysBusDevice parent_obj;

    struct rv_machine machine;
    Frames dist, redist, its;
    AddressSpace memory;        /* what the GIC reads of the guest's memory */
    MemoryRegion *sysmem;
    bool is_fetching;
    bool *is_up;                /* the level of each input, to give it again after a reset */
    Error *blocker;

    qemu_irq irq[MAX_CPUS], fiq[MAX_CPUS], virq[MAX_CPUS], vfiq[MAX_CPUS];

    uint32_t num_cpu, num_irq, revision;
    bool has_lpi, has_el3;
    uint32_t region_count, *regions;
};

static uint32_t input_count(Risvamey *s)
{
    return s->num_irq - FIRST_SPI + PRIVATE_COUNT * s->num_cpu;
}

/* Tells the CPUs of this set their lines. */
static void tell(Risvamey *s, uint32_t changed)
{
    for (uint32_t cpu = 0; cpu < s->num_cpu; cpu++) {
        if (changed >> cpu & 1) {
            int32_t lines = rv_lines(&s->machine, cpu);

            qemu_set_irq(s->irq[cpu], !!(lines & RV_IRQ));
            qemu_set_irq(s->fiq[cpu], !!(lines & RV_FIQ));
        }
    }
}

/* Devices. */

static void give_level(Risvamey *s, int input)
{
    int spis = s->num_irq - FIRST_SPI;
    struct rv_done done;
    uint32_t cpu = 0, intid = FIRST_SPI + input;

    if (input >= spis) {
        cpu = (input - spis) / PRIVATE_COUNT;
        intid = (input - spis) % PRIVATE_COUNT;
    }
    if (!rv_wire(&s->machine, intid, cpu, s->is_up[input], &done)) {
        tell(s, done.changed);
    }
}

static void set_level(void *opaque, int input, int level)
{
    Risvamey *s = opaque;

    s->is_up[input] = level;
    give_level(s, input);
}

/* Guest code's accesses of frames. */

/* Hands in what the machine wants of the guest's memory. A range that leads back into the frames reads as 0: is_fetching says so to our own accesses. */
static void fetch(Risvamey *s, uint64_t address, uint64_t length)
{
    g_autofree uint8_t *bytes = g_malloc0(length);

    s->is_fetching = true;
    if (address_space_read(&s->memory, address, MEMTXATTRS_UNSPECIFIED, bytes, length) != MEMTX_OK) {
        memset(bytes, 0, length);
    }
    s->is_fetching = false;
    rv_feed(&s->machine, bytes, length);
}

static uint64_t access_frames(Frames *frames, hwaddr offset, unsigned size, bool is_write, uint64_t value)
{
    Risvamey *s = frames->gic;
    uint32_t cpu = current_cpu ? current_cpu->cpu_index : 0;
    struct rv_done done;

    if (s->is_fetching) {
        return 0;
    }
    while (rv_mmio(&s->machine, cpu, frames->base + offset, size, is_write, value, &done) == RV_FETCH) {
        fetch(s, done.address, done.length);
    }
    tell(s, done.changed);
    return done.value;
}

static MemTxResult frames_read(void *opaque, hwaddr offset, uint64_t *value, unsigned size, MemTxAttrs attrs)
{
    *value = access_frames(opaque, offset, size, false, 0);
    return MEMTX_OK;
}

static MemTxResult frames_write(void *opaque, hwaddr offset, uint64_t value, unsigned size, MemTxAttrs attrs)
{
    Frames *frames = opaque;
    Risvamey *s = frames->gic;
    struct rv_done done;

    /* A device writes an EventID, under the DeviceID that its bus gives it. */
    if (frames == &s->its && offset == TRANSLATER) {
        if (!s->is_fetching && !rv_msi(&s->machine, attrs.requester_id, value, &done)) {
            tell(s, done.changed);
        }
        return MEMTX_OK;
    }
    access_frames(frames, offset, size, true, value);
    return MEMTX_OK;
}

static const MemoryRegionOps frames_ops = {
    .read_with_attrs = frames_read,
    .write_with_attrs = frames_write,
    .endianness = DEVICE_LITTLE_ENDIAN,
    .valid = { .min_access_size = 1, .max_access_size = 8 },
    .impl = { .min_access_size = 1, .max_access_size = 8 },
};

/* The registers of the CPU interface. */

static uint32_t number_of(const ARMCPRegInfo *reg)
{
    return RV_SYSREG(3, reg->opc1, reg->crn, reg->crm, reg->opc2);
}

static uint64_t interface_access(CPUARMState *env, const ARMCPRegInfo *reg, bool is_write, uint64_t value)
{
    Risvamey *s = env->gicv3state;
    struct rv_done done;

    rv_sysreg(&s->machine, env_cpu(env)->cpu_index, number_of(reg), is_write, value, &done);
    tell(s, done.changed);
    return done.value;
}

static uint64_t interface_read(CPUARMState *env, const ARMCPRegInfo *reg)
{
    return interface_access(env, reg, false, 0);
}

static void interface_write(CPUARMState *env, const ARMCPRegInfo *reg, uint64_t value)
{
    interface_access(env, reg, true, value);
}

/* QEMU runs this where a CPU is reset, also as PSCI turns it on. */
static void interface_reset(CPUARMState *env, const ARMCPRegInfo *reg)
{
    Risvamey *s = env->gicv3state;
    struct rv_done done;

    if (!rv_reset_vcpu(&s->machine, env_cpu(env)->cpu_index, &done)) {
        tell(s, done.changed);
    }
}

#define REGISTER(n, rn, rm, o2, rights) \
    { .name = n, .state = ARM_CP_STATE_AA64, .opc0 = 3, .opc1 = 0, .crn = rn, .crm = rm, .opc2 = o2, \
      .type = ARM_CP_IO | ARM_CP_NO_RAW, .access = rights, .readfn = interface_read, .writefn = interface_write }

static const ARMCPRegInfo registers[] = {
    REGISTER("ICC_PMR_EL1", 4, 6, 0, PL1_RW),
    REGISTER("ICC_IAR0_EL1", 12, 8, 0, PL1_R),
    REGISTER("ICC_EOIR0_EL1", 12, 8, 1, PL1_W),
    REGISTER("ICC_HPPIR0_EL1", 12, 8, 2, PL1_R),
    REGISTER("ICC_BPR0_EL1", 12, 8, 3, PL1_RW),
    REGISTER("ICC_AP0R0_EL1", 12, 8, 4, PL1_RW),
    REGISTER("ICC_AP1R0_EL1", 12, 9, 0, PL1_RW),
    REGISTER("ICC_DIR_EL1", 12, 11, 1, PL1_W),
    REGISTER("ICC_RPR_EL1", 12, 11, 3, PL1_R),
    REGISTER("ICC_SGI1R_EL1", 12, 11, 5, PL1_W),
    REGISTER("ICC_ASGI1R_EL1", 12, 11, 6, PL1_W),
    REGISTER("ICC_SGI0R_EL1", 12, 11, 7, PL1_W),
    REGISTER("ICC_IAR1_EL1", 12, 12, 0, PL1_R),
    REGISTER("ICC_EOIR1_EL1", 12, 12, 1, PL1_W),
    REGISTER("ICC_HPPIR1_EL1", 12, 12, 2, PL1_R),
    REGISTER("ICC_BPR1_EL1", 12, 12, 3, PL1_RW),
    REGISTER("ICC_SRE_EL1", 12, 12, 5, PL1_RW),
    REGISTER("ICC_IGRPEN0_EL1", 12, 12, 6, PL1_RW),
    REGISTER("ICC_IGRPEN1_EL1", 12, 12, 7, PL1_RW),
    { .name = "ICC_CTLR_EL1", .state = ARM_CP_STATE_AA64, .opc0 = 3, .opc1 = 0, .crn = 12, .crm = 12, .opc2 = 4,
      .type = ARM_CP_IO | ARM_CP_NO_RAW, .access = PL1_RW, .readfn = interface_read, .writefn = interface_write, .resetfn = interface_reset },
};

/* The device. */

static void gic_reset(DeviceState *dev)
{
    Risvamey *s = RISVAMEY(dev);
    struct rv_done done;

    rv_reset(&s->machine, &done);
    tell(s, done.changed);
    for (uint32_t input = 0; input < input_count(s); input++) {
        if (s->is_up[input]) {
            give_level(s, input);
        }
    }
}

static bool is_possible(Risvamey *s, Error **errp)
{
    if (s->revision != 3) {
        error_setg(errp, "risvamey: it is a GICv3, so it needs gic-version=3");
        return false;
    }
    if (s->num_cpu > MAX_CPUS) {
        error_setg(errp, "risvamey: at most %d CPUs", MAX_CPUS);
        return false;
    }
    for (uint32_t cpu = 0; cpu < s->num_cpu; cpu++) {
        CPUARMState *env = &ARM_CPU(qemu_get_cpu(cpu))->env;

        if (s->has_el3 || arm_feature(env, ARM_FEATURE_EL3) || arm_feature(env, ARM_FEATURE_EL2)) {
            error_setg(errp, "risvamey: neither secure=on nor virtualization=on");
            return false;
        }
    }
    return true;
}

static void map_frames(Risvamey *s, Frames *frames, const char *name, uint64_t base, uint64_t bytes)
{
    frames->gic = s;
    frames->base = base;
    memory_region_init_io(&frames->region, OBJECT(s), &frames_ops, frames, name, bytes);
    sysbus_init_mmio(SYS_BUS_DEVICE(s), &frames->region);
}

static void init_outputs(Risvamey *s, qemu_irq *lines)
{
    for (uint32_t cpu = 0; cpu < s->num_cpu; cpu++) {
        sysbus_init_irq(SYS_BUS_DEVICE(s), &lines[cpu]);
    }
}

static void gic_realize(DeviceState *dev, Error **errp)
{
    Risvamey *s = RISVAMEY(dev);
    struct rv_spec spec = {
        .size = sizeof spec,
        .vcpus = s->num_cpu,
        .spis = s->num_irq - FIRST_SPI,
        .lpis = LPIS,
        .dist = DIST_BASE,
        .redist = REDIST_BASE,
        .its = ITS_BASE,
    };

    if (!is_possible(s, errp)) {
        return;
    }
    if (rv_abi() != RV_ABI || rv_create(&spec, &s->machine)) {
        error_setg(errp, "risvamey: the machine does not open");
        return;
    }
    error_setg(&s->blocker, "risvamey has no migration");
    if (migrate_add_blocker(s->blocker, errp) < 0) {
        rv_destroy(&s->machine);
        return;
    }
    address_space_init(&s->memory, s->sysmem ?: get_system_memory(), "risvamey");
    s->is_up = g_new0(bool, input_count(s));
    map_frames(s, &s->dist, "risvamey-dist", DIST_BASE, DIST_BYTES);
    map_frames(s, &s->redist, "risvamey-redist", REDIST_BASE, (uint64_t)REDIST_BYTES * s->num_cpu);
    map_frames(s, &s->its, "risvamey-its", ITS_BASE, ITS_BYTES);
    qdev_init_gpio_in(dev, set_level, input_count(s));
    init_outputs(s, s->irq);
    init_outputs(s, s->fiq);
    init_outputs(s, s->virq);
    init_outputs(s, s->vfiq);
    for (uint32_t cpu = 0; cpu < s->num_cpu; cpu++) {
        ARMCPU *arm = ARM_CPU(qemu_get_cpu(cpu));

        /* ID_AA64PFR0.GIC tells the registers by this. */
        arm->env.gicv3state = s;
        define_arm_cp_regs(arm, registers);
    }
    msi_nonbroken = true;
}

/* Those of arm-gicv3 that the board sets. */
static Property gic_properties[] = {
    DEFINE_PROP_UINT32("num-cpu", Risvamey, num_cpu, 1),
    DEFINE_PROP_UINT32("num-irq", Risvamey, num_irq, 64),
    DEFINE_PROP_UINT32("revision", Risvamey, revision, 3),
    DEFINE_PROP_BOOL("has-lpi", Risvamey, has_lpi, true),
    DEFINE_PROP_BOOL("has-security-extensions", Risvamey, has_el3, false),
    DEFINE_PROP_ARRAY("redist-region-count", Risvamey, region_count, regions, qdev_prop_uint32, uint32_t),
    DEFINE_PROP_LINK("sysmem", Risvamey, sysmem, TYPE_MEMORY_REGION, MemoryRegion *),
    DEFINE_PROP_END_OF_LIST(),
};

static void gic_class_init(ObjectClass *class, void *data)
{
    DeviceClass *device = DEVICE_CLASS(class);

    device->realize = gic_realize;
    device->reset = gic_reset;
    device->user_creatable = false;
    device_class_set_props(device, gic_properties);
}

static const TypeInfo gic_type = {
    .name = TYPE_RISVAMEY,
    .parent = TYPE_SYS_BUS_DEVICE,
    .instance_size = sizeof(Risvamey),
    .class_init = gic_class_init,
};

static void register_types(void)
{
    type_register_static(&gic_type);
}

type_init(register_types)
