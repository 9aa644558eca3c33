/* A small VMM: AArch64 guest code on Unicorn, with the machine of risvamey.h as its interrupt controller.
 *
 *   vmm GUEST VCPUS [INPUT]
 *   vmm GUEST VCPUS INPUT save FILE TURN
 *   vmm GUEST VCPUS INPUT resume FILE
 *
 * loads the file GUEST at address 0, lets its vCPUs run in turn, and prints what they write to the UART; INPUT is what the UART receives. Its status is what the guest ends with.
 * With save it stops before the turn of that number, counted from 0, and writes all that the guest needs to go on into FILE, if the guest has not ended before; with resume it goes on from there.
 *
 * Unicorn tells of an MRS or MSR, and of an access that is not mapped, by hooks; a stop that is asked for in a hook of an instruction alone comes late, so each instruction is
 * looked at before it is done. It takes no interrupt by itself: the VMM sets ELR_EL1, SPSR_EL1, PSTATE and PC, as the architecture has it, and ERET returns. */
#include "risvamey.h"
#include <errno.h>
#include <stdbool.h>
#include <stdio.h>
#include <stdlib.h>
#include <string.h>
#include <unicorn/unicorn.h>

enum { RAM = 0x40000, VCPUS = 4, DIST = 0x08000000, ITS = 0x08080000, REDIST = 0x080A0000 };
enum { PAGE = 0x10000, UART = 0x09000000, TIMER = UART + PAGE, DOORBELL = TIMER + PAGE, END = DOORBELL + PAGE };
enum { UART_SPI = 33, TIMER_PPI = 27, MSI_DEVICE = 8, TURN = 200, TURNS = 10000 };
enum { MASK_I = 0x80, MASKS = 0x3C0, EL1H = 5, IRQ_VECTOR = 0x280 };

/* Why a vCPU stopped. */
enum exit_kind { TURN_OVER, SYSREG, MEMORY, FAULT };

struct vcpu {
    uc_engine *uc;
    uint32_t number;
    enum exit_kind exit;
    uint64_t pc;            /* of the instruction at which it stopped  */
    uint32_t instruction;
    uint64_t address;
    uint32_t size;
    unsigned timer;         /* turns until the wire rises; 0: none     */
};

static struct rv_machine gic;
static uint8_t ram[RAM] __attribute__((aligned(4096)));
static struct vcpu vcpus[VCPUS];
static const char *input = "";
static bool uart_interrupts;
static int ended = -1;

static void fail(const char *what)
{
    fprintf(stderr, "vmm: %s\n", what);
    exit(2);
}

static uint64_t get(struct vcpu *vcpu, int reg)
{
    uint64_t value = 0;
    uc_reg_read(vcpu->uc, reg, &value);
    return value;
}

static void set(struct vcpu *vcpu, int reg, uint64_t value)
{
    uc_reg_write(vcpu->uc, reg, &value);
}

static uint64_t get_system(struct vcpu *vcpu, uint32_t crn, uint32_t crm, uint32_t op2)
{
    uc_arm64_cp_reg reg = {.op0 = 3, .op1 = 0, .crn = crn, .crm = crm, .op2 = op2};
    uc_reg_read(vcpu->uc, UC_ARM64_REG_CP_REG, &reg);
    return reg.val;
}

static void set_system(struct vcpu *vcpu, uint32_t crn, uint32_t crm, uint32_t op2, uint64_t value)
{
    uc_arm64_cp_reg reg = {.op0 = 3, .op1 = 0, .crn = crn, .crm = crm, .op2 = op2, .val = value};
    uc_reg_write(vcpu->uc, UC_ARM64_REG_CP_REG, &reg);
}

/* Xn; register 31 is the zero register. */
static int general(uint32_t number)
{
    return number < 29 ? UC_ARM64_REG_X0 + (int)number : number == 29 ? UC_ARM64_REG_X29 : UC_ARM64_REG_X30;
}

static uint64_t value_of(struct vcpu *vcpu, uint32_t number)
{
    return number == 31 ? 0 : get(vcpu, general(number));
}

/* The register of an MRS or MSR, as RV_SYSREG has it. */
static uint32_t register_of(uint32_t instruction)
{
    return (instruction >> 5 & 0x7FFF) | 0x8000;
}

static bool is_icc(uint32_t instruction)
{
    uint32_t reg = register_of(instruction), crn = reg >> 7 & 15, crm = reg >> 3 & 15;
    if ((instruction & 0xFFD00000) != 0xD5100000)
        return false;
    return (crn == 12 && crm >= 8 && crm <= 12) || (crn == 4 && crm == 6);
}

static void before_instruction(uc_engine *uc, uint64_t address, uint32_t size, void *data)
{
    struct vcpu *vcpu = data;
    (void)size;
    vcpu->pc = address;
    uc_mem_read(uc, address, &vcpu->instruction, sizeof vcpu->instruction);
    if (is_icc(vcpu->instruction)) {
        vcpu->exit = SYSREG;
        uc_emu_stop(uc);
    }
}

static bool unmapped(uc_engine *uc, uc_mem_type type, uint64_t address, int size, int64_t value, void *data)
{
    struct vcpu *vcpu = data;
    (void)uc, (void)type, (void)value;
    /* a load or store of a general register, with an unsigned offset */
    vcpu->exit = (vcpu->instruction & 0x3F000000) == 0x39000000 ? MEMORY : FAULT;
    vcpu->address = address;
    vcpu->size = (uint32_t)size;
    return false;
}

/* Hands in what the machine asks for of the guest's memory: zeros for what is none. */
static void feed(uint64_t address, uint64_t length)
{
    static uint8_t bytes[1 << 20];
    memset(bytes, 0, sizeof bytes);
    if (address < RAM)
        memcpy(bytes, ram + address, length < RAM - address ? length : RAM - address);
    if (rv_feed(&gic, bytes, length) != 0)
        fail("rv_feed");
}

static int32_t access_gic(struct vcpu *vcpu, bool is_write, uint64_t value, struct rv_done *done)
{
    int32_t status;
    while ((status = rv_mmio(&gic, vcpu->number, vcpu->address, vcpu->size, is_write, value, done)) == RV_FETCH)
        feed(done->address, done->length);
    return status;
}

static void wire(uint32_t intid, uint32_t vcpu, bool up)
{
    struct rv_done done;
    if (rv_wire(&gic, intid, vcpu, up, &done) != 0)
        fail("rv_wire");
}

/* A device's register is read or written; false where there is none. */
static bool access_device(struct vcpu *vcpu, uint64_t address, bool is_write, uint64_t *value)
{
    struct rv_done done;
    switch (address) {
    case UART:
        if (is_write)
            putchar((int)*value);
        else
            *value = *input ? (uint8_t)*input++ : 0;
        break;
    case UART + 8: uart_interrupts = *value != 0; break;
    case TIMER:
        vcpu->timer = (unsigned)*value;
        wire(TIMER_PPI, vcpu->number, false);
        break;
    case DOORBELL:
        if (rv_msi(&gic, MSI_DEVICE, (uint32_t)*value, &done) != 0)
            fail("rv_msi");
        break;
    case END: ended = (int)*value; break;
    default: return false;
    }
    wire(UART_SPI, 0, uart_interrupts && *input);
    return true;
}

static void serve_memory(struct vcpu *vcpu)
{
    struct rv_done done;
    uint32_t target = vcpu->instruction & 31;
    bool is_write = (vcpu->instruction >> 22 & 3) == 0;
    uint64_t value = is_write ? value_of(vcpu, target) : 0;
    int32_t status = access_gic(vcpu, is_write, value, &done);
    if (status == 0)
        value = done.value;
    else if (status != -ENOENT || !access_device(vcpu, vcpu->address, is_write, &value))
        fail("an access of nothing");
    if (!is_write && target != 31)
        set(vcpu, general(target), value);
}

static void serve_register(struct vcpu *vcpu)
{
    struct rv_done done;
    uint32_t target = vcpu->instruction & 31;
    bool is_read = vcpu->instruction >> 21 & 1;
    if (rv_sysreg(&gic, vcpu->number, register_of(vcpu->instruction), !is_read, is_read ? 0 : value_of(vcpu, target), &done) != 0)
        fail("a system register that is undefined");
    if (is_read && target != 31)
        set(vcpu, general(target), done.value);
}

static void take_interrupt(struct vcpu *vcpu)
{
    uint64_t state = get(vcpu, UC_ARM64_REG_PSTATE);
    if (!(rv_lines(&gic, vcpu->number) & RV_IRQ) || (state & MASK_I))
        return;
    set_system(vcpu, 4, 0, 1, get(vcpu, UC_ARM64_REG_PC));      /* ELR_EL1  */
    set_system(vcpu, 4, 0, 0, state);                           /* SPSR_EL1 */
    set(vcpu, UC_ARM64_REG_PC, get_system(vcpu, 12, 0, 0) + IRQ_VECTOR);
    set(vcpu, UC_ARM64_REG_PSTATE, (state & ~0xFull) | MASKS | EL1H);
}

static void run(struct vcpu *vcpu)
{
    take_interrupt(vcpu);
    vcpu->exit = TURN_OVER;
    uc_err error = uc_emu_start(vcpu->uc, get(vcpu, UC_ARM64_REG_PC), UINT64_MAX, 0, TURN);
    if (vcpu->exit == FAULT || (error != UC_ERR_OK && vcpu->exit != MEMORY))
        fail(uc_strerror(error));
    if (vcpu->exit == TURN_OVER) {
        if (vcpu->timer > 0 && --vcpu->timer == 0)
            wire(TIMER_PPI, vcpu->number, true);
        return;
    }
    if (vcpu->exit == MEMORY)
        serve_memory(vcpu);
    else
        serve_register(vcpu);
    set(vcpu, UC_ARM64_REG_PC, vcpu->pc + 4);
}

static void start(struct vcpu *vcpu, uint32_t number)
{
    uc_hook hook;
    vcpu->number = number;
    if (uc_open(UC_ARCH_ARM64, UC_MODE_ARM, &vcpu->uc) != UC_ERR_OK || uc_mem_map_ptr(vcpu->uc, 0, RAM, UC_PROT_ALL, ram) != UC_ERR_OK)
        fail("no Unicorn");
    uc_hook_add(vcpu->uc, &hook, UC_HOOK_CODE, before_instruction, vcpu, 1, 0);
    uc_hook_add(vcpu->uc, &hook, UC_HOOK_MEM_UNMAPPED, unmapped, vcpu, 1, 0);
    set(vcpu, UC_ARM64_REG_PC, 0);
    set(vcpu, UC_ARM64_REG_X0, number);
}

/* ---- a guest in the middle ---- */

enum { IMAGE = 1 << 20, GENERAL = 31 };

/* the registers of a vCPU that the guests use: X0 to X30, then these, and system registers by CRn, CRm and op2: ELR_EL1, SPSR_EL1, VBAR_EL1 */
static const int PLAIN[] = {UC_ARM64_REG_PSTATE, UC_ARM64_REG_SP, UC_ARM64_REG_PC};
static const uint32_t SYSTEM[][3] = {{4, 0, 1}, {4, 0, 0}, {12, 0, 0}};
enum { PLAINS = sizeof PLAIN / sizeof *PLAIN, SYSTEMS = sizeof SYSTEM / sizeof *SYSTEM };

/* All but the memory and the image of the machine, which follow it in the file. */
struct middle {
    uint64_t turn, used, image_bytes;
    uint32_t uart_interrupts;
    struct {
        uint64_t timer, general[GENERAL], plain[PLAINS], system[SYSTEMS];
    } vcpus[VCPUS];
};

static void save(const char *name, const char *all_input, unsigned turn, uint32_t running)
{
    static uint8_t image[IMAGE];
    struct middle middle = {.turn = turn, .used = (uint64_t)(input - all_input), .uart_interrupts = uart_interrupts};
    if (rv_save(&gic, image, sizeof image, &middle.image_bytes) != 0)
        fail("rv_save");
    for (uint32_t number = 0; number < running; number++) {
        struct vcpu *vcpu = &vcpus[number];
        middle.vcpus[number].timer = vcpu->timer;
        for (uint32_t at = 0; at < GENERAL; at++)
            middle.vcpus[number].general[at] = value_of(vcpu, at);
        for (unsigned at = 0; at < PLAINS; at++)
            middle.vcpus[number].plain[at] = get(vcpu, PLAIN[at]);
        for (unsigned at = 0; at < SYSTEMS; at++)
            middle.vcpus[number].system[at] = get_system(vcpu, SYSTEM[at][0], SYSTEM[at][1], SYSTEM[at][2]);
    }
    FILE *file = fopen(name, "wb");
    if (!file || fwrite(&middle, sizeof middle, 1, file) != 1 || fwrite(ram, RAM, 1, file) != 1 || fwrite(image, middle.image_bytes, 1, file) != 1 || fclose(file) != 0)
        fail("the file of what is saved");
}

static unsigned resume(const char *name, const char *all_input, uint32_t running)
{
    static uint8_t image[IMAGE];
    struct middle middle;
    struct rv_done done;
    FILE *file = fopen(name, "rb");
    if (!file || fread(&middle, sizeof middle, 1, file) != 1 || fread(ram, RAM, 1, file) != 1 || middle.image_bytes > IMAGE || fread(image, middle.image_bytes, 1, file) != 1)
        fail("the file of what was saved");
    fclose(file);
    if (rv_restore(&gic, image, middle.image_bytes, &done) != 0)
        fail("rv_restore");
    if (middle.used > strlen(all_input))
        fail("the input is another one");
    input = all_input + middle.used;
    uart_interrupts = middle.uart_interrupts != 0;
    for (uint32_t number = 0; number < running; number++) {
        struct vcpu *vcpu = &vcpus[number];
        vcpu->timer = (unsigned)middle.vcpus[number].timer;
        for (uint32_t at = 0; at < GENERAL; at++)
            set(vcpu, general(at), middle.vcpus[number].general[at]);
        for (unsigned at = 0; at < PLAINS; at++)
            set(vcpu, PLAIN[at], middle.vcpus[number].plain[at]);
        for (unsigned at = 0; at < SYSTEMS; at++)
            set_system(vcpu, SYSTEM[at][0], SYSTEM[at][1], SYSTEM[at][2], middle.vcpus[number].system[at]);
    }
    return (unsigned)middle.turn;
}

int main(int count, char **words)
{
    FILE *file = count > 2 ? fopen(words[1], "rb") : NULL;
    uint32_t running = count > 2 ? (uint32_t)atoi(words[2]) : 0;
    if (!file || running < 1 || running > VCPUS || fread(ram, 1, RAM, file) == 0)
        fail("usage: vmm GUEST VCPUS [INPUT [save FILE TURN | resume FILE]]");
    fclose(file);
    if (count > 3)
        input = words[3];
    bool saves = count == 7 && strcmp(words[4], "save") == 0, resumes = count == 6 && strcmp(words[4], "resume") == 0;
    unsigned last = saves ? (unsigned)atoi(words[6]) : TURNS;
    struct rv_spec spec = {.size = sizeof spec, .vcpus = running, .spis = 32, .lpis = 16, .dist = DIST, .redist = REDIST, .its = ITS};
    if (rv_abi() != RV_ABI || rv_create(&spec, &gic) != 0)
        fail("rv_create");
    for (uint32_t number = 0; number < running; number++)
        start(&vcpus[number], number);
    for (unsigned turn = resumes ? resume(words[5], words[3], running) : 0; turn < last && ended < 0; turn++)
        for (uint32_t number = 0; number < running && ended < 0; number++)
            run(&vcpus[number]);
    if (saves && ended < 0) {
        save(words[5], words[3], last, running);
        ended = 0;
    }
    for (uint32_t number = 0; number < running; number++)
        uc_close(vcpus[number].uc);
    if (rv_destroy(&gic) != 0)
        fail("rv_destroy");
    if (ended < 0)
        fail("the guest does not end");
    return ended;
}
