/* risvamey.h: a GICv3 with its ITS for one virtual machine. ABI 1. docs/C.md says more.
 *
 * A machine answers what a vCPU reads and writes, takes what devices raise, and says which interrupt lines of which vCPUs are asserted. What its functions do is
 * proved; what is trusted is this:
 *   - a struct rv_machine is zeros before its rv_create, and nobody but these functions reads, copies or changes it from then on;
 *   - each pointer is to room of its type, and is not NULL, and no two of a call overlap; that of rv_feed is to length bytes, which nobody changes meanwhile, and so
 *     are those of rv_save and rv_restore;
 *   - a machine has one call at a time: from several threads, behind one lock of yours. Two machines share nothing.
 *
 * Each function tests all other arguments, and changes nothing where it refuses. None aborts, prints, waits, or calls back. Only rv_create, rv_save and rv_restore
 * ask for memory.
 *
 * A function returns 0, RV_FETCH (rv_mmio alone, see there), or a negative error number:
 *   -EINVAL  an argument is none: there is no such vCPU or size, a flag is neither 0 nor 1, the machine is not open (of rv_create: is open)
 *   -ENOENT  what is named is not the GIC's: an address outside of its frames, another system register, an interrupt without a wire
 *   -EACCES  the access of a system register takes an exception (UNDEFINED)
 *   -ENOMEM  rv_create, rv_save and rv_restore alone: there is no memory
 *   -ERANGE  rv_save alone: the image has more bytes than there is room
 *   -EDOM    rv_save alone: the state of the machine is none that an image tells; no call is known that leaves it so */
#ifndef RISVAMEY_H
#define RISVAMEY_H

#include <stddef.h>
#include <stdint.h>

#ifdef __cplusplus
extern "C" {
#endif

#define RV_ABI 1u

#if defined(__GNUC__)
#define RV_NOT_NULL __attribute__((nonnull))
#else
#define RV_NOT_NULL
#endif

/* A machine. Its room is the caller's, its words are the library's: write `struct rv_machine machine = {0};`. */
struct rv_machine {
    uint64_t words[8];
};

/* What a machine has. Set size to sizeof(struct rv_spec), and what is reserved to 0. */
struct rv_spec {
    uint32_t size;
    uint32_t vcpus;     /* 1 to 32                                                                                              */
    uint32_t spis;      /* 0 to 960, a multiple of 32: the INTIDs 32 to 31 + spis                                               */
    uint32_t espis;     /* 0 to 1024, a multiple of 32: the INTIDs 4096 to 4095 + espis                                         */
    uint32_t lpis;      /* 0, or a power of two from 4 to 4096: the INTIDs 8192 to 8191 + lpis; without any there is no ITS     */
    uint32_t reserved0;
    uint64_t dist;      /* where the distributor's 64 KiB are: each of the three a multiple of 64 KiB, none in another          */
    uint64_t redist;    /* where the redistributors are, 128 KiB for each vCPU                                                  */
    uint64_t its;       /* where the 128 KiB of the ITS are                                                                     */
    uint64_t reserved1;
    uint64_t reserved2;
};

/* What a call did. All of it is 0 where the call is refused. */
struct rv_done {
    uint64_t value;     /* what was read; 0 where nothing was                                                                   */
    uint32_t changed;   /* bit n: the call changed the lines of vCPU n. Look at them by rv_lines; the others are as they were   */
    uint32_t reserved;  /* 0                                                                                                    */
    uint64_t address;   /* with RV_FETCH: the guest physical address of the bytes that are wanted, and how many; else 0         */
    uint64_t length;
};

enum { RV_READ = 0, RV_WRITE = 1 };   /* is_write                              */
enum { RV_IRQ = 1, RV_FIQ = 2 };      /* the bits that rv_lines returns        */
enum { RV_FETCH = 1 };                /* rv_mmio wants the guest's memory first */

/* The number of a system register, as the instructions MRS and MSR have it. */
#define RV_SYSREG(op0, op1, crn, crm, op2) \
    ((uint32_t)(op0) << 14 | (uint32_t)(op1) << 11 | (uint32_t)(crn) << 7 | (uint32_t)(crm) << 3 | (uint32_t)(op2))

/* RV_ABI of the library: another one has other structs. */
uint32_t rv_abi(void);

/* Opens a machine as it is after reset, every wire down; ends it, which gives its memory back and leaves room for another. */
int32_t rv_create(const struct rv_spec *spec, struct rv_machine *machine) RV_NOT_NULL;
int32_t rv_destroy(struct rv_machine *machine) RV_NOT_NULL;

/* A vCPU reads or writes size bytes (1, 2, 4, 8) at a guest physical address. One that is not a multiple of the size reads 0 and writes nothing.
 *
 * RV_FETCH: the write makes the GIC read the guest's memory (commands of the ITS, tables of LPIs), and nothing is done yet. Hand the done->length bytes at
 * done->address in by rv_feed, zeros for what is no memory, and make the same call again, until it returns another number. What was fed serves that call
 * alone; any other call drops it, also one that is refused (but a refused rv_feed). */
int32_t rv_mmio(struct rv_machine *machine, uint32_t vcpu, uint64_t address, uint32_t size, uint32_t is_write,
                uint64_t value, struct rv_done *done) RV_NOT_NULL;
int32_t rv_feed(struct rv_machine *machine, const uint8_t *bytes, size_t length) RV_NOT_NULL;

/* A vCPU reads or writes a system register, by RV_SYSREG. */
int32_t rv_sysreg(struct rv_machine *machine, uint32_t vcpu, uint32_t reg, uint32_t is_write, uint64_t value,
                  struct rv_done *done) RV_NOT_NULL;

/* The wire of a PPI (16 to 31) of a vCPU, or of an SPI, is up (1) or down (0); to say again how it is changes nothing. An SPI does not look at vcpu. */
int32_t rv_wire(struct rv_machine *machine, uint32_t intid, uint32_t vcpu, uint32_t up, struct rv_done *done) RV_NOT_NULL;

/* A device writes the INTID of an SPI to GICD_SETSPI_NSR; or an EventID to GITS_TRANSLATER, under its DeviceID. */
int32_t rv_message(struct rv_machine *machine, uint32_t intid, struct rv_done *done) RV_NOT_NULL;
int32_t rv_msi(struct rv_machine *machine, uint32_t device, uint32_t event, struct rv_done *done) RV_NOT_NULL;

/* RV_IRQ where a read of ICC_IAR1_EL1 by the vCPU would answer an interrupt now, RV_FIQ where one of ICC_IAR0_EL1 would; or a negative error number. */
int32_t rv_lines(struct rv_machine *machine, uint32_t vcpu) RV_NOT_NULL;

/* Resets the machine, with every wire down: say again which are up; or the CPU interface of a vCPU alone. */
int32_t rv_reset(struct rv_machine *machine, struct rv_done *done) RV_NOT_NULL;
int32_t rv_reset_vcpu(struct rv_machine *machine, uint32_t vcpu, struct rv_done *done) RV_NOT_NULL;

/* Writes the image of the machine, one line of JSON without an end, into the length bytes of room, and how many bytes it has into needed; nothing into room where
 * there is less of it (-ERANGE). The image has the interrupts, the CPU interfaces, the ITS with its maps, the levels of wires, and what the guest wrote; not the
 * addresses of the frames, not what was fed, and not the memory of the guest, which is yours to save.
 *
 * The machine is what it was where rv_save wrote these bytes, of it or of another machine with the same vcpus, spis, espis and lpis: -EINVAL, and nothing
 * changes, where they are no such image. The wires have the levels that they had then: say again those that moved since. */
int32_t rv_save(struct rv_machine *machine, uint8_t *room, size_t length, uint64_t *needed) RV_NOT_NULL;
int32_t rv_restore(struct rv_machine *machine, const uint8_t *bytes, size_t length, struct rv_done *done) RV_NOT_NULL;

#ifdef __cplusplus
}
#endif

#endif
