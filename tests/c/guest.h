/* A machine with a dma330_device, and a guest's driver for it: it writes programs as bytes into RAM, and uses only the
 * device's registers and interrupt lines. What each test expects follows from the manual of the DMA-330 (ARM DDI 0424)
 * and from the list of differences in docs/CHIP.md. */
#ifndef GUEST_H
#define GUEST_H

#include "dma330.h"

#include <stdbool.h>

/* ---- checks ---- */

/* Counts a check. If it fails, prints `what` and `n`. */
void check(bool holds, const char *what, uint32_t n);

/* Prints how many checks passed and failed, and returns the status to exit with. */
int end_checks(void);

/* ---- the heap (link with heap.h's flags) ---- */

/* How many of the next allocations succeed. It is 0 except in open_device, since no other call may allocate. */
extern long allocations_left;

/* Opens a device with all the memory that it needs. */
int32_t open_device(dma330_device *device, const dma330_device_config *config);

/* ---- a machine ---- */

/* RAM is three regions, the second next to the first, the third up to the last address: FAR_END is 2^32, in 32 bits. On
 * the host each lies between bytes that must not change. */
#define LOW 0x80000000u
#define NEXT 0x80003000u
#define FAR 0xFFFFE000u
#define NEXT_END 0x80005000u
#define FAR_END 0u

enum { GUARD = 0x200, LOW_AT = GUARD, NEXT_AT = LOW_AT + 0x3000 + GUARD, FAR_AT = NEXT_AT + 0x2000 + GUARD };
enum { ALL_BYTES = FAR_AT + 0x2000 + GUARD, REGIONS = 3, REGISTERS = 0x1000 };

typedef struct machine {
    dma330_device device;
    dma330_region regions[DMA330_MAX_REGIONS];
    size_t region_count;
    dma330_segment written;    /* by the last turn */
    uint64_t taken;            /* the steps of the last turn */
    uint64_t steps;            /* that the turns of take_rows took since set_up */
    uint8_t bytes[ALL_BYTES];
    uint8_t wanted[ALL_BYTES]; /* what a test expects them to become */
    uint8_t former[ALL_BYTES]; /* what they were before a turn */
} machine;

/* A configuration with a bus of 128 bits and 16 lines of the buffer for each channel. */
dma330_device_config plain(uint32_t channels, uint32_t events, bool nonsecure);

/* set_up fills RAM with a pattern and opens the device. tear_down checks that nothing but RAM was written, and closes
 * the device. lend makes the regions those of the machine's bytes, each of them RAM. */
void set_up(machine *m, dma330_device_config config);
void tear_down(machine *m);
void lend(machine *m);

/* Returns the byte at an address of RAM, in a machine's bytes or in the wanted ones. */
uint8_t *byte_at(uint8_t bytes[ALL_BYTES], uint32_t addr);

/* want_ram sets the wanted bytes to those that RAM has now. want_copy copies blocks of 512 bytes within the wanted bytes,
 * one after another. */
void want_ram(machine *m);
void want_copy(machine *m, uint32_t src, uint32_t dst, uint32_t blocks);
bool is_ram_wanted(const machine *m);

/* ---- programs ---- */

enum { DMAEND = 0x00, DMAKILL = 0x01, DMALD = 0x04, DMAST = 0x08, DMASTZ = 0x0C, DMARMB = 0x12, DMAWMB = 0x13, DMANOP = 0x18,
       DMALP = 0x20, DMALPEND_FE = 0x28, DMASEV = 0x34, DMAWFE = 0x36, DMALPEND = 0x38, DMAADDH = 0x54, DMAADNH = 0x5C,
       DMAGO = 0xA0, DMAMOV = 0xBC };
enum { TO_SAR = 0, TO_CCR = 1, TO_DAR = 2 };

/* In CCR: bursts of 16 beats of 2 to the power of `size` bytes, at addresses that rise. */
#define BURSTS_OF(size) (0xF1u | (size) << 1 | 0x3C4000u | (size) << 15)

/* Each writes an instruction at an address, and returns the address after it. */
uint32_t put(machine *m, uint32_t at, uint32_t code);
uint32_t put_two(machine *m, uint32_t at, uint32_t code, uint32_t operand);
uint32_t put_move(machine *m, uint32_t at, uint32_t to, uint32_t value);

/* Writes a program that copies blocks of 512 bytes with a loop in a loop, in bursts of 16 beats: of 4 bytes, which each
 * bus can have, or of a byte if an address isn't a multiple of 4, as Linux's driver does. It may wait for an event first
 * and signal one at the end. */
enum { NO_EVENT = 32 };
void put_copy(machine *m, uint32_t at, uint32_t wait, uint32_t src, uint32_t dst, uint32_t blocks, uint32_t signal);

/* Writes a program that only signals an event, or only waits for one. */
void put_signal(machine *m, uint32_t at, uint32_t event);
void put_wait(machine *m, uint32_t at, uint32_t event);

/* ---- the driver ---- */

enum { DSR = 0x000, DPC = 0x004, INTEN = 0x020, INT_EVENT_RIS = 0x024, INTMIS = 0x028, INTCLR = 0x02C, FSRD = 0x030,
       FSRC = 0x034, FTRD = 0x038, FTR = 0x040, CSR = 0x100, CPC = 0x104, SAR = 0x400, DAR = 0x404, CCR = 0x408, LC0 = 0x40C,
       LC1 = 0x410, DBGSTATUS = 0xD00, DBGCMD = 0xD04, DBGINST0 = 0xD08, DBGINST1 = 0xD0C, CR0 = 0xE00, CR1 = 0xE04,
       CR2 = 0xE08, CR3 = 0xE0C, CR4 = 0xE10, CRD = 0xE14, PERIPH_ID = 0xFE0, PCELL_ID = 0xFF0 };

/* CCR after a reset (manual, channel control registers). */
enum { RESET_CCR = 0x00800200 };

uint32_t get(machine *m, uint32_t offset);
void set(machine *m, uint32_t offset, uint32_t value);
uint32_t irqs(machine *m);
bool irq_abort(machine *m);
bool can_step(machine *m);

/* Makes the manager, or a channel, execute an instruction: its bytes 0 and 1, and the number after them. */
enum { MANAGER = -1 };
void debug(machine *m, int thread, uint32_t code, uint32_t operand, uint32_t number);

void start(machine *m, uint32_t channel, uint32_t program);
void stop(machine *m, int thread);

/* Lets a channel take a turn, and checks its report. Returns whether the channel still executes or waits. `written` of the
 * machine is then the range that the turn reports. */
bool turn(machine *m, uint32_t channel, uint32_t most);

/* Lets a channel take several turns, by dma330_device_step_rows, and that of another machine, which is the same, take them
 * one by one. Checks the report, and that both machines are the same then. Returns whether there were several turns, and
 * adds their steps to those of the machine. */
bool take_rows(machine *m, machine *by_one, uint32_t channel, uint32_t most);

/* Lets a channel take turns until it doesn't execute. Returns whether it waits. */
bool run(machine *m, uint32_t channel);

/* Checks a copy by a channel, its interrupt, and the driver's response to the interrupt. */
void check_work(machine *m, uint32_t channel, const char *what, uint32_t n);

/* Return whether all registers except the configuration are as after a reset, each CCR is RESET_CCR and all others are 0, and
 * whether two machines have the same registers, lines and RAM. */
bool are_registers_reset(machine *m);
bool are_same(machine *m, machine *other);

#endif
