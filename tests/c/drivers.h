/* The parts of drivers.c: programs as drivers write them, memory for them, their runs, and changes of their bytes. */
#ifndef DRIVERS_H
#define DRIVERS_H

#include "dma330.h"

#include <stdbool.h>

/* ---- driver_programs.c ---- */

/* Channel programs in the forms in which drivers write them, each with what its author means by it. The forms are those
 * of the manual's instruction set; what an author means comes from the request alone, and no instruction is executed. */

enum { MOST_ITEMS = 1024 };

/* What a program reads, stores, sets to 0, waits for and signals, as dma330_explain writes it. */
typedef struct meaning {
    dma330_repeated src[MOST_ITEMS];
    dma330_segment dst[MOST_ITEMS], zeros[MOST_ITEMS];
    dma330_event events[MOST_ITEMS];
    size_t src_len, dst_len, zeros_len, events_len;
    uint64_t copied, cleared;
    uint32_t steps;
} meaning;

/* A loop that is being written: where its body begins, and how many instructions one round of it executes. */
typedef struct open_loop {
    uint32_t counter, times, begin, steps;
} open_loop;

typedef struct program {
    uint8_t bytes[DMA330_MAX_PROGRAM];
    uint32_t len;
    meaning means;
    open_loop loops[3]; /* the first is the program itself, which is no loop */
    int depth;
    uint32_t widest;    /* the most bytes of a beat */
} program;

/* Bursts of `beats` beats, 1 to 16, of `beat` bytes: 1, 2, 4, 8 or 16. */
typedef struct shape {
    uint32_t beat, beats;
} shape;

/* Makes a program empty, with bytes after it that are no instruction. Only end_program makes what it means complete. */
void begin_program(program *p);
void end_program(program *p);

/* Each adds an instruction. */
void add_wait(program *p, uint32_t event);
void add_signal(program *p, uint32_t event);

/* The bursts that Linux's driver chooses on a bus of this many bytes, with this many lines of the buffer for a channel:
 * the widest beats that divide all three numbers, and single ones if they are narrower than the bus. */
shape linux_shape(uint32_t bus, uint32_t lines, uint32_t src, uint32_t dst, uint32_t len);

/* Writes the program of a copy as Linux's driver does: loops of whole bursts, the largest with a body of several, then
 * the rest as one shorter burst. All three numbers are multiples of the beat. Only revision r0p0 has barriers. */
void write_linux(program *p, shape s, bool has_barriers, const uint32_t copy[3], uint32_t event);

/* Adds a copy as a vendor's standalone driver writes it: single beats up to a multiple of the beat's size, loops of
 * bodies with this many loads before as many stores, and a rest of single beats. If the addresses never are multiples
 * of the beat's size together, all beats have a byte. The request is {source, destination, bytes}. */
void add_vendor(program *p, shape s, uint32_t loads, const uint32_t copy[3]);

/* Adds a copy as a boot loader writes it, in chunks of at most 64 KiB, each with its own moves. */
void add_boot(program *p, shape s, const uint32_t copy[3]);

/* Adds a fill: a beat at a fixed address is read again and again, and a rest of bytes at the same address. */
void add_fill(program *p, shape s, const uint32_t copy[3]);

/* Adds zeros as a boot loader writes them, by DMASTZ, which only a device has: loops of whole bursts, of single beats
 * and of bytes. The address is a multiple of the beat. */
void add_zeros(program *p, shape s, uint32_t to, uint32_t len);

/* The manual's examples of how the buffer is used, on a bus of 64 bits or more. From DESTINATION_UNALIGNED on, an
 * address is no multiple of the beat's size: the bus shortens the first burst, and the rest of its bytes comes at the
 * end, after a DMAMOV CCR that keeps what the buffer holds. */
typedef enum example {
    ALIGNED, LOADS_SHORTER, STORES_SHORTER, WORDS, DESTINATION_UNALIGNED, SOURCE_UNALIGNED, FIRST_LOAD_LONGER, EXAMPLES
} example;

/* Writes one of them. Both addresses are multiples of 8, to which it may add 4. */
void write_manual(program *p, example n, uint32_t src, uint32_t dst);

/* Writes the program that dma330_plan makes for a bus of this many bits, 0 for a channel. The lists have as many bytes.
 * Returns whether it makes one. How many steps it has is left open. */
bool write_plan(program *p, uint32_t bus, const dma330_segment *src, size_t src_len, const dma330_segment *dst,
                size_t dst_len, int32_t wait, int32_t signal);

/* Writes the program that dma330_plan_fill makes in the same way. */
bool write_plan_fill(program *p, uint32_t bus, uint32_t src, dma330_segment dst);

/* ---- driver_memory.c ---- */

/* Memory that has the ranges of an explanation and no other byte: each access elsewhere fails. */

/* The memory, to be lent to calls. */
extern dma330_region lent[DMA330_MAX_REGIONS];
extern size_t lent_count;

/* Makes the memory: what is stored to is RAM, what is only read is ROM, and a program is ROM at `*place`, which is
 * chosen apart from both. Returns whether there is room, and at most 64 regions are needed. */
bool lend_ranges(const meaning *is, const uint8_t *bytes, size_t len, uint32_t *place);

/* Gives the memory the bytes that it has before each run. begin_run also works out what they should be after a run, and
 * returns whether the lists have as many bytes as is explained. */
void forget_run(void);
bool begin_run(const meaning *is);

/* Returns whether these numbers of the first bytes of the destinations, and of what is set to 0, are as they should be,
 * and the others as before the run. */
bool has_done(const meaning *is, uint64_t copied, uint64_t cleared);

/* Returns whether all bytes are as they should be, also those beside the regions. */
bool is_memory_wanted(void);

/* ---- driver_runs.c ---- */

/* Explains programs, and compares what they do with what is explained, on a channel and on a device, over the memory
 * above. */

/* What dma330_explain returned and wrote. */
typedef struct explained {
    int32_t code;
    uint32_t cause, pc;
    meaning is;
} explained;

/* Explains a program on a bus of this many bits, 0 for a channel. */
void explain(explained *e, const uint8_t *bytes, size_t len, uint32_t bus, uint32_t most);

/* Returns NULL if dma330_explain says the same of this program from any registers, and from others that are known; or if it
 * refuses it from any since it uses a register before it sets it, as *is_unset then says. Else returns what is
 * otherwise. */
const char *explain_for_any(const explained *e, const uint8_t *bytes, size_t len, uint32_t bus, uint32_t most, bool *is_unset);

/* Returns whether a program is explained, as its author means it. */
bool is_meant(const explained *e, const meaning *means);

/* Runs a program over the lent memory, with calls for at most `most` steps. Returns NULL, or what is otherwise than
 * explained: steps, waits and signals in their order with the bytes stored before each, and each byte of the memory. */
const char *run_on_channel(const explained *e, const uint8_t *bytes, size_t len, uint32_t most);

/* Does the same on a device whose bus has this many bits, by a DMAGO of the program at `place`. What is only signalled
 * is an interrupt, and no interrupt comes before its bytes are stored. */
const char *run_on_device(const explained *e, uint32_t place, uint32_t bus, uint32_t most);

/* Starts a program by a DMAGO at `place`. Returns NULL if the device explains it, or doesn't explain it, in the same
 * way. */
const char *explain_on_device(const explained *e, uint32_t place, uint32_t bus, uint32_t most);

/* Runs a program that isn't explained on a channel over the memory, as many steps as are explained. Returns NULL if a
 * burst or the cause is what ends them, and the program is at `pc`; or what is otherwise. */
const char *run_to_cause(const explained *e, const uint8_t *bytes, size_t len);

/* Frees the channel and the devices. */
void end_runs(void);

/* ---- driver_changes.c ---- */

/* Programs of drivers with changed bytes. */

/* Counts a check, which fails if there is a reason. */
void expect(const char *wrong, const char *what, uint32_t n);

/* For each seed, changes bytes of small programs of each form. Each is explained and runs so, on a channel and on a
 * device, or it has a cause, which is the same on a device, and which a run on a channel shows. */
void check_seeds(uint32_t first, uint32_t last);

/* Prints how many changed programs are explained, and how many have each cause. */
void print_causes(void);

#endif
