/* A software model of the ARM DMA-330 (PL330), a DMA controller, for copies between memories: for programs in C and in
 * C++. It needs stdint.h, which came with C99 and C++11; the rest of the header is C89. Link it with libdma330.a.
 * docs/PROOFS.md says what is proved of it, and what isn't.
 *
 * There are three kinds of things, for three uses. These are the calls of each with which to begin:
 * - A device has the registers of a PL330. Take it if a guest's driver writes registers: forward the guest's accesses
 *   (dma330_device_read, dma330_device_write), let the channels run (dma330_device_step), and set interrupt lines
 *   (dma330_device_lines). docs/DEVICES.md puts one into an emulator.
 * - A controller takes lists of bytes to copy. Take it if you have no registers and no programs: queue a copy
 *   (dma330_submit, dma330_issue), let it run (dma330_step), and ask how it finished (dma330_result). It has a memory
 *   of its own, which you write and read by calls. docs/CONTROLLERS.md begins with an example.
 * - A channel executes one program in memory of yours. Take it if you have a program: load it
 *   (dma330_channel_load_from, dma330_channel_load_copy), and let it run (dma330_channel_step).
 *
 * Each is opened before its other calls, and closed after them. Besides, dma330_explain says what a program copies
 * before it runs, and dma330_plan writes the program of a copy.
 *
 * You have eight duties. The proofs assume them, and nothing checks them; docs/CONTROLLERS.md says what happens if one
 * is broken:
 * 1. Before its first call a dma330_controller is DMA330_CONTROLLER_INIT, a dma330_channel DMA330_CHANNEL_INIT and a
 *    dma330_device DMA330_DEVICE_INIT, which are zeros. You don't change their members: they are the library's.
 * 2. An open one is not copied, since the copy would use the same memory. It may be moved: then zero its old place
 *    before you use that again. It holds memory from its open to its close.
 * 3. One call at a time uses it, since the library takes no lock. Order calls from several threads by a lock, by a
 *    thread's start or join, or by a sequentially consistent atomic.
 * 4. No call comes from a signal handler, or from the child of a fork of a program with threads, where another call may
 *    be half done.
 * 5. No pointer is null, not even one to zero elements. Each is aligned, and has as many elements as its count says. No
 *    two pointers of a call overlap, except lists that are only read; nor do the bytes of two regions, so lend RAM that
 *    a guest sees at two addresses at one of them. The library keeps no pointer after a call.
 * 6. While a call runs, nobody else writes what its pointers point to, or reads what it writes. There is one exception:
 *    a guest's running processors may read and write the bytes of regions. "Beside running processors" in
 *    docs/DEVICES.md says what they then see.
 * 7. 64 KiB of stack are free; the most that was measured is 29 KiB, on x86-64.
 * 8. malloc, realloc and free are one allocator. It aligns each block to 16 bytes. A block whose size isn't a multiple
 *    of 16 may have less: the largest power of two that divides its size.
 *
 * A call returns DMA330_OK, which is 0, or a negative code. (dma330_status returns a state in place of DMA330_OK.) The
 * comment of a call lists its codes, without DMA330_, in the order in which they are tested: the first that applies is
 * returned. NOT_OPEN isn't listed. It comes before all others, from each call that has a controller, a channel or a
 * device, except open and close. A call that returns a negative code is refused: it has changed nothing and written no
 * output, except where its comment says so. The comment of enum dma330_code says what to do about each code.
 *
 * Addresses and lengths of segments have 32 bits, channels and events 8: test a guest's number before you make it
 * narrower. A list of more than 64 segments is refused. So if yours is longer, pass any 65 of them: the call refuses
 * them. */
#ifndef DMA330_H
#define DMA330_H

#include <stddef.h>
#include <stdint.h>

#ifdef __cplusplus
extern "C" {
#endif

/* The version, by numbers for #if, and as dma330_version writes it. A program for this version works with all later
 * ones of the same MAJOR: CHANGES.md has the rule. */
#define DMA330_VERSION_MAJOR 1
#define DMA330_VERSION_MINOR 0
#define DMA330_VERSION_PATCH 0
#define DMA330_VERSION "dilkwafam 1.0"

/* Room for what dma330_version writes in any version. */
#define DMA330_MAX_VERSION 32

/* A controller that isn't open: dma330_controller controller = DMA330_CONTROLLER_INIT; (or one cleared by memset) */
#define DMA330_CONTROLLER_INIT {0, 0}

/* A channel, and a device, that isn't open, in the same way. */
#define DMA330_CHANNEL_INIT {0, 0}
#define DMA330_DEVICE_INIT {0, 0}

/* A program may begin with any registers: dma330_start start = DMA330_ANY_REGISTERS; (or one cleared by memset) */
#define DMA330_ANY_REGISTERS {0, 0, 0, 0, 0, 0}

/* No event to wait for, or none to signal. Any negative number means none. */
#define DMA330_NO_EVENT (-1)

/* The most segments of a list, bytes of a transfer, bytes of a program, channels of a controller or device, regions of
 * your memory, and bytes of a channel's and of a device's save. */
#define DMA330_MAX_SEGMENTS 64
#define DMA330_MAX_BYTES 1048576
#define DMA330_MAX_PROGRAM 8192
#define DMA330_MAX_CHANNELS 8
#define DMA330_MAX_REGIONS 64
#define DMA330_MAX_SAVE 8500
#define DMA330_MAX_DEVICE_SAVE 68204

/* Room for the text of a program of this many bytes, whatever its instructions are. */
#define DMA330_MAX_TEXT(bytes) (9 * (bytes))

#if defined(__GNUC__)
#define DMA330_NO_NULLS __attribute__((nonnull))
#else
#define DMA330_NO_NULLS
#endif

/* A controller, which you keep; its members are the library's own. */
typedef struct dma330_controller {
    void *engine;
    uint8_t is_open;
} dma330_controller;

/* The addresses from addr up to, and not including, addr + len. */
typedef struct dma330_segment {
    uint32_t addr;
    uint32_t len;
} dma330_segment;

/* How a transfer finished. */
typedef struct dma330_outcome {
    uint32_t result;  /* enum dma330_result_code */
    uint32_t residue; /* the number of its bytes that were not stored */
} dma330_outcome;

/* The running transfer that is in the way, if a call returns DMA330_BUSY or DMA330_RUNNING. If there are several, it is
 * the one on the lowest channel. */
typedef struct dma330_conflict {
    uint32_t channel;
    uint32_t cookie;
} dma330_conflict;

/* The transfer that runs on a channel. It runs from the step that starts it to the step that finishes it or the call
 * that terminates it, also while it waits for an event. */
typedef struct dma330_run {
    uint32_t cookie;
    uint32_t stored; /* the number of its bytes that are stored so far */
} dma330_run;

/* What dma330_step did. A member is 0 unless its comment names what the last step did. */
typedef struct dma330_report {
    uint32_t taken;   /* the number of steps, the last one included, whatever it did */
    uint32_t last;    /* what the last one did: enum dma330_last_step */
    uint32_t channel; /* of DMA330_HELD: the channel of the conflicting transfer */
    uint32_t cookie;  /* of DMA330_STARTED and DMA330_FINISHED; of DMA330_HELD that of the conflicting transfer */
    uint32_t event;   /* of DMA330_WAITING */
    uint32_t result;  /* of DMA330_FINISHED: enum dma330_result_code, never DMA330_ABORTED */
    uint32_t residue; /* of DMA330_FINISHED: the number of its bytes that were not stored */
} dma330_report;

/* A part of your memory, whose first byte a channel sees at address `addr`. You lend it to a call: the library may use
 * these bytes until the call returns. An initializer that leaves out `read_only` sets it to 0; code that sets the
 * members one by one must set it too. */
typedef struct dma330_region {
    uint32_t addr;
    uint8_t *bytes;
    size_t len;
    uint32_t read_only; /* 0 for RAM; any other number for ROM: loads and programs read it, and stores to it fail */
} dma330_region;

/* A channel, which you keep, and which runs in your memory; its members are the library's own. */
typedef struct dma330_channel {
    void *channel;
    uint8_t is_open;
} dma330_channel;

/* What dma330_channel_step did. A member is 0 unless its comment names what the last step did. */
typedef struct dma330_channel_report {
    uint32_t taken; /* the number of steps, the last one included, whatever it did */
    uint32_t last;  /* what the last one did: enum dma330_last_step */
    uint32_t event; /* of DMA330_SIGNALLED: whose flag it set; of DMA330_WAITING: the one it waits for */
    uint32_t fault; /* of DMA330_FAULT: enum dma330_fault */
    uint32_t pc;    /* the offset of the next instruction; of DMA330_WAITING and DMA330_FAULT, of the one that waits or
                     * has failed; of DMA330_ENDED, of the DMAEND */
    dma330_segment written; /* the range that the steps wrote: each byte in it, some perhaps with the value that it had;
                             * no other byte of the regions has changed. Its len is 0 if they wrote nothing. It may end
                             * at 2^32, so add addr and len in 64 bits */
} dma330_channel_report;

/* A channel's registers and counts. */
typedef struct dma330_registers {
    uint32_t pc; /* the offset of the next instruction in the program */
    uint32_t sar;
    uint32_t dar;
    uint32_t ccr;
    uint8_t lc0;
    uint8_t lc1;
    uint8_t is_loaded; /* 1 where it has a program, else 0 */
    uint32_t taken;    /* the number of instructions executed since the program was loaded, DMAEND included */
    uint64_t stored;   /* the number of bytes stored since then */
} dma330_registers;

/* A device, which you keep; its members are the library's own. */
typedef struct dma330_device {
    void *device;
    uint8_t is_open;
} dma330_device;

/* The choices of a chip's designer, which a guest's driver reads in CR0 to CRD and periph_id_2. */
typedef struct dma330_device_config {
    uint32_t channels;  /* 1 to 8 */
    uint32_t events;    /* 1 to 32, each an event or an interrupt, as INTEN says */
    uint32_t nonsecure; /* 0 if the manager is in the secure state after a reset, any other number if it isn't */
    uint32_t bus;       /* the width of the data bus in bits: 32, 64 or 128; a wider beat is an invalid operand */
    uint32_t lines;     /* the size of the chip's buffer between loads and stores, in lines as wide as the bus: 1 to
                         * 1024, also a number that no chip has. It only shows in CRD, by which Linux's driver chooses
                         * the length of its bursts: take the number of the chip that the guest expects, or 128 for 8
                         * channels, as docs/DEVICES.md does. Whatever it is, each channel has 256 bytes for itself */
    uint32_t revision;  /* 0 for r0p0, 1 for r1p0, 2 for r1p1, 3 for r1p2; Linux uses barriers only for r0p0 */
} dma330_device_config;

/* What a turn did, which is what one call of dma330_device_step does. */
typedef struct dma330_device_turn {
    dma330_segment written; /* its steps wrote each byte of this range, some perhaps with the value that it had; no byte
                             * elsewhere has changed. Its len is 0 if they wrote nothing. It may end at 2^32, so add
                             * addr and len in 64 bits */
    uint64_t taken;         /* the number of steps, the last one included, whatever it did: at most `most`, and one more
                             * after the DMASEV of an interrupt. A failure by lockup_err is no step */
    uint32_t lines_changed; /* 1 if a line of irq[31:0], or irq_abort, has changed, else 0 */
    uint32_t can_step;      /* what dma330_device_can_step writes now */
} dma330_device_turn;

/* What dma330_device_step_rows did: one turn or several. No byte outside the ranges of its turns has changed. */
typedef struct dma330_device_rows {
    dma330_device_turn turn; /* `written` is what the first turn wrote, `taken` the number of steps of each turn;
                              * `lines_changed` is 1 if the turns together have changed a line, and `can_step` is what
                              * holds after the last of them */
    uint32_t pitch;          /* the distance of the turns' ranges: turn k, counted from 0, wrote as many bytes as the
                              * first, from turn.written.addr + k * pitch on */
    uint32_t count;          /* the number of turns, at least 1 */
    uint32_t steps;          /* the bound of each turn: calls of dma330_device_step whose `most` is this number would
                              * have made the same turns */
} dma330_device_rows;

/* How a program ended that dma330_run_program ran. A member is 0 unless its comment names the end. */
typedef struct dma330_run_end {
    uint32_t end;   /* enum dma330_end */
    uint32_t steps; /* of DMA330_END_ENDED: the number of executed instructions, DMAEND included */
    uint32_t event; /* of DMA330_END_WAITING */
    uint32_t fault; /* of DMA330_END_FAULT: enum dma330_fault */
    uint32_t pc;    /* of DMA330_END_FAULT: the offset of the instruction */
} dma330_run_end;

/* The addresses from addr up to, and not including, addr + len, all of which are read `times` times, one round after
 * another. `times` is above 1 where a fixed address is read repeatedly, for example by a fill, or a range is read again
 * right after itself. addr + len may be 2^32, so add in 64 bits. */
typedef struct dma330_repeated {
    uint32_t addr;
    uint32_t len;
    uint32_t times;
} dma330_repeated;

/* The registers with which a program begins, as far as they are known. The others may be anything: a device keeps its
 * registers over a DMAGO, so another program may have left anything there. */
typedef struct dma330_start {
    uint32_t known; /* which of the members below are known: a sum of enum dma330_known. The others aren't read */
    uint32_t sar;
    uint32_t dar;
    uint32_t ccr;
    uint8_t lc0;
    uint8_t lc1;
} dma330_start;

/* A DMAWFE or a DMASEV that a program executes. */
typedef struct dma330_event {
    uint32_t kind;    /* enum dma330_event_kind */
    uint32_t event;
    uint64_t copied;  /* the number of bytes that the program has copied before this instruction */
    uint64_t cleared; /* the number of bytes that it has set to 0 before */
} dma330_event;

/* What a program copies and sets to 0, or why it isn't explained. */
typedef struct dma330_explanation {
    size_t src_len;    /* the numbers of items of the four lists, each 0 if there is a cause */
    size_t dst_len;
    size_t zeros_len;
    size_t events_len;
    uint64_t copied;   /* the numbers of bytes that it copies, and sets to 0; 0 if there is a cause */
    uint64_t cleared;
    uint32_t steps;    /* the number of instructions that are executed, DMAEND included; if there is a cause, of those
                        * that are executed before the instruction that has it */
    uint32_t pc;       /* if there is a cause, the offset of the instruction that has it, else 0 */
    uint32_t cause;    /* enum dma330_cause */
    uint32_t addr;     /* for STORES_TWICE the lowest address that is stored twice, for STORES_SOURCE the lowest that is
                        * read and stored, else 0 */
} dma330_explanation;

/* What the last of some steps did: the member `last` of a dma330_report and of a dma330_channel_report. A halted
 * channel of a controller reports DMA330_HALTED, even if it is paused as well. One that is only paused reports
 * DMA330_PAUSED, whatever it would do otherwise. */
enum dma330_last_step {
    DMA330_NO_STEP = 0,   /* none was taken: `most` was 0, or a dma330_channel had executed 4294967295 instructions */
    DMA330_MOVED = 1,     /* one instruction was executed */
    DMA330_WAITING = 2,   /* for an event whose flag is clear; nothing has changed */
    /* of a dma330_channel */
    DMA330_ENDED = 3,     /* it was DMAEND: the program is gone */
    DMA330_FAULT = 4,     /* the instruction failed; it has changed nothing */
    DMA330_SIGNALLED = 5, /* it was DMASEV: the flag of `event` is set */
    /* of a dma330_controller */
    DMA330_STARTED = 6,   /* the channel's next transfer began to run */
    DMA330_FINISHED = 7,  /* the transfer has finished */
    DMA330_NOTHING = 8,   /* no transfer is issued and unfinished */
    DMA330_HELD = 9,      /* the next transfer conflicts with a running one: of several, that on the lowest channel */
    DMA330_PAUSED = 10,   /* until dma330_resume or dma330_terminate */
    DMA330_HALTED = 11    /* by a transfer that failed, until dma330_terminate */
};

/* How a transfer finished: the numbers of Linux's enum dmaengine_tx_result. */
enum dma330_result_code {
    DMA330_NO_ERROR = 0,
    DMA330_READ_FAILED = 1,  /* a load met an injected error */
    DMA330_WRITE_FAILED = 2, /* a store did */
    DMA330_ABORTED = 3       /* by dma330_terminate */
};

/* The state of a cookie. One that isn't issued yet is in progress; one that failed or was aborted is complete. */
enum dma330_state { DMA330_UNKNOWN = 0, DMA330_IN_PROGRESS = 1, DMA330_COMPLETE = 2 };

/* The accesses to a range that an injected error lets fail. */
enum dma330_access { DMA330_READS = 0, DMA330_WRITES = 1 };

/* How a program ended that dma330_run_program ran. OUT_OF_STEPS: it hasn't, after as many instructions as were
 * allowed. */
enum dma330_end { DMA330_END_OUT_OF_STEPS = 0, DMA330_END_ENDED = 1, DMA330_END_WAITING = 2, DMA330_END_FAULT = 3 };

/* The manual's faults of a channel. */
enum dma330_fault {
    DMA330_UNDEF_INSTR = 1,
    DMA330_OPERAND_INVALID = 2,
    DMA330_MFIFO_ERR = 3,
    DMA330_ST_DATA_UNAVAILABLE = 4,
    DMA330_INSTR_FETCH_ERR = 5,
    DMA330_DATA_WRITE_ERR = 6,
    DMA330_DATA_READ_ERR = 7
};

/* The members of a dma330_start that are known. */
enum dma330_known {
    DMA330_KNOWN_NONE = 0,
    DMA330_KNOWN_SAR = 1,
    DMA330_KNOWN_DAR = 2,
    DMA330_KNOWN_CCR = 4,
    DMA330_KNOWN_LC0 = 8,
    DMA330_KNOWN_LC1 = 16,
    DMA330_KNOWN_ALL = 31
};

/* Whether an instruction waits for an event (DMAWFE) or signals one (DMASEV). */
enum dma330_event_kind { DMA330_WAITS = 0, DMA330_SIGNALS = 1 };

/* Why a call doesn't explain a program; docs/EXPLANATIONS.md has an example and a remedy for each cause. Causes 1 to 5
 * have the numbers of enum dma330_fault: in every memory the instruction fails so. The faults of data, 6 and 7, are no
 * causes: whether a load or a store fails so depends on the memory. But a load or store that goes beyond the last
 * address fails so in every memory: this has causes of its own, 8 and 9. From cause 9 on, "a store" is a DMAST or a
 * DMASTZ.
 *
 * One case of UNSET_DAR is easily overlooked: while bytes are in the buffer, a DMAMOV DAR uses the old DAR. A device
 * compares it with the new one, as a chip does, to find whether it drops the bytes. With `bus` 0 nothing is dropped or
 * compared. */
enum dma330_cause {
    DMA330_CAUSE_NONE = 0,
    DMA330_CAUSE_UNDEF_INSTR = 1,
    DMA330_CAUSE_OPERAND_INVALID = 2,     /* the bus doesn't accept the beats of a DMAMOV CCR, or a field is reserved */
    DMA330_CAUSE_MFIFO_ERR = 3,           /* the buffer of 256 bytes has no room for a load */
    DMA330_CAUSE_ST_DATA_UNAVAILABLE = 4, /* the buffer has too few bytes for a store */
    DMA330_CAUSE_INSTR_FETCH_ERR = 5,     /* the program ends before its DMAEND, or a jump goes to before its start */
    DMA330_CAUSE_LOADS_PAST = 8,          /* a load goes beyond address 4294967295 */
    DMA330_CAUSE_STORES_PAST = 9,         /* a store does */
    DMA330_CAUSE_STORES_FIXED = 10,       /* a store's address doesn't rise */
    DMA330_CAUSE_DROPS_BYTES = 11,        /* a DMAMOV, DMAADDH or DMAADNH at which a device drops bytes that are loaded
                                           * and not stored, as a chip does: DAR moves to other byte lanes of the bus,
                                           * begins or ceases to rise, or doesn't rise and the beats get another size */
    DMA330_CAUSE_BYTES_LEFT = 12,         /* at DMAEND loaded bytes aren't stored */
    DMA330_CAUSE_STORES_TWICE = 13,       /* at DMAEND a byte was stored twice */
    DMA330_CAUSE_STORES_SOURCE = 14,      /* at DMAEND a byte was stored at an address that was read */
    DMA330_CAUSE_NO_END = 15,             /* no DMAEND is among the first `most` instructions */
    DMA330_CAUSE_UNSET_SAR = 16,          /* an instruction uses SAR, which is neither known nor set by the program */
    DMA330_CAUSE_UNSET_DAR = 17,          /* an instruction uses DAR, which is neither known nor set by the program */
    DMA330_CAUSE_UNSET_CCR = 18,          /* an instruction uses CCR, which is neither known nor set by the program */
    DMA330_CAUSE_UNSET_LC0 = 19,          /* an instruction uses LC0, which is neither known nor set by the program */
    DMA330_CAUSE_UNSET_LC1 = 20           /* an instruction uses LC1, which is neither known nor set by the program */
};

/* The status of a channel, which are bits 3:0 of CSR (manual, channel status registers). A device of this library has
 * only those whose comment says so. */
enum dma330_csr {
    DMA330_CSR_STOPPED = 0,           /* here too */
    DMA330_CSR_EXECUTING = 1,         /* here too */
    DMA330_CSR_CACHE_MISS = 2,
    DMA330_CSR_UPDATING_PC = 3,
    DMA330_CSR_WAITING_FOR_EVENT = 4, /* here too; bits 8:4 are the event */
    DMA330_CSR_AT_BARRIER = 5,
    DMA330_CSR_WAITING_FOR_PERIPHERAL = 7,
    DMA330_CSR_KILLING = 8,
    DMA330_CSR_COMPLETING = 9,
    DMA330_CSR_FAULTING_COMPLETING = 14,
    DMA330_CSR_FAULTING = 15          /* here too */
};

/* The bits of a channel's FTR (manual, fault type channel registers), by number. */
enum dma330_ftr {
    DMA330_FTR_UNDEF_INSTR = 0,
    DMA330_FTR_OPERAND_INVALID = 1,
    DMA330_FTR_CH_EVNT_ERR = 5,
    DMA330_FTR_CH_PERIPH_ERR = 6,
    DMA330_FTR_CH_RDWR_ERR = 7,
    DMA330_FTR_MFIFO_ERR = 12,
    DMA330_FTR_ST_DATA_UNAVAILABLE = 13,
    DMA330_FTR_INSTR_FETCH_ERR = 16,
    DMA330_FTR_DATA_WRITE_ERR = 17,
    DMA330_FTR_DATA_READ_ERR = 18,
    DMA330_FTR_DBG_INSTR = 30,        /* beside another bit: the instruction came from the debug registers */
    DMA330_FTR_LOCKUP_ERR = 31
};

/* The bits of the manager's FTRD, by number. */
enum dma330_ftrd {
    DMA330_FTRD_UNDEF_INSTR = 0,
    DMA330_FTRD_OPERAND_INVALID = 1,
    DMA330_FTRD_DMAGO_ERR = 4,
    DMA330_FTRD_MGR_EVNT_ERR = 5,
    DMA330_FTRD_INSTR_FETCH_ERR = 16,
    DMA330_FTRD_DBG_INSTR = 30        /* beside another bit */
};

/* What a call returns. What to do about a refusal:
 * - Fix your program: NOT_OPEN, ALREADY_OPEN, BAD_CHANNELS, SIZE_OUT_OF_RANGE, BAD_ACCESS, BUFFER_TOO_SMALL,
 *   NO_PROGRAM, BAD_REGIONS, BAD_CONFIG. (If a call explains a guest's program, BUFFER_TOO_SMALL and NO_PROGRAM are no
 *   errors: the guest's program has more items than your lists have room, or the channel has no program.)
 * - Report it to the guest, or to whoever wrote the program or the text: EMPTY_LIST to SOURCE_MEETS_DESTINATION,
 *   BAD_EVENT, NO_CHANNEL, OUT_OF_MEMORY_RANGE, BAD_RANGE, PROGRAM_TOO_LONG, BAD_MNEMONIC to BAD_FIELD, UNEXPLAINED.
 * - Step the channel in `*conflict`, handle the report, and try again: BUSY, RUNNING. If the channel is paused, resume
 *   it; if its transfer waits for an event, raise that; or terminate it.
 * - Free something, and try again: NO_MEMORY.
 * - Open a new controller: COOKIES_SPENT, STEPS_SPENT.
 * - The snapshot is damaged, or of another version or device: BAD_SAVE, OTHER_DEVICE.
 * - No errors: NO_RESULT, NOT_RUNNING. */
enum dma330_code {
    DMA330_OK = 0,
    /* of every kind of call */
    DMA330_NOT_OPEN = -1,             /* the controller, channel or device is zeroed or closed */
    DMA330_ALREADY_OPEN = -2,         /* an open of a controller, channel or device that is open */
    DMA330_NO_MEMORY = -3,            /* out of memory: malloc or realloc returned NULL */
    DMA330_BUFFER_TOO_SMALL = -4,     /* the output has more bytes or items than there is room */
    DMA330_NO_CHANNEL = -5,           /* the channel's number isn't below the number of channels */
    DMA330_NO_PROGRAM = -6,           /* the channel has no program */
    DMA330_PROGRAM_TOO_LONG = -7,     /* a program has more than 8192 bytes */
    /* of arguments */
    DMA330_BAD_CHANNELS = -8,         /* the number of channels isn't 1 to 8 */
    DMA330_SIZE_OUT_OF_RANGE = -9,    /* the size of a memory isn't 1 to 4294963200 */
    DMA330_BAD_REGIONS = -10,         /* more than 64 regions, or one begins before the end of the one before it (also
                                       * if one of the two is empty), or one ends above 4294967296 */
    DMA330_BAD_CONFIG = -11,          /* no device can have this configuration, this bus, or this dma330_start */
    DMA330_BAD_EVENT = -12,           /* an event is above 31 */
    DMA330_BAD_ACCESS = -13,          /* neither DMA330_READS nor DMA330_WRITES */
    DMA330_BAD_RANGE = -14,           /* a range in which accesses are to fail is empty, or ends above 2^32 */
    DMA330_OUT_OF_MEMORY_RANGE = -15, /* a range or a segment ends above the memory's size */
    /* of a transfer's lists */
    DMA330_EMPTY_LIST = -16,          /* a list has no segment */
    DMA330_TOO_MANY_SEGMENTS = -17,   /* a list has more than 64 segments */
    DMA330_EMPTY_SEGMENT = -18,       /* a segment has length 0 */
    DMA330_SEGMENT_WRAPS = -19,       /* a segment ends above 2^32 */
    DMA330_TOTALS_DIFFER = -20,       /* the lists have different numbers of bytes */
    DMA330_TOO_LONG = -21,            /* a list has more than 1048576 bytes */
    DMA330_DESTINATIONS_MEET = -22,   /* two destination segments share an address */
    DMA330_SOURCE_MEETS_DESTINATION = -23, /* a source and a destination segment share an address */
    /* of a controller's transfers */
    DMA330_BUSY = -24,                /* a running transfer conflicts */
    DMA330_RUNNING = -25,             /* a checkpoint, and a transfer runs */
    DMA330_NOT_RUNNING = -26,         /* nothing runs on the channel, or there is no such channel */
    DMA330_NO_RESULT = -27,           /* the cookie hasn't finished, was never given, or its result is forgotten */
    DMA330_COOKIES_SPENT = -28,       /* the channel has used cookie 2147483647 */
    DMA330_STEPS_SPENT = -29,         /* an instruction is due, and the step count is 2^64 - 1 */
    /* of saves */
    DMA330_BAD_SAVE = -30,            /* the bytes are no save of a channel, or of any device */
    DMA330_OTHER_DEVICE = -31,        /* the bytes begin as a save of another version, or of another configuration */
    /* of assembly: a line, and of disassembly: an offset */
    DMA330_BAD_MNEMONIC = -32,        /* no instruction has this name */
    DMA330_BAD_OPERAND = -33,         /* an operand is missing, of a wrong form, or one too many */
    DMA330_NUMBER_OUT_OF_RANGE = -34, /* a number is outside its range */
    DMA330_CUT_INSTRUCTION = -35,     /* the bytes end within an instruction */
    DMA330_UNKNOWN_INSTRUCTION = -36, /* no instruction begins with this byte */
    DMA330_BAD_FIELD = -37,           /* a field is outside its range */
    DMA330_UNEXPLAINED = -38          /* the program isn't explained; the explanation has the cause */
};

/* ---- names of numbers, for messages ---- */

#if defined(__cplusplus) || (defined(__STDC_VERSION__) && __STDC_VERSION__ >= 199901L)
#define DMA330_INLINE static inline
#elif defined(__GNUC__)
#define DMA330_INLINE static __inline__
#else
#define DMA330_INLINE static
#endif

#define DMA330_NAMED(name) case DMA330_##name: return #name;
#define DMA330_NAMED_CAUSE(name) case DMA330_CAUSE_##name: return #name;
#define DMA330_NAMED_CSR(name) case DMA330_CSR_##name: return #name;
#define DMA330_NAMED_FTR(name) case DMA330_FTR_##name: return #name;
#define DMA330_NAMED_FTRD(name) case DMA330_FTRD_##name: return #name;

/* Returns the name of a code without DMA330_, for example "BUSY" for DMA330_BUSY; "?" if no code has this number. */
DMA330_INLINE const char *dma330_code_name(int32_t code)
{
    switch (code) {
        DMA330_NAMED(OK) DMA330_NAMED(NOT_OPEN) DMA330_NAMED(ALREADY_OPEN) DMA330_NAMED(NO_MEMORY)
        DMA330_NAMED(BAD_EVENT) DMA330_NAMED(BAD_ACCESS) DMA330_NAMED(NO_RESULT) DMA330_NAMED(NOT_RUNNING)
        DMA330_NAMED(BUFFER_TOO_SMALL) DMA330_NAMED(NO_PROGRAM) DMA330_NAMED(OUT_OF_MEMORY_RANGE) DMA330_NAMED(BUSY)
        DMA330_NAMED(NO_CHANNEL) DMA330_NAMED(COOKIES_SPENT) DMA330_NAMED(STEPS_SPENT) DMA330_NAMED(BAD_RANGE)
        DMA330_NAMED(RUNNING) DMA330_NAMED(BAD_CHANNELS) DMA330_NAMED(SIZE_OUT_OF_RANGE) DMA330_NAMED(BAD_REGIONS)
        DMA330_NAMED(BAD_CONFIG) DMA330_NAMED(EMPTY_LIST) DMA330_NAMED(TOO_MANY_SEGMENTS)
        DMA330_NAMED(EMPTY_SEGMENT) DMA330_NAMED(SEGMENT_WRAPS) DMA330_NAMED(TOTALS_DIFFER) DMA330_NAMED(TOO_LONG)
        DMA330_NAMED(DESTINATIONS_MEET) DMA330_NAMED(SOURCE_MEETS_DESTINATION) DMA330_NAMED(PROGRAM_TOO_LONG)
        DMA330_NAMED(BAD_SAVE) DMA330_NAMED(OTHER_DEVICE) DMA330_NAMED(BAD_MNEMONIC) DMA330_NAMED(BAD_OPERAND)
        DMA330_NAMED(NUMBER_OUT_OF_RANGE) DMA330_NAMED(CUT_INSTRUCTION) DMA330_NAMED(UNKNOWN_INSTRUCTION)
        DMA330_NAMED(BAD_FIELD) DMA330_NAMED(UNEXPLAINED)
    default: return "?";
    }
}

/* Returns the name of what a step did, an enum dma330_last_step, for example "MOVED" for DMA330_MOVED; "?" if none has
 * this number. */
DMA330_INLINE const char *dma330_last_step_name(uint32_t last)
{
    switch (last) {
        DMA330_NAMED(NO_STEP) DMA330_NAMED(MOVED) DMA330_NAMED(WAITING) DMA330_NAMED(ENDED) DMA330_NAMED(FAULT)
        DMA330_NAMED(SIGNALLED) DMA330_NAMED(STARTED) DMA330_NAMED(FINISHED) DMA330_NAMED(NOTHING) DMA330_NAMED(HELD)
        DMA330_NAMED(PAUSED) DMA330_NAMED(HALTED)
    default: return "?";
    }
}

/* Returns the name of a cause without DMA330_CAUSE_, for example "NO_END" for DMA330_CAUSE_NO_END; "?" if none has this
 * number. */
DMA330_INLINE const char *dma330_cause_name(uint32_t cause)
{
    switch (cause) {
        DMA330_NAMED_CAUSE(NONE) DMA330_NAMED_CAUSE(UNDEF_INSTR) DMA330_NAMED_CAUSE(OPERAND_INVALID)
        DMA330_NAMED_CAUSE(MFIFO_ERR) DMA330_NAMED_CAUSE(ST_DATA_UNAVAILABLE) DMA330_NAMED_CAUSE(INSTR_FETCH_ERR)
        DMA330_NAMED_CAUSE(LOADS_PAST) DMA330_NAMED_CAUSE(STORES_PAST) DMA330_NAMED_CAUSE(STORES_FIXED)
        DMA330_NAMED_CAUSE(DROPS_BYTES) DMA330_NAMED_CAUSE(BYTES_LEFT) DMA330_NAMED_CAUSE(STORES_TWICE)
        DMA330_NAMED_CAUSE(STORES_SOURCE) DMA330_NAMED_CAUSE(NO_END)
        DMA330_NAMED_CAUSE(UNSET_SAR) DMA330_NAMED_CAUSE(UNSET_DAR) DMA330_NAMED_CAUSE(UNSET_CCR)
        DMA330_NAMED_CAUSE(UNSET_LC0) DMA330_NAMED_CAUSE(UNSET_LC1)
    default: return "?";
    }
}

/* Returns the name of a fault, an enum dma330_fault, for example "MFIFO_ERR" for DMA330_MFIFO_ERR; "?" if none has this
 * number. */
DMA330_INLINE const char *dma330_fault_name(uint32_t fault)
{
    switch (fault) {
        DMA330_NAMED(UNDEF_INSTR) DMA330_NAMED(OPERAND_INVALID) DMA330_NAMED(MFIFO_ERR)
        DMA330_NAMED(ST_DATA_UNAVAILABLE) DMA330_NAMED(INSTR_FETCH_ERR) DMA330_NAMED(DATA_WRITE_ERR)
        DMA330_NAMED(DATA_READ_ERR)
    default: return "?";
    }
}

/* Returns the name of a result, an enum dma330_result_code, for example "ABORTED" for DMA330_ABORTED; "?" if none has
 * this number. */
DMA330_INLINE const char *dma330_result_name(uint32_t result)
{
    switch (result) {
        DMA330_NAMED(NO_ERROR) DMA330_NAMED(READ_FAILED) DMA330_NAMED(WRITE_FAILED) DMA330_NAMED(ABORTED)
    default: return "?";
    }
}

/* Returns the name of the status in bits 3:0 of a CSR, for example "EXECUTING" for DMA330_CSR_EXECUTING; "?" if it is
 * reserved. */
DMA330_INLINE const char *dma330_csr_name(uint32_t csr)
{
    switch (csr & 15) {
        DMA330_NAMED_CSR(STOPPED) DMA330_NAMED_CSR(EXECUTING) DMA330_NAMED_CSR(CACHE_MISS)
        DMA330_NAMED_CSR(UPDATING_PC) DMA330_NAMED_CSR(WAITING_FOR_EVENT) DMA330_NAMED_CSR(AT_BARRIER)
        DMA330_NAMED_CSR(WAITING_FOR_PERIPHERAL) DMA330_NAMED_CSR(KILLING) DMA330_NAMED_CSR(COMPLETING)
        DMA330_NAMED_CSR(FAULTING_COMPLETING) DMA330_NAMED_CSR(FAULTING)
    default: return "?";
    }
}

/* Returns the name of bit number `bit` of a channel's FTR, for example "MFIFO_ERR" for DMA330_FTR_MFIFO_ERR, 12; "?" if
 * it is reserved. */
DMA330_INLINE const char *dma330_ftr_name(uint32_t bit)
{
    switch (bit) {
        DMA330_NAMED_FTR(UNDEF_INSTR) DMA330_NAMED_FTR(OPERAND_INVALID) DMA330_NAMED_FTR(CH_EVNT_ERR)
        DMA330_NAMED_FTR(CH_PERIPH_ERR) DMA330_NAMED_FTR(CH_RDWR_ERR) DMA330_NAMED_FTR(MFIFO_ERR)
        DMA330_NAMED_FTR(ST_DATA_UNAVAILABLE) DMA330_NAMED_FTR(INSTR_FETCH_ERR) DMA330_NAMED_FTR(DATA_WRITE_ERR)
        DMA330_NAMED_FTR(DATA_READ_ERR) DMA330_NAMED_FTR(DBG_INSTR) DMA330_NAMED_FTR(LOCKUP_ERR)
    default: return "?";
    }
}

/* Returns the name of bit number `bit` of the manager's FTRD, for example "DMAGO_ERR" for DMA330_FTRD_DMAGO_ERR, 4; "?"
 * if it is reserved. */
DMA330_INLINE const char *dma330_ftrd_name(uint32_t bit)
{
    switch (bit) {
        DMA330_NAMED_FTRD(UNDEF_INSTR) DMA330_NAMED_FTRD(OPERAND_INVALID) DMA330_NAMED_FTRD(DMAGO_ERR)
        DMA330_NAMED_FTRD(MGR_EVNT_ERR) DMA330_NAMED_FTRD(INSTR_FETCH_ERR) DMA330_NAMED_FTRD(DBG_INSTR)
    default: return "?";
    }
}

#undef DMA330_NAMED
#undef DMA330_NAMED_CSR
#undef DMA330_NAMED_FTR
#undef DMA330_NAMED_FTRD
#undef DMA330_NAMED_CAUSE
#undef DMA330_INLINE

/* ---- a controller and its memory ----
 *
 * A controller copies within a memory of its own, whose addresses begin at 0. Between calls nothing happens: the
 * library has no threads, timers or callbacks. */

/* Opens a controller with a memory of `size` zeros and with `channels` channels. It takes 2 KiB, 9,200 bytes for each
 * channel, and 24 bytes for each 4 MiB of the memory. When a page of 4,096 bytes is first written, or a transfer to it
 * starts, 16,384 bytes are allocated for it and its three neighbours. The first page in 4 MiB takes another 6 KiB. A
 * list of pages has a byte or two for each page from address 0 up to the highest one that is allocated. Codes:
 * ALREADY_OPEN, BAD_CHANNELS, SIZE_OUT_OF_RANGE, NO_MEMORY. */
int32_t dma330_open(dma330_controller *controller, uint32_t size, uint8_t channels) DMA330_NO_NULLS;

/* Frees what an open controller holds; it may be opened again. Does nothing if it isn't open. */
void dma330_close(dma330_controller *controller) DMA330_NO_NULLS;

/* Writes bytes into the memory from an address on, also where an error is injected. Codes: OUT_OF_MEMORY_RANGE, BUSY if
 * a running transfer reads or writes one of the addresses (`*conflict` then names it), NO_MEMORY. */
int32_t dma330_write(dma330_controller *controller, uint32_t addr, const uint8_t *bytes, size_t len,
                     dma330_conflict *conflict) DMA330_NO_NULLS;

/* Reads `len` bytes of the memory from an address on, also where an error is injected. The history keeps a copy of
 * them, so read gigabytes in parts, and empty the history by dma330_checkpoint. Codes: OUT_OF_MEMORY_RANGE, BUSY if a
 * running transfer writes one of the addresses (`*conflict` then names it), NO_MEMORY. */
int32_t dma330_read(dma330_controller *controller, uint32_t addr, uint8_t *out, size_t len,
                    dma330_conflict *conflict) DMA330_NO_NULLS;

/* ---- transfers ----
 *
 * A transfer is a copy or a fill. It is submitted, issued, and then executed step by step: the first step starts it,
 * each further one executes an instruction of the program that the controller has made for it, and the last one
 * finishes it. From its start to its finish it runs. Two transfers conflict if one writes where the other reads or
 * writes. Such two never run at the same time: the second is held until the first has finished. */

/* Queues a copy on a channel, and writes its cookie, which is its number on the channel, 1 for the first. The bytes of
 * the source list go to the places of the destination list, in their order. It starts after dma330_issue, and once no
 * running transfer conflicts with it. Then it waits for the event `wait`, if there is one, copies, and signals the
 * event `signal`, if there is one, once all is stored. A transfer that fails or is aborted doesn't signal. A halted
 * channel accepts it, and dma330_terminate aborts it with the rest. Each rule is tested over both lists before the
 * next. Codes: EMPTY_LIST, TOO_MANY_SEGMENTS, EMPTY_SEGMENT, SEGMENT_WRAPS, TOTALS_DIFFER, TOO_LONG, DESTINATIONS_MEET,
 * SOURCE_MEETS_DESTINATION, BAD_EVENT, NO_MEMORY, NO_CHANNEL, OUT_OF_MEMORY_RANGE, COOKIES_SPENT, NO_MEMORY. */
int32_t dma330_submit(dma330_controller *controller, uint8_t channel, const dma330_segment *src, size_t src_count,
                      const dma330_segment *dst, size_t dst_count, int32_t wait, int32_t signal,
                      uint32_t *cookie) DMA330_NO_NULLS;

/* Queues a fill, as dma330_submit queues a copy. It copies the byte at address `src` to every place of the destination
 * list. Codes: those of dma330_submit except TOTALS_DIFFER. */
int32_t dma330_submit_fill(dma330_controller *controller, uint8_t channel, uint32_t src, const dma330_segment *dst,
                           size_t dst_count, int32_t wait, int32_t signal, uint32_t *cookie) DMA330_NO_NULLS;

/* Allows all submitted transfers of a channel to start, one after another, and writes how many were not allowed before.
 * It adds an entry to the history even if that number is 0. Codes: NO_CHANNEL, NO_MEMORY. */
int32_t dma330_issue(dma330_controller *controller, uint8_t channel, uint32_t *count) DMA330_NO_NULLS;

/* Pauses a channel: its steps do nothing until dma330_resume or dma330_terminate. It may be paused already. Codes:
 * NO_CHANNEL. */
int32_t dma330_pause(dma330_controller *controller, uint8_t channel) DMA330_NO_NULLS;

/* Ends the pause of a channel. Codes: NO_CHANNEL. */
int32_t dma330_resume(dma330_controller *controller, uint8_t channel) DMA330_NO_NULLS;

/* Aborts all unfinished transfers of a channel, issued or not, ends its pause and its halt, and writes the number of
 * aborted transfers; one that failed isn't counted. Stored bytes stay stored, and raised events stay raised. Codes:
 * NO_CHANNEL, NO_MEMORY. */
int32_t dma330_terminate(dma330_controller *controller, uint8_t channel, uint32_t *count) DMA330_NO_NULLS;

/* Lets a channel take up to `most` steps, and reports what the last one did. It ends early after a step that is neither
 * DMA330_STARTED nor DMA330_MOVED. The call is refused only if its first step is. If a later step is refused, the call
 * returns DMA330_OK with a report of the steps before, and the next call tries that step again. Codes, of the first
 * step: NO_CHANNEL, STEPS_SPENT, NO_MEMORY. With `most` 0 the only code is NOT_OPEN. */
int32_t dma330_step(dma330_controller *controller, uint8_t channel, uint32_t most,
                    dma330_report *report) DMA330_NO_NULLS;

/* ---- readings ----
 *
 * What a controller says of itself. None of these calls changes it, and only a checkpoint makes it forget a result. */

/* Returns the state of a cookie, an enum dma330_state, or NOT_OPEN. A cookie that was never given, and any cookie of a
 * channel that doesn't exist, is DMA330_UNKNOWN. */
int32_t dma330_status(dma330_controller *controller, uint8_t channel, uint32_t cookie) DMA330_NO_NULLS;

/* Writes how the transfer with a cookie finished, and its residue. Codes: NO_RESULT. */
int32_t dma330_result(dma330_controller *controller, uint8_t channel, uint32_t cookie,
                      dma330_outcome *outcome) DMA330_NO_NULLS;

/* Writes the transfer that runs on a channel. Codes: NOT_RUNNING. */
int32_t dma330_running(dma330_controller *controller, uint8_t channel, dma330_run *running) DMA330_NO_NULLS;

/* Writes the number of unfinished cookies of a channel, 0 for a channel that doesn't exist. */
int32_t dma330_unfinished(dma330_controller *controller, uint8_t channel, uint32_t *count) DMA330_NO_NULLS;

/* Writes how many cookies of a channel, from cookie 1 on, have results that checkpoints have forgotten; 0 for a channel
 * that doesn't exist. */
int32_t dma330_forgotten(dma330_controller *controller, uint8_t channel, uint32_t *count) DMA330_NO_NULLS;

/* Writes the number of steps that moved or finished a transfer, on all channels since the controller was opened. The
 * member `taken` of reports counts more: also the steps that started a transfer, and those that did nothing. */
int32_t dma330_steps(dma330_controller *controller, uint64_t *steps) DMA330_NO_NULLS;

/* Writes the number of entries of the history: one for each accepted write, read, submit, issue, terminate, raise and
 * each call for injected errors, and for each wait that passes, each signal and each finish. */
int32_t dma330_history_entries(dma330_controller *controller, uint64_t *count) DMA330_NO_NULLS;

/* Writes the number of bytes of writes and reads that the history keeps, in time proportional to its entries. This is
 * not the memory that the history takes. An entry has 64 bytes, and the list of entries has room for up to twice as
 * many. So an entry takes 64 to 128 bytes of memory, and up to 192 while the list grows. A write or a read of over 22
 * bytes takes these bytes and 24 more. A submit takes 16 to 32 more for its result, and more again if it has lists of
 * several segments. */
int32_t dma330_history_bytes(dma330_controller *controller, uint64_t *count) DMA330_NO_NULLS;

/* Writes the number of running transfers of all channels. */
int32_t dma330_running_count(dma330_controller *controller, uint32_t *count) DMA330_NO_NULLS;

/* ---- injected errors, events, the history ----
 *
 * The history is a list of what happened, which grows as long as the controller is used; what is proved of replies
 * refers to it. A program that runs for days empties it by dma330_checkpoint. */

/* Injects an error into a range: from now on bursts fail that read it, or that write it, by `access` (enum
 * dma330_access). A burst is what one load or store moves. The range may lie inside the memory or not. Codes:
 * BAD_ACCESS, BAD_RANGE, NO_MEMORY. */
int32_t dma330_inject_error(dma330_controller *controller, uint32_t access, dma330_segment range) DMA330_NO_NULLS;

/* Removes all injected errors. Codes: NO_MEMORY. */
int32_t dma330_uninject_errors(dma330_controller *controller) DMA330_NO_NULLS;

/* Sets the flag of an event of the controller, which stays set until a transfer that waits for it passes and clears it.
 * To clear one, run a fill of one byte that waits for it; if a step reports DMA330_WAITING, the flag was clear, and a
 * terminate removes the fill. Codes: BAD_EVENT, NO_MEMORY. */
int32_t dma330_raise(dma330_controller *controller, uint8_t event) DMA330_NO_NULLS;

/* Drops the history and the results of finished transfers, and frees their memory. Nothing else changes: transfers that
 * haven't started stay. It first copies the pages that are allocated (see dma330_open), so the controller then holds
 * them twice, and three times during a later checkpoint. Codes: RUNNING if a transfer runs (`*conflict` then names it),
 * NO_MEMORY. A transfer runs also while it is paused or waits for an event: resume the channel, raise the event or
 * terminate. If channels are always busy, don't step idle ones (dma330_running returns NOT_RUNNING) until the others
 * finish. */
int32_t dma330_checkpoint(dma330_controller *controller, dma330_conflict *conflict) DMA330_NO_NULLS;

/* ---- a channel over the caller's memory ----
 *
 * A channel needs no controller. Its program reads and writes your memory in place. You lend this memory for the time
 * of a call, as regions: an array that rises by address, in which no `bytes` is null and no two overlap. (Lend RAM that
 * the guest sees at two addresses at one of them.) The flags of its events are the bits of a number of yours, to which
 * you pass a pointer. Between calls memory and flags are yours to read and to write. Several channels may step in turn
 * over the same memory and flags, each call over the regions that it is lent. An open channel has room for the longest
 * program, so load_program, load_from and restore allocate nothing.
 *
 * This is proved for a transfer whose program load_copy or load_fill has made and loaded, and also if load_program or
 * load_from has loaded bytes that begin with such a program:
 * - Until its program ends, `report->written` has only destinations of the transfer, whatever others write.
 * - Suppose that since the load each call on the channel was lent regions with the transfer's ranges, none of its
 *   destinations read-only, and nobody else wrote there. Then the first `stored` bytes of the destinations, as
 *   dma330_channel_registers counts them, are the sources' bytes at the load, and the rest of these ranges is
 *   unchanged, also after a stop or a fault. After SIGNALLED or ENDED all bytes are copied. A call waits only for the
 *   transfer's event, and fails only at an injected error in these ranges.
 * - Another channel may be loaded at any time, and stepped over regions of its own. In two cases it is known that it
 *   doesn't write there: if no `report->written` of it since the load has an address of these ranges, or if it runs the
 *   program of another transfer whose destinations lie elsewhere. */

/* Opens a channel without a program and without injected errors, with room for the longest program. Codes:
 * ALREADY_OPEN, NO_MEMORY. */
int32_t dma330_channel_open(dma330_channel *channel) DMA330_NO_NULLS;

/* Frees what an open channel holds; it may be opened again. Does nothing if it isn't open. */
void dma330_channel_close(dma330_channel *channel) DMA330_NO_NULLS;

/* Loads the program of a copy into a channel, in place of the one before. Registers and counts become 0, and the buffer
 * is empty. The lists, `wait` and `signal` are as for dma330_submit. Codes: those of dma330_submit up to the first
 * NO_MEMORY. */
int32_t dma330_channel_load_copy(dma330_channel *channel, const dma330_segment *src, size_t src_count,
                                 const dma330_segment *dst, size_t dst_count, int32_t wait,
                                 int32_t signal) DMA330_NO_NULLS;

/* Loads the program of a fill into a channel, as dma330_channel_load_copy loads that of a copy. Codes: the same except
 * TOTALS_DIFFER. */
int32_t dma330_channel_load_fill(dma330_channel *channel, uint32_t src, const dma330_segment *dst, size_t dst_count,
                                 int32_t wait, int32_t signal) DMA330_NO_NULLS;

/* Loads a program from its bytes into a channel, which keeps a copy of them. The rest is as for
 * dma330_channel_load_copy. Codes: PROGRAM_TOO_LONG. */
int32_t dma330_channel_load_program(dma330_channel *channel, const uint8_t *program, size_t len) DMA330_NO_NULLS;

/* Loads a program from address `addr` of the regions into a channel. The rest is as for dma330_channel_load_copy. The
 * program has the bytes from there up to the first address that no region has, 8192 at most, so a program may cross
 * from one region into one that touches it. If no region has `addr`, there are no bytes, and the first step fails with
 * DMA330_INSTR_FETCH_ERR. Codes: BAD_REGIONS. */
int32_t dma330_channel_load_from(dma330_channel *channel, const dma330_region *regions, size_t region_count,
                                 uint32_t addr) DMA330_NO_NULLS;

/* Takes at most `most` steps over the regions and the flags of events 0 to 31, which are the bits of `*flags`, and
 * reports what they did. The call ends early in five cases:
 * - the program ends, waits or fails;
 * - it has executed a DMASEV, so that you can raise an interrupt;
 * - it has executed 4294967295 instructions since the load: each further call reports NO_STEP;
 * - its next store neither overlaps nor touches the range written so far, since a call reports one range without gaps;
 * - its next store would make this range 2^32 bytes long, which `written.len` can't hold.
 *
 * In the last two cases the report says MOVED, and the next call begins with that store.
 *
 * Loads outside the regions fail with DMA330_DATA_READ_ERR, stores outside them or to a read-only region with
 * DMA330_DATA_WRITE_ERR. A burst may cross from one region into one that touches it. After a burst that ends with
 * address 4294967295, SAR or DAR is 0; a burst that goes beyond this address fails. The call writes only bytes of
 * regions, never the array that lists them.
 * A channel that has failed isn't stopped: the next step tries the instruction again, so stop stepping it. Codes:
 * BAD_REGIONS, NO_PROGRAM. */
int32_t dma330_channel_step(dma330_channel *channel, const dma330_region *regions, size_t region_count, uint32_t *flags,
                            uint32_t most, dma330_channel_report *report) DMA330_NO_NULLS;

/* Drops the program of a channel. Registers and counts stay. */
int32_t dma330_channel_stop(dma330_channel *channel) DMA330_NO_NULLS;

/* Writes the registers and counts of a channel. */
int32_t dma330_channel_registers(dma330_channel *channel, dma330_registers *registers) DMA330_NO_NULLS;

/* Injects an error into a range: from now on loads or stores of this channel fail there, by `access` (enum
 * dma330_access). The range may lie inside the regions or not. Codes: BAD_ACCESS, BAD_RANGE, NO_MEMORY. */
int32_t dma330_channel_inject_error(dma330_channel *channel, uint32_t access, dma330_segment range) DMA330_NO_NULLS;

/* Removes all injected errors of this channel. */
int32_t dma330_channel_uninject_errors(dma330_channel *channel) DMA330_NO_NULLS;

/* Writes the whole channel, except its injected errors, as bytes, and their number, at most DMA330_MAX_SAVE. Codes:
 * BUFFER_TOO_SMALL. By offsets the bytes are as follows; numbers have their low byte first:
 *
 *     0               8 bytes: dma330, a 0, and the version of this layout, 1
 *     8, 12, 16, 20   4 each: the offset of the next instruction, SAR, DAR, CCR
 *     24, 25          1 each: LC0, LC1
 *     26, 30          4 and 8: instructions executed, bytes stored since the load
 *     38, 39          1 each: 1 if a program is loaded, 1 if load_copy or load_fill has made it, else 0
 *     40              4: of a program made so, how many instructions it executes if none fails, else 0
 *     44, 46          2 each: the number of bytes in the buffer, and of the program
 *     48              the buffer, oldest byte first, then the program
 *     end             4: the Adler-32 checksum (RFC 1950) of all bytes before it */
int32_t dma330_channel_save(dma330_channel *channel, uint8_t *out, size_t room, size_t *len) DMA330_NO_NULLS;

/* Makes the channel the one that was saved. A save holds no injected errors; those of this channel stay. Accepts bytes
 * exactly if they have the layout above and these values, and if besides: DMAMOV accepts the CCR; the offset of the
 * next instruction is in the program or at its end (any number if none is loaded); at most 256 bytes were stored for
 * each instruction; lengths and checksum are right. If the byte at offset 39 says that load_copy or load_fill has made
 * the program, this isn't tested. Codes: BAD_SAVE. */
int32_t dma330_channel_restore(dma330_channel *channel, const uint8_t *save, size_t len) DMA330_NO_NULLS;

/* ---- a device over the caller's memory ----
 *
 * A device has the registers of a DMA-330, as a guest's driver sees them (Technical Reference Manual, ARM DDI 0424).
 * Its channels execute the guest's programs in your memory, which you lend as for a channel. An emulator does this:
 * - It forwards the guest's accesses of registers, by dma330_device_read and dma330_device_write.
 * - It lets each channel take turns, by dma330_device_step, while the member `can_step` of the last turn is 1, or
 *   dma330_device_can_step writes 1.
 * - It sets its interrupt lines to what dma330_device_lines writes, after each write, reset and restore, and after each
 *   turn that reports `lines_changed`.
 *
 * docs/DEVICES.md has it as code, and docs/CHIP.md lists what differs from the chip. Only dma330_device_open and
 * dma330_device_explain allocate. */

/* Opens a device in its state after a reset. It takes a little more than 8,704 bytes for each channel: 8,192 for the
 * longest program, and two buffers of 256. Codes: ALREADY_OPEN, BAD_CONFIG, NO_MEMORY. */
int32_t dma330_device_open(dma330_device *device, const dma330_device_config *config) DMA330_NO_NULLS;

/* Frees what an open device holds; it may be opened again. Does nothing if it isn't open. */
void dma330_device_close(dma330_device *device) DMA330_NO_NULLS;

/* Puts the device into its state after a reset. */
int32_t dma330_device_reset(dma330_device *device) DMA330_NO_NULLS;

/* Reads a register for the guest, 32 bits wide, by its offset, from 0 to 4095. Any other offset, and one that has no
 * register, reads as 0. No read changes the device. docs/DEVICES.md lists the registers. */
int32_t dma330_device_read(dma330_device *device, uint32_t offset, uint32_t *value) DMA330_NO_NULLS;

/* Writes a register for the guest. A write to an offset without a register that can be written is ignored. A write to
 * DBGCMD (offset 0xD04) executes the instruction in DBGINST0 and DBGINST1 if bits 1:0 of the value are 0, for example
 * if the value is 0 or 4. If that is a DMAGO, it reads the channel's program from the regions, up to the first address
 * that no region has, 8192 bytes at most. If no region has the address at which the program begins, there are no bytes,
 * and the channel's first step fails by instr_fetch_err. No other write reads the regions, and no write changes a byte
 * of them. Codes: BAD_REGIONS, which only a write to DBGCMD tests. */
int32_t dma330_device_write(dma330_device *device, uint32_t offset, uint32_t value, const dma330_region *regions,
                            size_t region_count) DMA330_NO_NULLS;

/* Lets a channel take a turn, which is at most `most` steps, and reports what they did. A channel that is stopped or
 * faulting, or that the device doesn't have, does nothing. The turn ends early in five cases:
 * - the program ends, waits or fails;
 * - it has executed a DMASEV, so that you can set the interrupt lines;
 * - it has executed 4294967295 instructions since its DMAGO. In the channel's next turn that may take a step, it takes
 *   none and fails by lockup_err, since this failure isn't counted as a step. (If the last of these instructions is the
 *   DMASEV of an interrupt, and the turn would take one more step, the channel fails in this turn already.)
 * - its next store neither overlaps nor touches the range written so far, since a turn reports one range without gaps;
 * - its next store would make this range 2^32 bytes long, which `written.len` can't hold.
 *
 * After the DMASEV of an interrupt it takes one more step, mostly the DMAEND, since a driver's handler expects its
 * channel to be stopped. If this step would be a store, it is left to the next turn, so that at the interrupt no more
 * is copied than before its DMASEV. Whatever the guest's program is, the turn wrote each byte of `turn->written`. Each
 * of them lies in a region that isn't read-only, and no byte elsewhere has changed. Codes: BAD_REGIONS. */
int32_t dma330_device_step(dma330_device *device, uint8_t channel, uint32_t most, const dma330_region *regions,
                           size_t region_count, dma330_device_turn *turn) DMA330_NO_NULLS;

/* Lets a channel take several turns, one for each row, while it copies the rows of a rectangle. By dma330_device_step
 * each row takes a call, since the rows have gaps between them. The call finds rows in a loop that copies each of them
 * by pairs of DMALD and DMAST with bursts of the same length. At the end of a round, this loop adds a multiple of the
 * beats' size to DAR, and perhaps before that one to SAR, each by a DMAADDH. It takes them as rows only if every row is
 * stored above the place from which it was loaded, or every row below it.
 *
 * Elsewhere the call takes one turn, so it may always be made in place of dma330_device_step. Before this turn it looks
 * for rows in at most the next 300 instructions, or `most` if that is less. It doesn't execute these, so they aren't
 * steps. If it finds rows there, the turn ends where they begin, or earlier: its bound `rows->steps` is then less than
 * `most`.
 *
 * The result is that of `rows->count` calls of dma330_device_step with a `most` of `rows->steps`; `count` times `steps`
 * is at most `most`. Together they took `count` times `turn.taken` steps. Codes: BAD_REGIONS. */
int32_t dma330_device_step_rows(dma330_device *device, uint8_t channel, uint32_t most, const dma330_region *regions,
                                size_t region_count, dma330_device_rows *rows) DMA330_NO_NULLS;

/* Explains the program that a DMAGO gave a channel, as dma330_explain does, for the device's bus and with the registers
 * that the channel has. Ask right after the DMAGO, before the channel's first turn: a DMAGO keeps the registers, so
 * these are then those with which the program begins. The channel's turns change them. A later call still explains the
 * program from its first instruction on, but with the registers of that moment, so its answer may be wrong. (If
 * dma330_explain explains the program with DMA330_ANY_REGISTERS, too, the registers don't matter, and each later answer
 * is the first one.)
 *
 * What the call has answered right after the DMAGO remains true of the channel's turns, also after a restore of what
 * dma330_device_save has written since then. So keep this answer over a migration, and don't ask again. Of a save that
 * no device wrote nothing is promised, since it may have any registers.
 *
 * A channel has a program from the DMAGO until the DMAEND or a DMAKILL, also while it waits or is faulting. The
 * explanation doesn't depend on the number of events: a device fails at an instruction with an event that it doesn't
 * have. Codes: NO_CHANNEL, NO_PROGRAM, NO_MEMORY, UNEXPLAINED, BUFFER_TOO_SMALL; for the last two the explanation is
 * written, as by dma330_explain. */
int32_t dma330_device_explain(dma330_device *device, uint8_t channel, uint32_t most, dma330_repeated *src,
                              size_t src_room, dma330_segment *dst, size_t dst_room, dma330_segment *zeros,
                              size_t zeros_room, dma330_event *events, size_t events_room,
                              dma330_explanation *explanation) DMA330_NO_NULLS;

/* Writes the registers and counts of a device's channel. If the channel has failed, they are those from before the
 * instruction that failed, whatever the fault is. Say that dma330_device_explain explained the program before its first
 * turn, and that nobody else writes what the program reads or writes. Then `stored` says how far it is, also if the
 * channel waits or is faulting: so many bytes are done, copied and set to 0 together. They are the first ones of `dst`
 * and the first ones of `zeros`; how many of them are in `dst` isn't said. Codes: NO_CHANNEL. */
int32_t dma330_device_registers(dma330_device *device, uint8_t channel, dma330_registers *registers) DMA330_NO_NULLS;

/* Writes the interrupt lines: irq[31:0] as bits, and 1 if the line irq_abort is high, else 0. A high line of irq stays
 * high until one of three things happens: the guest clears its interrupt by INTCLR, the device is reset, or a device is
 * restored in which the line is low. INTCLR clears what INTEN makes an interrupt at that time, also an event that was
 * set before INTEN made it one. The line irq_abort is high until the guest has killed each faulting channel, and the
 * manager if that is faulting. */
int32_t dma330_device_lines(dma330_device *device, uint32_t *irqs, uint32_t *irq_abort) DMA330_NO_NULLS;

/* Writes 1 if any channel can step, else 0. A channel can step if it executes a program and doesn't wait; one that
 * waits can if its event is set and INTEN doesn't make it an interrupt. After a 0 nothing happens until the guest's
 * next write of a register, a reset or a restore: a turn changes nothing, and reports no byte and no line. */
int32_t dma330_device_can_step(dma330_device *device, uint32_t *can_step) DMA330_NO_NULLS;

/* Writes the whole device as bytes, and their number, at most DMA330_MAX_DEVICE_SAVE. Codes: BUFFER_TOO_SMALL. By
 * offsets the bytes are as follows; numbers have their low byte first:
 *
 *     0            7 bytes: dma330 and a 1
 *     7            1: the version of this layout, 1
 *     8, 9, 10     1 each: channels, events, 1 if the manager is non-secure after a reset
 *     11, 12       1 each: the codes of the bus in CRD (2 to 4) and of the revision in periph_id_2 (0 to 3)
 *     13           2: the lines of the buffer, 1 to 1024
 *     15           1: 1 if the manager is faulting, else 0
 *     16           4: FTRD
 *     20, 24, 28   4 each: the events that are set, the interrupts that are set, INTEN
 *     32, 36       4 each: DBGINST0, DBGINST1
 *     40           for each channel from 0 up, 4 each: CSR, FTR, the address at which its program begins, CPC, the
 *                  length of its save; then its save, as dma330_channel_save writes it
 *     end          4: the Adler-32 checksum (RFC 1950) of all bytes before it */
int32_t dma330_device_save(dma330_device *device, uint8_t *out, size_t room, size_t *len) DMA330_NO_NULLS;

/* Makes the device the one that was saved. Codes: OTHER_DEVICE, if there are 15 bytes or more, the first 7 are those of
 * dma330_device_save, and the next 8 aren't this version with this configuration: the device stays as it was. BAD_SAVE,
 * if anything else is wrong, also if there are fewer bytes: the device is then in its state after a reset.
 *
 * A save in which one byte is changed is refused. A save is also refused if its values don't go together. These rules
 * hold in each device:
 * - Events, interrupts and INTEN have bits only of the device's events.
 * - FTRD is 0 or the fault of a debug instruction, and it isn't 0 if the manager is faulting.
 * - A stopped channel has no program. One that executes or waits has a program, and its FTR is 0. FTR of a faulting one
 *   isn't 0.
 * - CPC is the address at which the program begins, plus the offset of the next instruction in it (modulo 2^32). If FTR
 *   isn't 0, CPC may also be 2 less, since a DMASEV that has failed leaves it so. Which instruction is there isn't
 *   tested.
 * - CPC of a channel that waits is the address of a DMAWFE of the event in its CSR, which is one of the device's, and
 *   this channel has executed fewer than 4294967295 instructions.
 * - No beat in CCR is wider than the bus.
 * - The save of a channel doesn't say that dma330_channel_load_copy or dma330_channel_load_fill made its program.
 * A restore doesn't test whether a guest can bring a device into the saved state, so a forged one may be accepted. */
int32_t dma330_device_restore(dma330_device *device, const uint8_t *save, size_t len) DMA330_NO_NULLS;

/* ---- programs of channels ----
 *
 * These calls need nothing that is open. Programs have the instructions DMAMOV, DMALD, DMAST, DMALP with DMALPEND,
 * DMARMB, DMAWMB, DMANOP, DMASEV, DMAWFE and DMAEND. On a device, and where `bus` is that of a device, they also have
 * DMASTZ, DMAADDH, DMAADNH and the DMALPEND that ends a loop without a count (a DMALPFE), which have no text here
 * (dma330_program.h has their bytes). All others fail with DMA330_UNDEF_INSTR, and so do the forms that depend on a
 * peripheral's request, such as DMALDS. A text has one instruction a line, without a space before it, in capital
 * letters and digits; a line that begins with # and an empty line are skipped. A DMALPEND names the counter and how
 * many bytes before it the loop begins. This text copies 1024 bytes as 4 bursts of 16 beats of 16 bytes:
 *
 *     DMAMOV SAR 0x80001000
 *     DMAMOV DAR 0x80002000
 *     DMAMOV CCR 0x003E40F9
 *     DMALP 0 4
 *     DMALD
 *     DMAST
 *     DMALPEND 0 2
 *     DMAEND
 *
 * A program that waits for event 3 has DMAWFE 3, or DMAWFE 3 invalid (the word `invalid` changes nothing here), and one
 * that signals it has DMASEV 3. dma330_program.h has a macro for the bytes of each instruction. */

/* Writes DMA330_VERSION and a zero byte, and its length without that byte. Codes: BUFFER_TOO_SMALL. */
int32_t dma330_version(char *out, size_t room, size_t *len) DMA330_NO_NULLS;

/* Runs a program alone over your memory, which begins at address 0, with all flags clear, for at most `limit`
 * instructions, and writes how it ended. The program may not lie inside the memory. Codes: SIZE_OUT_OF_RANGE,
 * PROGRAM_TOO_LONG, NO_MEMORY. */
int32_t dma330_run_program(const uint8_t *program, size_t len, uint8_t *memory, size_t size, uint32_t limit,
                           dma330_run_end *end) DMA330_NO_NULLS;

/* Explains a program before it runs. Writes four lists, each in the order of the run: which bytes it reads (`src`),
 * where it stores them (`dst`), which it sets to 0 by DMASTZ (`zeros`), and the events that it waits for and signals
 * (`events`). The explanation has the numbers of items. Byte number p that the program reads is byte number p that it
 * stores. No byte is stored twice, set to 0 twice, or stored and set to 0, and none where one is read.
 * docs/EXPLANATIONS.md has an example.
 *
 * `bus` is 0 for a dma330_channel, or 32, 64 or 128 for a channel of a device with this bus. The program begins with
 * the registers of `start` that are known. What is found holds whatever the others are: if an instruction uses one of
 * them before the program sets it, the program is refused (causes UNSET_SAR to UNSET_LC1).
 *
 * The call runs the program once, without a memory, for at most `most` instructions: their order and addresses are the
 * same in each memory. So a channel that runs the program does exactly this, if the regions have all these addresses,
 * none that it writes is read-only, no error is injected there, and nobody else writes there meanwhile. If UNEXPLAINED
 * is returned, the explanation has the cause, the offset of the instruction that has it, and how many instructions are
 * executed before. With a cause UNSET_SAR to UNSET_LC1 the program uses this register there; with any other cause it
 * makes no such copy within `most` instructions. For BUFFER_TOO_SMALL the explanation is that of DMA330_OK, so the
 * numbers are the room that is needed. Only DMA330_OK writes the lists, each from its first item on. For the same
 * arguments it writes the same items, and neighbours that can be one item are one.
 *
 * `most` bounds what a program of somebody else can cost. The time is proportional to the executed instructions, and at
 * the end the ranges that are stored are sorted. The call allocates up to 24 bytes for each executed DMAWFE and DMASEV.
 * For a DMALD that doesn't continue the range before it, it allocates 12, and for such a DMAST or DMASTZ 8, with 8 more
 * at the end. While a list grows, it takes up to three times that. All is freed when the call returns.
 *
 * Codes: BAD_CONFIG for another bus, for a number that `known` can't be, and for a known CCR that no channel on the bus
 * has; PROGRAM_TOO_LONG, NO_MEMORY, UNEXPLAINED, BUFFER_TOO_SMALL. */
int32_t dma330_explain(const uint8_t *program, size_t len, uint32_t bus, const dma330_start *start, uint32_t most,
                       dma330_repeated *src, size_t src_room, dma330_segment *dst, size_t dst_room,
                       dma330_segment *zeros, size_t zeros_room, dma330_event *events, size_t events_room,
                       dma330_explanation *explanation) DMA330_NO_NULLS;

/* Writes the program of a copy, for a bus. If `bus` is 0, it is the one that dma330_channel_load_copy loads; if it is
 * 32, 64 or 128, one for a device with a bus of so many bits, which never moves a beat that is wider. The lists, `wait`
 * and `signal` are as for dma330_submit. DMA330_MAX_PROGRAM bytes are room for each program. Codes: BAD_CONFIG for
 * another bus, those of dma330_submit up to the first NO_MEMORY, BUFFER_TOO_SMALL. */
int32_t dma330_plan(const dma330_segment *src, size_t src_count, const dma330_segment *dst, size_t dst_count,
                    int32_t wait, int32_t signal, uint32_t bus, uint8_t *out, size_t room, size_t *len) DMA330_NO_NULLS;

/* Writes the program of a fill, for a bus, as dma330_plan writes that of a copy. Codes: the same except
 * TOTALS_DIFFER. */
int32_t dma330_plan_fill(uint32_t src, const dma330_segment *dst, size_t dst_count, int32_t wait, int32_t signal,
                         uint32_t bus, uint8_t *out, size_t room, size_t *len) DMA330_NO_NULLS;

/* Assembles a text, and writes the program's bytes and their number. Codes for a faulty line, whose number from 1 on is
 * then in `*place`: BAD_MNEMONIC, BAD_OPERAND, NUMBER_OUT_OF_RANGE, and PROGRAM_TOO_LONG if the line goes past 8192
 * bytes. Other codes: NO_MEMORY, BUFFER_TOO_SMALL. */
int32_t dma330_assemble(const char *text, size_t text_len, uint8_t *out, size_t room, size_t *len,
                        size_t *place) DMA330_NO_NULLS;

/* Disassembles a program, and writes its text and the text's length. Each line ends with a line feed; no zero byte
 * follows. Codes for bytes that begin no instruction, the first offset of which is then in `*place`: CUT_INSTRUCTION,
 * UNKNOWN_INSTRUCTION, BAD_FIELD. Other codes: NO_MEMORY, BUFFER_TOO_SMALL. */
int32_t dma330_disassemble(const uint8_t *program, size_t len, char *out, size_t room, size_t *text_len,
                           size_t *place) DMA330_NO_NULLS;

/* ---- the layout that the library assumes ---- */

#if defined(__BYTE_ORDER__) && __BYTE_ORDER__ != __ORDER_LITTLE_ENDIAN__
#error "libdma330 is for little-endian processors"
#endif

#define DMA330_ASSERT(name, holds) typedef char dma330_assert_##name[(holds) ? 1 : -1]
DMA330_ASSERT(pointers, sizeof(void *) == 8 && sizeof(size_t) == 8);
DMA330_ASSERT(controller, sizeof(dma330_controller) == 16 && offsetof(dma330_controller, is_open) == 8);
DMA330_ASSERT(segment, sizeof(dma330_segment) == 8 && offsetof(dma330_segment, len) == 4);
DMA330_ASSERT(outcome, sizeof(dma330_outcome) == 8 && offsetof(dma330_outcome, residue) == 4);
DMA330_ASSERT(conflict, sizeof(dma330_conflict) == 8 && offsetof(dma330_conflict, cookie) == 4);
DMA330_ASSERT(run, sizeof(dma330_run) == 8 && offsetof(dma330_run, stored) == 4);
DMA330_ASSERT(report, sizeof(dma330_report) == 28 && offsetof(dma330_report, residue) == 24);
DMA330_ASSERT(region, sizeof(dma330_region) == 32 && offsetof(dma330_region, bytes) == 8
              && offsetof(dma330_region, len) == 16 && offsetof(dma330_region, read_only) == 24);
DMA330_ASSERT(channel, sizeof(dma330_channel) == 16 && offsetof(dma330_channel, is_open) == 8);
DMA330_ASSERT(channel_report, sizeof(dma330_channel_report) == 28 && offsetof(dma330_channel_report, written) == 20);
DMA330_ASSERT(registers, sizeof(dma330_registers) == 32 && offsetof(dma330_registers, is_loaded) == 18
              && offsetof(dma330_registers, taken) == 20 && offsetof(dma330_registers, stored) == 24);
DMA330_ASSERT(device, sizeof(dma330_device) == 16 && offsetof(dma330_device, is_open) == 8);
DMA330_ASSERT(device_config, sizeof(dma330_device_config) == 24 && offsetof(dma330_device_config, revision) == 20);
DMA330_ASSERT(device_turn, sizeof(dma330_device_turn) == 24 && offsetof(dma330_device_turn, taken) == 8
              && offsetof(dma330_device_turn, can_step) == 20);
DMA330_ASSERT(device_rows, sizeof(dma330_device_rows) == 40 && offsetof(dma330_device_rows, steps) == 32);
DMA330_ASSERT(run_end, sizeof(dma330_run_end) == 20 && offsetof(dma330_run_end, pc) == 16);
DMA330_ASSERT(repeated, sizeof(dma330_repeated) == 12 && offsetof(dma330_repeated, times) == 8);
DMA330_ASSERT(start, sizeof(dma330_start) == 20 && offsetof(dma330_start, lc1) == 17);
DMA330_ASSERT(event, sizeof(dma330_event) == 24 && offsetof(dma330_event, cleared) == 16);
DMA330_ASSERT(explanation, sizeof(dma330_explanation) == 64 && offsetof(dma330_explanation, copied) == 32
              && offsetof(dma330_explanation, addr) == 60);
/* Alignments, which #pragma pack changes: where a member lies after a char. */
#define DMA330_ALIGNED(type, bytes) \
    struct dma330_after_char_##type { \
        char first; \
        type second; \
    }; \
    DMA330_ASSERT(alignment_##type, offsetof(struct dma330_after_char_##type, second) == (bytes))
DMA330_ALIGNED(uint32_t, 4);
DMA330_ALIGNED(uint64_t, 8);
DMA330_ALIGNED(size_t, 8);
DMA330_ALIGNED(dma330_segment, 4);
DMA330_ALIGNED(dma330_region, 8);
#undef DMA330_ALIGNED
#undef DMA330_ASSERT

#ifdef __cplusplus
}
#endif

#endif
