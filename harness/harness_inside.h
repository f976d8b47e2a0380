/* What the files of the kit share. A driver includes harness.h instead. */
#ifndef HARNESS_INSIDE_H
#define HARNESS_INSIDE_H

#include "harness.h"

#include <setjmp.h>

/* The linker sees these names with `harness_` before them, so that a driver may have them too. */
#define machine harness_machine
#define memory harness_memory
#define draw harness_draw
#define look harness_look
#define set_register harness_set_register
#define status_of harness_status_of
#define begin_tick harness_begin_tick
#define end_tick harness_end_tick
#define high_lines harness_high_lines
#define pass harness_pass
#define set_events harness_set_events
#define bytes_at harness_bytes_at
#define open_machine harness_open_machine
#define is_disturbed harness_is_disturbed
#define program_starts harness_program_starts
#define program_ends harness_program_ends
#define expect_instruction harness_expect_instruction
#define expect_no_fault harness_expect_no_fault
#define text_of_instruction harness_text_of_instruction
#define print_program harness_print_program
#define what_is_odd harness_what_is_odd
#define length_of_instruction harness_length_of_instruction
#define last_program harness_last_program
#define find_program harness_find_program
#define copy_of harness_copy_of
#define draw_copy harness_draw_copy
#define start_copy harness_start_copy
#define watch_copy harness_watch_copy
#define is_inside harness_is_inside
#define copy_that_stores harness_copy_that_stores
#define note_store harness_note_store
#define may_use harness_may_use
#define place_of harness_place_of
#define expect_bytes harness_expect_bytes
#define note_event harness_note_event
#define note_status harness_note_status
#define note_clear harness_note_clear
#define why_done harness_why_done
#define why_early harness_why_early
#define why_running harness_why_running
#define why_waiting harness_why_waiting
#define why_high harness_why_high
#define why_again harness_why_again
#define failing harness_failing
#define is_brief harness_is_brief
#define is_silent harness_is_silent
#define fail harness_fail
#define expect harness_expect
#define name_of_register harness_name_of_register
#define names_of_faults harness_names_of_faults
#define open_wave harness_open_wave
#define show_wave harness_show_wave
#define close_wave harness_close_wave

/* Kinds of trouble. LOST: a line rises, and the handler isn't called for it until it is low again. SLOW: a channel
 * takes no step for 1,000 ticks, or until it is killed. GAP: no RAM is lent for a step, so that a load or a store
 * fails. ROM: RAM is read-only for a step, so that a store fails. SHARED: the handler is called though no line is high.
 * STOPS: copies are stopped. */
enum { LOST = 1, SLOW = 2, GAP = 4, ROM = 8, SHARED = 16, STOPS = 32 };
#define STUCK 0xFFFFFFFFu

/* Registers. Those of channel n are 4n (FTR), 8n (CSR, CPC) or 32n (SAR, DAR, CCR) further on. */
enum { DSR = 0x000, INTEN = 0x020, INT_EVENT_RIS = 0x024, INTMIS = 0x028, INTCLR = 0x02C, FSRD = 0x030, FSRC = 0x034,
       FTRD = 0x038, FTR = 0x040, CSR = 0x100, CPC = 0x104, SAR = 0x400, DAR = 0x404, CCR = 0x408, DBGSTATUS = 0xD00,
       DBGCMD = 0xD04, DBGINST0 = 0xD08, DBGINST1 = 0xD0C };

/* RAM has two parts: one from HARNESS_RAM on, for the driver and for each copy's source and destination, and one up to
 * the last address, for the source and the destination of copy 0. A place has room for the longest copy at each
 * alignment. */
enum { PAGE = 0x1000, MOST_PLACE = HARNESS_MOST_BYTES + 3 * PAGE,
       ALL_BYTES = HARNESS_DRIVER_BYTES + (2 * HARNESS_MOST_COPIES + 2) * MOST_PLACE };

enum { MOST_CHANNELS = DMA330_MAX_CHANNELS, EVENTS = 32, LOGGED = 16, PERIOD = 4, ROOM = LOGGED + 2 * PERIOD,
       KEPT = 24, DMALD = 0x04, DMASEV = 0x34 };

/* The status of a channel. */
enum { STOPPED = DMA330_CSR_STOPPED, EXECUTING = DMA330_CSR_EXECUTING, WAITING = DMA330_CSR_WAITING_FOR_EVENT,
       KILLING = DMA330_CSR_KILLING, FAULTING = DMA330_CSR_FAULTING };

/* A copy. Its serial number counts from 1 in the seed. */
struct copy {
    bool runs, is_stopped, is_kept; /* the last: the kit doesn't stop it, so it must be done in time */
    uint32_t number, serial; /* in the run, and in the seed */
    uint32_t src, dst, len;
    uint32_t stored, programs;     /* how many of its bytes are stored, and programs were started for it */
    uint32_t started, moved, busy; /* when it was started, last got on, and was last seen busy */
    uint32_t most;                 /* how many ticks may pass without progress */
};

/* An access of the driver to a register; how many accesses up to this one were repeated, how often, and up to when. */
struct access {
    uint32_t tick, offset, value;
    bool is_write;
    uint32_t period, again, last;
};

/* What a program does in the copy with a serial number: between which bytes it stores, how many of them, and which it
 * leaves out first, up to `hole_end`, if it is explained; and how many it has stored. */
struct share {
    uint32_t serial, first, last, bytes, hole, hole_end, stored;
};

/* How a program ended, if it did. */
enum end { RUNS, ENDED, FAILED, KILLED };

/* A program as its channel's DMAGO read it. Its serial number counts from 1 in the seed. */
struct program {
    uint32_t serial, channel, addr, len;
    uint32_t started, ended; /* when */
    enum end end;
    bool is_explained;
    uint32_t cause, pc, at; /* if not, why, at which offset, and for which address, or 0 */
    uint32_t signals;       /* the bits of its events */
    uint32_t sar, dar, ftr; /* at its end */
    struct share shares[HARNESS_MOST_COPIES];
    uint8_t bytes[DMA330_MAX_PROGRAM];
};

/* An event. Each time is 0 if it never was. */
struct event {
    uint32_t signalled, by;   /* when it was set, and by the program with which serial number, or 0 for the manager */
    uint32_t again, again_by; /* when it was signalled while it was set, and by which channel, or MOST_CHANNELS */
    uint32_t shown, raw;      /* when the driver last read it as set, and read it though it is no interrupt */
    uint32_t cleared;         /* when INTCLR last cleared its interrupt */
    bool was_shown;           /* whether the driver had read that before */
    uint32_t inten;           /* what INTEN was when it was set */
    bool is_plain;            /* whether it then made no interrupt */
    bool is_ignored;          /* whether INTCLR was then written without effect */
};

/* The machine. All is 0 at the start of a seed, except what open_machine sets. */
extern struct machine {
    dma330_device device;
    dma330_region lent[2];
    const harness_driver *driver;
    uint32_t seed, drawn, tick, last_timer;

    /* The bytes of a place and of RAM's lower part, and the address of its upper one. */
    uint32_t place, low_bytes, high;

    /* The name of this run, the copies, how many there were in this seed and were stopped in this run, and those
     * that are being started and stopped, or NULL. */
    const char *run;
    struct copy copies[HARNESS_MOST_COPIES];
    uint32_t count, stops;
    const struct copy *starting, *stopping;

    /* The kinds of trouble that may come, how many came, how many more may come, the kind of this tick, until when
     * channels are slow, or STUCK, and the high lines that are lost. */
    uint32_t kinds, troubles, budget, trouble, slow_until[MOST_CHANNELS];
    uint64_t lost, lines_before;

    /* For how many more accesses DBGSTATUS is busy, and channels read as killing. */
    uint32_t debug_busy, killing[MOST_CHANNELS];

    /* The debug instruction, how many programs there were, the last ones, and the one of each channel. */
    uint32_t first, second, started;
    struct program programs[KEPT], *of_channel[MOST_CHANNELS];

    /* The events; when a fault was last shown, and the handler last called though no line was high; the last value of
     * INTCLR, and when it was written. */
    struct event events[EVENTS];
    uint32_t fault_shown, idle_call, clear, clear_tick;

    /* What CSR was when the driver last read it, and when; what SAR and DAR were, or 0 since the last DMAGO. */
    uint32_t csr[MOST_CHANNELS], csr_shown[MOST_CHANNELS], shown[MOST_CHANNELS][2];

    /* How many channels were killed while they ran, one more than the last one that was killed, and the bits of all
     * FTRs. */
    uint32_t kills, last_kill, faults;

    /* The accesses since the present call of the driver began or a byte was stored. The log: how many there are in it,
     * and the last ones; how many are being repeated, or 0, and those that have begun to repeat them. */
    uint32_t accesses_of_call, accesses;
    struct access last[ROOM];
    uint32_t period, waiting;
    struct access begun[PERIOD];

    /* The last access, and whether it is in this tick. Whether the handler runs, and how often it was called in a row.
     */
    struct access now;
    bool is_access, is_handling;
    uint32_t calls;

    /* Whether the seed has failed, and the copy that the failure is about, or NULL. */
    bool has_failed;
    const struct copy *about;
} machine;

/* RAM, and the bytes that it should have. */
extern struct memory {
    uint8_t ram[ALL_BYTES], wanted[ALL_BYTES];
} memory;

/* ---- harness_machine.c ---- */

/* Opens the device and fills RAM from the seed. */
void open_machine(const harness_driver *driver, uint32_t seed);

/* Sets some events, as firmware leaves them. */
void set_events(void);

/* Returns whether trouble may come that justifies making a copy again. */
bool is_disturbed(void);

/* Draws a number below a limit. */
uint32_t draw(uint32_t limit);

/* Read and write a register as it is, without a tick, and return the status of a channel. */
uint32_t look(uint32_t offset);
void set_register(uint32_t offset, uint32_t value);
uint32_t status_of(uint32_t channel);

/* Lets a tick begin, in which a channel that is drawn takes a step, unless it is slow, and lets it end. */
void begin_tick(void);
void end_tick(void);

/* Returns the lines irq[31:0], and irq_abort in bit 32. */
uint64_t high_lines(void);

/* Lets time pass without an access, a tick or, if nothing can happen before, up to the next call of the timer. Then
 * calls the driver's handler if a line is high. */
void pass(void);

/* Returns how many bytes of RAM there are from an address on. */
uint32_t bytes_at(uint32_t addr);

/* ---- harness_programs.c ---- */

/* Keeps the program that a DMAGO has started. Expects that it can run, and copies only bytes of running copies, each to
 * its place. */
void program_starts(uint32_t channel, uint32_t addr);

/* Notes how a channel's program has ended. */
void program_ends(uint32_t channel, enum end end);

/* Expects that a channel which has just failed did so by this tick's trouble. */
void expect_no_fault(uint32_t channel);

/* Expects that the instruction which a channel executes next is as its DMAGO read it, and that the chip's buffer has
 * room for it: a chip may fetch it anew. Returns the event that it signals, or EVENTS. */
uint32_t expect_instruction(uint32_t channel);

/* Return the last program before number `limit` that stores in a copy or was started for it, and the program with a
 * number; NULL if none is kept. */
const struct program *last_program(const struct copy *it, uint32_t limit);
const struct program *find_program(uint32_t serial);

/* Returns the copy that a program is for: the first, if there are several. */
const struct copy *copy_of(const struct program *it);

/* ---- harness_instructions.c ---- */

/* Returns how many bytes the instruction has that begins with this byte. */
uint32_t length_of_instruction(uint8_t first);

/* Writes the text of the instruction at an offset of a program; returns the buffer. */
enum { TEXT = 64 };
const char *text_of_instruction(const struct program *it, uint32_t at, char text[TEXT]);

/* Prints the instructions of a program. */
void print_program(const struct program *it);

/* Writes what is odd about a program's loops or addresses, after "; ", or nothing; returns the buffer. */
enum { ODD = 160 };
const char *what_is_odd(const struct program *it, char text[ODD]);

/* ---- harness_draws.c ---- */

/* Draws the length and the ranges of copy n. */
void draw_copy(uint32_t n);

/* ---- harness_copies.c ---- */

/* Starts copy n, the copy with this number in the run. */
void start_copy(uint32_t n, uint32_t number);

/* Checks whether copy n is done, and stops it at times. */
void watch_copy(uint32_t n);

/* Returns whether a range lies in another, neither of which goes beyond the last address. */
bool is_inside(uint32_t addr, uint64_t len, uint32_t outer, uint64_t outer_len);

/* Returns the copy that may store a byte, or NULL. */
struct copy *copy_that_stores(uint32_t addr);

/* Notes that a channel has stored bytes, and expects that a running copy has them. */
void note_store(uint32_t channel, dma330_segment range);

/* Returns whether the driver or a running copy may use a range: as source, or as destination. */
bool may_use(uint32_t addr, uint64_t len, bool is_store);

/* Writes what an address is to the copies, after ": ", or nothing; returns the buffer. */
enum { PLACE = 120 };
const char *place_of(uint32_t addr, char text[PLACE]);

/* Expects the wanted bytes in all of RAM, except the driver's. No copy runs. */
void expect_bytes(void);

/* ---- harness_events.c ---- */

/* Note that a program, or for NULL the manager, has signalled an event, which was set before or not, that the driver
 * has read a value of a register of events, and that it writes a value to INTCLR. */
void note_event(uint32_t event, const struct program *by, bool was_set);
void note_status(uint32_t offset, uint32_t value);
void note_clear(uint32_t value);

/* ---- harness_why.c ---- */

/* Return the cause of a failure: why the driver takes a program as ended that runs, alone and after when and for which
 * copy it was started; why a copy is done with a wrong byte; why it isn't done; why it is started again after a
 * program; and why a line is high. The text stays until the next of these calls. */
const char *why_early(const struct program *it);
const char *why_running(const struct program *it);
const char *why_done(const struct copy *it, uint32_t byte);
const char *why_waiting(const struct copy *it);
const char *why_again(const struct program *before);
const char *why_high(void);

/* ---- harness_report.c ---- */

/* Where a failure jumps to; whether only a first failure is explained, and whether none is. */
extern jmp_buf failing;
extern bool is_brief, is_silent;

/* Ends the test of this seed: prints what is wrong, the seed, the tick and the machine's state. */
void fail(const char *format, ...);

/* Fails if something doesn't hold. */
void expect(bool holds, const char *wrong);

/* Writes a register's name, "" for an offset without a register, and the names of bits of FTR; returns the buffer. */
enum { NAME = 16, NAMES = 400 };
const char *name_of_register(uint32_t offset, char name[NAME]);
const char *names_of_faults(uint32_t ftr, char names[NAMES]);

/* ---- harness_wave.c ---- */

/* Opens the waveform's file, shows the signals that this tick has changed, and closes it. Return whether they could.
 * Without a file they do nothing. */
bool open_wave(const char *path, const harness_driver *driver);
void show_wave(void);
bool close_wave(void);

#endif
