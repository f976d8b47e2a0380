/* Measures how much stack each call of the library takes. Each is made in a process of its own, on a stack that was
 * painted before, so the bytes that have another colour afterwards are those that it took. Link the program with lazy
 * binding (-Wl,-z,lazy): then the first call of a function of the C library runs the dynamic linker on this stack.
 *
 * With the option -v it prints the stack of each call. */
#define _GNU_SOURCE
#include "dma330.h"
#include "dma330_program.h"

#include <stdio.h>
#include <stdlib.h>
#include <sys/mman.h>
#include <sys/wait.h>
#include <ucontext.h>
#include <unistd.h>

/* The bytes of stack that may be taken. The head of dma330.h asks for 64 KiB, to have room for other compilers, C
 * libraries and processors. */
enum { MOST = 48 * 1024, STACK = 256 * 1024, COLOUR = 0xA5 };
enum { RAM = 1 << 20, SEGMENTS = DMA330_MAX_SEGMENTS, CHANNELS = DMA330_MAX_CHANNELS, ITEMS = 4096 };
enum { INTEN = 0x020, DBGCMD = 0xD04, DBGINST0 = 0xD08, DBGINST1 = 0xD0C };

static dma330_controller controller = DMA330_CONTROLLER_INIT;
static dma330_channel channel = DMA330_CHANNEL_INIT;
static dma330_device device = DMA330_DEVICE_INIT;
static const dma330_device_config chip = {8, 32, 0, 128, 16, 3};

static uint8_t ram[RAM], program[DMA330_MAX_PROGRAM], save[DMA330_MAX_DEVICE_SAVE], bytes[RAM];
static char text[DMA330_MAX_TEXT(DMA330_MAX_PROGRAM)];
static size_t len, text_len, place;
static dma330_region regions[DMA330_MAX_REGIONS];
static dma330_segment src[SEGMENTS], dst[SEGMENTS];
static dma330_repeated read_ranges[ITEMS];
static dma330_segment stored[ITEMS], zeros[ITEMS];
static dma330_event events[ITEMS];

static dma330_conflict conflict;
static dma330_report report;
static dma330_channel_report channel_report;
static dma330_device_turn turn;
static dma330_device_rows rows;
static dma330_outcome outcome;
static dma330_run running;
static dma330_registers registers;
static dma330_explanation explanation;
static dma330_run_end end;
static uint32_t count, flags;
static uint64_t large;

/* What the measured call returned. */
static int32_t code;

static void expect(int holds, const char *what)
{
    if (!holds) {
        printf("WRONG: %s\n", what);
        fflush(stdout);
        _exit(2);
    }
}

static void need(int32_t returned)
{
    expect(returned >= 0, "a call before the measured one is refused");
}

/* ---- what is done before a call, on the process's own stack ---- */

/* Lists of 64 segments, the sources rising, the destinations falling: each begins and ends at odd addresses. */
static void lists(void)
{
    uint32_t n;

    for (n = 0; n < SEGMENTS; n++) {
        src[n].addr = 0x10001 + n * 0x400;
        dst[n].addr = 0x90003 + (SEGMENTS - n) * 0x400;
        src[n].len = dst[n].len = 0x301;
    }
}

/* RAM as 64 regions. */
static void lent(void)
{
    uint32_t n;

    lists();
    for (n = 0; n < DMA330_MAX_REGIONS; n++) {
        regions[n].addr = n * (RAM / DMA330_MAX_REGIONS);
        regions[n].bytes = ram + regions[n].addr;
        regions[n].len = RAM / DMA330_MAX_REGIONS;
        regions[n].read_only = 0;
    }
}

static void opened(void)
{
    lists();
    need(dma330_open(&controller, RAM, CHANNELS));
}

static void submitted(void)
{
    opened();
    need(dma330_submit(&controller, 0, src, SEGMENTS, dst, SEGMENTS, DMA330_NO_EVENT, 1, &count));
}

static void issued(void)
{
    submitted();
    need(dma330_issue(&controller, 0, &count));
}

static void started(void)
{
    issued();
    need(dma330_step(&controller, 0, 9, &report));
}

static void finished(void)
{
    issued();
    need(dma330_step(&controller, 0, 1000000, &report));
    expect(report.last == DMA330_FINISHED, "the transfer finishes");
}

static void channel_opened(void)
{
    lent();
    need(dma330_channel_open(&channel));
}

static void channel_loaded(void)
{
    channel_opened();
    need(dma330_channel_load_copy(&channel, src, SEGMENTS, dst, SEGMENTS, DMA330_NO_EVENT, 1));
}

static void channel_stepped(void)
{
    channel_loaded();
    need(dma330_channel_step(&channel, regions, DMA330_MAX_REGIONS, &flags, 9, &channel_report));
}

static void channel_saved(void)
{
    channel_stepped();
    need(dma330_channel_save(&channel, save, sizeof save, &len));
}

static void planned(void)
{
    lists();
    need(dma330_plan(src, SEGMENTS, dst, SEGMENTS, DMA330_NO_EVENT, 1, 128, program, sizeof program, &len));
}

static void device_opened(void)
{
    lent();
    need(dma330_device_open(&device, &chip));
}

/* Puts a program of `len` bytes into RAM at 0x4000, which is more than a region before its end. */
static void put_program(void)
{
    size_t n;

    for (n = 0; n < len; n++)
        ram[0x4000 + n] = program[n];
}

static void go(uint8_t n)
{
    need(dma330_device_write(&device, DBGINST0, DMA330_DBGINST0_GO(n), regions, DMA330_MAX_REGIONS));
    need(dma330_device_write(&device, DBGINST1, 0x4000, regions, DMA330_MAX_REGIONS));
    need(dma330_device_write(&device, DBGCMD, 0, regions, DMA330_MAX_REGIONS));
}

/* All channels have a program of 64 segments, and have taken some steps. */
static void device_started(void)
{
    uint8_t n;

    device_opened();
    planned();
    put_program();
    for (n = 0; n < CHANNELS; n++) {
        go(n);
        if (n > 0)
            need(dma330_device_step(&device, n, 9, regions, DMA330_MAX_REGIONS, &turn));
    }
}

/* The next channel begins a program that copies rows of a rectangle, and one that begins with zeros. */
static void device_with_rows(void)
{
    static const uint8_t copies_rows[] = {
        DMA330_DMAMOV_SAR(0x20000), DMA330_DMAMOV_DAR(0x90000), DMA330_DMAMOV_CCR(DMA330_CCR_COPY(16, 4)),
        DMA330_DMALP(0, 200), DMA330_DMALD, DMA330_DMAST, DMA330_DMAADDH_DAR(64), DMA330_DMAADDH_SAR(64),
        DMA330_DMALPEND(0, 8), DMA330_DMASTZ, DMA330_DMASEV(1), DMA330_DMAEND,
    };

    device_opened();
    for (len = 0; len < sizeof copies_rows; len++)
        program[len] = copies_rows[len];
    put_program();
    need(dma330_device_write(&device, INTEN, 2, regions, DMA330_MAX_REGIONS));
    go(0);
}

static void device_saved(void)
{
    device_started();
    need(dma330_device_save(&device, save, sizeof save, &len));
}

static void assembled(void)
{
    planned();
    need(dma330_plan(src, SEGMENTS, dst, SEGMENTS, DMA330_NO_EVENT, 1, 0, program, sizeof program, &len));
    need(dma330_disassemble(program, len, text, sizeof text, &text_len, &place));
}

static void nothing(void)
{
    lists();
}

/* ---- the calls ---- */

#define DMA &controller
#define CH &channel
#define DEV &device
#define LENT regions, DMA330_MAX_REGIONS
#define LISTS src, SEGMENTS, dst, SEGMENTS, DMA330_NO_EVENT, 1
#define FILL 5, dst, SEGMENTS, DMA330_NO_EVENT, 1
#define FOUND read_ranges, ITEMS, stored, ITEMS, zeros, ITEMS, events, ITEMS, &explanation

static const dma330_segment range = {0x5000, 0x400};
static const dma330_start any_start = DMA330_ANY_REGISTERS;

/* Each row: what is done before, a name for the function, and the call. */
#define CALLS(row) \
    row(nothing, open, code = dma330_open(DMA, RAM, CHANNELS)) \
    row(started, close, dma330_close(DMA)) \
    row(opened, write, code = dma330_write(DMA, 0, bytes, RAM, &conflict)) \
    row(opened, read, code = dma330_read(DMA, 0, bytes, RAM, &conflict)) \
    row(opened, submit, code = dma330_submit(DMA, 0, LISTS, &count)) \
    row(opened, submit_fill, code = dma330_submit_fill(DMA, 0, FILL, &count)) \
    row(submitted, issue, code = dma330_issue(DMA, 0, &count)) \
    row(started, pause, code = dma330_pause(DMA, 0)) \
    row(started, resume, code = dma330_resume(DMA, 0)) \
    row(started, terminate, code = dma330_terminate(DMA, 0, &count)) \
    row(issued, step, code = dma330_step(DMA, 0, 1000000, &report)) \
    row(issued, step_one, code = dma330_step(DMA, 0, 1, &report)) \
    row(started, step_on, code = dma330_step(DMA, 0, 1000000, &report)) \
    row(started, status, code = dma330_status(DMA, 0, 1)) \
    row(finished, result, code = dma330_result(DMA, 0, 1, &outcome)) \
    row(started, running, code = dma330_running(DMA, 0, &running)) \
    row(started, unfinished, code = dma330_unfinished(DMA, 0, &count)) \
    row(started, forgotten, code = dma330_forgotten(DMA, 0, &count)) \
    row(started, steps, code = dma330_steps(DMA, &large)) \
    row(started, history_entries, code = dma330_history_entries(DMA, &large)) \
    row(started, history_bytes, code = dma330_history_bytes(DMA, &large)) \
    row(started, running_count, code = dma330_running_count(DMA, &count)) \
    row(started, inject_error, code = dma330_inject_error(DMA, DMA330_READS, range)) \
    row(started, uninject_errors, code = dma330_uninject_errors(DMA)) \
    row(started, raise, code = dma330_raise(DMA, 31)) \
    row(finished, checkpoint, code = dma330_checkpoint(DMA, &conflict)) \
    row(nothing, channel_open, code = dma330_channel_open(CH)) \
    row(channel_stepped, channel_close, dma330_channel_close(CH)) \
    row(channel_opened, channel_load_copy, code = dma330_channel_load_copy(CH, LISTS)) \
    row(channel_opened, channel_load_fill, code = dma330_channel_load_fill(CH, FILL)) \
    row(channel_opened, channel_load_program, code = dma330_channel_load_program(CH, program, sizeof program)) \
    row(channel_opened, channel_load_from, code = dma330_channel_load_from(CH, LENT, 0)) \
    row(channel_loaded, channel_step, code = dma330_channel_step(CH, LENT, &flags, 1000000, &channel_report)) \
    row(channel_loaded, channel_step_one, code = dma330_channel_step(CH, LENT, &flags, 1, &channel_report)) \
    row(channel_stepped, channel_stop, code = dma330_channel_stop(CH)) \
    row(channel_stepped, channel_registers, code = dma330_channel_registers(CH, &registers)) \
    row(channel_loaded, channel_inject_error, code = dma330_channel_inject_error(CH, DMA330_WRITES, range)) \
    row(channel_loaded, channel_uninject_errors, code = dma330_channel_uninject_errors(CH)) \
    row(channel_stepped, channel_save, code = dma330_channel_save(CH, save, sizeof save, &len)) \
    row(channel_saved, channel_restore, code = dma330_channel_restore(CH, save, len)) \
    row(lent, device_open, code = dma330_device_open(DEV, &chip)) \
    row(device_started, device_close, dma330_device_close(DEV)) \
    row(device_started, device_reset, code = dma330_device_reset(DEV)) \
    row(device_started, device_read, code = dma330_device_read(DEV, 0x100, &count)) \
    row(device_opened, device_write, code = dma330_device_write(DEV, DBGCMD, 0, LENT)) \
    row(device_started, device_step, code = dma330_device_step(DEV, 0, 1000000, LENT, &turn)) \
    row(device_started, device_step_on, code = dma330_device_step(DEV, 1, 1000000, LENT, &turn)) \
    row(device_with_rows, device_step_of_rows, code = dma330_device_step(DEV, 0, 1000000, LENT, &turn)) \
    row(device_with_rows, device_step_rows, code = dma330_device_step_rows(DEV, 0, 1000000, LENT, &rows)) \
    row(device_started, device_step_rows_else, code = dma330_device_step_rows(DEV, 0, 1000000, LENT, &rows)) \
    row(device_started, device_explain, code = dma330_device_explain(DEV, 0, 1000000, FOUND)) \
    row(device_started, device_registers, code = dma330_device_registers(DEV, 0, &registers)) \
    row(device_started, device_lines, code = dma330_device_lines(DEV, &count, &flags)) \
    row(device_started, device_can_step, code = dma330_device_can_step(DEV, &count)) \
    row(device_opened, device_save_empty, code = dma330_device_save(DEV, save, sizeof save, &len)) \
    row(device_started, device_save, code = dma330_device_save(DEV, save, sizeof save, &len)) \
    row(device_saved, device_restore, code = dma330_device_restore(DEV, save, len)) \
    row(nothing, version, code = dma330_version(text, sizeof text, &len)) \
    row(planned, run_program, code = dma330_run_program(program, len, ram, RAM, 1000000, &end)) \
    row(planned, explain, code = dma330_explain(program, len, 128, &any_start, 1000000, FOUND)) \
    row(nothing, plan, code = dma330_plan(LISTS, 128, program, sizeof program, &len)) \
    row(nothing, plan_fill, code = dma330_plan_fill(FILL, 128, program, sizeof program, &len)) \
    row(assembled, assemble, code = dma330_assemble(text, text_len, program, sizeof program, &len, &place)) \
    row(assembled, disassemble, code = dma330_disassemble(program, len, text, sizeof text, &text_len, &place))

#define FUNCTION(before, name, call) static void call_##name(void) { call; }
CALLS(FUNCTION)

static const struct {
    const char *name;
    void (*before)(void);
    void (*call)(void);
} calls[] = {
#define ENTRY(before, name, call) {#name, before, call_##name},
    CALLS(ENTRY)
};

/* ---- the measurement ---- */

static ucontext_t here, there;

/* Returns how many bytes of a painted stack a call takes. */
static size_t stack_of(void (*call)(void))
{
    volatile uint8_t *stack = mmap(NULL, STACK, PROT_READ | PROT_WRITE, MAP_PRIVATE | MAP_ANONYMOUS, -1, 0);
    size_t n;

    expect((void *)stack != MAP_FAILED && getcontext(&there) == 0, "there is a stack");
    for (n = 0; n < STACK; n++)
        stack[n] = COLOUR;
    there.uc_stack.ss_sp = (void *)stack;
    there.uc_stack.ss_size = STACK;
    there.uc_link = &here;
    makecontext(&there, call, 0);
    expect(swapcontext(&here, &there) == 0, "the call is made");
    for (n = 0; n < STACK && stack[n] == COLOUR; n++)
        ;
    return STACK - n;
}

/* Returns the same, measured in a process of its own, or 0 if that fails. */
static size_t stack_alone(size_t n)
{
    size_t taken = 0;
    int ends[2], status;
    pid_t child;

    if (pipe(ends) != 0 || (child = fork()) < 0)
        return 0;
    if (child == 0) {
        calls[n].before();
        code = 0;
        taken = stack_of(calls[n].call);
        expect(code >= 0, "the measured call is refused");
        _exit(write(ends[1], &taken, sizeof taken) == sizeof taken ? 0 : 1);
    }
    close(ends[1]);
    if (read(ends[0], &taken, sizeof taken) != sizeof taken)
        taken = 0;
    close(ends[0]);
    return waitpid(child, &status, 0) == child && status == 0 ? taken : 0;
}

int main(int argc, char **argv)
{
    size_t n, taken, most = 0, at = 0;
    int passed = 0, failed = 0;

    (void)argv;
    for (n = 0; n < sizeof calls / sizeof *calls; n++) {
        taken = stack_alone(n);
        if (argc > 1)
            printf("%6zu dma330_%s\n", taken, calls[n].name);
        if (taken > 0 && taken <= MOST)
            passed++;
        else
            failed++, printf("WRONG: dma330_%s takes %zu bytes of stack\n", calls[n].name, taken);
        if (taken > most)
            most = taken, at = n;
        fflush(stdout);
    }
    printf("the most is %zu bytes of stack, by dma330_%s\n", most, calls[at].name);
    printf("%d passed, %d failed\n", passed, failed);
    return failed > 0;
}
