/* Copies 1 MiB from the first MiB of a memory to its second, several times, and measures how long the steps take:
 *
 *     bench MOST COPIES                by a controller, at most MOST steps a call, over bytes that nobody wrote, as in
 *                                      desk_bench
 *     bench MOST COPIES written        the same over bytes that were written, to pages that exist, as memcpy's do; the
 *                                      bytes are compared at the end
 *     bench MOST COPIES small          copies of 4 bytes: each is submitted, issued and stepped, which is measured too
 *     bench MOST COPIES SHAPE BURST    by a channel over the caller's memory, with a program as drivers write it, of
 *                                      BURST bytes a burst; SHAPE is `linux` (one nest of loops), `barriers` (the same
 *                                      with DMARMB and DMAWMB) or `nests` (three nests)
 *     bench MOST COPIES rows BYTES     by a device, rows of BYTES bytes with a pitch of 2 * BYTES, 512 KiB in all
 *     bench 0 COPIES                   memcpy of as many bytes
 *     bench 0 COPIES rows BYTES        memcpy of each such row
 *
 * It prints the number of steps and of calls, and the nanoseconds that they took by the clock and by the processor. */
#define _POSIX_C_SOURCE 199309L
#include "dma330.h"

#include <stdio.h>
#include <stdlib.h>
#include <string.h>
#include <time.h>

enum { MIB = 1 << 20, MEMORY = 4 * MIB, KEPT = 1000 };

typedef struct measured {
    double took;
    double busy;
    unsigned long steps;
    unsigned long calls;
} measured;

static uint8_t from[MIB], to[MIB];

static double nanoseconds(clockid_t clock)
{
    struct timespec now;
    clock_gettime(clock, &now);
    return 1e9 * (double)now.tv_sec + (double)now.tv_nsec;
}

static void begin(measured *m)
{
    m->steps = m->calls = 0;
    m->took = -nanoseconds(CLOCK_MONOTONIC);
    m->busy = -nanoseconds(CLOCK_PROCESS_CPUTIME_ID);
}

static void end(measured *m)
{
    m->took += nanoseconds(CLOCK_MONOTONIC);
    m->busy += nanoseconds(CLOCK_PROCESS_CPUTIME_ID);
}

static void expect(int holds, const char *what)
{
    if (!holds) {
        fprintf(stderr, "%s\n", what);
        exit(1);
    }
}

static void load(dma330_controller *controller, long copies)
{
    const dma330_segment src = {0, MIB}, dst = {MIB, MIB};
    uint32_t cookie, issued;
    long n;
    expect(dma330_open(controller, MEMORY, 1) == DMA330_OK, "no controller");
    for (n = 0; n < copies; n++) {
        int32_t code = dma330_submit(controller, 0, &src, 1, &dst, 1, DMA330_NO_EVENT, DMA330_NO_EVENT, &cookie);
        expect(code == DMA330_OK, "no copy");
    }
    expect(dma330_issue(controller, 0, &issued) == DMA330_OK, "not issued");
}

/* Steps until all copies are finished. */
static void step_all(dma330_controller *controller, uint32_t most, measured *m)
{
    dma330_report report;
    begin(m);
    do {
        expect(dma330_step(controller, 0, most, &report) == DMA330_OK, "a step failed");
        m->steps += report.taken;
        m->calls++;
    } while (report.last != DMA330_NOTHING);
    end(m);
}

/* Submits, issues and steps one copy of 4 bytes after another. A checkpoint forgets KEPT at a time. */
static void step_small(uint32_t most, long copies, measured *m)
{
    const dma330_segment src = {0x100, 4}, dst = {0x200, 4};
    dma330_controller controller = DMA330_CONTROLLER_INIT;
    dma330_conflict conflict;
    dma330_report report;
    uint32_t cookie, issued;
    long n;
    expect(dma330_open(&controller, MEMORY, 1) == DMA330_OK, "no controller");
    begin(m);
    for (n = 0; n < copies; n++) {
        int32_t code = dma330_submit(&controller, 0, &src, 1, &dst, 1, DMA330_NO_EVENT, DMA330_NO_EVENT, &cookie);
        expect(code == DMA330_OK, "no copy");
        expect(dma330_issue(&controller, 0, &issued) == DMA330_OK, "not issued");
        expect(dma330_step(&controller, 0, most, &report) == DMA330_OK, "a step failed");
        expect(report.last == DMA330_FINISHED, "not finished");
        m->steps += report.taken;
        m->calls++;
        if (n % KEPT == KEPT - 1)
            expect(dma330_checkpoint(&controller, &conflict) == DMA330_OK, "no checkpoint");
    }
    end(m);
    dma330_close(&controller);
}

static void copy_all(long copies, measured *m)
{
    /* volatile, so that no compiler replaces all copies with one */
    void *(*volatile copy)(void *, const void *, size_t) = memcpy;
    long n;
    begin(m);
    for (n = 0; n < copies; n++)
        copy(to, from, MIB);
    end(m);
}

static void step_copies(uint32_t most, long copies, int are_written, measured *m)
{
    dma330_controller controller = DMA330_CONTROLLER_INIT;
    dma330_conflict conflict;
    load(&controller, copies);
    if (are_written) {
        expect(dma330_write(&controller, 0, from, MIB, &conflict) == DMA330_OK, "not written");
        expect(dma330_write(&controller, MIB, to, MIB, &conflict) == DMA330_OK, "not written");
    }
    step_all(&controller, most, m);
    expect(dma330_read(&controller, MIB, to, MIB, &conflict) == DMA330_OK, "not read");
    expect(!are_written || memcmp(from, to, MIB) == 0, "not copied");
    dma330_close(&controller);
}

/* ---- a driver's program, over the caller's memory ---- */

enum { RAM_ADDR = 0x40000000, BEAT = 16 };

static uint8_t ram[2 * MIB];

typedef struct program {
    uint8_t code[128];
    size_t len;
} program;

static void append(program *p, unsigned byte)
{
    p->code[p->len++] = (uint8_t)byte;
}

/* DMAMOV of a value to SAR (0), CCR (1) or DAR (2) */
static void append_move(program *p, unsigned name, uint32_t value)
{
    int n;
    append(p, 0xBC);
    append(p, name);
    for (n = 0; n < 4; n++)
        append(p, value >> 8 * n & 0xFF);
}

/* `outer` times `inner` bursts, by LC0 and LC1 */
static void append_nest(program *p, unsigned outer, unsigned inner, int has_barriers)
{
    const char *body = has_barriers ? "\x04\x12\x08\x13" : "\x04\x08";
    unsigned len = (unsigned)strlen(body), n;
    append(p, 0x20);
    append(p, outer - 1);
    append(p, 0x22);
    append(p, inner - 1);
    for (n = 0; n < len; n++)
        append(p, (unsigned char)body[n]);
    append(p, 0x3C);
    append(p, len);
    append(p, 0x38);
    append(p, len + 4);
}

static void write_program(program *p, const char *shape, uint32_t burst)
{
    const uint32_t half = 1 | 4 << 1 | (burst / BEAT - 1) << 4; /* of the control word */
    const unsigned rounds = MIB / burst / 256;
    p->len = 0;
    append_move(p, 1, half | half << 14);
    append_move(p, 0, RAM_ADDR);
    append_move(p, 2, RAM_ADDR + MIB);
    if (strcmp(shape, "nests") == 0) {
        append_nest(p, rounds / 2, 256, 0);
        append_nest(p, rounds / 4, 256, 0);
        append_nest(p, rounds / 2, 128, 0);
    } else {
        append_nest(p, rounds, 256, strcmp(shape, "barriers") == 0);
    }
    append(p, 0); /* DMAEND */
}

static void step_program(dma330_channel *channel, uint32_t most, measured *m)
{
    dma330_region region = {RAM_ADDR, ram, sizeof ram, 0};
    dma330_channel_report report;
    uint32_t flags = 0;
    do {
        expect(dma330_channel_step(channel, &region, 1, &flags, most, &report) == DMA330_OK, "a step failed");
        m->steps += report.taken;
        m->calls++;
    } while (report.last == DMA330_MOVED);
    expect(report.last == DMA330_ENDED, "the program did not end");
}

static void run_programs(const char *shape, uint32_t burst, uint32_t most, long copies, measured *m)
{
    dma330_channel channel = DMA330_CHANNEL_INIT;
    program p;
    long n;
    memset(ram, 1, sizeof ram); /* so that its pages exist before the timing begins */
    memcpy(ram, from, MIB);
    write_program(&p, shape, burst);
    expect(dma330_channel_open(&channel) == DMA330_OK, "no channel");
    begin(m);
    for (n = 0; n < copies; n++) {
        expect(dma330_channel_load_program(&channel, p.code, p.len) == DMA330_OK, "no program");
        step_program(&channel, most, m);
    }
    end(m);
    expect(memcmp(ram, ram + MIB, MIB) == 0, "not copied");
    dma330_channel_close(&channel);
}

/* ---- rows of a rectangle, by a device */

/* Each writes a register of the device. */
static void write_register(dma330_device *device, const dma330_region *region, uint32_t offset, uint32_t value)
{
    expect(dma330_device_write(device, offset, value, region, 1) == DMA330_OK, "no register");
}

static void start_program(dma330_device *device, const dma330_region *region, uint32_t at)
{
    write_register(device, region, 0xD08, 0x00A00000); /* DMAGO of channel 0 */
    write_register(device, region, 0xD0C, at);
    write_register(device, region, 0xD04, 0);
}

/* MIB / 2 / len rows of len bytes, which is at most 256, by two loops */
static void write_rows(program *p, uint32_t len)
{
    const uint32_t half = 1 | 3 << 1 | (len / 8 > 16 ? 15 : len / 8 - 1) << 4; /* of the control word */
    const unsigned pairs = len / 128 > 1 ? len / 128 : 1, rounds = MIB / 2 / len / 256;
    unsigned n;
    p->len = 0;
    append_move(p, 1, half | half << 14);
    append_move(p, 0, RAM_ADDR);
    append_move(p, 2, RAM_ADDR + MIB);
    append(p, 0x22);
    append(p, rounds - 1);
    append(p, 0x20);
    append(p, 255);
    for (n = 0; n < pairs; n++) {
        append(p, 0x04);
        append(p, 0x08);
    }
    for (n = 0; n < 2; n++) {
        append(p, n == 0 ? 0x54 : 0x56); /* DMAADDH of SAR, then of DAR */
        append(p, len & 0xFF);
        append(p, len >> 8);
    }
    append(p, 0x38);
    append(p, 2 * pairs + 6);
    append(p, 0x3C);
    append(p, 2 * pairs + 10);
    append(p, 0);
}

static void step_rows(dma330_device *device, const dma330_region *region, uint32_t most, measured *m)
{
    dma330_device_rows rows;
    uint64_t bytes = 0;
    do {
        expect(dma330_device_step_rows(device, 0, most, region, 1, &rows) == DMA330_OK, "a step failed");
        bytes += (uint64_t)rows.count * rows.turn.written.len;
        m->calls++;
    } while (rows.turn.can_step);
    expect(bytes == MIB / 2, "not all rows were written");
}

static void run_rows(uint32_t len, uint32_t most, long copies, measured *m)
{
    static const dma330_device_config chip = {1, 1, 0, 64, 128, 3};
    static uint8_t memory[2 * MIB + 4096];
    dma330_region region = {RAM_ADDR, memory, sizeof memory, 0};
    dma330_device device = DMA330_DEVICE_INIT;
    void *(*volatile copy)(void *, const void *, size_t) = memcpy;
    program p;
    uint32_t at;
    memset(memory, 1, sizeof memory);
    memcpy(memory, from, MIB);
    write_rows(&p, len);
    memcpy(memory + 2 * MIB, p.code, p.len);
    expect(dma330_device_open(&device, &chip) == DMA330_OK, "no device");
    begin(m);
    for (; copies > 0; copies--) {
        if (most > 0) {
            start_program(&device, &region, RAM_ADDR + 2 * MIB);
            step_rows(&device, &region, most, m);
        } else {
            for (at = 0; at < MIB; at += 2 * len)
                copy(memory + MIB + at, memory + at, len);
        }
    }
    end(m);
    for (at = 0; at < MIB; at += 2 * len)
        expect(memcmp(memory + MIB + at, memory + at, len) == 0, "not copied");
    dma330_device_close(&device);
}

int main(int count, char **words)
{
    measured m;
    long n, most, copies;
    if (count < 3)
        return 2;
    most = atol(words[1]);
    copies = atol(words[2]);
    for (n = 0; n < MIB; n++)
        from[n] = (uint8_t)(n % 251);
    memset(to, 1, MIB); /* so that its pages exist before the timing begins */
    if (count > 4 && strcmp(words[3], "rows") == 0)
        run_rows((uint32_t)atol(words[4]), (uint32_t)most, copies, &m);
    else if (most == 0)
        copy_all(copies, &m);
    else if (count > 4)
        run_programs(words[3], (uint32_t)atol(words[4]), (uint32_t)most, copies, &m);
    else if (count > 3 && strcmp(words[3], "small") == 0)
        step_small((uint32_t)most, copies, &m);
    else
        step_copies((uint32_t)most, copies, count > 3, &m);
    printf("steps %lu calls %lu took %.0f busy %.0f\n", m.steps, m.calls, m.took, m.busy);
    return 0;
}
