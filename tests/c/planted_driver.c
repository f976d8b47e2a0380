/* A driver that makes a copy by several channels at once: a copy is a list of pieces that lie between multiples of
 * 64 KiB, and each program makes up to four of them. A channel that has failed goes on behind the last byte that it has
 * stored. planted_drivers.txt has mistakes in it, and HARNESS.md says how to test a driver. */
#include "harness.h"

#include "dma330_program.h"

#include <string.h>

#define readl harness_read
#define writel harness_write

enum { DSR = 0x000, INTEN = 0x020, INTMIS = 0x028, INTCLR = 0x02C, FSRD = 0x030, FSRC = 0x034, CSR = 0x100,
       SAR = 0x400, DAR = 0x404, DBGSTATUS = 0xD00, DBGCMD = 0xD04, DBGINST0 = 0xD08, DBGINST1 = 0xD0C };
enum { CHANNELS = 4, COPIES = 3, NONE = COPIES, EVENT = 4, SLOT = 256, BEATS = 16, CHUNK = 0x10000, PIECES = 4,
       LANES = 2, TIMEOUT = 400, POLLED = 0 };

/* The copies: how many bytes were given to channels, and how many channels work on it. */
static struct job { uint32_t src, dst, len, next, lanes; } jobs[COPIES];

/* What each channel does: bytes of a copy, NONE if it is idle. */
static struct lane { uint32_t copy, first, len, deadline; } lanes[CHANNELS];

/* ---- programs ---- */

#define PUT(at, ...) \
    do { const uint8_t put[] = {__VA_ARGS__}; memcpy(at, put, sizeof put); at += sizeof put; } while (0)

/* Appends bursts: rounds of 256, and the rest. */
static uint8_t *put_bursts(uint8_t *at, uint32_t bursts, uint32_t beats, uint32_t size)
{
    uint32_t rounds = bursts / 256, rest = bursts % 256;

    PUT(at, DMA330_DMAMOV_CCR(DMA330_CCR(beats, size, 1, beats, size, 1)));
    if (rounds > 0)
        PUT(at, DMA330_DMALP(0, rounds), DMA330_DMALP(1, 256), DMA330_DMALD, DMA330_DMAST, DMA330_DMALPEND(1, 2),
            DMA330_DMALPEND(0, 6));
    if (rest > 0)
        PUT(at, DMA330_DMALP(1, rest), DMA330_DMALD, DMA330_DMAST, DMA330_DMALPEND(1, 2));
    return at;
}

/* Returns the largest beat that divides both addresses. */
static uint32_t beat_of(uint32_t src, uint32_t dst)
{
    uint32_t size = 8;

    while (((src | dst) & (size - 1)) != 0)
        size /= 2;
    return size;
}

/* Appends a piece. */
static uint8_t *put_piece(uint8_t *at, uint32_t src, uint32_t dst, uint32_t len)
{
    uint32_t size = beat_of(src, dst), burst = BEATS * size, rest = len % burst;

    PUT(at, DMA330_DMAMOV_SAR(src), DMA330_DMAMOV_DAR(dst));
    if (len >= burst)
        at = put_bursts(at, len / burst, BEATS, size);
    if (rest >= size)
        at = put_bursts(at, 1, rest / size, size);
    if (rest % size != 0)
        at = put_bursts(at, 1, rest % size, 1);
    return at;
}

/* Returns how many bytes there are up to the next multiple of 64 KiB of an address, at most `left`. */
static uint32_t piece_of(uint32_t src, uint32_t dst, uint32_t left)
{
    uint32_t to_src = CHUNK - src % CHUNK, to_dst = CHUNK - dst % CHUNK;
    uint32_t least = to_src < to_dst ? to_src : to_dst;

    return left < least ? left : least;
}

/* Writes a channel's program; returns how many bytes it copies. */
static uint32_t write_program(uint32_t channel)
{
    const struct lane *lane = &lanes[channel];
    const struct job *job = &jobs[lane->copy];
    uint8_t *at = harness_ram(HARNESS_RAM + SLOT * channel);
    uint32_t done = 0;

    for (uint32_t n = 0; n < PIECES && done < lane->len; n++) {
        uint32_t src = job->src + lane->first + done, dst = job->dst + lane->first + done;
        uint32_t len = piece_of(src, dst, lane->len - done);
        at = put_piece(at, src, dst, len);
        done += len;
    }
    PUT(at, DMA330_DMAWMB, DMA330_DMASEV(EVENT + channel), DMA330_DMAEND);
    return done;
}

/* ---- the device ---- */

static void debug(uint32_t first, uint32_t second)
{
    while (readl(DBGSTATUS) & 1)
        ;
    writel(DBGINST0, first);
    writel(DBGINST1, second);
    writel(DBGCMD, 0);
}

static uint32_t status(uint32_t channel)
{
    return readl(CSR + 8 * channel) & 15;
}

/* Starts a channel, which is stopped; returns how many bytes it copies. */
static uint32_t go(uint32_t channel)
{
    uint32_t len = write_program(channel);

    debug(DMA330_DBGINST0_GO(channel), HARNESS_RAM + SLOT * channel);
    lanes[channel].deadline = harness_now() + TIMEOUT + 2 * len;
    return len;
}

static void kill_channel(uint32_t channel)
{
    debug(DMA330_DBGINST0_KILL(channel), 0);
    while (status(channel) != 0)
        ;
    writel(INTCLR, 1u << (EVENT + channel));
}

/* ---- copies ---- */

/* Gives an idle channel a copy's next bytes. */
static void give(uint32_t channel, uint32_t copy)
{
    struct job *job = &jobs[copy];
    struct lane *lane = &lanes[channel];

    lane->copy = copy;
    lane->first = job->next;
    lane->len = job->len - job->next;
    lane->len = go(channel);
    job->next += lane->len;
    job->lanes++;
}

/* Gives all idle channels what there is to do. */
static void schedule(void)
{
    for (uint32_t channel = 0; channel < CHANNELS; channel++)
        for (uint32_t copy = 0; copy < COPIES && lanes[channel].copy == NONE; copy++)
            if (jobs[copy].next < jobs[copy].len && jobs[copy].lanes < LANES)
                give(channel, copy);
}

/* A channel's bytes are copied. */
static void finish(uint32_t channel)
{
    struct lane *lane = &lanes[channel];

    if (lane->copy == NONE)
        return;
    jobs[lane->copy].lanes--;
    lane->copy = NONE;
    schedule();
}

/* Starts a channel again, behind its first `done` bytes. What doesn't fit its program is for later. */
static void again(uint32_t channel, uint32_t done)
{
    struct lane *lane = &lanes[channel];

    kill_channel(channel);
    lane->first += done;
    lane->len -= done;
    go(channel);
}

/* Goes on after a fault: up to DAR all is stored. */
static void resume(uint32_t channel)
{
    struct lane *lane = &lanes[channel];

    again(channel, readl(DAR + 32 * channel) - (jobs[lane->copy].dst + lane->first));
}

/* ---- what the kit calls ---- */

static void reset(void)
{
    memset(jobs, 0, sizeof jobs);
    for (uint32_t channel = 0; channel < CHANNELS; channel++)
        lanes[channel].copy = NONE;
    writel(INTEN, POLLED ? 0 : ((1u << CHANNELS) - 1) << EVENT);
}

static void start(uint32_t n, uint32_t src, uint32_t dst, uint32_t len)
{
    const struct job job = {src, dst, len, 0, 0};

    jobs[n] = job;
    schedule();
}

/* Looks at the status of each channel that works. */
static void poll(void)
{
    for (uint32_t channel = 0; channel < CHANNELS; channel++) {
        uint32_t is = lanes[channel].copy == NONE ? 1 : status(channel);
        if (is == 0)
            finish(channel);
        else if (is == 15)
            resume(channel);
    }
}

static bool is_busy(uint32_t n)
{
    if (POLLED)
        poll();
    return jobs[n].next < jobs[n].len || jobs[n].lanes > 0;
}

static void handle_irq(void)
{
    uint32_t failed, done;

    if (POLLED)
        return;
    if (readl(FSRD) & 1)
        debug(DMA330_DBGINST0_KILL_MANAGER, 0);
    failed = readl(FSRC);
    done = readl(INTMIS);
    writel(INTCLR, done);
    for (uint32_t channel = 0; channel < CHANNELS; channel++) {
        if (done >> (EVENT + channel) & 1)
            finish(channel);
        if (failed >> channel & 1)
            resume(channel);
    }
}

static bool is_late(uint32_t channel)
{
    return lanes[channel].copy != NONE && harness_now() >= lanes[channel].deadline;
}

static void handle_timer(void)
{
    for (uint32_t channel = 0; channel < CHANNELS; channel++) {
        if (is_late(channel))
            handle_irq();
        if (is_late(channel))
            again(channel, 0);
    }
}

static void stop(uint32_t n)
{
    jobs[n].next = jobs[n].len;
    for (uint32_t channel = 0; channel < CHANNELS; channel++)
        if (lanes[channel].copy == n) {
            kill_channel(channel);
            lanes[channel].copy = NONE;
        }
    jobs[n].lanes = 0;
    schedule();
}

int main(int argc, char **argv)
{
    static const harness_driver driver = {
        {CHANNELS, 12, 0, 64, 64, 3}, COPIES, HARNESS_MOST_BYTES, 1,
        reset, start, is_busy, handle_irq, handle_timer, stop, true, {CHUNK, PIECES * CHUNK}, 0
    };
    return harness_main(argc, argv, &driver);
}
