/* A driver of another design than examples/c/example_driver.c, which the kit must accept: more copies than
 * channels, in chunks of 4,000 bytes; events from a pool, which are interrupts only while they are in use; one event in
 * a call of the handler; after a fault all channels begin anew. The processor copies up to 8 bytes, and the last burst
 * of a chunk may store some bytes again. wrong_drivers.sh tries it. */
#include "harness.h"

#include "dma330_program.h"

#include <string.h>

#define readl harness_read
#define writel harness_write

enum { INTEN = 0x020, INTMIS = 0x028, INTCLR = 0x02C, FSRC = 0x034, CSR = 0x100, DBGSTATUS = 0xD00, DBGCMD = 0xD04,
       DBGINST0 = 0xD08, DBGINST1 = 0xD0C };
enum { CHANNELS = 2, COPIES = 5, EVENTS = 7, CHUNK = 4000, PROGRAM_BYTES = 128, BEATS = 16, FEW = 8, TIMEOUT = 400 };

/* The copies: which are queued, in which order, and how many bytes of each are done. */
static struct job {
    uint32_t src, dst, len, done, order;
    bool is_busy, is_queued;
} jobs[COPIES];
static uint32_t orders;

/* The channels: the job of each, or NULL, its event, the bytes of its chunk, and when it is late. A channel has two
 * places for programs, which it uses in turn. */
static struct channel {
    struct job *job;
    uint32_t event, chunk, deadline, place;
} channels[CHANNELS];

/* The events that are in use. */
static uint32_t events;

/* ---- programs ---- */

/* Appends instructions to a program. */
#define PUT(at, ...) \
    do { const uint8_t put[] = {__VA_ARGS__}; memcpy(at, put, sizeof put); at += sizeof put; } while (0)

/* Writes the program of a chunk: bursts of bytes, and one that ends with the last byte. */
static void write_program(uint8_t *at, uint32_t src, uint32_t dst, uint32_t len, uint32_t event)
{
    uint32_t beats = len < BEATS ? len : (uint32_t)BEATS, left = len - beats;

    PUT(at, DMA330_DMAMOV_CCR(DMA330_CCR_COPY(beats, 1)), DMA330_DMAMOV_SAR(src), DMA330_DMAMOV_DAR(dst));
    PUT(at, DMA330_DMALP(1, len / beats), DMA330_DMALD, DMA330_DMAST, DMA330_DMALPEND(1, 2));
    if (len % beats > 0)
        PUT(at, DMA330_DMAMOV_SAR(src + left), DMA330_DMAMOV_DAR(dst + left), DMA330_DMALD, DMA330_DMAST);
    PUT(at, DMA330_DMAWMB, DMA330_DMASEV(event), DMA330_DMAEND);
}

/* ---- the device ---- */

/* Makes the manager, or the channel that `first` names, execute an instruction. */
static void debug(uint32_t first, uint32_t second)
{
    while (readl(DBGSTATUS) & 1)
        ;
    writel(DBGINST0, first);
    writel(DBGINST1, second);
    writel(DBGCMD, 0);
}

/* Copies the next chunk of a channel's job. */
static void go(uint32_t n)
{
    struct channel *it = &channels[n];
    const struct job *job = it->job;
    uint32_t left = job->len - job->done;
    uint32_t addr = HARNESS_RAM + PROGRAM_BYTES * (2 * n + (it->place ^= 1));

    it->chunk = left < CHUNK ? left : (uint32_t)CHUNK;
    write_program(harness_ram(addr), job->src + job->done, job->dst + job->done, it->chunk, it->event);
    debug(DMA330_DBGINST0_GO(n), addr);
    it->deadline = harness_now() + TIMEOUT + 4 * it->chunk;
}

/* Stops a channel. An interrupt from before must not end its next chunk. */
static void kill_channel(uint32_t n)
{
    debug(DMA330_DBGINST0_KILL(n), 0);
    while (readl(CSR + 8 * n) & 15)
        ;
    writel(INTCLR, 1u << channels[n].event);
}

/* ---- the queue ---- */

/* Returns the queued job that has waited longest, or NULL. */
static struct job *next_job(void)
{
    struct job *next = NULL;

    for (uint32_t n = 0; n < COPIES; n++)
        if (jobs[n].is_queued && (next == NULL || jobs[n].order < next->order))
            next = &jobs[n];
    return next;
}

/* Gives queued jobs to channels without one. There are more events than channels. */
static void schedule(void)
{
    for (uint32_t n = 0; n < CHANNELS; n++) {
        struct channel *it = &channels[n];
        if (it->job != NULL || next_job() == NULL)
            continue;
        it->job = next_job();
        it->job->is_queued = false;
        while (events >> it->event & 1)
            it->event = (it->event + 1) % EVENTS;
        events |= 1u << it->event;
        writel(INTEN, events);
        go(n);
    }
}

/* Takes a channel from its job. */
static void leave(struct channel *it)
{
    events &= ~(1u << it->event);
    writel(INTEN, events);
    it->job = NULL;
}

/* Goes on after a chunk. */
static void end_chunk(uint32_t n)
{
    struct channel *it = &channels[n];

    writel(INTCLR, 1u << it->event);
    it->job->done += it->chunk;
    if (it->job->done < it->job->len) {
        go(n);
        return;
    }
    it->job->is_busy = false;
    leave(it);
    schedule();
}

/* ---- what the kit calls ---- */

static void reset(void)
{
    memset(jobs, 0, sizeof jobs);
    memset(channels, 0, sizeof channels);
    orders = events = 0;
    writel(INTEN, 0);
}

static void start(uint32_t n, uint32_t src, uint32_t dst, uint32_t len)
{
    const struct job job = {src, dst, len, 0, orders++, len > FEW, len > FEW};

    jobs[n] = job;
    if (len > FEW)
        schedule();
    else if (len > 0)
        memcpy(harness_ram(dst), harness_ram(src), len);
}

static bool is_busy(uint32_t n)
{
    return jobs[n].is_busy;
}

/* Kills all channels, and copies their chunks again. */
static void recover(void)
{
    for (uint32_t n = 0; n < CHANNELS; n++) {
        kill_channel(n);
        if (channels[n].job != NULL)
            go(n);
    }
}

static void handle_irq(void)
{
    uint32_t set;

    if (readl(FSRC) != 0) {
        recover();
        return;
    }
    set = readl(INTMIS);
    for (uint32_t n = 0; n < CHANNELS; n++)
        if (channels[n].job != NULL && set >> channels[n].event & 1) {
            end_chunk(n);
            return;
        }
}

static bool is_late(uint32_t n)
{
    return channels[n].job != NULL && harness_now() >= channels[n].deadline;
}

/* If a chunk takes too long, its interrupt is lost, or its channel is stuck. */
static void handle_timer(void)
{
    for (uint32_t n = 0; n < CHANNELS; n++) {
        for (uint32_t k = 0; is_late(n) && k < 2 * CHANNELS; k++)
            handle_irq();
        if (!is_late(n))
            continue;
        kill_channel(n);
        go(n);
    }
}

static void stop(uint32_t n)
{
    for (uint32_t k = 0; k < CHANNELS; k++)
        if (channels[k].job == &jobs[n]) {
            kill_channel(k);
            leave(&channels[k]);
        }
    jobs[n].is_busy = jobs[n].is_queued = false;
    schedule();
}

int main(int argc, char **argv)
{
    static const harness_driver driver = {
        {CHANNELS, EVENTS, 0, 64, 32, 3}, /* the chip */
        COPIES, 200000, 1,                /* copies at a time, the longest, of any alignment */
        reset, start, is_busy, handle_irq, handle_timer, stop,
        true, {FEW, BEATS, CHUNK}, 0      /* also of no bytes; its sizes; no DMAWFE */
    };
    return harness_main(argc, argv, &driver);
}
