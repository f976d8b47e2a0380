/* A driver of the PL330, and its test by the kit of harness.h: whatever trouble comes, all copies must be right in the
 * end. ../../harness/HARNESS.md says how to test your own driver.
 *
 *     example_driver [--seed N | --seeds A-B] [--vcd FILE]
 *
 * Its status is 0 if the driver recovers. Seed 1, the default, prints the text of example_driver.txt. */
#include "harness.h"

#include "dma330_program.h"

#include <string.h>

/* How this driver accesses the device: with the order of arguments that Linux has, the value first, and an offset in
 * the place of an address. */
#define readl harness_read
#define writel(value, offset) harness_write(offset, value)

enum { INTEN = 0x020, INTMIS = 0x028, INTCLR = 0x02C, FSRC = 0x034, CSR = 0x100, DBGSTATUS = 0xD00, DBGCMD = 0xD04,
       DBGINST0 = 0xD08, DBGINST1 = 0xD0C };
enum { CHANNELS = 3, PROGRAM_BYTES = 128, BEATS = 16, TIMEOUT = 300 };

/* Each channel's copy, and a bit for each channel that isn't done. Channel n makes copy n, and signals event n. */
static struct job { uint32_t src, dst, len, deadline; } jobs[CHANNELS];
static uint32_t busy;

/* ---- programs ---- */

/* Appends instructions to a program. (Each macro of dma330_program.h is a list of an instruction's bytes, with commas
 * between them, for the initializer of an array.) */
#define PUT(at, ...) \
    do { const uint8_t put[] = {__VA_ARGS__}; memcpy(at, put, sizeof put); at += sizeof put; } while (0)

/* Appends loops that move a number of bursts: a loop in a loop for each 256 of them, and one for the rest. */
static uint8_t *put_bursts(uint8_t *at, uint32_t bursts, uint32_t beats, uint32_t size)
{
    PUT(at, DMA330_DMAMOV_CCR(DMA330_CCR_COPY(beats, size)));
    if (bursts >= 256)
        PUT(at, DMA330_DMALP(1, bursts / 256), DMA330_DMALP(0, 256), DMA330_DMALD, DMA330_DMAST, DMA330_DMALPEND(0, 2),
            DMA330_DMALPEND(1, 6));
    if (bursts % 256 > 0)
        PUT(at, DMA330_DMALP(0, bursts % 256), DMA330_DMALD, DMA330_DMAST, DMA330_DMALPEND(0, 2));
    return at;
}

/* Returns the largest beat, in bytes, that the bus has and that divides both addresses. */
static uint32_t beat_of(const struct job *job)
{
    uint32_t both = job->src | job->dst;
    return both % 4 == 0 ? 4 : both % 2 == 0 ? 2 : 1;
}

/* Writes a channel's program: whole bursts, a shorter one, and the last bytes. It signals only when all is stored. */
static void write_program(uint32_t channel)
{
    const struct job *job = &jobs[channel];
    uint32_t size = beat_of(job), burst = BEATS * size;
    uint8_t *at = harness_ram(HARNESS_RAM + PROGRAM_BYTES * channel);

    PUT(at, DMA330_DMAMOV_SAR(job->src), DMA330_DMAMOV_DAR(job->dst));
    if (job->len >= burst)
        at = put_bursts(at, job->len / burst, BEATS, size);
    if (job->len % burst >= size)
        at = put_bursts(at, 1, job->len % burst / size, size);
    if (job->len % size > 0)
        at = put_bursts(at, 1, job->len % size, 1);
    PUT(at, DMA330_DMAWMB, DMA330_DMASEV(channel), DMA330_DMAEND);
}

/* ---- the device ---- */

/* Makes the manager, or the channel that `first` names, execute an instruction. */
static void debug(uint32_t first, uint32_t second)
{
    while (readl(DBGSTATUS) & 1)
        ;
    writel(first, DBGINST0);
    writel(second, DBGINST1);
    writel(0, DBGCMD);
}

/* Makes the copy of a channel that is stopped. */
static void go(uint32_t channel)
{
    write_program(channel);
    debug(DMA330_DBGINST0_GO(channel), HARNESS_RAM + PROGRAM_BYTES * channel);
    jobs[channel].deadline = harness_now() + TIMEOUT + 2 * jobs[channel].len;
}

/* Stops a channel. An interrupt from before must not end its next copy. */
static void kill_channel(uint32_t channel)
{
    debug(DMA330_DBGINST0_KILL(channel), 0);
    while (readl(CSR + 8 * channel) & 15)
        ;
    writel(1u << channel, INTCLR);
}

/* Makes the copy of a channel again. */
static void restart(uint32_t channel)
{
    kill_channel(channel);
    go(channel);
}

/* ---- what the kit calls ---- */

static void reset(void)
{
    busy = 0;
    writel((1u << CHANNELS) - 1, INTEN);
}

static void start(uint32_t channel, uint32_t src, uint32_t dst, uint32_t len)
{
    const struct job job = {src, dst, len, 0};

    jobs[channel] = job;
    busy |= 1u << channel;
    go(channel);
}

static bool is_busy(uint32_t channel)
{
    return busy >> channel & 1;
}

static void handle_irq(void)
{
    uint32_t failed = readl(FSRC), done = readl(INTMIS);

    writel(done, INTCLR);
    busy &= ~done;
    for (uint32_t channel = 0; channel < CHANNELS; channel++)
        if (failed >> channel & 1)
            restart(channel);
}

static bool is_late(uint32_t channel)
{
    return is_busy(channel) && harness_now() >= jobs[channel].deadline;
}

/* If a copy takes too long, its interrupt is lost, or its channel is stuck. */
static void handle_timer(void)
{
    for (uint32_t channel = 0; channel < CHANNELS; channel++) {
        if (is_late(channel))
            handle_irq();
        if (is_late(channel))
            restart(channel);
    }
}

static void stop(uint32_t channel)
{
    kill_channel(channel);
    busy &= ~(1u << channel);
}

int main(int argc, char **argv)
{
    static const harness_driver driver = {
        {CHANNELS, CHANNELS, 0, 32, 64 * CHANNELS, 3}, /* the chip */
        CHANNELS,                                      /* copies at a time */
        HARNESS_MOST_BYTES, 1,                         /* of any length and alignment */
        reset, start, is_busy, handle_irq, handle_timer, stop,
        true, {0}, 0                                   /* also of no bytes; no sizes of its own; no DMAWFE */
    };
    return harness_main(argc, argv, &driver);
}
