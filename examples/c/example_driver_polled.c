/* A driver of the PL330 that polls, as a boot loader's does, and its test by the kit of harness.h. It makes one copy at
 * a time, of whole words, enables no interrupt, and reads CSR until the channel has stopped. One that has failed or
 * takes too long makes its copy again. The options and the status are those of example_driver.c. */
#include "harness.h"

#include "dma330_program.h"

#include <string.h>

/* How this driver accesses the device: with the order of arguments that Linux has, the value first, and an offset in
 * the place of an address. */
#define readl harness_read
#define writel(value, offset) harness_write(offset, value)

enum { CSR = 0x100, DBGSTATUS = 0xD00, DBGCMD = 0xD04, DBGINST0 = 0xD08, DBGINST1 = 0xD0C };
enum { STOPPED = 0, FAULTING = 15, CHANNEL = 0, WORD = 4, BEATS = 16, BURST = BEATS * WORD, TIMEOUT = 300 };

/* The copy, and whether it isn't done. */
static struct { uint32_t src, dst, len, deadline; bool runs; } job;

/* ---- the program ---- */

/* Appends instructions to a program. (Each macro of dma330_program.h is a list of an instruction's bytes, with commas
 * between them, for the initializer of an array.) */
#define PUT(at, ...) \
    do { const uint8_t put[] = {__VA_ARGS__}; memcpy(at, put, sizeof put); at += sizeof put; } while (0)

/* Writes the channel's program: rounds of 256 bursts, by two loops, the other whole bursts, and a shorter one. CSR
 * reads as stopped only after all is stored, so no barrier is needed before DMAEND. */
static void write_program(void)
{
    uint32_t bursts = job.len / BURST, words = job.len % BURST / WORD;
    uint8_t *at = harness_ram(HARNESS_RAM);

    PUT(at, DMA330_DMAMOV_SAR(job.src), DMA330_DMAMOV_DAR(job.dst), DMA330_DMAMOV_CCR(DMA330_CCR_COPY(BEATS, WORD)));
    if (bursts >= 256)
        PUT(at, DMA330_DMALP(1, bursts / 256), DMA330_DMALP(0, 256), DMA330_DMALD, DMA330_DMAST,
            DMA330_DMALPEND(0, 2), DMA330_DMALPEND(1, 6));
    if (bursts % 256 > 0)
        PUT(at, DMA330_DMALP(0, bursts % 256), DMA330_DMALD, DMA330_DMAST, DMA330_DMALPEND(0, 2));
    if (words > 0)
        PUT(at, DMA330_DMAMOV_CCR(DMA330_CCR_COPY(words, WORD)), DMA330_DMALD, DMA330_DMAST);
    PUT(at, DMA330_DMAEND);
}

/* ---- the device ---- */

/* Makes the manager, or the channel that `first` names, execute an instruction, and waits until it has. So from a
 * DMAGO on, CSR reads as stopped only after the program has ended. */
static void debug(uint32_t first, uint32_t second)
{
    writel(first, DBGINST0);
    writel(second, DBGINST1);
    writel(0, DBGCMD);
    while (readl(DBGSTATUS) & 1)
        ;
}

static uint32_t status(void)
{
    return readl(CSR + 8 * CHANNEL) & 15;
}

/* Makes the copy. The channel is stopped. */
static void go(void)
{
    write_program();
    debug(DMA330_DBGINST0_GO(CHANNEL), HARNESS_RAM);
    job.deadline = harness_now() + TIMEOUT + 2 * job.len;
}

static void kill_channel(void)
{
    debug(DMA330_DBGINST0_KILL(CHANNEL), 0);
    while (status() != STOPPED)
        ;
}

/* ---- what the kit calls ---- */

static void reset(void)
{
    job.runs = false;
}

static void start(uint32_t n, uint32_t src, uint32_t dst, uint32_t len)
{
    (void)n;
    job.src = src;
    job.dst = dst;
    job.len = len;
    job.runs = true;
    go();
}

/* Looks at the channel. A copy that has failed or takes too long is made again. */
static void watch(void)
{
    uint32_t is;

    if (!job.runs)
        return;
    is = status();
    if (is == STOPPED) {
        job.runs = false;
    } else if (is == FAULTING || harness_now() >= job.deadline) {
        kill_channel();
        go();
    }
}

static bool is_busy(uint32_t n)
{
    (void)n;
    watch();
    return job.runs;
}

static void stop(uint32_t n)
{
    (void)n;
    kill_channel();
    job.runs = false;
}

int main(int argc, char **argv)
{
    const dma330_device_config chip = {1, 1, 0, 32, 64, 3};
    static harness_driver driver; /* what isn't set stays 0 */

    driver.chip = chip;
    driver.copies = 1;
    driver.longest = HARNESS_MOST_BYTES;
    driver.align = WORD;
    driver.reset = reset;
    driver.start = start;
    driver.is_busy = is_busy;
    driver.handle_irq = driver.handle_timer = watch;
    driver.stop = stop;
    return harness_main(argc, argv, &driver);
}
