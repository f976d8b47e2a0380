/* Checks for which pages a controller allocates memory: at a start for those of the transfer's destinations, and for none
 * in the steps after it. It counts the bytes that the library requests: a chunk of four pages has 16,384, everything else
 * here is smaller. */
#include "dma330.h"
#include "heap.h"

#include <stdio.h>

#define CHUNK 16384

int allocation_fails(void)
{
    return 0;
}

static int passed, failed;

static void is_right(int holds, const char *what)
{
    if (holds)
        passed++;
    else
        failed++, printf("WRONG: %s\n", what);
}

/* Returns how many whole chunks of bytes a call of `most` steps requests. */
static size_t chunks_of_steps(dma330_controller *controller, uint32_t most)
{
    dma330_report report;
    requested_bytes = 0;
    is_right(dma330_step(controller, 0, most, &report) == DMA330_OK, "a step failed");
    return requested_bytes / CHUNK;
}

/* Submits and issues a copy of four bytes. */
static void submit(dma330_controller *controller, uint32_t from, uint32_t to)
{
    const dma330_segment src = {from, 4}, dst = {to, 4};
    uint32_t cookie, count;
    is_right(dma330_submit(controller, 0, &src, 1, &dst, 1, DMA330_NO_EVENT, DMA330_NO_EVENT, &cookie) == DMA330_OK &&
                 dma330_issue(controller, 0, &count) == DMA330_OK,
             "a copy failed");
}

int main(void)
{
    static const uint8_t bytes[4] = {1, 2, 3, 4};
    dma330_controller controller = DMA330_CONTROLLER_INIT;
    dma330_conflict conflict;
    is_right(dma330_open(&controller, 1 << 20, 1) == DMA330_OK, "no controller");
    is_right(dma330_write(&controller, 0x80000, bytes, 4, &conflict) == DMA330_OK, "a write failed");

    submit(&controller, 0x80000, 0x80010);
    is_right(chunks_of_steps(&controller, 1) == 0, "a start makes a chunk, though its destination's page exists");
    is_right(chunks_of_steps(&controller, 100) == 0, "steps make a chunk");

    submit(&controller, 0x10000, 0x80020);
    is_right(chunks_of_steps(&controller, 1) == 0, "a start makes the chunk of its source");
    is_right(chunks_of_steps(&controller, 100) == 0, "steps make the chunk of a source");

    submit(&controller, 0x80000, 0x20000);
    is_right(chunks_of_steps(&controller, 1) == 1, "a start makes another number of chunks than its one destination's");
    is_right(chunks_of_steps(&controller, 100) == 0, "steps make a chunk after the start");

    submit(&controller, 0x80000, 0x33ffe);
    is_right(chunks_of_steps(&controller, 1) == 2, "a start makes another number of chunks than its two destinations'");
    dma330_close(&controller);
    printf("%d passed, %d failed\n", passed, failed);
    return failed != 0;
}
