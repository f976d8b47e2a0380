/* Tests how much memory the history of a controller takes for an entry, as dma330.h says above dma330_history_bytes.
 * Link it with -Wl,--wrap=malloc,--wrap=realloc,--wrap=free. */
#include "dma330.h"

#include <malloc.h>
#include <stdio.h>
#include <stdlib.h>

static int passed, failed;

static void check(int is_right, const char *what, double number)
{
    if (is_right) {
        passed++;
    } else {
        failed++;
        printf("%s: %.1f\n", what, number);
    }
}

void *__real_malloc(size_t size);
void *__real_realloc(void *block, size_t size);
void __real_free(void *block);
void *__wrap_malloc(size_t size);
void *__wrap_realloc(void *block, size_t size);
void __wrap_free(void *block);

/* How many bytes the allocated blocks have. */
static size_t allocated;

void *__wrap_malloc(size_t size)
{
    void *block = __real_malloc(size);

    allocated += malloc_usable_size(block);
    return block;
}

void *__wrap_realloc(void *block, size_t size)
{
    allocated -= malloc_usable_size(block);
    block = __real_realloc(block, size);
    allocated += malloc_usable_size(block);
    return block;
}

void __wrap_free(void *block)
{
    allocated -= malloc_usable_size(block);
    __real_free(block);
}

enum { ENTRIES = 100000 };

/* Returns how many bytes an entry of a write of this many bytes takes, with those of the list's free room. */
static double bytes_of_an_entry(size_t len)
{
    static const uint8_t bytes[64];
    dma330_conflict conflict;
    dma330_controller dma = DMA330_CONTROLLER_INIT;
    size_t before;
    double each;

    if (dma330_open(&dma, 4096, 1) != DMA330_OK)
        exit(1);
    dma330_write(&dma, 0, bytes, len, &conflict);
    before = allocated;
    for (int n = 0; n < ENTRIES; n++)
        if (dma330_write(&dma, 0, bytes, len, &conflict) != DMA330_OK)
            exit(1);
    each = (double)(allocated - before) / ENTRIES;
    dma330_close(&dma);
    return each;
}

int main(void)
{
    double few = bytes_of_an_entry(22), many = bytes_of_an_entry(64);

    check(few >= 64 && few <= 128, "bytes of an entry with 22 bytes", few);
    /* 64 bytes and 24 more, each in a block of the heap, which adds up to 16 bytes to each */
    check(many >= few + 64 + 24 && many <= few + 64 + 24 + 2 * 16, "bytes of an entry with 64 bytes", many);
    printf("%d passed, %d failed\n", passed, failed);
    return failed != 0;
}
