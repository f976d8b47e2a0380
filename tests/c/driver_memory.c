#include "drivers.h"

#include <stdlib.h>
#include <string.h>

dma330_region lent[DMA330_MAX_REGIONS];
size_t lent_count;

enum { ROOM = 17 << 20, MOST_MOVED = 8 << 20, GAP = 64 };

/* What the memory's bytes are, were before a run, and should be after it. Between regions lie bytes that nothing may
 * write. */
static uint8_t memory[ROOM], before[ROOM], wanted[ROOM];
static size_t used;
static uint8_t lent_program[DMA330_MAX_PROGRAM];

/* A part of the memory that is to be: an explained range, or the program. */
typedef struct piece {
    uint64_t begin, end;
    bool is_written;
} piece;

static piece pieces[3 * MOST_ITEMS + 1];
static size_t piece_count;

static void add_piece(uint32_t addr, uint64_t len, bool is_written)
{
    pieces[piece_count++] = (piece){addr, addr + len, is_written};
}

static int by_address(const void *a, const void *b)
{
    uint64_t m = ((const piece *)a)->begin, n = ((const piece *)b)->begin;

    return m < n ? -1 : m > n;
}

/* Returns an address for a program that touches no piece. */
static uint32_t free_place(size_t len)
{
    uint32_t at = 0x00108000;
    bool is_free = false;

    while (!is_free) {
        at += 0x00100000;
        is_free = true;
        for (size_t n = 0; n < piece_count; n++)
            is_free = is_free && (pieces[n].end < at || at + len < pieces[n].begin);
    }
    return at;
}

/* Joins pieces that are only read where they overlap or touch, and those that are written where they touch. */
static void join_pieces(void)
{
    size_t kept = 0;

    qsort(pieces, piece_count, sizeof pieces[0], by_address);
    for (size_t n = 1; n < piece_count; n++) {
        piece *last = &pieces[kept], next = pieces[n];

        if (next.is_written == last->is_written && (next.is_written ? next.begin == last->end : next.begin <= last->end))
            last->end = next.end > last->end ? next.end : last->end;
        else
            pieces[++kept] = next;
    }
    piece_count = piece_count > 0 ? kept + 1 : 0;
}

/* Makes a region of each piece. The bytes of the one at `place` are the lent program. Returns whether there is room. */
static bool make_regions(uint32_t place)
{
    used = GAP;
    lent_count = 0;
    if (piece_count > DMA330_MAX_REGIONS)
        return false;
    for (size_t n = 0; n < piece_count; n++) {
        size_t len = (size_t)(pieces[n].end - pieces[n].begin);
        dma330_region *next = &lent[lent_count++];

        if (len > ROOM || used + len + GAP > ROOM)
            return false;
        *next = (dma330_region){(uint32_t)pieces[n].begin, memory + used, len, !pieces[n].is_written};
        if (next->addr == place)
            next->bytes = lent_program;
        else
            used += len + GAP;
    }
    return true;
}

/* Returns where the byte at an address of a region is in the three arrays. */
static size_t at_address(uint32_t addr)
{
    for (size_t n = 0; n < lent_count; n++)
        if (addr >= lent[n].addr && addr - lent[n].addr < lent[n].len)
            return (size_t)(lent[n].bytes - memory) + (addr - lent[n].addr);
    abort();
}

/* Fills the memory before a run with bytes from Marsaglia's xorshift. */
static void fill_before(void)
{
    static size_t filled;
    static uint32_t x = 2463534242u;

    for (; filled < used; filled++) {
        x ^= x << 13;
        x ^= x >> 17;
        x ^= x << 5;
        before[filled] = (uint8_t)x;
    }
}

/* Makes the wanted bytes: what the sources are before the run, stored to the destinations, and zeros. Returns whether
 * the lists have as many bytes as is explained. */
static bool want_worked(const meaning *is)
{
    static uint8_t moved[MOST_MOVED];
    size_t size = 0, stored = 0, cleared = 0;

    memcpy(wanted, before, used);
    for (size_t n = 0; n < is->src_len; n++)
        for (uint32_t k = 0; k < is->src[n].times; k++) {
            if (is->src[n].len > MOST_MOVED - size)
                return false;
            memcpy(moved + size, before + at_address(is->src[n].addr), is->src[n].len);
            size += is->src[n].len;
        }
    for (size_t n = 0; n < is->dst_len; n++) {
        if (is->dst[n].len > size - stored)
            return false;
        memcpy(wanted + at_address(is->dst[n].addr), moved + stored, is->dst[n].len);
        stored += is->dst[n].len;
    }
    for (size_t n = 0; n < is->zeros_len; n++) {
        memset(wanted + at_address(is->zeros[n].addr), 0, is->zeros[n].len);
        cleared += is->zeros[n].len;
    }
    return size == is->copied && stored == is->copied && cleared == is->cleared;
}

bool lend_ranges(const meaning *is, const uint8_t *bytes, size_t len, uint32_t *place)
{
    piece_count = 0;
    for (size_t n = 0; n < is->src_len; n++)
        add_piece(is->src[n].addr, is->src[n].len, false);
    for (size_t n = 0; n < is->dst_len; n++)
        add_piece(is->dst[n].addr, is->dst[n].len, true);
    for (size_t n = 0; n < is->zeros_len; n++)
        add_piece(is->zeros[n].addr, is->zeros[n].len, true);
    *place = free_place(len);
    add_piece(*place, len, false);
    join_pieces();
    memcpy(lent_program, bytes, len);
    if (is->copied > MOST_MOVED || is->cleared > MOST_MOVED || !make_regions(*place))
        return false;
    fill_before();
    return true;
}

/* Returns whether this number of the first bytes of a list are as they should be, and the others as before the run. */
static bool has_first(const dma330_segment *list, size_t len, uint64_t count)
{
    bool has = true;

    for (size_t n = 0; n < len; n++) {
        uint32_t done = count < list[n].len ? (uint32_t)count : list[n].len;
        size_t at = at_address(list[n].addr);

        has = has && memcmp(memory + at, wanted + at, done) == 0;
        has = has && memcmp(memory + at + done, before + at + done, list[n].len - done) == 0;
        count -= done;
    }
    return has && count == 0;
}

bool has_done(const meaning *is, uint64_t copied, uint64_t cleared)
{
    return has_first(is->dst, is->dst_len, copied) && has_first(is->zeros, is->zeros_len, cleared);
}

void forget_run(void)
{
    memcpy(memory, before, used);
}

bool begin_run(const meaning *is)
{
    forget_run();
    return want_worked(is);
}

bool is_memory_wanted(void)
{
    return memcmp(memory, wanted, used) == 0;
}
