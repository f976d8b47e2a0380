/* The lengths and addresses of copies: mostly those at which drivers begin something new, and their neighbours. */
#include "harness_inside.h"

/* The classes of lengths: how many of 1,000 copies are of each, and the powers of two between which they lie. */
static const struct {
    uint32_t share, low, high;
} classes[] = {{800, 0, 10}, {160, 8, 14}, {33, 13, 17}, {7, 17, 20}};

/* Draws one of the driver's own sizes, 0 if it has none. */
static uint32_t draw_own(void)
{
    const uint32_t *sizes = machine.driver->sizes;
    uint32_t first = draw(HARNESS_SIZES), n = 0;

    while (n < HARNESS_SIZES && sizes[(first + n) % HARNESS_SIZES] == 0)
        n++;
    return n == HARNESS_SIZES || draw(3) != 0 ? 0 : sizes[(first + n) % HARNESS_SIZES];
}

/* Draws a length with which a burst, a loop, a loop within a loop or a program is full: a power of two, one of the
 * driver's own sizes, or a multiple of one, up to `most`. */
static uint32_t draw_full(uint32_t low, uint32_t high, uint32_t most)
{
    static const uint32_t loops[] = {2, 3, 15, 17, 255, 256, 257, 1};
    uint32_t size = 1u << (low + draw(high - low + 1)), own = draw_own();
    uint32_t times = draw(2) ? 1 : draw(2) ? loops[draw(8)] : 1 + draw(64);

    if (own != 0 && (own <= most || draw(8) == 0))
        size = own;
    return size <= most / times ? size * times : size;
}

/* Draws a length that isn't 0. */
static uint32_t draw_length(void)
{
    uint32_t longest = machine.driver->longest, kind = draw(1000), top = 0, n = 0, low, high, most, len, less;

    while (top < 31 && 2u << top <= longest)
        top++;
    for (; kind >= classes[n].share; n++)
        kind -= classes[n].share;
    high = classes[n].high < top ? classes[n].high : top;
    low = classes[n].low < high ? classes[n].low : high;
    most = high == top ? longest : 2u << high;
    if (draw(4) == 0)
        return 1 + draw(draw(2) && most > 64 ? 64 : most);
    len = high == top && draw(3) == 0 ? longest : draw_full(low, high, most);
    less = draw(2) ? 0 : draw(2) ? 1 : 1u << draw(7);
    len = draw(2) && len > less ? len - less : len + less;
    return len < longest ? len : longest;
}

/* Draws a multiple of a power of two from `low` to `high`; `low` if there is none. */
static uint32_t draw_multiple(uint64_t low, uint64_t high, uint32_t size)
{
    uint64_t first = (low + size - 1) / size * size;

    return (uint32_t)(first > high ? low : first + (uint64_t)size * draw((uint32_t)((high - first) / size) + 1));
}

/* Draws the address of a range of this length in a place: any, a multiple of 16, or one with which the range begins or
 * ends at a page or at 64 KiB, or some bytes off. */
static uint32_t draw_address(uint64_t place, uint32_t len)
{
    uint64_t last = place + machine.place - len - 64, at = place;
    uint32_t kind = draw(4), size = draw(4) ? PAGE : 16 * PAGE, more = draw(2) ? 0 : draw(33);

    if (kind == 0)
        return draw_multiple(place, last, 16);
    if (kind == 1)
        return (uint32_t)(place + draw((uint32_t)(last - place) + 1));
    at = kind == 2 ? draw_multiple(place, last, size) : draw_multiple(place + len, last + len, size) - len;
    at += more;
    at = more > 16 && at >= place + 33 ? at - 33 : at;
    return (uint32_t)(at < last ? at : last);
}

/* Draws the ranges of copy n, in its places or, of copy 0, at the end of memory. A quarter of the copies has its source
 * and its destination at the same place in 64 bytes. */
static void draw_ranges(uint32_t n, struct copy *it)
{
    const uint32_t size = machine.place, align = machine.driver->align;
    bool is_high = n == 0 && draw(4) == 0, is_source_last = draw(2) == 0;
    uint32_t first = is_high ? machine.high : HARNESS_RAM + HARNESS_DRIVER_BYTES + 2 * n * size;

    it->src = draw_address(first + (is_source_last ? size : 0), it->len);
    it->dst = draw_address(first + (is_source_last ? 0 : size), it->len);
    if (draw(4) == 0)
        it->dst = it->dst / 64 * 64 + it->src % 64;
    it->src = it->src / align * align;
    it->dst = it->dst / align * align;
    if (is_high && it->len > 0 && draw(2))
        *(is_source_last ? &it->src : &it->dst) = 0u - it->len;
}

void draw_copy(uint32_t n)
{
    struct copy *it = &machine.copies[n];
    uint32_t align = machine.driver->align, len = draw_length();

    it->len = len < align ? align : len / align * align;
    if (machine.driver->takes_empty && draw(24) == 0)
        it->len = 0;
    draw_ranges(n, it);
}
