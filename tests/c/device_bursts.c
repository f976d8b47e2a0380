/* Tests the bursts of a dma330_device at addresses that aren't multiples of their beats' sizes. What each row expects is
 * worked out by hand from the AXI protocol: the first beat of a burst that rises ends at the next multiple of its size. */
#include "guest.h"

static machine m;

/* One end of CCR: bursts of `beats` beats of 2 to the power of `size` bytes. */
#define RISING(size, beats) (1u | FIXED(size, beats))
#define FIXED(size, beats) ((size) << 1 | ((beats) - 1u) << 4)

/* In the rows SAR begins at FROM + n, and DAR at TO + n. */
#define FROM (LOW + 0x400)
#define TO (FAR + 0x100)

enum { RISES = 0xFFFF };

/* Loops of DMALD and DMAST, with the bytes that they move in all, and SAR and DAR after them. Byte number k goes from SAR
 * + k % `from_each` to DAR + k % `to_each`: where the address rises, to the next one. */
static const struct {
    const char *what;
    uint32_t bus, source, destination;
    uint32_t from, to, bodies;
    uint32_t moved, sar, dar;
    uint32_t from_each, to_each;
} rows[] = {
    {"4 beats of 4 at 6", 32, RISING(2, 4), RISING(2, 4), FROM + 6, TO + 6, 1, 14, FROM + 20, TO + 20, RISES, RISES},
    {"on a wider bus", 128, RISING(2, 4), RISING(2, 4), FROM + 6, TO + 6, 1, 14, FROM + 20, TO + 20, RISES, RISES},
    {"4 beats of 4 at 8", 32, RISING(2, 4), RISING(2, 4), FROM + 8, TO + 12, 1, 16, FROM + 24, TO + 28, RISES, RISES},
    {"2 beats of 8 at 15", 64, RISING(3, 2), RISING(3, 2), FROM + 15, TO + 23, 1, 9, FROM + 24, TO + 32, RISES, RISES},
    {"a beat of 16 at 15", 128, RISING(4, 1), RISING(4, 1), FROM + 15, TO + 31, 1, 1, FROM + 16, TO + 32, RISES, RISES},
    {"a load at 3", 32, RISING(2, 4), RISING(0, 13), FROM + 3, TO + 7, 1, 13, FROM + 16, TO + 20, RISES, RISES},
    {"a store at 7", 32, RISING(0, 13), RISING(2, 4), FROM + 1, TO + 7, 1, 13, FROM + 14, TO + 20, RISES, RISES},
    {"20 bodies", 32, RISING(2, 4), RISING(2, 4), FROM + 6, TO + 2, 20, 318, FROM + 324, TO + 320, RISES, RISES},
    {"long bursts", 128, RISING(4, 16), RISING(4, 16), FROM + 8, TO + 24, 12, 3064, FROM + 3072, TO + 3088, RISES, RISES},
    {"the end of RAM", 32, RISING(2, 4), RISING(0, 14), NEXT_END - 14, TO, 1, 14, NEXT_END, TO + 14, RISES, RISES},
    {"a load that stays", 32, FIXED(2, 2), RISING(0, 8), FROM + 6, TO + 3, 1, 8, FROM + 6, TO + 11, 4, RISES},
    {"a store that stays", 32, RISING(0, 8), FIXED(2, 2), FROM + 1, TO + 6, 1, 8, FROM + 9, TO + 6, RISES, 4}
};

/* Writes the program of a row at LOW. */
static void put_loop(size_t n)
{
    uint32_t at, body;

    at = put_move(&m, LOW, TO_SAR, rows[n].from);
    at = put_move(&m, at, TO_DAR, rows[n].to);
    at = put_move(&m, at, TO_CCR, rows[n].source | rows[n].destination << 14);
    body = at = put_two(&m, at, DMALP, rows[n].bodies - 1);
    at = put(&m, put(&m, at, DMALD), DMAST);
    put(&m, put_two(&m, at, DMALPEND, at - body), DMAEND);
}

/* Each row moves the bytes that it says, and none beside them, however many steps a turn has. */
static void moves_the_bytes(size_t n, uint32_t most)
{
    dma330_device_config config = plain(1, 4, false);
    int turns = 0;

    config.bus = rows[n].bus;
    set_up(&m, config);
    put_loop(n);
    *byte_at(m.bytes, rows[n].to - 1) = 0xEE;
    *byte_at(m.bytes, rows[n].to + (rows[n].to_each == RISES ? rows[n].moved : rows[n].to_each)) = 0xEE;
    want_ram(&m);
    for (uint32_t k = 0; k < rows[n].moved; k++)
        *byte_at(m.wanted, rows[n].to + k % rows[n].to_each) = *byte_at(m.wanted, rows[n].from + k % rows[n].from_each);
    start(&m, 0, LOW);
    while (turn(&m, 0, most) && turns < 1000)
        turns++;
    check(get(&m, CSR) == 0 && get(&m, FSRC) == 0 && is_ram_wanted(&m), rows[n].what, most);
    check(get(&m, SAR) == rows[n].sar && get(&m, DAR) == rows[n].dar, rows[n].what, most);
    tear_down(&m);
}

/* A burst that would end 4 bytes above RAM fails, and moves nothing. */
static void ends_above_ram(void)
{
    uint32_t at;

    set_up(&m, plain(1, 4, false));
    at = put_move(&m, LOW, TO_SAR, NEXT_END - 10);
    at = put_move(&m, at, TO_CCR, RISING(2, 4));
    put(&m, put(&m, at, DMALD), DMAEND);
    want_ram(&m);
    start(&m, 0, LOW);
    check(!run(&m, 0) && get(&m, FTR) == 1 << 18 && get(&m, SAR) == NEXT_END - 10 && is_ram_wanted(&m), "above RAM", 0);
    tear_down(&m);
}

/* After a load of 14 bytes a store of 16 fails. */
static void stores_too_many(void)
{
    uint32_t at;

    set_up(&m, plain(1, 4, false));
    at = put_move(&m, LOW, TO_SAR, FROM + 6);
    at = put_move(&m, at, TO_DAR, TO);
    at = put_move(&m, at, TO_CCR, RISING(2, 4) | RISING(2, 4) << 14);
    put(&m, put(&m, put(&m, at, DMALD), DMAST), DMAEND);
    want_ram(&m);
    start(&m, 0, LOW);
    check(!run(&m, 0) && get(&m, FTR) == 1 << 13 && get(&m, DAR) == TO && is_ram_wanted(&m), "a store too long", 0);
    tear_down(&m);
}

int main(void)
{
    static const uint32_t mosts[] = {1, 2, 5, 16, 1000};

    for (size_t n = 0; n < sizeof rows / sizeof rows[0]; n++)
        for (size_t k = 0; k < sizeof mosts / sizeof mosts[0]; k++)
            moves_the_bytes(n, mosts[k]);
    ends_above_ram();
    stores_too_many();
    return end_checks();
}
