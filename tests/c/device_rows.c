/* Tests dma330_device_step_rows. Two machines run the same program: one by this call, the other by the turns that it
 * reports, one by one. Both must be the same after each call. Tests also how many steps turns take. Link it with
 * heap.h's flags. */
#include "guest.h"

#include <string.h>

static machine m, other;

#define WORD(v) (v) & 0xFF, (v) >> 8 & 0xFF, (v) >> 16 & 0xFF, (v) >> 24 & 0xFF
#define MOVE(to, v) DMAMOV, to, WORD(v)
#define HALF(n) (n) & 0xFF, (n) >> 8

/* Bursts of `beats` beats of 2 to the power of `size` bytes at both ends, at addresses that rise. */
#define BURSTS(size, beats) (0x4001u | (size) << 1 | ((beats) - 1u) << 4 | (size) << 15 | ((beats) - 1u) << 18)

enum { ADDH_SAR = DMAADDH, ADDH_DAR = DMAADDH | 2, PROGRAM = LOW + 0x2C00 };

static const dma330_device_config config = {1, 4, 0, 64, 16, 3};

static void set_up_both(const uint8_t *program, size_t len)
{
    machine *both[] = {&m, &other};

    for (int n = 0; n < 2; n++) {
        set_up(both[n], config);
        for (size_t at = 0; at < len; at++)
            *byte_at(both[n]->bytes, PROGRAM + (uint32_t)at) = program[at];
        want_ram(both[n]);
        set(both[n], INTEN, 1);
    }
}

static void tear_down_both(void)
{
    tear_down(&m);
    tear_down(&other);
}

/* Runs the program of both machines to its end or fault, for at most `limit` calls. Returns the number of calls, and adds
 * to `several` how many of them took several turns. */
static uint32_t run_both(uint32_t most, uint32_t limit, uint32_t *several)
{
    uint32_t calls = 0;

    start(&m, 0, PROGRAM);
    start(&other, 0, PROGRAM);
    for (; can_step(&m) && calls < limit; calls++)
        *several += take_rows(&m, &other, 0, most);
    return calls;
}

/* ---- rectangles ---- */

/* Rows that a program copies: how many bytes each has, their pitches, how many there are, in how many calls they are
 * copied at most, and how many steps the program takes. A row is a call where rows aren't copied at once. */
#define FROM (LOW + 0x100)
#define TO (NEXT + 0x20)
static const struct {
    const char *what;
    uint32_t src, dst, len, src_pitch, dst_pitch, rows, calls, steps;
    uint8_t program[48];
} rectangles[] = {
    {"rows of 64 bytes", FROM, TO, 64, 80, 96, 60, 4, 3 + 1 + 60 * 5 + 1,
     {MOVE(TO_SAR, FROM), MOVE(TO_DAR, TO), MOVE(TO_CCR, BURSTS(2, 16)), DMALP, 59, DMALD, DMAST, ADDH_SAR, HALF(16),
      ADDH_DAR, HALF(32), DMALPEND, 8, DMAEND}},
    {"a packed source", FROM, TO, 64, 64, 68, 60, 4, 3 + 1 + 60 * 4 + 1,
     {MOVE(TO_SAR, FROM), MOVE(TO_DAR, TO), MOVE(TO_CCR, BURSTS(2, 16)), DMALP, 59, DMALD, DMAST, ADDH_DAR, HALF(4),
      DMALPEND, 5, DMAEND}},
    {"a packed destination", FROM, TO, 64, 72, 64, 60, 4, 3 + 1 + 60 * 5 + 1,
     {MOVE(TO_SAR, FROM), MOVE(TO_DAR, TO), MOVE(TO_CCR, BURSTS(3, 8)), DMALP, 59, DMALD, DMAST, ADDH_SAR, HALF(8),
      ADDH_DAR, HALF(0), DMALPEND, 8, DMAEND}},
    {"within one picture", FROM, FROM + 64, 64, 128, 128, 60, 4, 3 + 1 + 60 * 5 + 1,
     {MOVE(TO_SAR, FROM), MOVE(TO_DAR, FROM + 64), MOVE(TO_CCR, BURSTS(3, 8)), DMALP, 59, DMALD, DMAST, ADDH_SAR,
      HALF(64), ADDH_DAR, HALF(64), DMALPEND, 8, DMAEND}},
    {"within one picture, down by a row", FROM, FROM + 64, 32, 64, 64, 60, 4, 3 + 1 + 60 * 5 + 1,
     {MOVE(TO_SAR, FROM), MOVE(TO_DAR, FROM + 64), MOVE(TO_CCR, BURSTS(3, 4)), DMALP, 59, DMALD, DMAST, ADDH_SAR,
      HALF(32), ADDH_DAR, HALF(32), DMALPEND, 8, DMAEND}},
    {"two pairs a row", FROM, TO, 32, 64, 40, 60, 4, 3 + 1 + 60 * 8 + 1,
     {MOVE(TO_SAR, FROM), MOVE(TO_DAR, TO), MOVE(TO_CCR, BURSTS(2, 4)), DMALP, 59, DMALD, DMAST, DMALD, DMANOP, DMAST,
      ADDH_SAR, HALF(32), ADDH_DAR, HALF(8), DMALPEND, 11, DMAEND}},
    {"two loops of ten rows", FROM, TO, 8, 24, 16, 100, 24, 3 + 1 + 10 * (1 + 10 * 5 + 1) + 1,
     {MOVE(TO_SAR, FROM), MOVE(TO_DAR, TO), MOVE(TO_CCR, BURSTS(3, 1)), DMALP | 2, 9, DMALP, 9, DMALD, DMAST, ADDH_SAR,
      HALF(16), ADDH_DAR, HALF(8), DMALPEND, 8, DMALPEND | 4, 12, DMAEND}},
    {"a row onto itself", FROM, FROM + 4, 8, 16, 16, 60, 64, 3 + 1 + 60 * 5 + 1,
     {MOVE(TO_SAR, FROM), MOVE(TO_DAR, FROM + 4), MOVE(TO_CCR, BURSTS(2, 2)), DMALP, 59, DMALD, DMAST, ADDH_SAR,
      HALF(8), ADDH_DAR, HALF(8), DMALPEND, 8, DMAEND}},
};

static void test_rectangles(void)
{
    for (uint32_t n = 0; n < sizeof rectangles / sizeof *rectangles; n++) {
        uint32_t calls, several = 0, len = rectangles[n].len;

        set_up_both(rectangles[n].program, sizeof rectangles[n].program);
        for (uint32_t row = 0; row < rectangles[n].rows; row++)
            memmove(byte_at(m.wanted, rectangles[n].dst + row * rectangles[n].dst_pitch),
                    byte_at(m.wanted, rectangles[n].src + row * rectangles[n].src_pitch), len);
        calls = run_both(100000, 1000, &several);
        check(is_ram_wanted(&m) && get(&m, CSR) % 16 == 0, rectangles[n].what, n);
        check(calls <= rectangles[n].calls, rectangles[n].what, calls);
        check(m.steps == rectangles[n].steps, "the steps of all turns", n);
        tear_down_both();
    }
}

/* ---- steps ---- */

/* Calls for a channel that runs a program: `most` of each, and how many steps its turn takes. */
enum { CALLS = 4 };
static const struct {
    const char *what;
    uint8_t program[16];
    uint32_t inten, most[CALLS];
    uint64_t taken[CALLS];
} turns[] = {
    {"to the DMAEND, and no further", {DMANOP, DMANOP, DMAEND}, 0, {1000, 1000, 1, 0}, {3, 0, 0, 0}},
    {"as many as asked for", {DMANOP, DMANOP, DMANOP, DMANOP, DMAEND}, 0, {0, 1, 3, 1}, {0, 1, 3, 1}},
    {"the largest number", {DMALP, 9, DMANOP, DMALPEND, 1, DMAEND}, 0, {0xFFFFFFFF, 1}, {1 + 10 * 2 + 1, 0}},
    {"a DMAWFE that waits counts each time", {DMANOP, DMAWFE, 1 << 3, DMAEND}, 0, {1000, 1000, 1, 0}, {2, 1, 1, 0}},
    {"a step that fails counts once", {DMANOP, DMANOP, 0xFF}, 0, {1000, 1000, 1, 0}, {3, 0, 0, 0}},
    {"an event that the device doesn't have", {DMASEV, 31 << 3, DMAEND}, 0, {1000, 1000}, {1, 0}},
    {"up to the DMASEV of an event", {DMANOP, DMASEV, 0, DMANOP, DMAEND}, 0, {1000, 1000, 1000}, {2, 2, 0}},
    {"and a step after that of an interrupt", {DMANOP, DMASEV, 0, DMAEND}, 1, {1000, 1000}, {3, 0}},
    {"also above the most steps", {DMASEV, 0, DMASEV, 0, DMASEV, 0, DMAEND}, 1, {1, 1, 1}, {2, 2, 0}},
    {"a wait after that of an interrupt", {DMASEV, 0, DMAWFE, 1 << 3, DMAEND}, 1, {1, 1}, {2, 1}},
};

static void test_steps(void)
{
    for (uint32_t n = 0; n < sizeof turns / sizeof *turns; n++) {
        set_up_both(turns[n].program, sizeof turns[n].program);
        set(&m, INTEN, turns[n].inten);
        set(&other, INTEN, turns[n].inten);
        start(&m, 0, PROGRAM);
        start(&other, 0, PROGRAM);
        for (uint32_t k = 0; k < CALLS; k++) {
            m.steps = 0;
            check(!take_rows(&m, &other, 0, turns[n].most[k]) && m.steps == turns[n].taken[k], turns[n].what, k);
        }
        tear_down_both();
    }
}

/* A channel that the device doesn't have takes no step. Without usable regions, or on a closed device, the call doesn't
 * write its report. */
static void test_no_steps(void)
{
    dma330_device_rows rows = {{{1, 1}, 2, 3, 4}, 5, 6, 7};

    set_up_both(NULL, 0);
    check(dma330_device_step_rows(&m.device, 7, 1000, m.regions, 3, &rows) == DMA330_OK, "no such channel", 7);
    check(rows.turn.taken == 0 && rows.count == 1 && rows.turn.written.len == 0, "which takes no step", 7);
    rows.turn.taken = 7;
    m.regions[1].addr = LOW;
    check(dma330_device_step_rows(&m.device, 0, 1000, m.regions, 3, &rows) == DMA330_BAD_REGIONS && rows.turn.taken == 7,
          "no report without usable regions", 0);
    tear_down_both();
    check(dma330_device_step_rows(&m.device, 0, 1000, m.regions, 0, &rows) == DMA330_NOT_OPEN && rows.turn.taken == 7,
          "no report of a closed device", 0);
}

/* ---- any loops ---- */

/* Returns a random number by Marsaglia's xorshift. The seed is never 0. */
static uint32_t any(uint32_t *seed, uint32_t below)
{
    *seed ^= *seed << 13;
    *seed ^= *seed >> 17;
    *seed ^= *seed << 5;
    return *seed % below;
}

static uint32_t any_address(uint32_t *seed)
{
    static const uint32_t places[] = {LOW, LOW + 0x800, NEXT - 0x400, NEXT, NEXT_END - 0x400, FAR, 0xFFFFFC00u};
    uint32_t far = any(seed, 0x200), place = places[any(seed, 7)];

    return place + (any(seed, 4) == 0 ? far : far & ~15u);
}

/* Writes a DMAADDH, or at times a DMAADNH. */
static uint32_t put_half(uint32_t at, uint32_t code, uint32_t *seed)
{
    uint32_t half = any(seed, 3) == 0 ? any(seed, 300) : any(seed, 20) * 16, down = any(seed, 12) == 0 ? 8 : 0;

    return put(&m, put_two(&m, at, code + down, half), half >> 8);
}

/* Writes a program that copies, by bursts that mostly fit, in a loop, mostly with a DMAADDH of both addresses. */
static void put_rows(uint32_t *seed)
{
    uint32_t size = any(seed, 4), beats = 1 + any(seed, 16), ccr = BURSTS(size, beats), body, outer;
    uint32_t at = put_move(&m, PROGRAM, TO_SAR, any_address(seed));

    ccr ^= any(seed, 8) == 0 ? 1u << any(seed, 24) : 0;
    at = put_move(&m, put_move(&m, at, TO_DAR, any_address(seed)), TO_CCR, ccr);
    outer = at = put_two(&m, at, DMALP | 2, any(seed, 4));
    body = at = put_two(&m, at, DMALP, any(seed, 40));
    for (uint32_t pairs = 1 + any(seed, 3); pairs > 0; pairs--) {
        at = put(&m, put(&m, at, DMALD), any(seed, 6) == 0 ? DMASTZ : DMAST);
        at = any(seed, 6) == 0 ? put(&m, at, DMANOP) : at;
    }
    at = any(seed, 3) != 0 ? put_half(at, ADDH_SAR, seed) : at;
    at = any(seed, 12) == 0 ? put_two(&m, at, DMASEV, any(seed, 4) << 3) : at;
    at = any(seed, 6) != 0 ? put_half(at, ADDH_DAR, seed) : at;
    at = put_two(&m, at, DMALPEND, at - body);
    put(&m, put_two(&m, at, DMALPEND | 4, at - outer), DMAEND);
}

static void test_any_rows(void)
{
    uint32_t several = 0;

    for (uint32_t n = 1; n <= 1500; n++) {
        uint32_t seed = n, most = 1 + any(&seed, n % 3 == 0 ? 20 : 2000);

        set_up_both(NULL, 0);
        put_rows(&seed);
        memcpy(other.bytes, m.bytes, sizeof other.bytes);
        m.regions[1].read_only = other.regions[1].read_only = any(&seed, 8) == 0;
        run_both(most, 300, &several);
        tear_down_both();
    }
    check(several > 300, "many calls take several turns", several);
}

int main(void)
{
    test_rectangles();
    test_steps();
    test_no_steps();
    test_any_rows();
    return end_checks();
}
