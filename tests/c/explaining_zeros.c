/* Tests dma330_explain and dma330_device_explain: programs with DMASTZ, and programs that begin with known registers. What each
 * row expects is worked out by hand from the manual of the DMA-330. Link it with heap.h's flags. */
#include "guest.h"

#include <stdio.h>
#include <string.h>

enum { ROOM = 8, UNWRITTEN = 0xA5, MANY = 1000, MOST = 200 };

/* Everything that such an explanation writes. */
typedef struct outputs {
    dma330_repeated src[ROOM];
    dma330_segment dst[ROOM];
    dma330_segment zeros[ROOM];
    dma330_event events[ROOM];
    dma330_explanation explanation;
} outputs;

static outputs out, unwritten;
static const dma330_start nothing = {DMA330_KNOWN_ALL, 0, 0, 0, 0, 0}, any = DMA330_ANY_REGISTERS;

static void forget(void)
{
    memset(&out, UNWRITTEN, sizeof out);
    memset(&unwritten, UNWRITTEN, sizeof unwritten);
    allocations_left = MANY;
}

static bool is_unwritten(void)
{
    return memcmp(&out, &unwritten, sizeof out) == 0;
}

static bool are_lists_unwritten(void)
{
    return memcmp(&out, &unwritten, offsetof(outputs, explanation)) == 0;
}

static int32_t explain_from(const uint8_t *program, size_t len, uint32_t bus, const dma330_start *start, uint32_t most)
{
    forget();
    return dma330_explain(program, len, bus, start, most, out.src, ROOM, out.dst, ROOM, out.zeros, ROOM, out.events,
                          ROOM, &out.explanation);
}

static bool has_counts(size_t src, size_t dst, size_t zeros, size_t events, uint64_t copied, uint64_t cleared)
{
    const dma330_explanation *w = &out.explanation;

    return w->src_len == src && w->dst_len == dst && w->zeros_len == zeros && w->events_len == events &&
           w->copied == copied && w->cleared == cleared;
}

static bool has_cause(uint32_t cause, uint32_t pc, uint32_t steps, uint32_t addr)
{
    const dma330_explanation *w = &out.explanation;

    return has_counts(0, 0, 0, 0, 0, 0) && w->cause == cause && w->pc == pc && w->steps == steps && w->addr == addr &&
           are_lists_unwritten();
}

static bool is_segment(dma330_segment s, uint32_t addr, uint32_t len)
{
    return s.addr == addr && s.len == len;
}

/* ---- programs with DMASTZ ---- */

#define WORD(v) (v) & 0xFF, (v) >> 8 & 0xFF, (v) >> 16 & 0xFF, (v) >> 24 & 0xFF
#define MOVE(to, v) DMAMOV, to, WORD(v)

/* Bursts of `beats` beats of 2 to the power of `size` bytes at both ends, at addresses that rise. */
#define BURSTS(size, beats) (0x4001u | (size) << 1 | ((beats) - 1u) << 4 | (size) << 15 | ((beats) - 1u) << 18)
#define BURSTS_16 BURSTS(2, 4)
#define DAR_RISES 0x4000u

/* Each copy is from here to there. */
#define FROM (LOW + 0x1000)
#define TO (NEXT + 0x100)
#define BOTH MOVE(TO_SAR, FROM), MOVE(TO_DAR, TO), MOVE(TO_CCR, BURSTS_16)
#define SEV(e) DMASEV, (e) << 3

enum { PARTS = 3 };

/* Programs, the bus, and what they do: what is read, stored and set to 0, the events, all bytes, and the instructions. */
static const struct {
    const char *what;
    uint8_t program[52];
    uint32_t bus;
    dma330_segment src, dst, zeros[PARTS];
    dma330_event events[PARTS];
    uint32_t copied, cleared, steps;
} rows[] = {
    {"32 bursts of 128 bytes and 3 single beats, as a boot loader clears memory",
     {MOVE(TO_DAR, TO), MOVE(TO_CCR, BURSTS(3, 16)), DMALP, 7, DMALP | 2, 3, DMASTZ, DMALPEND | 4, 1, DMALPEND, 5,
      MOVE(TO_CCR, BURSTS(3, 1)), DMALP, 2, DMASTZ, DMALPEND, 1, SEV(2), DMAEND},
     64, {0, 0}, {0, 0}, {{TO, 4120}}, {{DMA330_SIGNALS, 2, 0, 4120}}, 0, 4120, 93},
    {"1,000 bytes from an address that no beat of 8 bytes has, as a library of an SoC FPGA clears them",
     {MOVE(TO_DAR, TO + 3), MOVE(TO_CCR, BURSTS(0, 5)), DMASTZ, MOVE(TO_CCR, BURSTS(3, 16)), DMALP, 6, DMASTZ, DMALPEND, 1,
      MOVE(TO_CCR, BURSTS(3, 12)), DMASTZ, MOVE(TO_CCR, BURSTS(0, 3)), DMASTZ, DMAWMB, SEV(0), DMAEND},
     128, {0, 0}, {0, 0}, {{TO + 3, 1000}}, {{DMA330_SIGNALS, 0, 0, 1000}}, 0, 1000, 26},
    {"a copy, and zeros behind it",
     {BOTH, DMALD, DMAST, DMASTZ, DMASTZ, SEV(5), DMAEND},
     32, {FROM, 16}, {TO, 16}, {{TO + 16, 32}}, {{DMA330_SIGNALS, 5, 16, 32}}, 16, 32, 9},
    {"zeros while loaded bytes are in the buffer",
     {BOTH, DMALD, DMASTZ, DMAST, DMAEND}, 64, {FROM, 16}, {TO + 16, 16}, {{TO, 16}}, {{0, 0, 0, 0}}, 16, 16, 7},
    {"events between zeros and a copy",
     {BOTH, DMASTZ, SEV(1), DMALD, DMAST, SEV(2), DMASTZ, DMAWFE, 3 << 3, DMAEND},
     32, {FROM, 16}, {TO + 16, 16}, {{TO, 16}, {TO + 32, 16}},
     {{DMA330_SIGNALS, 1, 0, 16}, {DMA330_SIGNALS, 2, 16, 16}, {DMA330_WAITS, 3, 16, 32}}, 16, 32, 11},
    {"events between zeros",
     {MOVE(TO_DAR, TO), MOVE(TO_CCR, BURSTS_16), DMASTZ, SEV(1), DMASTZ, SEV(2), DMAEND},
     32, {0, 0}, {0, 0}, {{TO, 32}}, {{DMA330_SIGNALS, 1, 0, 16}, {DMA330_SIGNALS, 2, 0, 32}}, 0, 32, 7},
    {"three ranges, of which no one continues the one before",
     {MOVE(TO_DAR, TO + 0x20), MOVE(TO_CCR, BURSTS_16), DMASTZ, MOVE(TO_DAR, TO + 0x40), DMASTZ, MOVE(TO_DAR, TO), DMASTZ,
      DMASTZ, DMAEND},
     32, {0, 0}, {0, 0}, {{TO + 0x20, 16}, {TO + 0x40, 16}, {TO, 32}}, {{0, 0, 0, 0}}, 0, 64, 9},
    {"a first beat of two bytes", {MOVE(TO_DAR, TO + 6), MOVE(TO_CCR, BURSTS_16), DMASTZ, DMAEND},
     64, {0, 0}, {0, 0}, {{TO + 6, 14}}, {{0, 0, 0, 0}}, 0, 14, 4},
    {"up to the last address", {MOVE(TO_DAR, 0xFFFFFFF0u), MOVE(TO_CCR, BURSTS_16), DMASTZ, DMAEND},
     32, {0, 0}, {0, 0}, {{0xFFFFFFF0u, 16}}, {{0, 0, 0, 0}}, 0, 16, 4},
};

/* Programs that nothing explains on a bus of 32 bits, with the cause, the offset, the instructions before it, and the
 * address. */
static const struct {
    const char *what;
    uint8_t program[52];
    uint32_t cause, pc, steps, addr;
} refused[] = {
    {"zeros over a destination", {BOTH, DMALD, DMAST, MOVE(TO_DAR, TO + 8), DMASTZ, DMAEND},
     DMA330_CAUSE_STORES_TWICE, 27, 7, TO + 8},
    {"a copy over zeros", {BOTH, DMASTZ, MOVE(TO_DAR, TO - 8), DMALD, DMAST, DMAEND}, DMA330_CAUSE_STORES_TWICE, 27, 7, TO},
    {"zeros twice", {BOTH, DMASTZ, MOVE(TO_DAR, TO + 12), DMASTZ, DMAEND}, DMA330_CAUSE_STORES_TWICE, 26, 6, TO + 12},
    {"zeros over a source", {BOTH, DMALD, DMAST, MOVE(TO_DAR, FROM - 4), DMASTZ, DMAEND},
     DMA330_CAUSE_STORES_SOURCE, 27, 7, FROM},
    {"zeros over the end of a source, before it is read", {BOTH, MOVE(TO_DAR, FROM + 12), DMASTZ, DMALD, DMAST, DMAEND},
     DMA330_CAUSE_STORES_SOURCE, 27, 7, FROM + 12},
    {"zeros at a fixed address", {MOVE(TO_DAR, TO), MOVE(TO_CCR, BURSTS_16 & ~DAR_RISES), DMASTZ, DMAEND},
     DMA330_CAUSE_STORES_FIXED, 12, 2, 0},
    {"zeros beyond the last address", {MOVE(TO_DAR, 0xFFFFFFF4u), MOVE(TO_CCR, BURSTS_16), DMASTZ, DMAEND},
     DMA330_CAUSE_STORES_PAST, 12, 2, 0},
    {"zeros in place of a store", {BOTH, DMALD, DMASTZ, DMAEND}, DMA330_CAUSE_BYTES_LEFT, 20, 5, 0},
    {"zeros in place of a load", {BOTH, DMASTZ, DMAST, DMAEND}, DMA330_CAUSE_ST_DATA_UNAVAILABLE, 19, 4, 0},
    {"zeros for ever", {BOTH, DMANOP, DMASTZ, DMALPEND_FE, 2}, DMA330_CAUSE_NO_END, 20, MOST, 0},
    {"a copy over itself", {BOTH, MOVE(TO_DAR, FROM + 4), DMALD, DMAST, DMAEND}, DMA330_CAUSE_STORES_SOURCE, 26, 6, FROM + 4},
    {"a copy twice", {BOTH, DMALD, DMAST, MOVE(TO_DAR, TO), DMALD, DMAST, DMAEND}, DMA330_CAUSE_STORES_TWICE, 28, 8, TO},
};

/* Returns how many of a row's parts aren't empty. */
static size_t count_of(const dma330_segment *parts)
{
    size_t count = 0;

    while (count < PARTS && parts[count].len > 0)
        count++;
    return count;
}

static size_t events_of(const dma330_event *events)
{
    size_t count = 0;

    while (count < PARTS && events[count].copied + events[count].cleared > 0)
        count++;
    return count;
}

/* Returns whether all is written as in row n. */
static bool is_row(size_t n)
{
    size_t copies = rows[n].src.len > 0, zeros = count_of(rows[n].zeros), events = events_of(rows[n].events);
    bool is = has_counts(copies, copies, zeros, events, rows[n].copied, rows[n].cleared) &&
              out.explanation.steps == rows[n].steps && out.explanation.cause == DMA330_CAUSE_NONE && out.explanation.pc == 0 &&
              out.explanation.addr == 0;

    if (copies > 0)
        is = is && out.src[0].addr == rows[n].src.addr && out.src[0].len == rows[n].src.len && out.src[0].times == 1 &&
             is_segment(out.dst[0], rows[n].dst.addr, rows[n].dst.len);
    for (size_t k = 0; k < zeros; k++)
        is = is && is_segment(out.zeros[k], rows[n].zeros[k].addr, rows[n].zeros[k].len);
    for (size_t k = 0; k < events; k++)
        is = is && memcmp(&out.events[k], &rows[n].events[k], sizeof out.events[k]) == 0;
    return is && memcmp(out.src + copies, unwritten.src, (ROOM - copies) * sizeof out.src[0]) == 0 &&
           memcmp(out.dst + copies, unwritten.dst, (ROOM - copies) * sizeof out.dst[0]) == 0 &&
           memcmp(out.zeros + zeros, unwritten.zeros, (ROOM - zeros) * sizeof out.zeros[0]) == 0 &&
           memcmp(out.events + events, unwritten.events, (ROOM - events) * sizeof out.events[0]) == 0;
}

static void explains_each(void)
{
    for (size_t n = 0; n < sizeof rows / sizeof rows[0]; n++) {
        const uint8_t *program = rows[n].program;
        const size_t len = sizeof rows[n].program;

        check(explain_from(program, len, rows[n].bus, &nothing, MOST) == DMA330_OK && is_row(n), rows[n].what, rows[n].bus);
        check(explain_from(program, len, rows[n].bus, &nothing, rows[n].steps) == DMA330_OK && is_row(n), rows[n].what, 0);
        check(explain_from(program, len, rows[n].bus, &nothing, rows[n].steps - 1) == DMA330_UNEXPLAINED &&
                  out.explanation.cause == DMA330_CAUSE_NO_END && out.explanation.steps == rows[n].steps - 1, rows[n].what, 1);
        check(explain_from(program, len, 0, &nothing, MOST) == DMA330_UNEXPLAINED &&
                  out.explanation.cause == DMA330_CAUSE_UNDEF_INSTR, rows[n].what, 2);
        check(explain_from(program, len, rows[n].bus, &any, MOST) == DMA330_OK && is_row(n), rows[n].what, 3);
    }
    check(explain_from(rows[1].program, sizeof rows[1].program, 32, &nothing, MOST) == DMA330_UNEXPLAINED &&
              has_cause(DMA330_CAUSE_OPERAND_INVALID, 13, 3, 0), "a beat of 64 bits", 32);
}

static void refuses_each(void)
{
    for (size_t n = 0; n < sizeof refused / sizeof refused[0]; n++) {
        const uint8_t *program = refused[n].program;
        const size_t len = sizeof refused[n].program;

        check(explain_from(program, len, 32, &nothing, MOST) == DMA330_UNEXPLAINED &&
                  has_cause(refused[n].cause, refused[n].pc, refused[n].steps, refused[n].addr), refused[n].what, 32);
        check(explain_from(program, len, 32, &any, MOST) == DMA330_UNEXPLAINED &&
                  has_cause(refused[n].cause, refused[n].pc, refused[n].steps, refused[n].addr), refused[n].what, 0);
    }
}

/* ---- from registers ---- */

/* A program that sets no register copies from where the program before it has ended, five times with LC0. */
static void explains_from_registers(void)
{
    static const uint8_t copy[] = {DMALD, DMAST, DMALPEND, 2, DMAEND}, clear[] = {DMASTZ, DMALPEND, 1, DMAEND};
    static const uint32_t refused_words[] = {1 << 28, 5 << 1, 1u << 31, 0x0001C007};
    dma330_start start = {DMA330_KNOWN_ALL, 0x1000, 0x2000, 0x00014005, 4, 0};

    check(explain_from(copy, sizeof copy, 32, &start, MOST) == DMA330_OK && has_counts(1, 1, 0, 0, 20, 0) &&
              out.explanation.steps == 16 && out.src[0].addr == 0x1000 && out.src[0].len == 20 && out.src[0].times == 1 &&
              is_segment(out.dst[0], 0x2000, 20), "from registers", 0);
    check(explain_from(copy, sizeof copy, 0, &start, MOST) == DMA330_OK && has_counts(1, 1, 0, 0, 20, 0), "on a channel", 0);
    check(explain_from(clear, sizeof clear, 32, &start, MOST) == DMA330_OK && has_counts(0, 0, 1, 0, 0, 20) &&
              out.explanation.steps == 11 && is_segment(out.zeros[0], 0x2000, 20), "zeros from registers", 0);
    start.lc0 = 0;
    start.sar = 0x2000;
    check(explain_from(copy, sizeof copy, 64, &start, MOST) == DMA330_UNEXPLAINED &&
              has_cause(DMA330_CAUSE_STORES_SOURCE, 4, 3, 0x2000), "onto itself", 0);
    for (uint32_t n = 0; n < 4; n++) {
        start.ccr = refused_words[n];
        check(explain_from(copy, sizeof copy, 32, &start, MOST) == DMA330_BAD_CONFIG && is_unwritten(),
              "a CCR that no channel has", n);
    }
    check(explain_from(copy, sizeof copy, 64, &start, MOST) == DMA330_UNEXPLAINED &&
              has_cause(DMA330_CAUSE_STORES_SOURCE, 4, 3, 0x2000), "which this bus has", 0);
    check(explain_from(copy, sizeof copy, 16, &start, MOST) == DMA330_BAD_CONFIG && is_unwritten(), "no such bus", 0);
    check(explain_from(copy, sizeof copy, 32, &nothing, MOST) == DMA330_UNEXPLAINED &&
              has_cause(DMA330_CAUSE_STORES_FIXED, 1, 1, 0), "from zeros", 0);
}

/* Of these registers only some are known. An instruction that uses one of the others is refused, in the order of the uses:
 * a load uses SAR and CCR, a store DAR, and the DMALPEND LC0. Members that aren't known aren't read, and LC1 isn't used. */
static void explains_from_some(void)
{
    static const uint8_t copy[] = {DMALD, DMAST, DMALPEND, 2, DMAEND};
    static const struct {
        uint32_t lacks, cause, pc, steps;
    } uses[] = {
        {DMA330_KNOWN_SAR, DMA330_CAUSE_UNSET_SAR, 0, 0},
        {DMA330_KNOWN_CCR, DMA330_CAUSE_UNSET_CCR, 0, 0},
        {DMA330_KNOWN_DAR, DMA330_CAUSE_UNSET_DAR, 1, 1},
        {DMA330_KNOWN_LC0, DMA330_CAUSE_UNSET_LC0, 2, 2},
        {DMA330_KNOWN_SAR + DMA330_KNOWN_CCR, DMA330_CAUSE_UNSET_SAR, 0, 0},
    };

    for (uint32_t n = 0; n < sizeof uses / sizeof uses[0]; n++) {
        dma330_start start = {DMA330_KNOWN_ALL - uses[n].lacks, 0x1000, 0x2000, 0x00014005, 4, 0};

        if ((uses[n].lacks & DMA330_KNOWN_CCR) != 0)
            start.ccr = 0xFFFFFFFF;
        check(explain_from(copy, sizeof copy, 32, &start, MOST) == DMA330_UNEXPLAINED &&
                  has_cause(uses[n].cause, uses[n].pc, uses[n].steps, 0), "an unknown register", n);
    }
    for (uint32_t known = DMA330_KNOWN_ALL - DMA330_KNOWN_LC1; known <= DMA330_KNOWN_ALL; known += DMA330_KNOWN_LC1) {
        const dma330_start start = {known, 0x1000, 0x2000, 0x00014005, 4, 9};

        check(explain_from(copy, sizeof copy, 32, &start, MOST) == DMA330_OK && has_counts(1, 1, 0, 0, 20, 0), "LC1", known);
    }
    for (uint32_t bit = 5; bit < 32; bit++) {
        const dma330_start start = {DMA330_KNOWN_ALL | 1u << bit, 0x1000, 0x2000, 0x00014005, 4, 0};

        check(explain_from(copy, sizeof copy, 32, &start, MOST) == DMA330_BAD_CONFIG && is_unwritten(), "no register", bit);
    }
}

/* ---- codes ---- */

/* With room for one item less, of any list, no list is written, and the explanation has the numbers that need room. */
static void needs_room(void)
{
    enum { ROW = 4 };
    const uint8_t *program = rows[ROW].program;

    for (uint32_t n = 0; n < 5; n++) {
        int32_t code = n == 4 ? DMA330_OK : DMA330_BUFFER_TOO_SMALL;

        forget();
        check(dma330_explain(program, sizeof rows[ROW].program, 32, &nothing, MOST, out.src, 1 - (n == 0), out.dst,
                             1 - (n == 1), out.zeros, 2 - (n == 2), out.events, 3 - (n == 3), &out.explanation) == code &&
                  has_counts(1, 1, 2, 3, 16, 32) && out.explanation.steps == 11 && out.explanation.cause == DMA330_CAUSE_NONE &&
                  are_lists_unwritten() == (n < 4), "room", n);
    }
    check(is_row(ROW), "enough room", 0);
}

/* The call is refused if an allocation fails, and then writes nothing; so for a program that is too long. */
static void needs_memory(void)
{
    static uint8_t longest[DMA330_MAX_PROGRAM + 1];
    int32_t code = DMA330_NO_MEMORY;
    long n;

    for (n = 0; code == DMA330_NO_MEMORY; n++) {
        forget();
        allocations_left = n;
        code = dma330_explain(rows[4].program, sizeof rows[4].program, 32, &nothing, MOST, out.src, ROOM, out.dst, ROOM,
                              out.zeros, ROOM, out.events, ROOM, &out.explanation);
        check(code == DMA330_OK ? is_row(4) : code == DMA330_NO_MEMORY && is_unwritten(), "memory", (uint32_t)n);
    }
    check(n > 4, "an explanation with its memory", (uint32_t)n);
    check(explain_from(longest, sizeof longest, 32, &nothing, MOST) == DMA330_PROGRAM_TOO_LONG && is_unwritten(),
          "too long", 0);
}

/* ---- a device's channel ---- */

static int32_t explain_channel(dma330_device *device, uint8_t channel, size_t room)
{
    forget();
    return dma330_device_explain(device, channel, MOST, out.src, room, out.dst, room, out.zeros, room, out.events, room,
                                 &out.explanation);
}

/* Sets the wanted bytes to those after a row. */
static void want_row(machine *m, size_t n)
{
    want_ram(m);
    for (uint32_t k = 0; k < rows[n].dst.len; k++)
        *byte_at(m->wanted, rows[n].dst.addr + k) = *byte_at(m->bytes, rows[n].src.addr + k);
    for (size_t i = 0; i < PARTS; i++)
        for (uint32_t k = 0; k < rows[n].zeros[i].len; k++)
            *byte_at(m->wanted, rows[n].zeros[i].addr + k) = 0;
}

/* A device explains a channel's program as dma330_explain does, and the program does what is explained. */
static void explains_on_a_device(void)
{
    static machine m;

    memset(&m, 0, sizeof m);
    check(explain_channel(&m.device, 0, ROOM) == DMA330_NOT_OPEN && is_unwritten(), "a device that isn't open", 0);
    for (size_t n = 0; n < sizeof rows / sizeof rows[0]; n++) {
        dma330_device_config config = plain(2, 16, false);

        config.bus = rows[n].bus;
        set_up(&m, config);
        memcpy(byte_at(m.bytes, LOW), rows[n].program, sizeof rows[n].program);
        check(explain_channel(&m.device, 1, ROOM) == DMA330_NO_PROGRAM && is_unwritten(), "no program", 1);
        check(explain_channel(&m.device, 2, ROOM) == DMA330_NO_CHANNEL && is_unwritten(), "no channel", 2);
        start(&m, 1, LOW);
        check(explain_channel(&m.device, 1, ROOM) == DMA330_OK && is_row(n), rows[n].what, rows[n].bus);
        check(explain_channel(&m.device, 1, 0) == DMA330_BUFFER_TOO_SMALL && are_lists_unwritten() &&
                  out.explanation.cleared == rows[n].cleared, rows[n].what, 0);
        allocations_left = 0;
        want_row(&m, n);
        debug(&m, MANAGER, DMASEV, 3 << 3, 0);
        check(!run(&m, 1) && is_ram_wanted(&m), rows[n].what, 1);
        tear_down(&m);
    }
}

/* Makes the wanted bytes those at an event: the first destinations copied, and the first zeros 0. */
static void want_so_far(machine *m, size_t n, const dma330_event *at)
{
    uint64_t left = at->cleared;

    for (uint64_t k = 0; k < at->copied; k++)
        *byte_at(m->wanted, rows[n].dst.addr + (uint32_t)k) = *byte_at(m->bytes, rows[n].src.addr + (uint32_t)k);
    for (size_t part = 0; part < PARTS; part++)
        for (uint32_t k = 0; k < rows[n].zeros[part].len && left > 0; k++, left--)
            *byte_at(m->wanted, rows[n].zeros[part].addr + k) = 0;
}

/* A turn ends at each event. As many bytes are copied and set to 0 there as it says, and no others. */
static void is_so_far_at_each_event(size_t n)
{
    static machine m;

    set_up(&m, plain(1, 16, false));
    memcpy(byte_at(m.bytes, LOW), rows[n].program, sizeof rows[n].program);
    want_ram(&m);
    start(&m, 0, LOW);
    for (size_t k = 0; k < PARTS && (rows[n].events[k].copied > 0 || rows[n].events[k].cleared > 0); k++) {
        want_so_far(&m, n, &rows[n].events[k]);
        turn(&m, 0, 1000);
        check(is_ram_wanted(&m), rows[n].what, (uint32_t)k);
    }
    stop(&m, 0);
    tear_down(&m);
}

int main(void)
{
    explains_each();
    refuses_each();
    explains_from_registers();
    explains_from_some();
    needs_room();
    needs_memory();
    explains_on_a_device();
    is_so_far_at_each_event(4);
    is_so_far_at_each_event(5);
    return end_checks();
}
