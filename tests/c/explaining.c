/* Tests dma330_explain, dma330_device_explain, dma330_plan and dma330_plan_fill: each cause, each code, the events, items that
 * are read several times, and plans for all four buses. What each test expects is worked out by hand from the manual
 * of the DMA-330 and docs/PROGRAMS.md. Link it with heap.h's flags. */
#include "guest.h"

#include <stdio.h>
#include <string.h>

enum { ROOM = 70, UNWRITTEN = 0xA5, MANY = 1000 };

/* Everything that an explanation writes. */
typedef struct outputs {
    dma330_repeated src[ROOM];
    dma330_segment dst[ROOM];
    dma330_segment zeros[ROOM];
    dma330_event events[ROOM];
    dma330_explanation explanation;
} outputs;

/* A program of a test. */
typedef struct program {
    uint8_t bytes[DMA330_MAX_PROGRAM + 1];
    size_t len;
} program;

static outputs out, unwritten;
static program tested;

static void forget(void)
{
    memset(&out, UNWRITTEN, sizeof out);
    memset(&unwritten, UNWRITTEN, sizeof unwritten);
}

static bool are_lists_unwritten(void)
{
    return memcmp(&out, &unwritten, offsetof(outputs, explanation)) == 0;
}

static void assemble(const char *text)
{
    size_t place;

    allocations_left = MANY;
    tested.len = 0;
    check(dma330_assemble(text, strlen(text), tested.bytes, sizeof tested.bytes, &tested.len, &place) == DMA330_OK, text, 0);
}

/* Explains the tested program for any registers, with as many allocations as are left and this room for the lists. */
static int32_t explain_in(uint32_t bus, uint32_t most, size_t src_room, size_t dst_room, size_t events_room)
{
    static const dma330_start any = DMA330_ANY_REGISTERS;

    forget();
    return dma330_explain(tested.bytes, tested.len, bus, &any, most, out.src, src_room, out.dst, dst_room, out.zeros, 0,
                          out.events, events_room, &out.explanation);
}

static int32_t explain(uint32_t bus, uint32_t most)
{
    allocations_left = MANY;
    return explain_in(bus, most, ROOM, ROOM, ROOM);
}

static int32_t explain_channel(dma330_device *device, uint8_t channel)
{
    forget();
    allocations_left = MANY;
    return dma330_device_explain(device, channel, 100, out.src, 1, out.dst, 1, out.zeros, 1, out.events, 1,
                                 &out.explanation);
}

static bool has_counts(size_t src, size_t dst, size_t events, uint64_t copied, uint32_t steps)
{
    const dma330_explanation *e = &out.explanation;

    return e->src_len == src && e->dst_len == dst && e->events_len == events && e->copied == copied && e->steps == steps &&
           e->zeros_len == 0 && e->cleared == 0;
}

static bool has_cause(uint32_t cause, uint32_t pc, uint32_t steps)
{
    return out.explanation.cause == cause && out.explanation.pc == pc && has_counts(0, 0, 0, 0, steps);
}

static bool is_explained(size_t src, size_t dst, size_t events, uint64_t copied, uint32_t steps)
{
    return out.explanation.cause == 0 && out.explanation.pc == 0 && has_counts(src, dst, events, copied, steps);
}

static bool reads(size_t n, uint32_t addr, uint32_t len, uint32_t times)
{
    return out.src[n].addr == addr && out.src[n].len == len && out.src[n].times == times;
}

static bool writes(size_t n, uint32_t addr, uint32_t len)
{
    return out.dst[n].addr == addr && out.dst[n].len == len;
}

static bool happens(size_t n, uint32_t kind, uint32_t event, uint64_t copied)
{
    const dma330_event *h = &out.events[n];

    return h->kind == kind && h->event == event && h->copied == copied && h->cleared == 0;
}

/* ---- causes ---- */

/* A move from 0x1000 to 0x2000 has one beat of 4, 8 or 16 bytes, and each program begins with it. */
#define MOVE "DMAMOV SAR 0x00001000\nDMAMOV DAR 0x00002000\n"
#define BEAT_4 "DMAMOV CCR 0x00014005\n"
#define BEAT_8 "DMAMOV CCR 0x0001C007\n"
#define BEAT_16 "DMAMOV CCR 0x00024009\n"

/* Programs that aren't explained, on a bus, with the cause, the offset and the instructions before it. */
static const struct {
    const char *what, *text;
    uint32_t bus, cause, pc, steps;
} refused[] = {
    {"a beat wider than 32 bits", MOVE BEAT_8 "DMALD\nDMAST\nDMAEND\n", 32, DMA330_CAUSE_OPERAND_INVALID, 12, 2},
    {"a beat wider than 64 bits", MOVE BEAT_16 "DMALD\nDMAST\nDMAEND\n", 64, DMA330_CAUSE_OPERAND_INVALID, 12, 2},
    {"a reserved size", "DMAMOV CCR 0x0001400B\nDMAEND\n", 0, DMA330_CAUSE_OPERAND_INVALID, 0, 0},
    {"a full buffer", MOVE "DMAMOV CCR 0x003E40F9\nDMALD\nDMALD\nDMAEND\n", 0, DMA330_CAUSE_MFIFO_ERR, 19, 4},
    {"an empty buffer", MOVE BEAT_4 "DMAST\nDMAEND\n", 0, DMA330_CAUSE_ST_DATA_UNAVAILABLE, 18, 3},
    {"no DMAEND", "DMANOP\nDMANOP\n", 0, DMA330_CAUSE_INSTR_FETCH_ERR, 2, 2},
    {"a jump to before the start", "DMALP 0 2\nDMALPEND 0 5\nDMAEND\n", 0, DMA330_CAUSE_INSTR_FETCH_ERR, 2, 1},
    {"a load past the last address", "DMAMOV SAR 0xFFFFFFFE\n" BEAT_4 "DMALD\nDMAEND\n", 0, DMA330_CAUSE_LOADS_PAST, 12, 2},
    {"a store past the last address", MOVE "DMAMOV DAR 0xFFFFFFFE\n" BEAT_4 "DMALD\nDMAST\nDMAEND\n", 0,
     DMA330_CAUSE_STORES_PAST, 25, 5},
    {"a store that stays", MOVE "DMAMOV CCR 0x00010005\nDMALD\nDMAST\nDMAEND\n", 0, DMA330_CAUSE_STORES_FIXED, 19, 4},
    {"a DMAMOV DAR to other lanes", MOVE BEAT_4 "DMALD\nDMAMOV DAR 0x00003002\nDMAST\nDMAEND\n", 32,
     DMA330_CAUSE_DROPS_BYTES, 19, 4},
    {"a DMAMOV CCR that ends the rise", MOVE BEAT_4 "DMALD\nDMAMOV CCR 0x00010005\nDMAST\nDMAEND\n", 128,
     DMA330_CAUSE_DROPS_BYTES, 19, 4},
    {"bytes that are left", MOVE BEAT_4 "DMALD\nDMAEND\n", 0, DMA330_CAUSE_BYTES_LEFT, 19, 4},
    {"a byte stored twice", MOVE BEAT_4 "DMALD\nDMAST\nDMAMOV DAR 0x00002003\nDMALD\nDMAST\nDMAEND\n", 0,
     DMA330_CAUSE_STORES_TWICE, 28, 8},
    {"a byte stored where one is read", MOVE "DMAMOV DAR 0x00001003\n" BEAT_4 "DMALD\nDMAST\nDMAEND\n", 0,
     DMA330_CAUSE_STORES_SOURCE, 26, 6},
    {"a load without SAR", "DMAMOV DAR 0x00002000\n" BEAT_4 "DMALD\nDMAST\nDMAEND\n", 0, DMA330_CAUSE_UNSET_SAR, 12, 2},
    {"a load without CCR", MOVE "DMALD\nDMAST\nDMAEND\n", 0, DMA330_CAUSE_UNSET_CCR, 12, 2},
    {"a store without DAR", "DMAMOV SAR 0x00001000\n" BEAT_4 "DMALD\nDMAST\nDMAEND\n", 0, DMA330_CAUSE_UNSET_DAR, 13, 3},
    {"a loop without LC0", "DMALP 1 2\nDMANOP\nDMALPEND 0 1\nDMAEND\n", 0, DMA330_CAUSE_UNSET_LC0, 3, 2},
    {"a loop without LC1", "DMALP 0 2\nDMANOP\nDMALPEND 1 1\nDMAEND\n", 0, DMA330_CAUSE_UNSET_LC1, 3, 2},
    {"a drop by an old DAR", "DMAMOV SAR 0x00001000\n" BEAT_4 "DMALD\nDMAMOV DAR 0x00002000\nDMAST\nDMAEND\n", 32,
     DMA330_CAUSE_UNSET_DAR, 13, 3},
    {"an end too late", "DMALP 0 256\nDMANOP\nDMALPEND 0 1\nDMAEND\n", 0, DMA330_CAUSE_NO_END, 3, 100}
};

static void refuses_each(void)
{
    for (size_t n = 0; n < sizeof refused / sizeof refused[0]; n++) {
        assemble(refused[n].text);
        check(explain(refused[n].bus, 100) == DMA330_UNEXPLAINED && are_lists_unwritten() &&
                  has_cause(refused[n].cause, refused[n].pc, refused[n].steps),
              refused[n].what, refused[n].bus);
    }
}

static void refuses_bytes(void)
{
    tested.len = 2;
    memcpy(tested.bytes, "\x18\x01", 2);
    check(explain(0, 9) == DMA330_UNEXPLAINED && has_cause(DMA330_CAUSE_UNDEF_INSTR, 1, 1), "a DMAKILL", 0);
    memset(tested.bytes, DMANOP, sizeof tested.bytes);
    tested.len = DMA330_MAX_PROGRAM;
    check(explain(0, 10000) == DMA330_UNEXPLAINED && has_cause(DMA330_CAUSE_INSTR_FETCH_ERR, DMA330_MAX_PROGRAM,
                                                              DMA330_MAX_PROGRAM), "the longest program", 0);
    tested.len++;
    check(explain(0, 10000) == DMA330_PROGRAM_TOO_LONG && memcmp(&out, &unwritten, sizeof out) == 0, "a longer one", 0);
}

/* ---- what is explained ---- */

/* A beat of each size on each bus: a chip's must be as wide, the channels' isn't limited. */
static void explains_on_each_bus(void)
{
    static const char *const beats[] = {BEAT_4, BEAT_8, BEAT_16};
    static const uint32_t buses[] = {0, 32, 64, 128};
    char text[200];

    for (uint32_t n = 0; n < 3; n++)
        for (uint32_t k = 0; k < 4; k++) {
            sprintf(text, MOVE "%sDMALD\nDMAST\nDMAEND\n", beats[n]);
            assemble(text);
            if (buses[k] == 0 || buses[k] >= 32u << n)
                check(explain(buses[k], 6) == DMA330_OK && is_explained(1, 1, 0, 4u << n, 6) &&
                          reads(0, 0x1000, 4u << n, 1) && writes(0, 0x2000, 4u << n), beats[n], buses[k]);
            else
                check(explain(buses[k], 6) == DMA330_UNEXPLAINED, beats[n], buses[k]);
        }
    check(explain(0, 5) == DMA330_UNEXPLAINED && has_cause(DMA330_CAUSE_NO_END, 20, 5), "an instruction too few", 0);
}

/* A chip's first beat ends at a multiple of its size, so the load of FFFFFFFE has 2 bytes there, and the last address can be
 * read and written. */
static void explains_first_beats(void)
{
    assemble("DMAMOV SAR 0xFFFFFFFE\nDMAMOV DAR 0x00002002\n" BEAT_4 "DMALD\nDMAST\nDMAEND\n");
    check(explain(32, 9) == DMA330_OK && is_explained(1, 1, 0, 2, 6) && reads(0, 0xFFFFFFFE, 2, 1) && writes(0, 0x2002, 2),
          "a load of the last address", 32);
    check(explain(0, 9) == DMA330_UNEXPLAINED && has_cause(DMA330_CAUSE_LOADS_PAST, 18, 3), "a load past it", 0);
    assemble("DMAMOV SAR 0x00002000\nDMAMOV DAR 0xFFFFFFFC\n" BEAT_4 "DMALD\nDMAST\nDMAEND\n");
    check(explain(0, 9) == DMA330_OK && is_explained(1, 1, 0, 4, 6) && reads(0, 0x2000, 4, 1) && writes(0, 0xFFFFFFFC, 4),
          "a store to the last address", 0);
}

/* A DMAMOV DAR between a load and its store: to the same lanes of the bus a chip keeps the bytes, and a channel always. */
static void explains_moves_of_dar(void)
{
    assemble(MOVE BEAT_4 "DMALD\nDMAMOV DAR 0x00003004\nDMAST\nDMAEND\n");
    check(explain(32, 9) == DMA330_OK && is_explained(1, 1, 0, 4, 7) && writes(0, 0x3004, 4), "the same lanes", 32);
    check(explain(64, 9) == DMA330_UNEXPLAINED && has_cause(DMA330_CAUSE_DROPS_BYTES, 19, 4), "other lanes", 64);
    check(explain(0, 9) == DMA330_OK && is_explained(1, 1, 0, 4, 7) && writes(0, 0x3004, 4), "no lanes", 0);
}

/* A DMASTZ is a store, on a device's bus, and undefined on the bus of a channel; additions are part of a copy. */
static void explains_a_devices_instructions(void)
{
    static const uint8_t zeros[] = {0x18, 0x0C, 0x00}, forever[] = {0x18, 0x28, 0x00};
    static const uint8_t moves[] = {0xBC, 0, 0, 0x10, 0, 0, 0xBC, 2, 0, 0x20, 0, 0, 0xBC, 1, 0x05, 0x40, 0x01, 0x00, 0x04, 0x56,
                                    0x02, 0x00, 0x08, 0x00};
    static const uint8_t rows[] = {
        0xBC, 1, 0x05, 0x40, 0x01, 0x00, 0xBC, 0, 0, 0x10, 0, 0, 0xBC, 2, 0, 0x20, 0, 0, 0x20, 1, 0x04, 0x08, 0x54, 0x0C, 0x00,
        0x5E, 0xF8, 0xFF, 0x38, 8, 0x00
    };

    memcpy(tested.bytes, zeros, tested.len = sizeof zeros);
    check(explain(32, 9) == DMA330_UNEXPLAINED && has_cause(DMA330_CAUSE_UNSET_DAR, 1, 1), "a DMASTZ", 32);
    check(explain(0, 9) == DMA330_UNEXPLAINED && has_cause(DMA330_CAUSE_UNDEF_INSTR, 1, 1), "on a channel", 0);
    memcpy(tested.bytes, forever, tested.len = sizeof forever);
    check(explain(32, 9) == DMA330_UNEXPLAINED && has_cause(DMA330_CAUSE_NO_END, 1, 9), "a loop for ever", 32);
    memcpy(tested.bytes, moves, tested.len = sizeof moves);
    check(explain(32, 9) == DMA330_UNEXPLAINED && has_cause(DMA330_CAUSE_DROPS_BYTES, 19, 4), "an addition to DAR", 32);
    check(explain(0, 9) == DMA330_UNEXPLAINED && has_cause(DMA330_CAUSE_UNDEF_INSTR, 19, 4), "on a channel", 0);
    memcpy(tested.bytes, rows, tested.len = sizeof rows);
    check(explain(32, 99) == DMA330_OK && is_explained(2, 2, 0, 8, 15) && reads(0, 0x1000, 4, 1) && reads(1, 0x1010, 4, 1) &&
              writes(0, 0x2000, 4) && writes(1, 0x1FFC, 4), "two rows", 0);
}

/* Loads that stay: a source is one item with the number of its rounds, and not one an address. */
static void explains_repeated_sources(void)
{
    assemble(MOVE "DMAMOV CCR 0x00014004\nDMALP 0 256\nDMALD\nDMAST\nDMALPEND 0 2\nDMAEND\n");
    check(explain(32, MANY) == DMA330_OK && is_explained(1, 1, 0, 1024, 3 + 1 + 3 * 256 + 1) &&
              reads(0, 0x1000, 4, 256) && writes(0, 0x2000, 1024), "256 rounds of 4 bytes", 0);
    assemble(MOVE "DMAMOV CCR 0x003C40F0\nDMALD\nDMAST\nDMAMOV SAR 0x00001008\nDMALD\nDMAST\nDMAEND\n");
    check(explain(0, MANY) == DMA330_OK && is_explained(2, 1, 0, 32, 9) && reads(0, 0x1000, 1, 16) &&
              reads(1, 0x1008, 1, 16) && writes(0, 0x2000, 32), "two bytes, 16 times each", 0);
}

/* Each event is where it happens, also between the stores. */
static void explains_events(void)
{
    assemble("DMAWFE 5\n" MOVE BEAT_4 "DMALD\nDMAST\nDMASEV 7\nDMAWFE 31 invalid\nDMAMOV DAR 0x00003000\nDMALD\nDMASEV 0\n"
             "DMAST\nDMASEV 3\nDMASEV 3\nDMAEND\n");
    check(explain(0, MANY) == DMA330_OK && is_explained(1, 2, 6, 8, 15) && reads(0, 0x1000, 8, 1) && writes(0, 0x2000, 4) &&
              writes(1, 0x3000, 4), "a copy with six events", 0);
    check(happens(0, DMA330_WAITS, 5, 0) && happens(1, DMA330_SIGNALS, 7, 4) && happens(2, DMA330_WAITS, 31, 4) &&
              happens(3, DMA330_SIGNALS, 0, 4) && happens(4, DMA330_SIGNALS, 3, 8) && happens(5, DMA330_SIGNALS, 3, 8),
          "its events", 0);
    assemble("DMAEND\n");
    check(explain(128, 1) == DMA330_OK && is_explained(0, 0, 0, 0, 1) && are_lists_unwritten(), "a copy of nothing", 0);
}

/* On a bus of 64 bits this program copies only if DAR is on the lanes of 0x80002000: a device keeps DAR over a DMAGO, and
 * its channel drops the loaded bytes at the DMAMOV DAR if another program has left other lanes there. So no explanation for
 * any registers finds the copy, while one from the channel's own registers does. */
static void explains_a_stale_dar(void)
{
    static machine m;
    const uint32_t from = NEXT, to = NEXT + 0x1000, other = NEXT + 0x1804;
    uint32_t at;

    set_up(&m, plain(1, 16, false));
    at = put_move(&m, put_move(&m, LOW, TO_SAR, from), TO_CCR, 0x000D4035);
    at = put(&m, put_move(&m, put(&m, at, DMALD), TO_DAR, to), DMAST);
    put(&m, at, DMAEND);
    at = put_move(&m, put_move(&m, put_move(&m, LOW + 0x100, TO_SAR, from), TO_DAR, other - 4), TO_CCR, 0x00014005);
    put(&m, put(&m, put(&m, at, DMALD), DMAST), DMAEND);
    memcpy(tested.bytes, byte_at(m.bytes, LOW), tested.len = 21);
    check(explain(128, 9) == DMA330_UNEXPLAINED && has_cause(DMA330_CAUSE_UNSET_DAR, 13, 3), "a stale DAR", 128);
    check(explain(0, 9) == DMA330_OK && is_explained(1, 1, 0, 16, 6), "no lanes", 0);
    want_ram(&m);
    memcpy(byte_at(m.wanted, to), byte_at(m.wanted, from), 16);
    start(&m, 0, LOW);
    check(explain_channel(&m.device, 0) == DMA330_OK && is_explained(1, 1, 0, 16, 6), "after a reset", 0);
    allocations_left = 0;
    check(!run(&m, 0) && is_ram_wanted(&m), "after a reset it copies", 0);
    memcpy(byte_at(m.wanted, other - 4), byte_at(m.wanted, from), 4);
    start(&m, 0, LOW + 0x100);
    check(!run(&m, 0) && is_ram_wanted(&m) && get(&m, DAR) == other, "another program", 0);
    start(&m, 0, LOW);
    check(explain_channel(&m.device, 0) == DMA330_UNEXPLAINED && has_cause(DMA330_CAUSE_DROPS_BYTES, 13, 3), "a stale DAR", 0);
    allocations_left = 0;
    run(&m, 0);
    check((get(&m, CSR) & 15) == DMA330_CSR_FAULTING && get(&m, FTR) == 1u << 13 && is_ram_wanted(&m), "it fails", 0);
    tear_down(&m);
}

/* ---- codes ---- */

static void refuses_other_buses(void)
{
    static const uint32_t others[] = {1, 16, 31, 33, 256, 0xFFFFFFFF};
    const dma330_segment src = {0x1000, 4}, dst = {0x2000, 4};
    size_t len = MANY;

    assemble(MOVE BEAT_4 "DMALD\nDMAST\nDMAEND\n");
    for (size_t n = 0; n < sizeof others / sizeof others[0]; n++) {
        check(explain(others[n], 9) == DMA330_BAD_CONFIG && memcmp(&out, &unwritten, sizeof out) == 0, "another bus",
              others[n]);
        check(dma330_plan(&src, 1, &dst, 1, -1, -1, others[n], tested.bytes, sizeof tested.bytes, &len) == DMA330_BAD_CONFIG &&
                  dma330_plan_fill(1, &dst, 1, -1, -1, others[n], tested.bytes, sizeof tested.bytes, &len) ==
                      DMA330_BAD_CONFIG && len == MANY, "a plan for another bus", others[n]);
    }
}

/* With room for one item less, of any list, no list is written, and the explanation has the numbers that need room. */
static void needs_room(void)
{
    assemble("DMAWFE 5\n" MOVE BEAT_4 "DMALD\nDMAST\nDMAMOV SAR 0x00004000\nDMAMOV DAR 0x00003000\nDMALD\nDMAST\nDMAEND\n");
    for (uint32_t n = 0; n < 4; n++) {
        int32_t code = n == 3 ? DMA330_OK : DMA330_BUFFER_TOO_SMALL;

        allocations_left = MANY;
        check(explain_in(0, MANY, 2 - (n == 0), 2 - (n == 1), 1 - (n == 2)) == code && is_explained(2, 2, 1, 8, 11) &&
                  are_lists_unwritten() == (n < 3), "room", n);
    }
    check(reads(0, 0x1000, 4, 1) && reads(1, 0x4000, 4, 1) && writes(0, 0x2000, 4) && writes(1, 0x3000, 4), "the items", 0);
    check(memcmp(out.src + 2, unwritten.src + 2, sizeof out.src - 2 * sizeof out.src[0]) == 0 &&
              memcmp(out.dst + 2, unwritten.dst + 2, sizeof out.dst - 2 * sizeof out.dst[0]) == 0 &&
              memcmp(out.events + 1, unwritten.events + 1, sizeof out.events - sizeof out.events[0]) == 0,
          "nothing behind them", 0);
}

/* Each call is refused if an allocation fails, and then writes nothing. */
static void needs_memory(void)
{
    const dma330_segment src = {0x1000, 64}, dst = {0x2000, 64};
    int32_t code = DMA330_NO_MEMORY;
    size_t len = MANY;
    long n;

    assemble("DMASEV 5\n" MOVE BEAT_4 "DMALD\nDMAST\nDMAEND\n");
    for (n = 0; code == DMA330_NO_MEMORY; n++) {
        allocations_left = n;
        code = explain_in(0, 9, ROOM, ROOM, ROOM);
        check(code == DMA330_OK || (code == DMA330_NO_MEMORY && memcmp(&out, &unwritten, sizeof out) == 0), "memory", 0);
    }
    check(n > 3 && code == DMA330_OK, "an explanation with its memory", (uint32_t)n);
    code = DMA330_NO_MEMORY;
    for (n = 0; code == DMA330_NO_MEMORY; n++) {
        allocations_left = n;
        code = dma330_plan(&src, 1, &dst, 1, -1, -1, 0, tested.bytes, sizeof tested.bytes, &len);
        check(code == DMA330_OK ? len < MANY : code == DMA330_NO_MEMORY && len == MANY, "a plan's memory", (uint32_t)n);
    }
    check(n > 1 && code == DMA330_OK, "a plan with its memory", (uint32_t)n);
}

/* ---- plans ---- */

/* Return the address of a byte that the explained program reads, and where it stores it. */
static uint32_t read_at(uint64_t byte)
{
    size_t n = 0;

    for (; byte >= (uint64_t)out.src[n].len * out.src[n].times; n++)
        byte -= (uint64_t)out.src[n].len * out.src[n].times;
    return out.src[n].addr + (uint32_t)(byte % out.src[n].len);
}

static uint32_t stored_at(uint64_t byte)
{
    size_t n = 0;

    for (; byte >= out.dst[n].len; n++)
        byte -= out.dst[n].len;
    return out.dst[n].addr + (uint32_t)byte;
}

/* Returns whether the explanation is of a copy or a fill of this many bytes to the second half of LOW, from the first half,
 * which waits for event 2 and signals event 9. */
static bool is_work(uint32_t size, bool is_fill)
{
    bool is_right = out.explanation.copied == size && out.explanation.events_len == 2 &&
                    happens(0, DMA330_WAITS, 2, 0) && happens(1, DMA330_SIGNALS, 9, size);

    for (uint32_t k = 0; is_right && k < size; k++)
        is_right = read_at(k) == LOW + 0x1003 + (is_fill ? 0 : k) && stored_at(k) == LOW + 0x2001 + k + (k >= 5);
    return is_right;
}

/* Runs the planned program on a device with this bus, which explains it as dma330_explain does, until it has ended. Checks
 * that it wrote the bytes that the explanation says. */
static void run_on_device(uint32_t bus, const char *what)
{
    static machine m;
    static outputs explained;
    dma330_device_config config = plain(2, 16, false);

    config.bus = bus;
    set_up(&m, config);
    memcpy(byte_at(m.bytes, LOW), tested.bytes, tested.len);
    start(&m, 1, LOW);
    explained = out;
    forget();
    allocations_left = MANY;
    check(dma330_device_explain(&m.device, 1, MANY, out.src, ROOM, out.dst, ROOM, out.zeros, 0, out.events, ROOM,
                                &out.explanation) == DMA330_OK && memcmp(&out, &explained, sizeof out) == 0, what, bus);
    allocations_left = 0;
    check(run(&m, 1), "it waits", bus);
    put_signal(&m, NEXT, 2);
    want_ram(&m);
    for (uint64_t k = 0; k < explained.explanation.copied; k++)
        *byte_at(m.wanted, stored_at(k)) = *byte_at(m.wanted, read_at(k));
    start(&m, 0, NEXT);
    check(!run(&m, 0) && !run(&m, 1) && is_ram_wanted(&m), what, bus);
    tear_down(&m);
}

/* A plan for each bus, at odd addresses, is explained as the transfer that it was made of, and only on buses as wide. */
static void plans_for_each_bus(void)
{
    static const uint32_t buses[] = {0, 32, 64, 128};
    const dma330_segment src[] = {{LOW + 0x1003, 3}, {LOW + 0x1006, 297}};
    const dma330_segment dst[] = {{LOW + 0x2001, 5}, {LOW + 0x2007, 295}};

    for (uint32_t n = 0; n < 8; n++) {
        uint32_t bus = buses[n / 2];
        int32_t code;

        allocations_left = MANY;
        code = n % 2 == 0 ? dma330_plan(src, 2, dst, 2, 2, 9, bus, tested.bytes, DMA330_MAX_PROGRAM, &tested.len)
                          : dma330_plan_fill(LOW + 0x1003, dst, 2, 2, 9, bus, tested.bytes, DMA330_MAX_PROGRAM, &tested.len);
        check(code == DMA330_OK && explain(bus, MANY) == DMA330_OK && is_work(300, n % 2 != 0), "a plan", bus);
        if (bus != 0)
            run_on_device(bus, "a plan on a device");
    }
}

/* The plan for bus 0 is the program that a channel loads for the same transfer, in exactly as many bytes as it needs. In the
 * channel's save the program is between the head of 48 bytes and the checksum. */
static void plans_as_a_channel_loads(void)
{
    static uint8_t save[DMA330_MAX_SAVE];
    const dma330_segment src = {0x1003, 300}, dst = {0x2000, 300};
    dma330_channel channel = DMA330_CHANNEL_INIT;
    size_t save_len = 0, len = MANY;

    allocations_left = MANY;
    check(dma330_plan(&src, 1, &dst, 1, 2, 9, 0, tested.bytes, sizeof tested.bytes, &tested.len) == DMA330_OK &&
              dma330_plan(&src, 1, &dst, 1, 2, 9, 0, tested.bytes, tested.len - 1, &len) == DMA330_BUFFER_TOO_SMALL &&
              len == MANY &&
              dma330_plan(&src, 1, &dst, 1, 2, 9, 0, tested.bytes, tested.len, &len) == DMA330_OK && len == tested.len,
          "the room of a plan", (uint32_t)tested.len);
    check(dma330_channel_open(&channel) == DMA330_OK &&
              dma330_channel_load_copy(&channel, &src, 1, &dst, 1, 2, 9) == DMA330_OK &&
              dma330_channel_save(&channel, save, sizeof save, &save_len) == DMA330_OK && save_len == 48 + tested.len + 4 &&
              memcmp(save + 48, tested.bytes, tested.len) == 0, "the plan of a channel's copy", 0);
    dma330_channel_close(&channel);
}

/* ---- a device's channel ---- */

static void explains_on_a_device(void)
{
    static machine m;
    uint32_t at;

    memset(&m, 0, sizeof m);
    check(explain_channel(&m.device, 0) == DMA330_NOT_OPEN, "a device that isn't open", 0);
    set_up(&m, plain(2, 16, false));
    check(explain_channel(&m.device, 2) == DMA330_NO_CHANNEL && memcmp(&out, &unwritten, sizeof out) == 0, "no channel", 2);
    check(explain_channel(&m.device, 255) == DMA330_NO_CHANNEL, "no channel", 255);
    check(explain_channel(&m.device, 1) == DMA330_NO_PROGRAM && memcmp(&out, &unwritten, sizeof out) == 0, "no program", 1);
    at = put_two(&m, put_move(&m, put_move(&m, LOW, TO_SAR, FAR), TO_DAR, NEXT), DMAWFE, 5 << 3);
    put(&m, put(&m, put(&m, at, DMALD), DMAST), DMAEND);
    start(&m, 1, LOW);
    check(explain_channel(&m.device, 1) == DMA330_UNEXPLAINED && has_cause(DMA330_CAUSE_STORES_FIXED, 15, 4) &&
              are_lists_unwritten(), "a program that waits", 1);
    put(&m, put(&m, at, DMASEV), 0);
    check(explain_channel(&m.device, 1) == DMA330_UNEXPLAINED, "the program is the one that was started", 1);
    stop(&m, 1);
    check(explain_channel(&m.device, 1) == DMA330_NO_PROGRAM, "a program that was killed", 1);
    allocations_left = 0;
    tear_down(&m);
}

int main(void)
{
    refuses_each();
    refuses_bytes();
    explains_on_each_bus();
    explains_first_beats();
    explains_moves_of_dar();
    explains_a_devices_instructions();
    explains_repeated_sources();
    explains_events();
    explains_a_stale_dar();
    refuses_other_buses();
    needs_room();
    needs_memory();
    plans_for_each_bus();
    plans_as_a_channel_loads();
    explains_on_a_device();
    return end_checks();
}
