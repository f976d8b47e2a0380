/* Tests the instructions of a dma330_device that compiled programs don't have: DMASTZ, DMAADDH, DMAADNH, and the DMALPEND of
 * a DMALPFE, by their codes in the manual. What each row expects is worked out by hand. */
#include "guest.h"

#include <string.h>

static machine m;

#define WORD(v) (v) & 0xFF, (v) >> 8 & 0xFF, (v) >> 16 & 0xFF, (v) >> 24 & 0xFF
#define MOVE(to, v) DMAMOV, to, WORD(v)

/* Bursts of `beats` beats of 2 to the power of `size` bytes at both ends, at addresses that rise. */
#define BURSTS(size, beats) (0x4001u | (size) << 1 | ((beats) - 1u) << 4 | (size) << 15 | ((beats) - 1u) << 18)
#define BURSTS_16 BURSTS(2, 4)
#define DAR_RISES 0x4000u

enum { AGAIN = DMALPEND_FE, AGAIN_LC = DMALPEND_FE | 4, ADDH_SAR = DMAADDH, ADDH_DAR = DMAADDH | 2, ADNH_SAR = DMAADNH,
       ADNH_DAR = DMAADNH | 2 };
#define HALF(n) (n) & 0xFF, (n) >> 8

/* In the rows, a part of memory that the program clears, or that it copies from an address. */
enum { ZEROS = 0, PARTS = 4 };
typedef struct part {
    uint32_t to, len, from;
} part;

#define FROM (LOW + 0x400)
#define TO (NEXT + 0x800)

/* Programs, the registers after them, what they have written, and how they end: by a DMAEND, or by a fault at an offset. */
static const struct {
    const char *what;
    uint8_t program[48];
    uint32_t sar, dar, fault, at;
    part parts[PARTS];
} rows[] = {
    {"a burst of zeros",
     {MOVE(TO_DAR, TO), MOVE(TO_CCR, BURSTS_16), DMASTZ, DMAEND}, 0, TO + 16, 0, 13, {{TO, 16, ZEROS}}},
    {"a first beat of two bytes", {MOVE(TO_DAR, TO + 6), MOVE(TO_CCR, BURSTS_16), DMASTZ, DMAEND}, 0, TO + 20, 0, 13,
     {{TO + 6, 14, ZEROS}}},
    {"at a fixed address", {MOVE(TO_DAR, TO), MOVE(TO_CCR, BURSTS_16 & ~DAR_RISES), DMASTZ, DMAEND}, 0, TO, 0, 13,
     {{TO, 4, ZEROS}}},
    {"between a load and its store",
     {MOVE(TO_SAR, FROM), MOVE(TO_DAR, TO), MOVE(TO_CCR, BURSTS_16), DMALD, DMASTZ, DMAST, DMAEND}, FROM + 16,
      TO + 32, 0, 21,
     {{TO, 16, ZEROS}, {TO + 16, 16, FROM}}},
    {"over the border of two regions",
     {MOVE(TO_DAR, NEXT - 8), MOVE(TO_CCR, BURSTS_16), DMASTZ, DMAEND}, 0, NEXT + 8, 0, 13,
     {{NEXT - 8, 16, ZEROS}}},
    {"up to the last address", {MOVE(TO_DAR, 0xFFFFFFF0u), MOVE(TO_CCR, BURSTS_16), DMASTZ, DMAEND}, 0, 0, 0, 13,
     {{0xFFFFFFF0u, 16, ZEROS}}},
    {"beyond the last address",
     {MOVE(TO_DAR, 0xFFFFFFF4u), MOVE(TO_CCR, BURSTS_16), DMASTZ, DMAEND}, 0, 0xFFFFFFF4u, 1 << 17, 12,
     {{0, 0, 0}}},
    {"into a gap",
     {MOVE(TO_DAR, NEXT_END - 12), MOVE(TO_CCR, BURSTS_16), DMASTZ, DMAEND}, 0, NEXT_END - 12, 1 << 17, 12,
     {{0, 0, 0}}},
    {"a loop as a boot loader writes it, 64 bursts of 128 bytes in two loops",
     {MOVE(TO_DAR, NEXT), MOVE(TO_CCR, BURSTS(3, 16)), DMALP, 7, DMALP | 2, 7, DMASTZ, DMALPEND | 4, 1, DMALPEND, 5,
      DMAEND},
     0, NEXT + 0x2000, 0, 21, {{NEXT, 0x2000, ZEROS}}},
    {"1,000 bytes from an address that no beat of 8 bytes has, as a library of an SoC FPGA writes it",
     {MOVE(TO_DAR, TO + 3), MOVE(TO_CCR, BURSTS(0, 5)), DMASTZ, MOVE(TO_CCR, BURSTS(3, 16)), DMALP, 6, DMASTZ, DMALPEND, 1,
      MOVE(TO_CCR, BURSTS(3, 12)), DMASTZ, MOVE(TO_CCR, BURSTS(0, 3)), DMASTZ, DMAWMB, DMASEV, 0, DMAEND},
     0, TO + 1003, 0, 41, {{TO + 3, 1000, ZEROS}}},
    {"additions at both ends of a halfword",
     {ADDH_SAR, HALF(0xFFFF), ADDH_SAR, HALF(0), ADDH_DAR, HALF(1), ADNH_DAR, HALF(0), DMAEND}, 0xFFFF, 0xFFFF0001u,
      0, 12,
     {{0, 0, 0}}},
    {"below 0", {ADNH_SAR, HALF(0xFFFF), ADNH_DAR, HALF(0x8000), DMAEND}, 0xFFFFFFFFu, 0xFFFF8000u, 0, 6, {{0, 0, 0}}},
    {"above the last address",
     {MOVE(TO_SAR, 0xFFFFFFFFu), MOVE(TO_DAR, 0xFFFF0001u), ADDH_SAR, HALF(0xFFFF), ADDH_DAR, HALF(0xFFFF), DMAEND},
      0xFFFE, 0,
     0, 18, {{0, 0, 0}}},
    {"a rectangle of three rows of 64 bytes, the last one first",
     {MOVE(TO_SAR, FROM), MOVE(TO_DAR, TO + 0x200), MOVE(TO_CCR, BURSTS(2, 16)), DMALP, 2, DMALD, DMAST, ADDH_SAR, HALF(0x40),
      ADNH_DAR, HALF(0xFF40), DMALPEND, 8, DMAEND},
     FROM + 3 * 0x80, TO + 0x200 - 3 * 0x80, 0, 30,
     {{TO + 0x200, 64, FROM}, {TO + 0x180, 64, FROM + 0x80}, {TO + 0x100, 64, FROM + 0x100}}},
    {"the rows of a rectangle to one range",
     {MOVE(TO_SAR, FROM), MOVE(TO_DAR, TO), MOVE(TO_CCR, BURSTS(2, 16)), DMALP, 3, DMALD, DMAST, ADDH_SAR, HALF(0x40), DMALPEND,
      5, DMAEND},
     FROM + 4 * 0x80, TO + 4 * 64, 0, 27,
     {{TO, 64, FROM}, {TO + 64, 64, FROM + 0x80}, {TO + 128, 64, FROM + 0x100}, {TO + 192, 64, FROM + 0x180}}},
    {"a DMAMOV DAR to other byte lanes drops what was loaded",
     {MOVE(TO_SAR, FROM), MOVE(TO_DAR, TO), MOVE(TO_CCR, BURSTS_16), DMALD, MOVE(TO_DAR, TO + 4), DMAST}, FROM + 16,
      TO + 4,
     1 << 13, 25, {{0, 0, 0}}},
    {"one to the same lanes keeps it",
     {MOVE(TO_SAR, FROM), MOVE(TO_DAR, TO), MOVE(TO_CCR, BURSTS_16), DMALD, MOVE(TO_DAR, TO + 0x40), DMAST, DMAEND},
     FROM + 16, TO + 0x50, 0, 26, {{TO + 0x40, 16, FROM}}},
    {"a DMAMOV CCR with which DAR doesn't rise drops it",
     {MOVE(TO_SAR, FROM), MOVE(TO_DAR, TO), MOVE(TO_CCR, BURSTS_16), DMALD, MOVE(TO_CCR, BURSTS_16 & ~DAR_RISES),
      DMAST},
     FROM + 16, TO, 1 << 13, 25, {{0, 0, 0}}},
    {"a DMAADDH to other lanes drops it",
     {MOVE(TO_SAR, FROM), MOVE(TO_DAR, TO), MOVE(TO_CCR, BURSTS_16), DMALD, ADDH_DAR, HALF(4), DMAST}, FROM + 16,
      TO + 4, 1 << 13,
     22, {{0, 0, 0}}},
    {"a DMAADNH to the same lanes keeps it",
     {MOVE(TO_SAR, FROM), MOVE(TO_DAR, TO), MOVE(TO_CCR, BURSTS_16), DMALD, ADNH_DAR, HALF(0xFFF0), DMAST, DMAEND},
      FROM + 16, TO,
     0, 23, {{TO - 16, 16, FROM}}},
    {"for ever, up to the end of RAM",
     {MOVE(TO_DAR, NEXT_END - 48), MOVE(TO_CCR, BURSTS_16), DMANOP, DMASTZ, AGAIN, 1, DMAEND}, 0, NEXT_END, 1 << 17, 13,
     {{NEXT_END - 48, 48, ZEROS}}},
    {"the same with the bit lc set, as Linux's emitter can",
     {MOVE(TO_DAR, NEXT_END - 48), MOVE(TO_CCR, BURSTS_16), DMASTZ, AGAIN_LC, 1}, 0, NEXT_END, 1 << 17, 12,
     {{NEXT_END - 48, 48, ZEROS}}},
    {"for ever around a loop with a counter",
     {MOVE(TO_DAR, NEXT_END - 128), MOVE(TO_CCR, BURSTS_16), DMALP, 3, DMASTZ, DMALPEND, 1, AGAIN, 5}, 0, NEXT_END,
      1 << 17, 14,
     {{NEXT_END - 128, 128, ZEROS}}},
    {"a jump to before the start", {DMANOP, AGAIN, 2}, 0, 0, 1 << 16, 1, {{0, 0, 0}}},
};

enum { ROWS = sizeof rows / sizeof rows[0] };

/* Starts the program of a row at LOW on channel 0, and sets the wanted bytes to those after it. */
static void begin(size_t n)
{
    set_up(&m, plain(1, 4, false));
    memcpy(byte_at(m.bytes, LOW), rows[n].program, sizeof rows[n].program);
    want_ram(&m);
    for (size_t k = 0; k < PARTS; k++)
        for (uint32_t i = 0; i < rows[n].parts[k].len; i++)
            *byte_at(m.wanted, rows[n].parts[k].to + i) =
                rows[n].parts[k].from == ZEROS ? 0 : *byte_at(m.bytes, rows[n].parts[k].from + i);
    start(&m, 0, LOW);
}

static void check_end(size_t n, uint32_t most)
{

             check(get(&m, CSR) == (rows[n].fault ? 15 : 0) && get(&m, FTR) == rows[n].fault && is_ram_wanted(&m), rows[n].what, most);
    check(get(&m, SAR) == rows[n].sar && get(&m, DAR) == rows[n].dar, rows[n].what, most);
    check(get(&m, CPC) == LOW + rows[n].at, rows[n].what, most);
}

/* Each row, however many steps a turn has. */
static void does_what_it_says(size_t n, uint32_t most)
{
    begin(n);
    for (int turns = 0; turn(&m, 0, most) && turns < 1000; turns++)
        ;
    check_end(n, most);
    tear_down(&m);
}

/* A device that is saved after any number of steps, reset and restored goes on as if nothing had happened. */
static void goes_on_after_a_save(size_t n)
{
    static uint8_t save[DMA330_MAX_DEVICE_SAVE];
    size_t len = 0;

    for (uint32_t steps = 0; steps < 20; steps++) {
        begin(n);
        turn(&m, 0, steps);
        check(dma330_device_save(&m.device, save, sizeof save, &len) == DMA330_OK, rows[n].what, steps);
        check(dma330_device_reset(&m.device) == DMA330_OK && !turn(&m, 0, 1000), rows[n].what, steps);
        check(dma330_device_restore(&m.device, save, len) == DMA330_OK, rows[n].what, steps);
        while (turn(&m, 0, 1000))
            ;
        check_end(n, steps);
        tear_down(&m);
    }
}

/* A DMASTZ to ROM fails and changes nothing. */
static void fails_in_rom(void)
{
    begin(0);
    m.regions[1].read_only = 1;
    want_ram(&m);
    check(!run(&m, 0) && get(&m, FTR) == 1 << 17 && get(&m, CPC) == LOW + 12 && is_ram_wanted(&m), "ROM", 0);
    lend(&m);
    tear_down(&m);
}

/* A DMAGO keeps SAR, DAR, CCR, LC0 and LC1, which a program may leave to the next one. */
static void keeps_its_registers(void)
{
    static const uint8_t first[] = {
        MOVE(TO_SAR, FROM), MOVE(TO_DAR, TO), MOVE(TO_CCR, BURSTS_16), DMALP, 4, DMALP | 2, 9, DMAEND
    };
    static const uint8_t second[] = {DMALD, DMAST, DMALPEND, 2, DMAEND};
    dma330_repeated src = {0, 0, 0};
    dma330_segment dst = {0, 0}, zeros;
    dma330_event event;
    dma330_explanation found;

    set_up(&m, plain(2, 4, false));
    check(get(&m, CCR) == RESET_CCR && get(&m, CCR + 0x20) == RESET_CCR && get(&m, CCR + 0x40) == 0,
          "CCR after a reset", 0);
    memcpy(byte_at(m.bytes, LOW), first, sizeof first);
    memcpy(byte_at(m.bytes, LOW + 0x100), second, sizeof second);
    want_ram(&m);
    start(&m, 1, LOW);
    check(!run(&m, 1) && get(&m, LC0 + 0x20) == 4 && get(&m, LC1 + 0x20) == 9, "what a program sets", 0);
    start(&m, 1, LOW + 0x100);
    check(get(&m, CPC + 8) == LOW + 0x100 && get(&m, SAR + 0x20) == FROM && get(&m, CCR + 0x20) == BURSTS_16,
          "it stays", 0);
    allocations_left = 1000;
    check(dma330_device_explain(&m.device, 1, 100, &src, 1, &dst, 1, &zeros, 1, &event, 1, &found) == DMA330_OK &&
              found.copied == 80 && found.steps == 16 && src.addr == FROM && src.len == 80 && dst.addr == TO && dst.len == 80,
          "it is explained", 0);
    allocations_left = 0;
    memcpy(byte_at(m.wanted, TO), byte_at(m.bytes, FROM), 80);
    check(!run(&m, 1) && is_ram_wanted(&m) && get(&m, FTR + 4) == 0,
          "five rounds of a loop that the first one began", 0);
    check(get(&m, SAR + 0x20) == FROM + 80 && get(&m, DAR + 0x20) == TO + 80 && get(&m, LC0 + 0x20) == 0,
          "and moves on", 0);
    check(get(&m, LC1 + 0x20) == 9 && get(&m, SAR) == 0 && get(&m, CCR) == RESET_CCR, "other registers", 0);
    check(dma330_device_reset(&m.device) == DMA330_OK && get(&m, SAR + 0x20) == 0 && get(&m, CCR + 0x20) == RESET_CCR,
          "reset", 0);
    tear_down(&m);
}

/* So does a DMAKILL through the debug registers, but it drops the bytes that are loaded. */
static void a_kill_keeps_them(void)
{
    static const uint8_t first[] = {
        MOVE(TO_SAR, FROM), MOVE(TO_DAR, TO), MOVE(TO_CCR, BURSTS_16), DMALP, 4, DMALD, DMAWFE, 1 << 3, DMAEND
    };
    static const uint8_t stores[] = {DMAST, DMAEND};
    static const uint8_t copies[] = {DMALD, DMAST, DMALPEND, 2, DMAEND};

    set_up(&m, plain(1, 4, false));
    memcpy(byte_at(m.bytes, LOW), first, sizeof first);
    memcpy(byte_at(m.bytes, LOW + 0x100), stores, sizeof stores);
    memcpy(byte_at(m.bytes, LOW + 0x200), copies, sizeof copies);
    want_ram(&m);
    start(&m, 0, LOW);
    check(run(&m, 0), "it waits", 0);
    stop(&m, 0);
    check(get(&m, SAR) == FROM + 16 && get(&m, DAR) == TO && get(&m, CCR) == BURSTS_16 && get(&m, LC0) == 4, "a kill", 0);
    start(&m, 0, LOW + 0x100);
    check(!run(&m, 0) && get(&m, FTR) == 1 << 13 && is_ram_wanted(&m), "nothing is left to store", 0);
    stop(&m, 0);
    start(&m, 0, LOW + 0x200);
    memcpy(byte_at(m.wanted, TO), byte_at(m.bytes, FROM + 16), 80);
    check(!run(&m, 0) && get(&m, SAR) == FROM + 96 && get(&m, DAR) == TO + 80 && is_ram_wanted(&m), "five bursts", 0);
    tear_down(&m);
}

/* Each event clears 16 bytes more, as long as the program isn't killed. */
static void repeats_at_each_event(void)
{
    static const uint8_t program[] = {MOVE(TO_DAR, TO), MOVE(TO_CCR, BURSTS_16), DMAWFE, 1 << 3, DMASTZ, AGAIN, 3};

    set_up(&m, plain(1, 4, false));
    memcpy(byte_at(m.bytes, LOW), program, sizeof program);
    want_ram(&m);
    start(&m, 0, LOW);
    for (uint32_t n = 0; n < 5; n++) {
        check(run(&m, 0) && get(&m, CSR) == (4 | 1 << 4) && get(&m, DAR) == TO + 16 * n && is_ram_wanted(&m), "it waits", n);
        memset(byte_at(m.wanted, TO + 16 * n), 0, 16);
        debug(&m, MANAGER, DMASEV, 1 << 3, 0);
    }
    check(run(&m, 0) && get(&m, DAR) == TO + 80 && is_ram_wanted(&m), "the last event", 5);
    stop(&m, 0);
    check(get(&m, CSR) == 0 && !can_step(&m), "it is killed", 0);
    check_work(&m, 0, "it works after that", 0);
    tear_down(&m);
}

/* Each other first byte is undefined, among them the conditional forms and those of peripherals. An instruction whose bytes
 * end with RAM can't be fetched. */
static void has_no_others(void)
{
    static const uint8_t known[] = {DMAEND, DMALD, DMAST, DMASTZ, DMARMB, DMAWMB, DMANOP, DMALP, DMALP | 2, AGAIN, AGAIN_LC,
                                    DMASEV, DMAWFE, DMALPEND, DMALPEND | 4, ADDH_SAR, ADDH_DAR, ADNH_SAR, ADNH_DAR, DMAMOV};
    static const uint8_t cut[] = {AGAIN, AGAIN_LC, ADDH_SAR, ADDH_DAR, ADNH_SAR, ADNH_DAR};

    set_up(&m, plain(1, 4, false));
    for (uint32_t first = 0; first < 256; first++) {
        if (memchr(known, (int)first, sizeof known) != NULL)
            continue;
        put_two(&m, put_two(&m, LOW, first, 0), 0, 0);
        start(&m, 0, LOW);
        check(!run(&m, 0) && get(&m, FTR) == 1 && get(&m, CPC) == LOW, "undefined", first);
        stop(&m, 0);
    }
    for (uint32_t n = 0; n < sizeof cut; n++)
        for (uint32_t len = 1; len < (n < 2 ? 2 : 3); len++) {
            put(&m, FAR_END - len, cut[n]);
            start(&m, 0, FAR_END - len);
            check(!run(&m, 0) && get(&m, FTR) == 1 << 16 && get(&m, CPC) == FAR_END - len, "its bytes end", cut[n]);
            stop(&m, 0);
        }
    tear_down(&m);
}

int main(void)
{
    static const uint32_t mosts[] = {1, 2, 3, 5, 16, 1000};

    for (size_t n = 0; n < ROWS; n++) {
        for (size_t k = 0; k < sizeof mosts / sizeof mosts[0]; k++)
            does_what_it_says(n, mosts[k]);
        goes_on_after_a_save(n);
    }
    fails_in_rom();
    keeps_its_registers();
    a_kill_keeps_them();
    repeats_at_each_event();
    has_no_others();
    return end_checks();
}
