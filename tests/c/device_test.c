/* Tests dma330_device with a guest's driver: its registers, copies, interrupts and faults. */
#include "guest.h"

#include <string.h>

static machine m;

/* ---- copies, and their interrupts ---- */

/* Returns whether the channel is stopped or its interrupt is low. */
static bool is_stopped_with_irq(uint32_t channel, uint32_t event)
{
    return (irqs(&m) >> event & 1) == 0 || get(&m, CSR + 8 * channel) == 0;
}

/* Copies on two channels in turn, on one of them across the border of two regions. */
static void copies_on_two_channels(uint32_t bus, uint32_t most)
{
    dma330_device_config config = plain(2, 16, false);
    bool goes_on = true, is_stopped = true;

    config.bus = bus;
    set_up(&m, config);
    put_copy(&m, LOW + 3, NO_EVENT, LOW + 0x100, FAR + 0x100, 8, 1);
    put_copy(&m, FAR + 0x1F00, NO_EVENT, FAR + 0x1100, LOW + 0x2CC5, 4, 15);
    want_ram(&m);
    want_copy(&m, LOW + 0x100, FAR + 0x100, 8);
    want_copy(&m, FAR + 0x1100, LOW + 0x2CC5, 4);
    set(&m, INTEN, 0x8002);
    start(&m, 0, LOW + 3);
    start(&m, 1, FAR + 0x1F00);
    check(get(&m, CSR) == 1 && get(&m, CSR + 8) == 1 && get(&m, CPC) == LOW + 3, "two that are executing", most);
    for (int rounds = 0; goes_on && rounds < 1000; rounds++) {
        goes_on = turn(&m, 0, most);
        goes_on = turn(&m, 1, most) || goes_on;
        is_stopped = is_stopped && is_stopped_with_irq(0, 1) && is_stopped_with_irq(1, 15);
    }
    check(is_stopped, "a handler finds its channel stopped", most);
    check(is_ram_wanted(&m) && !can_step(&m), "two copies", most);
    check(get(&m, SAR) == LOW + 0x1100 && get(&m, DAR) == FAR + 0x1100, "SAR and DAR of 0", most);
    check(get(&m, CCR) == BURSTS_OF(2) && get(&m, LC0) == 0 && get(&m, LC1) == 0, "its other registers", most);
    check(get(&m, SAR + 0x20) == FAR + 0x1900 && get(&m, DAR + 0x20) == LOW + 0x34C5, "registers of 1", most);
    check(get(&m, CPC) == LOW + 3 + 32 && get(&m, FSRC) == 0 && get(&m, FTR) == 0, "a good end", most);
    check(get(&m, INT_EVENT_RIS) == 0x8002 && get(&m, INTMIS) == 0x8002 && irqs(&m) == 0x8002, "two irqs", most);
    set(&m, INTCLR, 1 << 1 | 1 << 2);
    check(get(&m, INT_EVENT_RIS) == 0x8000 && irqs(&m) == 0x8000, "one is cleared", most);
    set(&m, INTCLR, 1 << 15);
    check(get(&m, INT_EVENT_RIS) == 0 && get(&m, INTMIS) == 0 && irqs(&m) == 0, "the other one too", most);
    tear_down(&m);
}

/* Checks how far turns go in NOP, SEV 2, NOP, SEV 2, NOP, WFE 3: each ends at a DMASEV, but none right after one that
 * raises an interrupt. */
static void takes_its_steps(void)
{
    static const uint8_t program[] = {DMANOP, DMASEV, 2 << 3, DMANOP, DMASEV, 2 << 3, DMANOP, DMAWFE, 3 << 3};
    static const uint32_t as_interrupt[] = {0, 1, 4, 4}, as_event[] = {0, 1, 3, 3};

    for (uint32_t n = 0; n < 8; n++) {
        set_up(&m, plain(1, 4, false));
        memcpy(byte_at(m.bytes, LOW), program, sizeof program);
        set(&m, INTEN, n < 4 ? 1 << 2 : 0);
        start(&m, 0, LOW);
        check(turn(&m, 0, n % 4) && get(&m, CPC) == LOW + (n < 4 ? as_interrupt : as_event)[n % 4], "steps", n);
        check(run(&m, 0) && get(&m, CPC) == LOW + 7 && get(&m, CSR) == (4 | 3 << 4), "to its wait", n);
        check(irqs(&m) == (n < 4 ? 1 << 2 : 0) && get(&m, INT_EVENT_RIS) == 1 << 2, "its flag", n);
        tear_down(&m);
    }
}

/* Two stores of 16 bytes, after the first of which comes the DMASEV of an interrupt. The second is left to the next
 * turn, so that at the interrupt no more is copied than before the DMASEV. */
static const struct { const char *what; uint32_t first, second; } stores[] = {
    {"a store behind one", LOW + 0x1000, LOW + 0x1010},
    {"before one", LOW + 0x1010, LOW + 0x1000},
    {"over its end", LOW + 0x1000, LOW + 0x1001},
    {"a byte behind it", LOW + 0x1000, LOW + 0x1011},
    {"a byte before it", LOW + 0x1011, LOW + 0x1000},
    {"behind ROM and what isn't lent", LOW + 0x2FF0, FAR},
    {"before them", FAR_END - 16, LOW + 0x1000},
};

/* Writes the program of two stores, from LOW + 0x800 and LOW + 0x810. */
static void put_stores(uint32_t first, uint32_t second)
{
    uint32_t at = put_move(&m, put_move(&m, LOW, TO_SAR, LOW + 0x800), TO_CCR, BURSTS_OF(0));

    at = put(&m, put(&m, put_move(&m, at, TO_DAR, first), DMALD), DMAST);
    at = put(&m, put_move(&m, at, TO_DAR, second), DMALD);
    put(&m, put(&m, put_two(&m, at, DMASEV, 2 << 3), DMAST), DMAEND);
}

/* A turn's range has no byte that wasn't written: an emulator may map all of it for writing. */
static void leaves_a_store(const char *what, uint32_t first, uint32_t second)
{
    set_up(&m, plain(1, 4, false));
    m.regions[1].read_only = 1;
    put_stores(first, second);
    set(&m, INTEN, 1 << 2);
    start(&m, 0, LOW);
    want_ram(&m);
    memcpy(byte_at(m.wanted, first), byte_at(m.wanted, LOW + 0x800), 16);
    check(turn(&m, 0, 1000) && get(&m, CSR) == 1 && irqs(&m) == 1 << 2 && is_ram_wanted(&m), what, first);
    check(m.written.addr == first && m.written.len == 16, what, m.written.len);
    memcpy(byte_at(m.wanted, second), byte_at(m.wanted, LOW + 0x810), 16);
    check(!turn(&m, 0, 1000) && get(&m, CSR) == 0 && get(&m, FTR) == 0 && is_ram_wanted(&m), what, second);
    check(m.written.addr == second && m.written.len == 16, what, m.written.len);
    tear_down(&m);
}

/* Two loads of 16 bytes, and a store of 16 on each side of the DMASEV of an interrupt. At the interrupt exactly as many
 * bytes are copied as the program's explanation says of this DMASEV, whatever the number of steps in a turn. */
static void copies_no_more(uint32_t most)
{
    static const uint8_t body[] = {DMALD, DMALD, DMAST, DMASEV, 2 << 3, DMAST, DMAEND};
    dma330_event events[4] = {{0, 0, 0, 0}};
    dma330_explanation found;
    dma330_repeated src[4];
    dma330_segment dst[4], zeros[4];
    uint32_t at;

    set_up(&m, plain(1, 4, false));
    at = put_move(&m, LOW, TO_SAR, LOW + 0x800);
    at = put_move(&m, put_move(&m, at, TO_DAR, LOW + 0x1000), TO_CCR, BURSTS_OF(0));
    memcpy(byte_at(m.bytes, at), body, sizeof body);
    set(&m, INTEN, 1 << 2);
    start(&m, 0, LOW);
    allocations_left = 1000;
    check(dma330_device_explain(&m.device, 0, 100, src, 4, dst, 4, zeros, 4, events, 4, &found) == DMA330_OK, "it copies",
          most);
    allocations_left = 0;
    check(events[0].event == 2 && events[0].copied == 16 && found.copied == 32, "16 bytes before its DMASEV", most);
    want_ram(&m);
    memcpy(byte_at(m.wanted, LOW + 0x1000), byte_at(m.wanted, LOW + 0x800), 16);
    for (int n = 0; n < 100 && irqs(&m) == 0; n++)
        check(turn(&m, 0, most), "it goes on to its interrupt", most);
    check(irqs(&m) == 1 << 2 && is_ram_wanted(&m), "no more at its interrupt", most);
    memcpy(byte_at(m.wanted, LOW + 0x1010), byte_at(m.wanted, LOW + 0x810), 16);
    check(!run(&m, 0) && get(&m, CSR) == 0 && is_ram_wanted(&m), "all at its end", most);
    tear_down(&m);
}

static void is_killed_and_reset(void)
{
    set_up(&m, plain(3, 4, false));
    put_copy(&m, LOW, NO_EVENT, LOW + 0x200, FAR, 8, 3);
    start(&m, 2, LOW);
    check(turn(&m, 2, 12) && get(&m, CPC + 16) == LOW + 24, "it is in its loops", 0);
    check(get(&m, LC0 + 0x40) == 7 && get(&m, LC1 + 0x40) == 6 && get(&m, DAR + 0x40) == FAR + 64, "its counters", 0);
    start(&m, 2, LOW + 0x100);
    check(get(&m, CPC + 16) == LOW + 24, "a channel that runs isn't started", 0);
    stop(&m, 2);
    want_ram(&m);
    check(get(&m, CSR + 16) == 0 && !turn(&m, 2, 1000) && get(&m, INT_EVENT_RIS) == 0, "it is killed", 0);
    check(is_ram_wanted(&m) && get(&m, LC1 + 0x40) == 6, "it moves no more, and keeps its registers", 0);
    check_work(&m, 2, "it works after a kill", 0);
    start(&m, 1, LOW);
    debug(&m, MANAGER, 0xFF, 0, 0);
    check(turn(&m, 1, 12) && irq_abort(&m), "another one, and a manager that fails", 0);
    check(dma330_device_reset(&m.device) == DMA330_OK && are_registers_reset(&m), "each is as after a reset", 0);
    check(irqs(&m) == 0 && !irq_abort(&m) && !can_step(&m) && !turn(&m, 1, 1000), "and no line is high", 0);
    set(&m, DBGCMD, 0);
    check(get(&m, FTRD) == (1 << 30 | 1), "the debug registers are 0 too: a DMAEND, which the manager can't execute", 0);
    stop(&m, MANAGER);
    check_work(&m, 1, "it works after a reset", 0);
    tear_down(&m);
}

/* ---- faults ---- */

#define WORD(v) (v) & 0xFF, (v) >> 8 & 0xFF, (v) >> 16 & 0xFF, (v) >> 24
#define MOVE(to, v) DMAMOV, to, WORD(v)

/* Programs that fail on a chip of 16 events, each with its fault in FTR, the offset at which it fails, and the number
 * of instructions before that. */
static const struct {
    const char *what;
    uint32_t fault;
    uint32_t at, before;
    uint8_t program[24];
} failing[] = {
    {"a load below RAM", 1 << 18, 6, 1, {MOVE(TO_SAR, LOW - 1), DMALD}},
    {"a load above it", 1 << 18, 6, 1, {MOVE(TO_SAR, FAR_END), DMALD}},
    {"a load in a gap", 1 << 18, 6, 1, {MOVE(TO_SAR, NEXT_END), DMALD}},
    {"a load into a gap", 1 << 18, 12, 2, {MOVE(TO_SAR, NEXT_END - 120), MOVE(TO_CCR, BURSTS_OF(3)), DMALD}},
    {"a store below RAM", 1 << 17, 13, 3, {MOVE(TO_SAR, LOW), MOVE(TO_DAR, LOW - 1), DMALD, DMAST}},
    {"a store at 0", 1 << 17, 13, 3, {MOVE(TO_SAR, LOW), MOVE(TO_DAR, 0), DMALD, DMAST}},
    {"a store into a gap", 1 << 17, 19, 4,
     {MOVE(TO_SAR, LOW), MOVE(TO_DAR, NEXT_END - 120), MOVE(TO_CCR, BURSTS_OF(3)), DMALD, DMAST}},
    {"no instruction", 1 << 0, 1, 1, {DMANOP, 0xFF}},
    {"DMAKILL in a program", 1 << 0, 0, 0, {DMAKILL}},
    {"a swap", 1 << 1, 0, 0, {MOVE(TO_CCR, 1 << 28)}},
    {"a reserved size", 1 << 1, 0, 0, {MOVE(TO_CCR, 5 << 1)}},
    {"no register", 1 << 1, 0, 0, {MOVE(3, 0)}},
    {"DMASEV of an event too high", 1 << 1, 1, 1, {DMANOP, DMASEV, 16 << 3}},
    {"DMAWFE of an event too high", 1 << 1, 1, 1, {DMANOP, DMAWFE, 16 << 3}},
    {"a load too many", 1 << 12, 14, 4, {MOVE(TO_SAR, LOW), MOVE(TO_CCR, BURSTS_OF(3)), DMALD, DMALD, DMALD}},
    {"a store too many", 1 << 13, 0, 0, {DMAST}},
};

/* Returns whether the registers of channel 1 are those from before the instruction at this offset, after so many
 * others, none of which has stored anything. */
static bool is_before(uint32_t at, uint32_t others, bool is_loaded)
{
    dma330_registers r = {7, 7, 7, 7, 7, 7, 7, 7, 7};

    return dma330_device_registers(&m.device, 1, &r) == DMA330_OK && r.pc == at && r.taken == others && r.stored == 0 &&
           r.is_loaded == is_loaded && r.sar == get(&m, SAR + 0x20) && r.dar == get(&m, DAR + 0x20);
}

/* A channel that fails is faulting until it is killed, while the other channel goes on. Its program fails at an offset,
 * after so many instructions. */
static void check_failure(const char *what, uint32_t program, uint32_t fault, uint32_t at, uint32_t before)
{
    set(&m, INTEN, 1);
    put_copy(&m, LOW + 0x1000, NO_EVENT, LOW + 0x2000, FAR + 0x1003, 2, 0);
    want_ram(&m);
    want_copy(&m, LOW + 0x2000, FAR + 0x1003, 2);
    start(&m, 0, LOW + 0x1000);
    start(&m, 1, program);
    check(turn(&m, 0, 10) && !run(&m, 1), what, 0);
    check(get(&m, CSR + 8) == 15 && get(&m, FSRC) == 1 << 1 && get(&m, FTR + 4) == fault, what, 1);
    check(get(&m, CPC + 8) == program + at && is_before(at, before, true), what, at);
    check(irq_abort(&m) && get(&m, FSRD) == 0 && irqs(&m) == 0, what, 2);
    start(&m, 1, LOW + 0x1000);
    debug(&m, 1, DMASEV, 3 << 3, 0);
    check(!turn(&m, 1, 10) && get(&m, CSR + 8) == 15 && get(&m, INT_EVENT_RIS) == 0, what, 3);
    check(!run(&m, 0) && is_ram_wanted(&m) && irqs(&m) == 1 && !can_step(&m), what, 4);
    stop(&m, 1);
    check(get(&m, CSR + 8) == 0 && get(&m, FSRC) == 0 && !irq_abort(&m) && is_before(at, before, false), what, 5);
    check_work(&m, 1, what, 6);
}

static void fails_as_the_manual_says(void)
{
    set_up(&m, plain(2, 16, false));
    for (size_t n = 0; n < sizeof failing / sizeof failing[0]; n++) {
        memcpy(byte_at(m.bytes, LOW), failing[n].program, sizeof failing[n].program);
        check_failure(failing[n].what, LOW, failing[n].fault, failing[n].at, failing[n].before);
    }
    check_failure("a program outside RAM", NEXT_END, 1 << 16, 0, 0);
    put_two(&m, FAR_END - 2, DMANOP, DMANOP);
    check_failure("a program without an end", FAR_END - 2, 1 << 16, 2, 2);
    m.regions[2].read_only = 1;
    memcpy(byte_at(m.bytes, LOW), (const uint8_t[]){MOVE(TO_SAR, FAR), MOVE(TO_DAR, FAR), DMALD, DMAST}, 14);
    start(&m, 0, LOW);
    check(!run(&m, 0) && get(&m, FTR) == 1 << 17 && get(&m, CPC) == LOW + 13, "a store to ROM", 0);
    lend(&m);
    tear_down(&m);
}

/* Writes a program that moves one burst of 64 bytes. */
static void put_burst(uint32_t at, uint32_t src, uint32_t dst)
{
    at = put_move(&m, at, TO_CCR, BURSTS_OF(2));
    at = put_move(&m, at, TO_SAR, src);
    at = put_move(&m, at, TO_DAR, dst);
    put(&m, put_two(&m, at, DMALD, DMAST), DMAEND);
}

/* Moves a burst, and checks SAR, DAR, and FTR, 0 if it doesn't fail. */
static void moves_at_the_top(uint32_t src, uint32_t dst, uint32_t sar, uint32_t dar, uint32_t fault)
{
    dma330_device_turn t = {{1, 1}, 2, 2, 2};

    put_burst(LOW, src, dst);
    start(&m, 0, LOW);
    check(dma330_device_step(&m.device, 0, 9, m.regions, REGIONS, &t) == DMA330_OK, "a turn at the top", src);
    check(get(&m, SAR) == sar && get(&m, DAR) == dar && get(&m, FTR) == fault, "registers at the top", src);
    check(fault ? t.written.len == 0 : t.written.addr == dst && t.written.len == 64, "what it wrote at the top", src);
    check(t.taken == (fault ? 4 + (get(&m, CPC) != LOW + 18) : 6), "its steps at the top", src);
    stop(&m, 0);
}

/* RAM has the last address: a burst to it leaves 0 in SAR or DAR, and one that goes beyond it moves no byte. A region
 * that ends above 2^32 is refused. */
static void reaches_the_last_address(void)
{
    uint8_t *const last = m.bytes + FAR_AT + (FAR_END - FAR) - 64;
    uint32_t value = 0;

    set_up(&m, plain(1, 4, false));
    moves_at_the_top(0xFFFFFFC0, LOW + 0x800, 0, LOW + 0x840, 0);
    check(memcmp(byte_at(m.bytes, LOW + 0x800), last, 64) == 0, "from the last address", 0);
    moves_at_the_top(LOW + 0x900, 0xFFFFFFC0, LOW + 0x940, 0, 0);
    check(memcmp(byte_at(m.bytes, LOW + 0x900), last, 64) == 0, "to the last address", 0);
    want_ram(&m);
    moves_at_the_top(0xFFFFFFC4, LOW + 0x800, 0xFFFFFFC4, LOW + 0x800, 1 << 18);
    moves_at_the_top(LOW + 0x800, 0xFFFFFFC4, LOW + 0x840, 0xFFFFFFC4, 1 << 17);
    check(memcmp(last, m.wanted + (last - m.bytes), 64) == 0, "bytes before the end", 0);
    m.regions[2].addr++;
    check(dma330_device_write(&m.device, DBGCMD, 0, m.regions, REGIONS) == DMA330_BAD_REGIONS, "beyond 2^32", 0);
    check(dma330_device_read(&m.device, FSRD, &value) == DMA330_OK && value == 0, "it changes nothing", 0);
    lend(&m);
    tear_down(&m);
}

/* Checks instructions of the debug registers that fail. */
static void debug_instructions_fail(void)
{
    static const struct {
        uint32_t code, operand, fault;
    } wrong[] = {
        {DMAGO, 3, 1 << 1}, {DMAGO, 0x80, 1 << 1}, {DMASEV, 4 << 3, 1 << 1}, {DMASEV, 1, 1 << 1}, {DMALD, 0, 1 << 0}
    };

    set_up(&m, plain(3, 4, false));
    for (uint32_t n = 0; n < 5; n++) {
        debug(&m, MANAGER, wrong[n].code, wrong[n].operand, LOW);
        check(get(&m, FSRD) == 1 && get(&m, FTRD) == (1 << 30 | wrong[n].fault) && get(&m, DSR) == 15, "the manager", n);
        start(&m, 0, LOW);
        check(irq_abort(&m) && get(&m, FSRC) == 0 && get(&m, CSR) == 0, "it starts nothing then", n);
        stop(&m, MANAGER);
        check(get(&m, FSRD) == 0 && get(&m, DSR) == 0 && !irq_abort(&m), "it is killed", n);
    }
    set(&m, DBGINST0, 0xFF << 16);
    for (uint32_t n = 1; n < 4; n++)
        set(&m, DBGCMD, n);
    check(get(&m, FSRD) == 0, "no command but 0", 0);
    debug(&m, 2, DMAGO, 0, LOW);
    check(get(&m, FTR + 8) == (1 << 30 | 1) && get(&m, CSR + 16) == 15 && get(&m, FSRC) == 4, "a channel starts none", 0);
    debug(&m, 3, DMAGO, 0, LOW);
    check(get(&m, FSRC) == 4 && get(&m, FTR + 12) == 0 && get(&m, CSR + 24) == 0, "no such channel", 0);
    stop(&m, 2);
    check_work(&m, 2, "it works after that", 0);
    tear_down(&m);
}

int main(void)
{
    static const uint32_t mosts[] = {1, 2, 3, 4, 5, 7, 16, 100, 1000000};

    for (size_t n = 0; n < sizeof mosts / sizeof mosts[0]; n++)
        for (uint32_t bus = 32; bus <= 128; bus *= 2)
            copies_on_two_channels(bus, mosts[n]);
    takes_its_steps();
    for (size_t n = 0; n < sizeof stores / sizeof stores[0]; n++)
        leaves_a_store(stores[n].what, stores[n].first, stores[n].second);
    for (uint32_t most = 1; most < 12; most++)
        copies_no_more(most);
    is_killed_and_reset();
    fails_as_the_manual_says();
    reaches_the_last_address();
    debug_instructions_fail();
    return end_checks();
}
