/* Tests the registers of dma330_device, each bit at its limits, and the calls that are refused. */
#include "guest.h"

#include "heap.h"

#include <string.h>

static machine m;

/* ---- configurations ---- */

static uint32_t id_at(uint32_t offset)
{
    return get(&m, offset) | get(&m, offset + 4) << 8 | get(&m, offset + 8) << 16 | get(&m, offset + 12) << 24;
}

/* Checks the registers that have the configuration, and that the others are 0. CRD has the number of bytes of the bus as
 * a power of two. CR0 has numbers less 1, and so has CRD for the lines. */
static void has_configuration(dma330_device_config g, uint32_t n)
{
    uint32_t all_events = (uint32_t)((1ull << g.events) - 1), bus_code = g.bus == 32 ? 2 : g.bus == 64 ? 3 : 4;

    set_up(&m, g);
    check(get(&m, CR0) == (g.nonsecure << 2 | (g.channels - 1) << 4 | (g.events - 1) << 17), "CR0", n);
    check(get(&m, CR1) == 0x75 && get(&m, CR2) == 0 && get(&m, CR4) == 0, "CR1, CR2 and CR4", n);
    check(get(&m, CR3) == (g.nonsecure ? all_events : 0), "CR3", n);
    check(get(&m, CRD) == (0x000F7F70 | bus_code | (g.lines - 1) << 20), "CRD", n);
    check(id_at(PERIPH_ID) == (0x00041330 | g.revision << 20) && id_at(PCELL_ID) == 0xB105F00D, "the ids", n);
    check(get(&m, DSR) == g.nonsecure << 9, "DSR", n);
    set(&m, INTEN, 0xFFFFFFFF);
    check(get(&m, INTEN) == all_events, "INTEN has the events of the device", n);
    check(dma330_device_reset(&m.device) == DMA330_OK && get(&m, INTEN) == 0, "a reset", n);
    check(irqs(&m) == 0 && !irq_abort(&m) && !can_step(&m), "its lines", n);
    tear_down(&m);
}

static void has_configurations(void)
{
    dma330_device_config g;

    for (uint32_t channels = 1; channels <= 8; channels++)
        for (uint32_t events = 1; events <= 32; events++)
            for (uint32_t k = 0; k < 24; k++) {
                g = plain(channels, events, k % 2 != 0);
                g.bus = 32u << k / 2 % 3;
                g.revision = k / 6;
                g.lines = k % 5 == 0 ? channels : k % 5 == 1 ? 1 : k % 5 == 2 ? 1024 : 256 * channels / (g.bus / 8);
                has_configuration(g, 10000 * channels + 100 * events + k);
            }
}

/* On each chip a channel has 256 bytes for itself: two loads of 128 bytes fit, and a third doesn't. */
static void has_buffer(uint32_t channel, uint32_t n)
{
    uint32_t at = put_move(&m, put_move(&m, LOW, TO_SAR, LOW), TO_CCR, BURSTS_OF(3));

    put(&m, put(&m, put(&m, at, DMALD), DMALD), DMALD);
    start(&m, channel, LOW);
    check(!run(&m, channel) && get(&m, FTR + 4 * channel) == 1 << 12, "a load too many", n);
    check(get(&m, CPC + 8 * channel) == LOW + 14, "is the third", n);
}

/* Chips as Linux logs them: CR0 and CRD, by the manual's fields; a copy; and the buffer. */
static void has_chips(void)
{
    static const struct {
        dma330_device_config config;
        uint32_t cr0, crd;
    } chips[] = {
        {{8, 32, 0, 64, 512, 3}, 0x003E0070, 0x1FFF7F73},  /* Cyclone V, Arria 10 */
        {{8, 8, 0, 64, 512, 3}, 0x000E0070, 0x1FFF7F73},   /* Stratix 10 */
        {{8, 8, 0, 128, 1024, 3}, 0x000E0070, 0x3FFF7F74}, /* Juno */
        {{6, 32, 0, 64, 4, 3}, 0x003E0050, 0x003F7F73},    /* Exynos 5420 */
    };

    for (uint32_t n = 0; n < sizeof chips / sizeof chips[0]; n++) {
        set_up(&m, chips[n].config);
        check(get(&m, CR0) == chips[n].cr0, "CR0 of a chip", n);
        check(get(&m, CRD) == chips[n].crd, "CRD of a chip", n);
        check_work(&m, chips[n].config.channels - 1, "a chip copies", n);
        has_buffer(chips[n].config.channels - 1, n);
        tear_down(&m);
    }
}

/* Each number of a configuration just outside its limits, and one that would be inside if it were cut to fewer bits. */
static void refuses_configurations(void)
{
    static const dma330_device_config bad[] = {
        {0, 4, 0, 128, 16, 3}, {9, 4, 0, 128, 16, 3}, {255, 4, 0, 128, 1024, 3}, {256 + 2, 4, 0, 128, 16, 3},
        {65536 + 2, 4, 0, 128, 16, 3}, {0xFFFFFFFF, 4, 0, 128, 16, 3},
        {2, 0, 0, 128, 16, 3}, {2, 33, 0, 128, 16, 3}, {2, 256 + 4, 0, 128, 16, 3}, {2, 0xFFFFFFFF, 0, 128, 16, 3},
        {2, 4, 0, 0, 16, 3}, {2, 4, 0, 8, 16, 3}, {2, 4, 0, 31, 16, 3}, {2, 4, 0, 33, 16, 3}, {2, 4, 0, 96, 16, 3},
        {2, 4, 0, 256, 16, 3}, {2, 4, 0, 65536 + 128, 16, 3}, {2, 4, 0, 0xFFFFFFFF, 16, 3},
        {2, 4, 0, 128, 0, 3}, {2, 4, 0, 128, 1025, 3}, {2, 4, 0, 64, 1025, 3}, {8, 4, 0, 32, 1025, 3},
        {2, 4, 0, 128, 2048, 3}, {2, 4, 0, 128, 65536 + 16, 3}, {2, 4, 0, 128, 0xFFFFFFFF, 3},
        {2, 4, 0, 128, 16, 4}, {2, 4, 0, 128, 16, 256}, {2, 4, 0, 128, 16, 0xFFFFFFFF}
    };
    static const dma330_device_config good[] = {
        {2, 4, 0, 128, 2, 3}, {2, 4, 0, 128, 32, 3}, {2, 4, 0, 64, 64, 3}, {2, 4, 0, 32, 128, 3}, {8, 4, 0, 128, 128, 3},
        {8, 32, 256, 32, 512, 0}, {2, 4, 0, 128, 1, 3}, {2, 4, 0, 128, 33, 3}, {2, 4, 0, 64, 65, 3},
        {2, 4, 0, 32, 129, 3}, {8, 4, 0, 128, 129, 3}, {8, 4, 0, 64, 1, 3}, {1, 4, 0, 32, 1024, 3}
    };
    dma330_device device = DMA330_DEVICE_INIT;

    for (uint32_t n = 0; n < sizeof bad / sizeof bad[0]; n++)
        check(open_device(&device, &bad[n]) == DMA330_BAD_CONFIG, "a configuration outside its limits", n);
    check(device.device == NULL && device.is_open == 0, "the device is as it was", 0);
    for (uint32_t n = 0; n < sizeof good / sizeof good[0]; n++) {
        check(open_device(&device, &good[n]) == DMA330_OK, "a configuration at its limits", n);
        check(open_device(&device, &bad[n]) == DMA330_ALREADY_OPEN, "a second open", n);
        dma330_device_close(&device);
        dma330_device_close(&device);
    }
}

/* Each allocation of an open fails in turn: the device stays closed, and no block is leaked. */
static void runs_out_of_memory(void)
{
    const dma330_device_config config = plain(8, 32, false);
    dma330_device device = DMA330_DEVICE_INIT;
    int32_t code;
    uint32_t n;

    for (n = 0; n < 1000; n++) {
        allocations_left = n;
        code = dma330_device_open(&device, &config);
        if (code == DMA330_OK)
            break;
        check(code == DMA330_NO_MEMORY && live_blocks == 0, "it is out of memory", n);
        check(device.device == NULL && device.is_open == 0, "and stays closed", n);
    }
    allocations_left = 0;
    check(code == DMA330_OK && n > 8, "room for each channel", n);
    dma330_device_close(&device);
}

/* ---- accesses ---- */

static uint32_t noted[REGISTERS / 4];

/* note_registers keeps all registers. Then are_noted returns whether they are as they were, except for the one at
 * `offset`. */
static void note_registers(void)
{
    for (uint32_t n = 0; n < REGISTERS; n += 4)
        noted[n / 4] = get(&m, n);
}

static bool are_noted(uint32_t offset)
{
    for (uint32_t n = 0; n < REGISTERS; n += 4)
        if (n != offset && get(&m, n) != noted[n / 4])
            return false;
    return true;
}

/* Returns whether a write changes no register but the one at `offset`. */
static bool keeps_registers(uint32_t offset, uint32_t value)
{
    note_registers();
    set(&m, offset, value);
    return are_noted(offset);
}

/* Starts some channels, so that many registers aren't 0: one executes, one waits, one is faulting and one is stopped
 * after a fault; an interrupt is high, an event is set, and so is irq_abort. */
static void be_busy(void)
{
    put_copy(&m, LOW, NO_EVENT, LOW + 0x400, FAR, 4, 0);
    put_wait(&m, LOW + 0x80, 1);
    set(&m, INTEN, 0xC);
    start(&m, 0, LOW);
    start(&m, 1, LOW + 0x80);
    start(&m, 2, NEXT_END);
    start(&m, 3, NEXT_END);
    for (uint32_t n = 0; n < 4; n++)
        turn(&m, n, 12);
    stop(&m, 3);
    debug(&m, MANAGER, DMASEV, 2 << 3, 0);
    debug(&m, MANAGER, DMASEV, 4 << 3, 0);
    debug(&m, MANAGER, 0xFF, 0, 0);
}

/* Registers that are written change nothing that can be read, except INTEN and INTCLR; DBGCMD executes nothing unless
 * bits 1:0 are 0. Each other offset, aligned or not, ignores writes. */
static void ignores_writes(void)
{
    static const uint32_t values[] = {1, 2, 3, 0xFFFFFFFF, 0x80000001};
    bool are_kept = true;

    set_up(&m, plain(4, 5, true));
    be_busy();
    for (uint32_t offset = 0; offset < REGISTERS + 8; offset++)
        for (size_t n = 0; n < sizeof values / sizeof values[0]; n++)
            if (offset != INTEN && offset != INTCLR)
                are_kept = are_kept && keeps_registers(offset, values[n]);
    check(are_kept, "writes that change nothing", 0);
    check(keeps_registers(0xFFFFFFFF, 0) && keeps_registers(0x80000000 | INTEN, 0), "beyond the registers", 0);
    check(get(&m, DBGINST0) == 0 && get(&m, DBGINST1) == 0 && get(&m, INTCLR) == 0, "registers that are only written", 0);
    check(keeps_registers(INTEN, 0xFFFFFFFF) && get(&m, INTEN) == 0x1F, "INTEN has five bits", 0);
    check(irqs(&m) == 1 << 2 && get(&m, INT_EVENT_RIS) == (1 << 2 | 1 << 4), "an interrupt and an event", 0);
    tear_down(&m);
}

/* Offsets that aren't a multiple of 4, those after the registers, and those of channels that the device doesn't have. */
static void reads_nothing(void)
{
    bool are_0 = true;

    set_up(&m, plain(4, 32, false));
    be_busy();
    for (uint32_t offset = 0; offset < 2 * REGISTERS; offset++)
        if (offset % 4 != 0 || offset >= REGISTERS)
            are_0 = are_0 && get(&m, offset) == 0;
    for (uint32_t n = 4; n < 48; n++)
        are_0 = are_0 && get(&m, FTR + 4 * n) == 0 && get(&m, CSR + 8 * n) == 0 && get(&m, CPC + 8 * n) == 0;
    for (uint32_t offset = SAR + 4 * 0x20; offset < DBGSTATUS; offset += 4)
        are_0 = are_0 && get(&m, offset) == 0;
    for (uint32_t offset = CRD + 4; offset < PERIPH_ID; offset += 4)
        are_0 = are_0 && get(&m, offset) == 0;
    check(are_0 && get(&m, 0xFFFFFFFC) == 0 && get(&m, 0x80000000 | CR0) == 0, "an address without a register", 0);
    check(get(&m, DPC) == 0 && get(&m, DBGSTATUS) == 0 && get(&m, DBGCMD) == 0, "registers that are always 0", 0);
    tear_down(&m);
}

/* ---- threads ---- */

/* Returns whether all registers of the other channels are as after a reset. */
static bool are_others_reset(uint32_t channel)
{
    for (uint32_t n = 0; n < 8; n++) {
        if (n != channel && (get(&m, FTR + 4 * n) != 0 || get(&m, CSR + 8 * n) != 0 || get(&m, CPC + 8 * n) != 0))
            return false;
        for (uint32_t k = 0; k < 0x20; k += 4)
            if (n != channel && get(&m, SAR + 0x20 * n + k) != (SAR + k == CCR ? RESET_CCR : 0))
                return false;
    }
    return true;
}

/* Each channel has its own registers, and its own bit of FSRC. */
static void has_each_channel(uint32_t n)
{
    uint32_t addr = FAR + 0x100 * n;

    set_up(&m, plain(8, 4, false));
    put(&m, put_move(&m, put_move(&m, put_move(&m, addr, TO_SAR, n + 1), TO_DAR, n + 2), TO_CCR, BURSTS_OF(1)), DMANOP);
    put_two(&m, put_two(&m, addr + 19, DMALP, n + 3), DMALP | 2, 255 - n);
    put(&m, addr + 23, 0xFF);
    start(&m, n, addr);
    check(get(&m, CSR + 8 * n) == 1 && get(&m, CPC + 8 * n) == addr && get(&m, SAR + 0x20 * n) == 0, "it is started", n);
    check(!run(&m, n) && get(&m, CSR + 8 * n) == 15 && get(&m, CPC + 8 * n) == addr + 23, "and fails", n);
    check(get(&m, FSRC) == 1u << n && get(&m, FTR + 4 * n) == 1 && irq_abort(&m), "which its bits say", n);
    check(get(&m, SAR + 0x20 * n) == n + 1 && get(&m, DAR + 0x20 * n) == n + 2, "SAR and DAR", n);
    check(get(&m, CCR + 0x20 * n) == BURSTS_OF(1), "CCR", n);
    check(get(&m, LC0 + 0x20 * n) == n + 3 && get(&m, LC1 + 0x20 * n) == 255 - n, "LC0 and LC1", n);
    check(are_others_reset(n), "no other channel has changed", n);
    stop(&m, (int)n);
    check(get(&m, FSRC) == 0 && get(&m, CSR + 8 * n) == 0 && !irq_abort(&m), "a kill", n);
    check(get(&m, FTR + 4 * n) == 1 && get(&m, SAR + 0x20 * n) == n + 1, "keeps FTR and the registers", n);
    tear_down(&m);
}

/* A manager in the non-secure state starts only channels in the same state; a secure one starts both kinds. */
static void has_both_states(bool is_nonsecure)
{
    uint32_t state = is_nonsecure ? 1 << 9 : 0;

    set_up(&m, plain(2, 5, is_nonsecure));
    put_wait(&m, LOW, 0);
    debug(&m, MANAGER, DMAGO, 1, LOW);
    check(get(&m, FTRD) == (is_nonsecure ? 1 << 30 | 1 << 4 : 0), "a start of a secure channel", is_nonsecure);
    check(get(&m, DSR) == (state | (is_nonsecure ? 15 : 0)) && irq_abort(&m) == is_nonsecure, "the manager", is_nonsecure);
    check(get(&m, CSR + 8) == !is_nonsecure, "the channel", is_nonsecure);
    stop(&m, MANAGER);
    check(get(&m, DSR) == state && get(&m, FTRD) == (is_nonsecure ? 1 << 30 | 1 << 4 : 0), "a kill", is_nonsecure);
    debug(&m, MANAGER, DMAGO | 2, 0, LOW);
    check(get(&m, CSR) == (1 << 21 | 1), "a non-secure channel", is_nonsecure);
    check(run(&m, 0) && get(&m, CSR) == (1 << 21 | 4), "which waits", is_nonsecure);
    tear_down(&m);
}

/* ---- the bus ---- */

/* A beat of 2 to the power of its code bytes is refused above the width of the bus, for loads and for stores; the codes
 * above 4 are reserved. */
static void has_beats(uint32_t bus, uint32_t bus_code, uint32_t code)
{
    dma330_device_config config = plain(1, 4, false);

    config.bus = bus;
    config.lines = 4;
    for (uint32_t shift = 1; shift <= 15; shift += 14) {
        set_up(&m, config);
        put(&m, put_move(&m, put(&m, LOW, DMANOP), TO_CCR, code << shift), DMAEND);
        start(&m, 0, LOW);
        check(!run(&m, 0), "beats", code);
        if (code <= bus_code)
            check(get(&m, CSR) == 0 && get(&m, CCR) == code << shift && get(&m, FTR) == 0, "that the bus has", code);
        else
            check(get(&m, CSR) == 15 && get(&m, FTR) == 1 << 1 && get(&m, CCR) == RESET_CCR, "that are too wide", code);
        check(get(&m, CPC) == LOW + (code <= bus_code ? 7 : 1), "where it ends", code);
        tear_down(&m);
    }
}

/* Bytes behind a program that would be a DMAMOV CCR with beats that are too wide don't matter: a turn takes all its
 * steps. */
static void takes_all_steps(void)
{
    dma330_device_config config = plain(1, 4, false);
    uint32_t at;

    config.bus = 32;
    config.lines = 4;
    set_up(&m, config);
    at = put(&m, put(&m, put(&m, LOW, DMANOP), DMANOP), DMANOP);
    put_move(&m, put(&m, at, DMAEND), TO_CCR, 4 << 1);
    start(&m, 0, LOW);
    check(turn(&m, 0, 3) && get(&m, CPC) == LOW + 3, "three steps", 3);
    check(!turn(&m, 0, 3) && get(&m, CSR) == 0, "and the end", 3);
    tear_down(&m);
}

/* ---- refusals ---- */

/* Returns whether a channel of the device has these registers and counts, and the addresses and loop counters that a read
 * of its registers returns. */
static bool has_registers(uint8_t channel, uint32_t pc, bool is_loaded, uint32_t taken, uint64_t stored)
{
    dma330_registers r = {7, 7, 7, 7, 7, 7, 7, 7, 7};
    uint32_t at = 0x20u * channel;

    return dma330_device_registers(&m.device, channel, &r) == DMA330_OK && r.pc == pc && r.is_loaded == is_loaded &&
           r.taken == taken && r.stored == stored && r.sar == get(&m, SAR + at) && r.dar == get(&m, DAR + at) &&
           r.ccr == get(&m, CCR + at) && r.lc0 == get(&m, LC0 + at) && r.lc1 == get(&m, LC1 + at);
}

/* The eighth instruction of a copy is its first store, of 64 bytes (put_copy). */
static void writes_counts(void)
{
    dma330_registers r = {7, 7, 7, 7, 7, 7, 7, 7, 7}, unwritten = r;

    set_up(&m, plain(3, 4, false));
    put_copy(&m, LOW + 0x2000, NO_EVENT, LOW, NEXT, 1, NO_EVENT);
    check(has_registers(2, 0, false, 0, 0), "after a reset", 2);
    start(&m, 2, LOW + 0x2000);
    check(has_registers(2, 0, true, 0, 0), "after a DMAGO", 2);
    check(turn(&m, 2, 7) && has_registers(2, 24, true, 7, 0), "before a store", 2);
    check(turn(&m, 2, 1) && has_registers(2, 25, true, 8, 64), "after it", 2);
    stop(&m, 2);
    check(has_registers(2, 25, false, 8, 64) && has_registers(0, 0, false, 0, 0), "after a stop", 2);
    check(dma330_device_registers(&m.device, 3, &r) == DMA330_NO_CHANNEL, "no such channel", 3);
    check(dma330_device_registers(&m.device, 255, &r) == DMA330_NO_CHANNEL, "no such channel", 255);
    check(memcmp(&r, &unwritten, sizeof r) == 0, "which writes nothing", 3);
    tear_down(&m);
}

static bool is_sevens(const dma330_device_turn *t)
{
    return t->written.addr == 7 && t->written.len == 7 && t->taken == 7 && t->lines_changed == 7 && t->can_step == 7;
}

static void refuses_a_closed_device(dma330_device *device)
{
    dma330_device_turn t = {{7, 7}, 7, 7, 7};
    dma330_device_rows rows, unwritten;
    dma330_registers r = {7, 7, 7, 7, 7, 7, 7, 7, 7};
    uint32_t value = 7, line = 7;

    memset(&rows, 7, sizeof rows);
    memcpy(&unwritten, &rows, sizeof rows);
    lend(&m);
    m.regions[1].addr = 0;
    check(dma330_device_reset(device) == DMA330_NOT_OPEN, "a reset", 0);
    check(dma330_device_read(device, CR1, &value) == DMA330_NOT_OPEN && value == 7, "a read", 0);
    check(dma330_device_write(device, INTEN, 1, m.regions, REGIONS) == DMA330_NOT_OPEN, "a write", 0);
    check(dma330_device_step(device, 0, 1, m.regions, REGIONS, &t) == DMA330_NOT_OPEN, "a turn", 0);
    check(is_sevens(&t), "its report", 0);
    check(dma330_device_step_rows(device, 0, 1, m.regions, REGIONS, &rows) == DMA330_NOT_OPEN, "several turns", 0);
    check(memcmp(&rows, &unwritten, sizeof rows) == 0, "their report", 0);
    check(dma330_device_registers(device, 0, &r) == DMA330_NOT_OPEN && r.taken == 7, "registers", 0);
    check(dma330_device_lines(device, &value, &line) == DMA330_NOT_OPEN && value == 7 && line == 7, "the lines", 0);
    check(dma330_device_can_step(device, &value) == DMA330_NOT_OPEN && value == 7, "a question", 0);
    check(device->device == NULL && device->is_open == 0, "it is as it was", 0);
}

/* Returns whether a write to DBGCMD, which alone may read the regions, and a turn refuse them and change nothing, whatever they
 * are for. The other writes here change nothing either. */
static bool are_refused(const dma330_region *regions, size_t count)
{
    static const uint32_t offsets[] = {CR0, DBGSTATUS, DBGCMD + 1, 1};
    static dma330_region lent[65];
    dma330_device_turn t = {{7, 7}, 7, 7, 7};
    dma330_device_rows rows, unwritten;
    bool holds = true;

    memset(&rows, 7, sizeof rows);
    memcpy(&unwritten, &rows, sizeof rows);
    memcpy(lent, regions, count * sizeof regions[0]);
    for (uint32_t n = 0; n < 4; n++)
        holds = holds && dma330_device_write(&m.device, DBGCMD, n, lent, count) == DMA330_BAD_REGIONS &&
                dma330_device_write(&m.device, offsets[n], 0, lent, count) == DMA330_OK;
    for (uint32_t n = 0; n < 256; n += 5)
        holds = holds && dma330_device_step(&m.device, (uint8_t)n, n % 2, lent, count, &t) == DMA330_BAD_REGIONS;
    for (uint32_t n = 0; n < 256; n += 5)
        holds = holds && dma330_device_step_rows(&m.device, (uint8_t)n, n % 2, lent, count, &rows) == DMA330_BAD_REGIONS;
    return holds && memcmp(&rows, &unwritten, sizeof rows) == 0 && is_sevens(&t);
}

static void refuses_regions(void)
{
    static dma330_region many[65];
    dma330_region two[] = {{0x1000, m.bytes, 16, 0}, {0x1010, m.bytes + 16, 16, 0}};

    set_up(&m, plain(4, 5, false));
    be_busy();
    want_ram(&m);
    note_registers();
    two[1].addr = 0x100F;
    check(are_refused(two, 2), "regions that share an address", 0);
    two[1].addr = 0x800;
    check(are_refused(two, 2), "regions that don't rise", 0);
    two[1].addr = 0xFFFFFFF1;
    check(are_refused(two, 2), "a region that ends too high", 0);
    for (uint32_t n = 0; n < 65; n++) {
        const dma330_region region = {0x1000 * n, m.bytes + 16 * n, 16, 0};

        many[n] = region;
    }
    check(are_refused(many, 65), "65 regions", 0);
    check(dma330_device_write(&m.device, DBGCMD, 1, many, 64) == DMA330_OK, "64 regions", 0);
    check(dma330_device_write(&m.device, DBGCMD, 1, many, 0) == DMA330_OK, "no region", 0);
    check(is_ram_wanted(&m) && are_noted(REGISTERS), "nothing has changed", 0);
    tear_down(&m);
}

int main(void)
{
    dma330_device device = DMA330_DEVICE_INIT;

    has_configurations();
    has_chips();
    refuses_configurations();
    runs_out_of_memory();
    ignores_writes();
    reads_nothing();
    for (uint32_t n = 0; n < 8; n++)
        has_each_channel(n);
    has_both_states(false);
    has_both_states(true);
    for (uint32_t code = 0; code < 8; code++)
        for (uint32_t bus_code = 2; bus_code <= 4; bus_code++)
            has_beats(8u << bus_code, bus_code, code);
    takes_all_steps();
    writes_counts();
    refuses_a_closed_device(&device);
    refuses_regions();
    return end_checks();
}
