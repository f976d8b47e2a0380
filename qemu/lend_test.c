/* Tests which regions dma330.c lends: a part of RAM that the guest sees at two addresses is lent at the lower one only,
 * or at the one where it can be written; the rest of both sections is lent, and each reference to an owner that was
 * taken is dropped. Tests also when a slice may begin, how long one takes if step-ns isn't 0, and that it ends if the
 * clock stands still. tests/test_library compiles it with stubs in place of QEMU's headers; the functions that it
 * doesn't define are never called. */
#include "dma330.c"
#include <stdio.h>

static uint8_t ram[0x1000];
static int owners; /* references that are held */

bool memory_region_is_ram(MemoryRegion *mr)
{
    return mr->it == 0;
}

bool memory_region_is_ram_device(MemoryRegion *mr)
{
    return false;
}

bool memory_region_is_romd(MemoryRegion *mr)
{
    return mr->it == 1;
}

void memory_region_ref(MemoryRegion *mr)
{
    owners++;
}

void memory_region_unref(MemoryRegion *mr)
{
    owners--;
}

void *memory_region_get_ram_ptr(MemoryRegion *mr)
{
    return ram;
}

uint64_t int128_get64(Int128 value)
{
    return value;
}

void warn_report_once(const char *format, ...)
{
}

void trace_dma330_lend(uint32_t addr, uint32_t len, uint32_t read_only)
{
}

static int counts; /* instructions, as with -icount */
static int64_t now, armed; /* armed is 0 while the timer isn't */

int icount_enabled(void)
{
    return counts;
}

int64_t qemu_clock_get_ns(int clock)
{
    return now;
}

void timer_mod(QEMUTimer *timer, int64_t at)
{
    armed = at;
}

void timer_del(QEMUTimer *timer)
{
    armed = 0;
}

bool timer_pending(QEMUTimer *timer)
{
    return armed != 0;
}

void qemu_set_irq(qemu_irq irq, int level)
{
}

void trace_dma330_write(uint32_t offset, uint32_t value)
{
}

static int started; /* traces of starts */

void trace_dma330_start(int thread, uint32_t pc)
{
    started++;
}

void trace_dma330_fault(int thread, uint32_t pc, uint32_t fault)
{
}

void trace_dma330_irqs(uint32_t irqs, uint32_t irq_abort)
{
}

void trace_dma330_store(uint32_t channel, uint32_t addr, uint32_t len)
{
}

void *address_space_map(AddressSpace *as, hwaddr addr, hwaddr *len, bool is_write, int attrs)
{
    return NULL;
}

void address_space_unmap(AddressSpace *as, void *bytes, hwaddr len, bool is_write, hwaddr written)
{
}

void qemu_log_mask(int mask, const char *format, ...)
{
}

static int failed;

/* Begins, adds these sections, commits, and compares what is lent then: address, offset in RAM, length, read-only. */
static void test(const char *name, MemoryRegionSection *sections, size_t count, const uint32_t (*wanted)[4],
                 size_t lent)
{
    static PL330State s;
    size_t n;

    pl330_begin(&s.listener);
    for (n = 0; n < count; n++)
        pl330_add(&s.listener, &sections[n]);
    pl330_commit(&s.listener);
    for (n = 0; n < s.lent.count && n < lent; n++) {
        const dma330_region *it = &s.lent.regions[n];

        if (it->addr != wanted[n][0] || it->bytes != ram + wanted[n][1] || it->len != wanted[n][2] ||
            it->read_only != wanted[n][3])
            break;
    }
    if (n != lent || s.lent.count != lent || owners != (int)lent) {
        printf("%s: %zu regions and %d references, the first wrong one is %zu\n", name, s.lent.count, owners, n);
        failed = 1;
    }
}

/* A slice that comes at this time must begin, and end at `until`, or be put off to `until`. */
static void test_slice(const char *name, int64_t at, bool begins, int64_t until)
{
    static PL330State s;

    armed = 0;
    if (pl330_may_begin(&s, at) != begins || (!begins && armed != until)) {
        printf("%s: a slice at %lld begins, or is put off to %lld\n", name, (long long)at, (long long)armed);
        failed = 1;
    }
    if (begins)
        pl330_ended = until;
}

static void test_pauses(void)
{
    test_slice("first", 1000000, true, 1100000);
    test_slice("another's in the rest of the time", 1110000, true, 1210000);
    test_slice("another's after the time", 1211000, false, 1260000);
    test_slice("the same after the pause", 1260000, true, 1460000);
    test_slice("the first's before the pause", 1509999, false, 1510000);
    test_slice("after the clock was set back", 5000, true, 300000);
    counts = 1;
    test_slice("with -icount", 300001, true, 400000);
}

/* ---- the time of a slice ---- */

enum { STEP_NS = 100, PROGRAMS_AT = 0x1000, EACH = 16 };

/* The guest starts the program of a channel, or sends event 1, or does neither; then the timer fires if it is armed.
 * Before that it must be armed for `after` steps from now, and afterwards for `slice` steps from then on; or not at all
 * if the number is 0. */
typedef struct timing {
    const char *what;
    int channel;
    uint32_t after, slice;
} timing;

enum { NONE = -1, SENDS = -2 };

static const uint8_t programs[][EACH] = {
    {0x18, 0x18, 0x00},                   /* DMANOP, DMANOP, DMAEND */
    {0x20, 9, 0x18, 0x38, 1, 0x00},       /* DMALP of 10 rounds of DMANOP and DMALPEND, DMAEND */
    {0x18, 0x36, 1 << 3, 0x18, 0x00},     /* DMANOP, DMAWFE 1, DMANOP, DMAEND */
    {0x34, 0, 0x00},                      /* DMASEV 0, which is an interrupt, DMAEND */
    {0x18, 0xFF},                         /* DMANOP, and no instruction */
};

static const timing timings[] = {
    {"nothing runs", NONE, 0, 0},
    {"three steps", 0, 1, 3},
    {"their time is over", NONE, 3, 0},
    {"a loop of 22 steps", 1, 1, 16},
    {"its rest", NONE, 16, 6},
    {"three steps, once the time of the rest is over", 0, 6, 3},
    {"their time is over again", NONE, 3, 0},
    {"a step before a wait", 2, 1, 1},
    {"the wait takes no time", NONE, 1, 0},
    {"the wait is over", SENDS, 1, 3},
    {"an interrupt and the step after it", 3, 3, 2},
    {"a step and one that fails", 4, 2, 2},
    {"three steps in the time of others", 0, 2, 3},
    {"nothing more", NONE, 3, 0},
};

/* Makes the manager execute an instruction. */
static void debug(PL330State *s, uint32_t code, uint32_t operand, uint32_t number)
{
    pl330_write(s, 0xD08, operand << 24 | code << 16, 4);
    pl330_write(s, 0xD0C, number, 4);
    pl330_write(s, 0xD04, 0, 4);
}

static void test_times(void)
{
    static PL330State s = {.config = {8, 2, 0, 64, 16, 3}, .step_ns = STEP_NS};

    if (dma330_device_open(&s.device, &s.config) != DMA330_OK)
        abort();
    s.lent.count = 1;
    s.lent.regions[0] = (dma330_region){.addr = PROGRAMS_AT, .bytes = ram, .len = sizeof ram};
    memcpy(ram, programs, sizeof programs);
    pl330_write(&s, 0x020, 1, 4);
    armed = 0;
    for (size_t n = 0; n < sizeof timings / sizeof *timings; n++) {
        const timing *it = &timings[n];
        int64_t due = it->after ? now + STEP_NS * it->after : 0, end;

        if (it->channel >= 0)
            debug(&s, 0xA0, it->channel, PROGRAMS_AT + EACH * it->channel);
        else if (it->channel == SENDS)
            debug(&s, 0x34, 1 << 3, 0);
        end = it->slice ? due + STEP_NS * it->slice : 0;
        if (armed != due) {
            printf("%s: the timer is armed for %lld\n", it->what, (long long)armed);
            failed = 1;
        }
        if (armed) {
            now = armed;
            armed = 0;
            pl330_slice(&s);
        }
        if (armed != end) {
            printf("%s: the timer is armed for %lld then\n", it->what, (long long)armed);
            failed = 1;
        }
    }
    dma330_device_close(&s.device);
}

/* ---- a clock that stands still ---- */

/* A slice must end, and the next one come, though the clock stands still meanwhile, as it does under qtest. And a
 * manager that fails isn't traced as a start. */
static void test_still_clock(void)
{
    static const uint8_t loop[] = {0x18, 0x2C, 1}; /* DMANOP, and the DMALPEND of a loop without an end */
    static PL330State s = {.config = {8, 2, 0, 64, 16, 3}};

    if (dma330_device_open(&s.device, &s.config) != DMA330_OK)
        abort();
    s.lent.count = 1;
    s.lent.regions[0] = (dma330_region){.addr = PROGRAMS_AT, .bytes = ram, .len = sizeof ram};
    memcpy(ram, loop, sizeof loop);
    counts = armed = started = 0;
    now += 1000000;
    debug(&s, 0xA0, 0, PROGRAMS_AT);
    armed = 0;
    pl330_slice(&s);
    debug(&s, 0x34, 2 << 3, 0); /* an event that the chip doesn't have */
    if (armed == 0 || started != 1 || pl330_status(&s, -1) != PL330_FAULTING) {
        printf("a clock that stands still: the timer is armed for %lld, and %d starts are traced\n", (long long)armed,
               started);
        failed = 1;
    }
    dma330_device_close(&s.device);
}

int main(void)
{
    static MemoryRegion mem = {0}, rom = {1}, regs = {2};
    MemoryRegionSection apart[] = {{0x100, &mem, 0, 0x1000, false}, {0x100, &mem, 0x100, 0x8000, true},
                                   {0x100, &regs, 0, 0x9000, false}, {0x80, &rom, 0x200, 0xA000, false}};
    MemoryRegionSection same[] = {{0x100, &mem, 0, 0x1000, false}, {0x100, &mem, 0, 0x8000, false}};
    MemoryRegionSection tail[] = {{0x100, &mem, 0, 0x1000, false}, {0x100, &mem, 0x80, 0x8000, false}};
    MemoryRegionSection around[] = {{0x40, &mem, 0x80, 0x1000, false}, {0x40, &mem, 0x140, 0x2000, false},
                                    {0x200, &mem, 0, 0x8000, false}};
    MemoryRegionSection below[] = {{0x100, &mem, 0, 0x1000, true}, {0x40, &mem, 0x80, 0x8000, false}};
    MemoryRegionSection above[] = {{0x40, &mem, 0x80, 0x1000, false}, {0x100, &mem, 0, 0x8000, true}};
    MemoryRegionSection top[] = {{0x1000, &mem, 0, 0xFFFFF000, false}, {0x1000, &mem, 0, 0x100000000, false}};
    MemoryRegionSection many[DMA330_MAX_REGIONS + 8];
    uint32_t many_wanted[DMA330_MAX_REGIONS][4];

    for (uint32_t n = 0; n < DMA330_MAX_REGIONS + 8; n++) {
        many[n] = (MemoryRegionSection){8, &mem, 8 * n, 0x1000 * n, false};
        if (n < DMA330_MAX_REGIONS)
            memcpy(many_wanted[n], (uint32_t[4]){0x1000 * n, 8 * n, 8, 0}, sizeof many_wanted[n]);
    }
    test("apart", apart, 4,
         (const uint32_t[][4]){{0x1000, 0, 0x100, 0}, {0x8000, 0x100, 0x100, 1}, {0xA000, 0x200, 0x80, 1}}, 3);
    test("the same twice", same, 2, (const uint32_t[][4]){{0x1000, 0, 0x100, 0}}, 1);
    test("a tail", tail, 2, (const uint32_t[][4]){{0x1000, 0, 0x100, 0}, {0x8080, 0x100, 0x80, 0}}, 2);
    test("around two", around, 3,
         (const uint32_t[][4]){{0x1000, 0x80, 0x40, 0}, {0x2000, 0x140, 0x40, 0}, {0x8000, 0, 0x80, 0},
                               {0x80C0, 0xC0, 0x80, 0}, {0x8180, 0x180, 0x80, 0}}, 5);
    test("read-only below", below, 2,
         (const uint32_t[][4]){{0x1000, 0, 0x80, 1}, {0x10C0, 0xC0, 0x40, 1}, {0x8000, 0x80, 0x40, 0}}, 3);
    test("read-only above", above, 2,
         (const uint32_t[][4]){{0x1000, 0x80, 0x40, 0}, {0x8000, 0, 0x80, 1}, {0x80C0, 0xC0, 0x40, 1}}, 3);
    test("the top", top, 2, (const uint32_t[][4]){{0xFFFFF000, 0, 0x1000, 0}}, 1);
    test("more than fit", many, DMA330_MAX_REGIONS + 8, (const uint32_t(*)[4])many_wanted, DMA330_MAX_REGIONS);
    test("none", NULL, 0, NULL, 0);
    test_pauses();
    test_times();
    test_still_clock();
    printf(failed ? "failed\n" : "passed\n");
    return failed;
}
