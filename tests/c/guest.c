#include "guest.h"

#include "heap.h"

#include <stdio.h>
#include <stdlib.h>
#include <string.h>

/* ---- checks ---- */

static long passed, failed;

void check(bool holds, const char *what, uint32_t n)
{
    if (holds)
        passed++;
    else
        failed++;
    if (!holds)
        printf("WRONG: %s (%lu)\n", what, (unsigned long)n);
}

/* Counts a check only if it fails: for what holds in each call of a test. */
static void always(bool holds, const char *what, uint32_t n)
{
    if (!holds)
        check(false, what, n);
}

int end_checks(void)
{
    check(live_blocks == 0, "no block is leaked", (uint32_t)live_blocks);
    printf("%ld passed, %ld failed\n", passed, failed);
    return failed != 0;
}

/* Ends the tests: a call that can't fail has failed. */
static void must(int32_t code, const char *what)
{
    if (code == DMA330_OK)
        return;
    printf("WRONG: %s returned %ld\n%ld passed, %ld failed\n", what, (long)code, passed, failed + 1);
    exit(1);
}

/* ---- the heap ---- */

long allocations_left;

int allocation_fails(void)
{
    return allocations_left-- <= 0;
}

int32_t open_device(dma330_device *device, const dma330_device_config *config)
{
    int32_t code;

    allocations_left = 1000;
    code = dma330_device_open(device, config);
    allocations_left = 0;
    return code;
}

/* ---- a machine ---- */

enum { GUARD_BYTE = 0xA5 };

static bool are_guards_whole(const machine *m)
{
    static const size_t guards[] = {0, NEXT_AT - GUARD, FAR_AT - GUARD, ALL_BYTES - GUARD};
    bool are_whole = true;

    for (int n = 0; n < 4; n++)
        for (size_t k = 0; k < GUARD; k++)
            are_whole = are_whole && m->bytes[guards[n] + k] == GUARD_BYTE;
    return are_whole;
}

dma330_device_config plain(uint32_t channels, uint32_t events, bool nonsecure)
{
    const dma330_device_config config = {channels, events, nonsecure, 128, 16 * channels, 3};

    return config;
}

void lend(machine *m)
{
    const dma330_region regions[] = {
        {LOW, m->bytes + LOW_AT, NEXT - LOW, 0},
        {NEXT, m->bytes + NEXT_AT, NEXT_END - NEXT, 0},
        {FAR, m->bytes + FAR_AT, FAR_END - FAR, 0}
    };

    memcpy(m->regions, regions, sizeof regions);
    m->region_count = REGIONS;
}

void set_up(machine *m, dma330_device_config config)
{
    memset(&m->device, 0, sizeof m->device);
    memset(m->bytes, GUARD_BYTE, sizeof m->bytes);
    m->steps = 0;
    lend(m);
    for (unsigned n = 0; n < REGIONS; n++)
        for (size_t k = 0; k < m->regions[n].len; k++)
            m->regions[n].bytes[k] = (uint8_t)((k + 17 * n) % 251);
    must(open_device(&m->device, &config), "dma330_device_open");
}

void tear_down(machine *m)
{
    check(are_guards_whole(m), "nothing but RAM is written", 0);
    dma330_device_close(&m->device);
}

uint8_t *byte_at(uint8_t bytes[ALL_BYTES], uint32_t addr)
{
    if (addr - LOW < NEXT - LOW)
        return bytes + LOW_AT + (addr - LOW);
    if (addr - NEXT < NEXT_END - NEXT)
        return bytes + NEXT_AT + (addr - NEXT);
    if (addr - FAR < FAR_END - FAR)
        return bytes + FAR_AT + (addr - FAR);
    abort();
}

void want_ram(machine *m)
{
    memcpy(m->wanted, m->bytes, sizeof m->wanted);
}

void want_copy(machine *m, uint32_t src, uint32_t dst, uint32_t blocks)
{
    for (uint32_t n = 0; n < 512 * blocks; n++)
        *byte_at(m->wanted, dst + n) = *byte_at(m->wanted, src + n);
}

bool is_ram_wanted(const machine *m)
{
    return memcmp(m->bytes, m->wanted, sizeof m->bytes) == 0;
}

/* ---- programs ---- */

uint32_t put(machine *m, uint32_t at, uint32_t code)
{
    *byte_at(m->bytes, at) = (uint8_t)code;
    return at + 1;
}

uint32_t put_two(machine *m, uint32_t at, uint32_t code, uint32_t operand)
{
    return put(m, put(m, at, code), operand);
}

uint32_t put_move(machine *m, uint32_t at, uint32_t to, uint32_t value)
{
    at = put_two(m, at, DMAMOV, to);
    for (int n = 0; n < 4; n++)
        at = put(m, at, value >> 8 * n);
    return at;
}

void put_copy(machine *m, uint32_t at, uint32_t wait, uint32_t src, uint32_t dst, uint32_t blocks, uint32_t signal)
{
    static const uint8_t body[] = {DMALD, DMARMB, DMAST, DMAWMB};
    uint32_t size = (src | dst) % 4 == 0 ? 2 : 0, outer, inner;

    if (wait < NO_EVENT)
        at = put_two(m, at, DMAWFE, wait << 3);
    at = put_move(m, at, TO_CCR, BURSTS_OF(size));
    at = put_move(m, at, TO_SAR, src);
    at = put_move(m, at, TO_DAR, dst);
    outer = at = put_two(m, at, DMALP, blocks - 1);
    inner = at = put_two(m, at, DMALP | 2, (512 / 16 >> size) - 1);
    for (size_t n = 0; n < sizeof body; n++)
        at = put(m, at, body[n]);
    at = put_two(m, at, DMALPEND | 4, at - inner);
    at = put_two(m, at, DMALPEND, at - outer);
    if (signal < NO_EVENT)
        at = put_two(m, at, DMASEV, signal << 3);
    put(m, at, DMAEND);
}

void put_signal(machine *m, uint32_t at, uint32_t event)
{
    put(m, put_two(m, at, DMASEV, event << 3), DMAEND);
}

void put_wait(machine *m, uint32_t at, uint32_t event)
{
    put(m, put_two(m, at, DMAWFE, event << 3), DMAEND);
}

/* ---- the driver ---- */

uint32_t get(machine *m, uint32_t offset)
{
    uint32_t value = 0;

    must(dma330_device_read(&m->device, offset, &value), "dma330_device_read");
    return value;
}

void set(machine *m, uint32_t offset, uint32_t value)
{
    must(dma330_device_write(&m->device, offset, value, m->regions, m->region_count), "dma330_device_write");
}

uint32_t irqs(machine *m)
{
    uint32_t lines = 0, line;

    must(dma330_device_lines(&m->device, &lines, &line), "dma330_device_lines");
    return lines;
}

/* Returns a number that is 0 or 1. */
static bool truth(int32_t code, uint32_t number, const char *what)
{
    must(code, what);
    always(number < 2, what, number);
    return number != 0;
}

bool irq_abort(machine *m)
{
    uint32_t lines, line = 2;
    int32_t code = dma330_device_lines(&m->device, &lines, &line);

    return truth(code, line, "dma330_device_lines");
}

bool can_step(machine *m)
{
    uint32_t can = 2;
    int32_t code = dma330_device_can_step(&m->device, &can);

    return truth(code, can, "dma330_device_can_step");
}

void debug(machine *m, int thread, uint32_t code, uint32_t operand, uint32_t number)
{
    set(m, DBGINST0, operand << 24 | code << 16 | (thread == MANAGER ? 0 : (uint32_t)thread << 8 | 1));
    set(m, DBGINST1, number);
    set(m, DBGCMD, 0);
}

/* A manager that is in the non-secure state, as DSR reports, may start only non-secure channels. */
void start(machine *m, uint32_t channel, uint32_t program)
{
    debug(m, MANAGER, get(m, DSR) & 1 << 9 ? DMAGO | 2 : DMAGO, channel, program);
}

void stop(machine *m, int thread)
{
    debug(m, thread, DMAKILL, 0, 0);
}

/* Returns whether an address lies in a region that isn't read-only. */
static bool is_writable(const machine *m, uint32_t addr)
{
    for (size_t n = 0; n < m->region_count; n++)
        if (addr - m->regions[n].addr < m->regions[n].len)
            return m->regions[n].read_only == 0;
    return false;
}

/* Returns whether each byte of the range can be written, and no other byte has changed. */
static bool wrote_only(machine *m, dma330_segment range)
{
    for (uint32_t n = 0; n < range.len; n++) {
        if (!is_writable(m, range.addr + n))
            return false;
        *byte_at(m->former, range.addr + n) = *byte_at(m->bytes, range.addr + n);
    }
    return memcmp(m->former, m->bytes, sizeof m->bytes) == 0;
}

/* An interrupt is the device's only news to a host that doesn't read registers, so the report must not miss one. A
 * device with a channel that executes can step, and one whose channels are stopped or faulting can't. */
bool turn(machine *m, uint32_t channel, uint32_t most)
{
    dma330_device_turn t = {{1, 1}, 2, 2, 2};
    uint32_t lines = irqs(m), executing = 0, waiting = 0, status;
    bool line = irq_abort(m);

    memcpy(m->former, m->bytes, sizeof m->bytes);
    must(dma330_device_step(&m->device, (uint8_t)channel, most, m->regions, m->region_count, &t), "dma330_device_step");
    m->written = t.written;
    m->taken = t.taken;
    always(t.taken <= (uint64_t)most + 1, "a turn takes no more steps than asked for", channel);
    always(t.lines_changed == (lines != irqs(m) || line != irq_abort(m)), "a turn reports a change of the lines", channel);
    always(wrote_only(m, t.written), "a turn reports what it wrote", channel);
    always(t.can_step == can_step(m), "a turn reports whether there is more to do", channel);
    for (uint32_t n = 0; n < DMA330_MAX_CHANNELS; n++) {
        status = get(m, CSR + 8 * n) % 16;
        executing += status == 1;
        waiting += status == 4;
    }
    always(executing > 0 ? t.can_step == 1 : waiting > 0 || t.can_step == 0, "whether a channel can step", channel);
    status = get(m, CSR + 8 * channel) % 16;
    return status == 1 || status == 4;
}

/* Returns how many instructions of its program a channel has executed, or 0 if the device doesn't have the channel. */
static uint32_t executed(machine *m, uint32_t channel)
{
    dma330_registers registers = {0};
    int32_t code = dma330_device_registers(&m->device, (uint8_t)channel, &registers);

    if (code != DMA330_NO_CHANNEL)
        must(code, "dma330_device_registers");
    return registers.taken;
}

/* Lets a channel take a turn, and returns whether this may be its number of steps, by how many instructions it
 * executed. A last step that waits or fails isn't executed. */
static bool takes_steps(machine *m, uint32_t channel, uint32_t most, uint64_t steps)
{
    uint32_t before = executed(m, channel), former = get(m, CSR + 8 * channel) % 16, status;

    turn(m, channel, most);
    status = get(m, CSR + 8 * channel) % 16;
    steps -= executed(m, channel) - before;
    return steps == (most > 0 && (status == 4 || (status == 15 && former != 15)));
}

bool take_rows(machine *m, machine *by_one, uint32_t channel, uint32_t most)
{
    dma330_device_rows r = {{{1, 1}, 2, 3, 4}, 5, 6, 7};
    uint32_t lines = irqs(m);
    bool line = irq_abort(m), same = true;

    must(dma330_device_step_rows(&m->device, (uint8_t)channel, most, m->regions, m->region_count, &r),
         "dma330_device_step_rows");
    for (uint32_t k = 0; k < r.count; k++) {
        same = takes_steps(by_one, channel, r.steps, r.turn.taken) && by_one->taken == r.turn.taken && same;
        same = same && by_one->written.addr == r.turn.written.addr + k * r.pitch;
        same = same && by_one->written.len == r.turn.written.len && (k == 0 || by_one->written.addr > r.turn.written.addr);
    }
    m->written = r.turn.written;
    m->steps += r.count * r.turn.taken;
    always(r.count > 0 && (uint64_t)r.count * r.steps <= most, "the turns are as few as asked for", r.count);
    always(r.turn.lines_changed == (lines != irqs(m) || line != irq_abort(m)), "they report a change of the lines", channel);
    always(r.turn.can_step == can_step(m), "they report whether there is more to do", channel);
    always(same && are_same(m, by_one), "they do what turns do one by one", channel);
    return r.count > 1;
}

bool run(machine *m, uint32_t channel)
{
    for (int n = 0; n < 100000 && get(m, CSR + 8 * channel) % 16 != 0; n++) {
        if (!turn(m, channel, 1000))
            return false;
        if (get(m, CSR + 8 * channel) % 16 == 4)
            return true;
    }
    return false;
}

bool are_registers_reset(machine *m)
{
    uint32_t channels = (get(m, CR0) >> 4 & 7) + 1, value;

    for (uint32_t offset = 0; offset < 0xE00; offset += 4) {
        value = offset >= CCR && offset < CCR + 0x20 * channels && offset % 0x20 == 8 ? RESET_CCR : 0;
        if (get(m, offset) != value)
            return false;
    }
    return true;
}

bool are_same(machine *m, machine *other)
{
    for (uint32_t offset = 0; offset < REGISTERS; offset += 4)
        if (get(m, offset) != get(other, offset))
            return false;
    return irqs(m) == irqs(other) && irq_abort(m) == irq_abort(other) && can_step(m) == can_step(other) &&
           memcmp(m->bytes, other->bytes, sizeof m->bytes) == 0;
}

void check_work(machine *m, uint32_t channel, const char *what, uint32_t n)
{
    put_copy(m, LOW + 0x2F00, NO_EVENT, NEXT + 0x1003, FAR + 0x805, 2, 0);
    want_ram(m);
    want_copy(m, NEXT + 0x1003, FAR + 0x805, 2);
    set(m, INTEN, 1);
    start(m, channel, LOW + 0x2F00);
    check(!run(m, channel) && is_ram_wanted(m), what, n);
    check(irqs(m) == 1 && get(m, INTMIS) == 1 && get(m, CSR + 8 * channel) % 16 == 0, what, n);
    set(m, INTCLR, 1);
    check(irqs(m) == 0 && get(m, INTMIS) == 0 && !irq_abort(m), what, n);
}
