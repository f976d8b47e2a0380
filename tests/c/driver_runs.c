#include "drivers.h"
#include "guest.h"

#include <stdlib.h>
#include <string.h>

/* ---- explanations ---- */

enum { ALLOCATIONS = 1000000 };

static bool has_same_ranges(const dma330_segment *a, const dma330_segment *b, size_t count)
{
    bool is_same = true;

    for (size_t n = 0; n < count; n++)
        is_same = is_same && a[n].addr == b[n].addr && a[n].len == b[n].len;
    return is_same;
}

static bool has_same_lists(const meaning *a, const meaning *b)
{
    bool is_same = has_same_ranges(a->dst, b->dst, a->dst_len) && has_same_ranges(a->zeros, b->zeros, a->zeros_len);

    for (size_t n = 0; is_same && n < a->src_len; n++)
        is_same = a->src[n].addr == b->src[n].addr && a->src[n].len == b->src[n].len && a->src[n].times == b->src[n].times;
    for (size_t n = 0; is_same && n < a->events_len; n++)
        is_same = a->events[n].kind == b->events[n].kind && a->events[n].event == b->events[n].event &&
                  a->events[n].copied == b->events[n].copied && a->events[n].cleared == b->events[n].cleared;
    return is_same;
}

static bool has_same_numbers(const meaning *a, const meaning *b)
{
    return a->src_len == b->src_len && a->dst_len == b->dst_len && a->zeros_len == b->zeros_len &&
           a->events_len == b->events_len && a->copied == b->copied && a->cleared == b->cleared && a->steps == b->steps;
}

/* Whether both calls say the same. Lists that had no room aren't written. */
static bool is_same(const explained *e, const explained *f)
{
    return e->code == f->code && e->cause == f->cause && e->pc == f->pc && has_same_numbers(&e->is, &f->is) &&
           (e->code == DMA330_BUFFER_TOO_SMALL || has_same_lists(&e->is, &f->is));
}

/* Keeps what a call wrote besides the lists. */
static void keep(explained *e, int32_t code, const dma330_explanation *x)
{
    allocations_left = 0;
    e->code = code;
    e->cause = x->cause;
    e->pc = x->pc;
    e->is.src_len = x->src_len;
    e->is.dst_len = x->dst_len;
    e->is.zeros_len = x->zeros_len;
    e->is.events_len = x->events_len;
    e->is.copied = x->copied;
    e->is.cleared = x->cleared;
    e->is.steps = x->steps;
}

static const dma330_explanation nothing = {0, 0, 0, 0, 0, 0, 0, 0, 0, 0};

static void explain_from(explained *e, const dma330_start *start, const uint8_t *bytes, size_t len, uint32_t bus,
                         uint32_t most)
{
    dma330_explanation x = nothing;
    int32_t code;

    allocations_left = ALLOCATIONS;
    code = dma330_explain(bytes, len, bus, start, most, e->is.src, MOST_ITEMS, e->is.dst, MOST_ITEMS, e->is.zeros,
                          MOST_ITEMS, e->is.events, MOST_ITEMS, &x);
    keep(e, code, &x);
}

void explain(explained *e, const uint8_t *bytes, size_t len, uint32_t bus, uint32_t most)
{
    static const dma330_start zeros = {DMA330_KNOWN_ALL, 0, 0, 0, 0, 0};

    explain_from(e, &zeros, bytes, len, bus, most);
}

/* Returns whether dma330_explain says the same from other registers, which differ from 0 in each byte lane. */
static bool is_same_from_others(const explained *e, const uint8_t *bytes, size_t len, uint32_t bus, uint32_t most)
{
    static const dma330_start starts[] = {{DMA330_KNOWN_ALL, 0x8000100F, 0x80003001, 0x00014004, 255, 1},
                                          {DMA330_KNOWN_ALL, 0xFFFFFFFF, 0xFFFFFFFE, 0x00814232, 3, 200}};
    static explained other;

    for (size_t n = 0; n < sizeof starts / sizeof starts[0]; n++) {
        explain_from(&other, &starts[n], bytes, len, bus, most);
        if (!is_same(&other, e))
            return false;
    }
    return true;
}

const char *explain_for_any(const explained *e, const uint8_t *bytes, size_t len, uint32_t bus, uint32_t most, bool *is_unset)
{
    /* (a member that isn't known isn't read, not even a CCR that no channel has) */
    static const dma330_start any = {DMA330_KNOWN_NONE, 0xDEADBEEF, 0xDEADBEEF, 0xFFFFFFFF, 99, 99};
    static explained other;

    explain_from(&other, &any, bytes, len, bus, most);
    *is_unset = other.cause >= DMA330_CAUSE_UNSET_SAR;
    if (*is_unset)
        return other.code == DMA330_UNEXPLAINED && other.is.steps <= e->is.steps && other.is.copied == 0 &&
               other.is.cleared == 0 ? NULL : "an unset register has a copy";
    if (!is_same_from_others(e, bytes, len, bus, most))
        return "the program isn't the same from all registers";
    return is_same(&other, e) ? NULL : "the program isn't the same from any registers";
}

bool is_meant(const explained *e, const meaning *means)
{
    return e->code == DMA330_OK && e->cause == DMA330_CAUSE_NONE && e->pc == 0 && has_same_numbers(&e->is, means) &&
           has_same_lists(&e->is, means);
}

/* Returns NULL, or what is wrong after a run that executed this number of instructions and stored this number of bytes.
 * */
static const char *end_run(const explained *e, uint32_t taken, uint64_t stored)
{
    if (taken != e->is.steps)
        return "another number of steps";
    if (stored != e->is.copied + e->is.cleared)
        return "another number of bytes is stored";
    return is_memory_wanted() ? NULL : "other bytes in memory";
}

/* ---- a channel ---- */

static dma330_channel channel;

static bool load(const uint8_t *bytes, size_t len)
{
    bool is_open = channel.is_open;

    allocations_left = ALLOCATIONS;
    is_open = is_open || dma330_channel_open(&channel) == DMA330_OK;
    allocations_left = 0;
    return is_open && dma330_channel_load_program(&channel, bytes, len) == DMA330_OK;
}

/* Returns whether a wait or a signal is explained, and as many bytes are stored as is explained. */
static bool is_explained(const explained *e, size_t n, uint32_t kind, uint32_t event, uint64_t stored)
{
    const dma330_event *is = &e->is.events[n];

    return n < e->is.events_len && is->kind == kind && is->event == event && is->copied == stored && is->cleared == 0 &&
           has_done(&e->is, stored, 0);
}

const char *run_on_channel(const explained *e, const uint8_t *bytes, size_t len, uint32_t most)
{
    dma330_channel_report r = {0, DMA330_MOVED, 0, 0, 0, {0, 0}};
    dma330_registers now;
    uint32_t flags = 0;
    size_t happened = 0;

    if (!begin_run(&e->is) || !load(bytes, len))
        return "it isn't loaded";
    while (r.last != DMA330_ENDED) {
        bool waits, signals;
        uint32_t kind;

        if (dma330_channel_step(&channel, lent, lent_count, &flags, most, &r) != DMA330_OK ||
            dma330_channel_registers(&channel, &now) != DMA330_OK)
            return "a call is refused";
        waits = r.last == DMA330_WAITING;
        signals = r.last == DMA330_SIGNALLED;
        if (r.last == DMA330_FAULT || r.last == DMA330_NO_STEP || now.taken > e->is.steps)
            return "an instruction fails, or is one too many";
        kind = signals ? DMA330_SIGNALS : DMA330_WAITS;
        if ((waits || signals) && !is_explained(e, happened++, kind, r.event, now.stored))
            return "another wait or signal";
        flags = waits ? 1u << r.event : 0; /* each wait is seen, since nothing else sets a flag */
    }
    return happened == e->is.events_len ? end_run(e, now.taken, now.stored) : "a wait or signal is missing";
}

/* Returns whether a cause is what the next step shows. */
static bool shows(uint32_t cause, const dma330_channel_report *next)
{
    bool fails = next->last == DMA330_FAULT;

    switch (cause) {
    case DMA330_CAUSE_LOADS_PAST: return fails && next->fault == DMA330_DATA_READ_ERR;
    case DMA330_CAUSE_STORES_PAST: return fails && next->fault == DMA330_DATA_WRITE_ERR;
    case DMA330_CAUSE_STORES_FIXED:
        return fails ? next->fault == DMA330_DATA_WRITE_ERR : next->last == DMA330_MOVED;
    case DMA330_CAUSE_BYTES_LEFT:
    case DMA330_CAUSE_STORES_TWICE:
    case DMA330_CAUSE_STORES_SOURCE: return next->last == DMA330_ENDED;
    case DMA330_CAUSE_NO_END: return true;
    default: return fails && next->fault == cause;
    }
}

const char *run_to_cause(const explained *e, const uint8_t *bytes, size_t len)
{
    dma330_channel_report r = {0, DMA330_MOVED, 0, 0, 0, {0, 0}};
    dma330_registers now = {0, 0, 0, 0, 0, 0, 0, 0, 0};
    uint32_t left = e->is.steps, flags;

    forget_run();
    if (!load(bytes, len))
        return "it isn't loaded";
    for (; left > 0; left = e->is.steps - now.taken) {
        flags = 0xFFFFFFFF;
        if (dma330_channel_step(&channel, lent, lent_count, &flags, left, &r) != DMA330_OK ||
            dma330_channel_registers(&channel, &now) != DMA330_OK)
            return "a call is refused";
        if (r.last == DMA330_FAULT && (r.fault == DMA330_DATA_READ_ERR || r.fault == DMA330_DATA_WRITE_ERR))
            return NULL;
        if (r.last == DMA330_FAULT || r.last == DMA330_ENDED)
            return "it doesn't get to the cause";
    }
    if (e->is.steps > 0 && now.pc != e->pc)
        return "the cause is elsewhere";
    flags = 0xFFFFFFFF;
    if (dma330_channel_step(&channel, lent, lent_count, &flags, 1, &r) != DMA330_OK)
        return "a call is refused";
    return shows(e->cause, &r) ? NULL : "something else happens";
}

/* ---- a device ---- */

/* Returns the events that are signalled and never waited for. */
static uint32_t interrupts_of(const meaning *is)
{
    uint32_t waits = 0, signals = 0;

    for (size_t n = 0; n < is->events_len; n++)
        if (is->events[n].kind == DMA330_WAITS)
            waits |= 1u << is->events[n].event;
        else
            signals |= 1u << is->events[n].event;
    return signals & ~waits;
}

/* The devices with buses of 32, 64 and 128 bits. */
static machine machines[3];

/* Returns one of them, with the lent memory and in its state after a reset. */
static machine *machine_of(uint32_t bus)
{
    machine *m = &machines[bus / 64];
    dma330_device_config config = plain(1, 32, false);

    config.bus = bus;
    if (!m->device.is_open && open_device(&m->device, &config) != DMA330_OK)
        abort();
    if (dma330_device_reset(&m->device) != DMA330_OK)
        abort();
    memcpy(m->regions, lent, sizeof lent);
    m->region_count = lent_count;
    return m;
}

/* Returns a number of 4 bytes in the save of channel 0, at an offset that dma330.h has. */
static uint32_t saved(machine *m, size_t offset)
{
    static uint8_t save[DMA330_MAX_DEVICE_SAVE];
    const uint8_t *at = save + 40 + 20 + offset;
    size_t len;

    if (dma330_device_save(&m->device, save, sizeof save, &len) != DMA330_OK)
        abort();
    return (uint32_t)(at[0] | at[1] << 8 | at[2] << 16) | (uint32_t)at[3] << 24;
}

static uint32_t taken(machine *m)
{
    return saved(m, 26);
}

static uint32_t stored(machine *m)
{
    return saved(m, 30);
}

const char *explain_on_device(const explained *e, uint32_t place, uint32_t bus, uint32_t most)
{
    static explained same;
    machine *m = machine_of(bus);
    dma330_explanation x = nothing;
    int32_t code;

    start(m, 0, place);
    allocations_left = ALLOCATIONS;
    code = dma330_device_explain(&m->device, 0, most, same.is.src, MOST_ITEMS, same.is.dst, MOST_ITEMS, same.is.zeros,
                                 MOST_ITEMS, same.is.events, MOST_ITEMS, &x);
    keep(&same, code, &x);
    return is_same(&same, e) ? NULL : "the device's explanation is another one";
}

/* Which of the signals that are explained were seen as interrupts. */
static bool was_seen[MOST_ITEMS];

/* Finds the signals that the interrupts after a turn are: after a DMASEV it took at most one step, so it copied, or set
 * to 0, at most 256 bytes. Returns whether each interrupt is one of them, and the bytes that the channel counts are
 * stored. */
static bool sees(const meaning *is, uint32_t lines, uint64_t count)
{
    uint32_t left = lines;
    bool has = false;

    for (size_t n = 0; n < is->events_len; n++) {
        const dma330_event *h = &is->events[n];
        uint64_t more = count - h->copied - h->cleared;

        if (h->kind == DMA330_SIGNALS && (lines >> h->event & 1) != 0 && h->copied + h->cleared <= count && more <= 256) {
            was_seen[n] = true;
            left &= ~(1u << h->event);
            has = has || has_done(is, h->copied + more, h->cleared) || has_done(is, h->copied, h->cleared + more);
        }
    }
    return left == 0 && has;
}

static bool has_seen_all(const meaning *is, uint32_t interrupts)
{
    bool has = true;

    for (size_t n = 0; n < is->events_len; n++)
        has = has && (was_seen[n] || (interrupts >> is->events[n].event & 1) == 0);
    return has;
}

/* Takes a turn, before which the guest signals the event that the channel waits for. Returns whether it is accepted,
 * and the interrupts after it are explained. */
static bool takes_turn(machine *m, const explained *e, uint32_t status, uint32_t most)
{
    dma330_device_turn t;
    uint32_t lines;

    if (status % 16 == 4 && !can_step(m))
        debug(m, MANAGER, DMASEV, status >> 4 << 3, 0);
    if (dma330_device_step(&m->device, 0, most, m->regions, m->region_count, &t) != DMA330_OK)
        return false;
    lines = irqs(m);
    set(m, INTCLR, lines);
    return lines == 0 || sees(&e->is, lines, stored(m));
}

const char *run_on_device(const explained *e, uint32_t place, uint32_t bus, uint32_t most)
{
    machine *m = machine_of(bus);
    uint32_t interrupts = interrupts_of(&e->is), turns_left = 2 * e->is.steps, status;

    if (!begin_run(&e->is))
        return "as many bytes aren't read as stored";
    set(m, INTEN, interrupts);
    start(m, 0, place);
    memset(was_seen, 0, sizeof was_seen);
    while ((status = get(m, CSR)) % 16 == 1 || status % 16 == 4) {
        if (turns_left-- == 0)
            return "it doesn't end";
        if (!takes_turn(m, e, status, most))
            return "an interrupt that isn't explained, or too early";
    }
    if (status != 0)
        return "an instruction fails";
    return has_seen_all(&e->is, interrupts) ? end_run(e, taken(m), stored(m)) : "an interrupt is missing";
}

void end_runs(void)
{
    dma330_channel_close(&channel);
    for (int n = 0; n < 3; n++)
        dma330_device_close(&machines[n].device);
}
