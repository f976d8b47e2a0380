/*
 * The PL330 of QEMU's Zynq and Exynos4 machines, by the library dma330.h. This
 * file is for QEMU 7.2 and QEMU 10.0.
 *
 * It takes the place of hw/dma/pl330.c, with the same type name, properties,
 * memory link, register window and interrupt lines. docs/QEMU.md lists what it
 * lacks. All calls of the library are made under the big QEMU lock.
 */

#include "qemu/osdep.h"
#include "hw/irq.h"
#include "hw/qdev-properties.h"
#include "hw/sysbus.h"
#include "migration/vmstate.h"
#include "qapi/error.h"
#include "qemu/error-report.h"
#include "qemu/log.h"
#include "qemu/rcu.h"
#include "qemu/timer.h"
#include "trace.h"
#include "dma330.h"
#if QEMU_VERSION_MAJOR < 10
#include "sysemu/cpu-timers.h"
#else
#include "system/cpu-timers.h"
#endif

#define TYPE_PL330 "pl330"
OBJECT_DECLARE_SIMPLE_TYPE(PL330State, PL330)

/* The most steps of a turn */
#define PL330_STEPS 1024
/* .. if step-ns isn't 0; a slice is one turn of each channel then */
#define PL330_TIMED_STEPS 16

/*
 * Without -icount, the controllers of a machine together take slices for this
 * time, and then pause, so that a processor can take the big lock.
 */
#define PL330_SLICE_NS 200000
/* .. or until so many turns are taken: under qtest the clock stands still */
#define PL330_MOST_TURNS 16384
#define PL330_PAUSE_NS 50000

/* The bits 3:0 of a thread's status register */
#define PL330_STOPPED 0
#define PL330_WAITING 4
#define PL330_FAULTING 15

/* RAM and ROM that is lent to the library; each owner is kept by a reference */
typedef struct PL330Lent {
    size_t count;
    dma330_region regions[DMA330_MAX_REGIONS];
    MemoryRegion *owners[DMA330_MAX_REGIONS];
} PL330Lent;

/* The address space is used until RCU is done with it, after the device. */
typedef struct PL330Space {
    struct rcu_head rcu;
    AddressSpace as;
} PL330Space;

struct PL330State {
    SysBusDevice parent_obj;

    MemoryRegion iomem;
    qemu_irq irq_abort, irq[32];
    QEMUTimer *timer;
    dma330_device_config config;
    uint32_t step_ns;
    uint32_t ignored[10];
    bool has_request;
    dma330_device device;
    uint8_t status[1 + DMA330_MAX_CHANNELS];
    uint32_t next_channel;
    uint64_t save_len;
    uint8_t save[DMA330_MAX_DEVICE_SAVE];

    MemoryRegion *memory;
    PL330Space *space;
    MemoryListener listener;
    PL330Lent lent, next, roms;
};

/*
 * The first slice of any controller since the last pause began, and the last
 * slice ended, at these times of the virtual clock.
 */
static int64_t pl330_began, pl330_ended;

static uint32_t pl330_register(PL330State *s, uint32_t offset)
{
    uint32_t value = 0;

    dma330_device_read(&s->device, offset, &value);
    return value;
}

/* Returns the status of thread n; thread -1 is the manager. */
static uint8_t pl330_status(PL330State *s, int n)
{
    return pl330_register(s, n < 0 ? 0x000 : 0x100 + 8 * n) & 15;
}

/*
 * Reports each channel that was started, and each thread that came to
 * `faulting`. A thread that is stopped may also come there at once, by a debug
 * instruction that fails.
 */
static void pl330_report(PL330State *s)
{
    for (int n = -1; n < (int)s->config.channels; n++) {
        uint8_t before = s->status[1 + n], now = pl330_status(s, n);
        uint32_t pc, ftr;

        if (now == before) {
            continue;
        }
        s->status[1 + n] = now;
        pc = pl330_register(s, n < 0 ? 0x004 : 0x104 + 8 * n);
        ftr = pl330_register(s, n < 0 ? 0x038 : 0x040 + 4 * n);
        if (before == PL330_STOPPED && now != PL330_FAULTING) {
            trace_dma330_start(n, pc);
        }
        if (now == PL330_FAULTING) {
            trace_dma330_fault(n, pc, ftr);
            qemu_log_mask(LOG_GUEST_ERROR, "pl330: thread %d fails at 0x%08"
                          PRIx32 ", fault 0x%08" PRIx32 "\n", n, pc, ftr);
        }
    }
}

static void pl330_set_irqs(PL330State *s)
{
    uint32_t irqs = 0, irq_abort = 0;

    dma330_device_lines(&s->device, &irqs, &irq_abort);
    trace_dma330_irqs(irqs, irq_abort);
    qemu_set_irq(s->irq_abort, irq_abort);
    for (uint32_t n = 0; n < s->config.events; n++) {
        qemu_set_irq(s->irq[n], extract32(irqs, n, 1));
    }
}

/* Returns how long these steps take by step-ns: at least as long as one. */
static int64_t pl330_steps_ns(PL330State *s, uint32_t steps)
{
    return (int64_t)s->step_ns * MAX(steps, 1);
}

/*
 * Arms the timer for the next slice, unless it is armed already, or stops it if
 * no channel can step. If step-ns isn't 0, the pause is the time of the steps
 * that the last slice took, and the timer isn't stopped: a program that the
 * guest starts meanwhile waits for its end.
 */
static void pl330_arm(PL330State *s, int64_t pause, uint32_t steps)
{
    bool is_timed = s->step_ns != 0;
    uint32_t can_step = 0;

    dma330_device_can_step(&s->device, &can_step);
    if (!can_step && !is_timed) {
        timer_del(s->timer);
    } else if ((can_step || steps) && !timer_pending(s->timer)) {
        timer_mod(s->timer, qemu_clock_get_ns(QEMU_CLOCK_VIRTUAL) +
                  (is_timed ? pl330_steps_ns(s, steps) : pause));
    }
}

/* The regions are built so that the library never refuses them. */
static void pl330_check(int32_t code)
{
    if (code != DMA330_OK) {
        warn_report_once("pl330: the library returned %s",
                         dma330_code_name(code));
    }
}

static uint64_t pl330_read(void *opaque, hwaddr offset, unsigned size)
{
    uint32_t value = pl330_register(opaque, offset);

    trace_dma330_read(offset, value);
    return value;
}

static void pl330_write(void *opaque, hwaddr offset, uint64_t value,
                        unsigned size)
{
    PL330State *s = opaque;

    trace_dma330_write(offset, value);
    pl330_check(dma330_device_write(&s->device, offset, value, s->lent.regions,
                                    s->lent.count));
    pl330_report(s);
    pl330_set_irqs(s);
    pl330_arm(s, 1, 0);
}

static const MemoryRegionOps pl330_ops = {
    .read = pl330_read,
    .write = pl330_write,
    .endianness = DEVICE_LITTLE_ENDIAN,
    .impl = { .min_access_size = 4, .max_access_size = 4 },
};

/*
 * Drops the code translated from the bytes that a turn wrote, and sets them
 * dirty for migration and displays: the end of a device's mapping does both.
 * memory_region_set_dirty() would keep the code. Only RAM that was lent is
 * mapped, which address_space_map() never refuses: mapping a register would
 * write to it.
 */
static void pl330_mark_written(PL330State *s, dma330_segment written)
{
    hwaddr end = (hwaddr)written.addr + written.len;

    for (size_t n = 0; n < s->lent.count; n++) {
        const dma330_region *it = &s->lent.regions[n];
        hwaddr addr = MAX(written.addr, it->addr), len;
        hwaddr stop = MIN(end, (hwaddr)it->addr + it->len);

        for (; !it->read_only && addr < stop; addr += len) {
            void *p;

            len = stop - addr;
            p = address_space_map(&s->space->as, addr, &len, true,
                                  MEMTXATTRS_UNSPECIFIED);
            if (!p) {
                break;
            }
            address_space_unmap(&s->space->as, p, len, true, len);
        }
    }
}

/*
 * Lets the next channel take a turn, or one for each row of a rectangle, and
 * counts the steps, without one that waits. Returns whether any can step after
 * it.
 */
static bool pl330_turn(PL330State *s, uint32_t *steps)
{
    uint32_t n = s->next_channel;
    uint32_t most = s->step_ns ? PL330_TIMED_STEPS : PL330_STEPS;
    dma330_device_rows rows = { 0 };

    pl330_check(dma330_device_step_rows(&s->device, n, most, s->lent.regions,
                                        s->lent.count, &rows));
    for (uint32_t k = 0; rows.turn.written.len && k < rows.count; k++) {
        dma330_segment row = { rows.turn.written.addr + k * rows.pitch,
                               rows.turn.written.len };

        trace_dma330_store(n, row.addr, row.len);
        pl330_mark_written(s, row);
    }
    if (rows.turn.lines_changed) {
        pl330_set_irqs(s);
    }
    *steps += rows.count * rows.turn.taken;
    if (rows.turn.taken && pl330_status(s, n) == PL330_WAITING) {
        *steps -= 1;
    }
    s->next_channel = (n + 1) % s->config.channels;
    return rows.turn.can_step;
}

/*
 * Returns whether a slice may begin now. If the controllers have to pause, arms
 * the timer for the end of the pause: those that wait for it take turns then.
 */
static bool pl330_may_begin(PL330State *s, int64_t now)
{
    /* (a snapshot that is loaded sets the clock back) */
    if (now < pl330_ended || now - pl330_ended >= PL330_PAUSE_NS) {
        pl330_began = now;
    }
    if (icount_enabled() || now - pl330_began < PL330_SLICE_NS) {
        return true;
    }
    timer_mod(s->timer, pl330_ended + PL330_PAUSE_NS);
    return false;
}

/*
 * Runs the channels for a slice. A timer of the virtual clock calls it: a
 * bottom half would go on while the machine is stopped. With -icount, and if
 * step-ns isn't 0, each channel is called once, whatever time that takes: with
 * -icount the virtual clock stops meanwhile, and a replay does the same.
 */
static void pl330_slice(void *opaque)
{
    PL330State *s = opaque;
    uint32_t turns = 0, steps = 0;
    bool can_step, is_over;

    if (!pl330_may_begin(s, qemu_clock_get_ns(QEMU_CLOCK_VIRTUAL))) {
        return;
    }
    do {
        can_step = pl330_turn(s, &steps);
        turns++;
        pl330_ended = qemu_clock_get_ns(QEMU_CLOCK_VIRTUAL);
        is_over = s->step_ns || icount_enabled()
                  ? turns >= s->config.channels
                  : pl330_ended - pl330_began >= PL330_SLICE_NS ||
                    turns >= PL330_MOST_TURNS;
    } while (can_step && !is_over);
    if (!can_step) {
        s->next_channel = 0; /* (so that a replay needn't know it) */
    }
    pl330_report(s);
    pl330_arm(s, PL330_PAUSE_NS, steps);
}

static void pl330_begin(MemoryListener *l)
{
    PL330State *s = container_of(l, PL330State, listener);

    s->next.count = 0;
    s->roms.count = 0;
}

/* Puts a region where its address belongs, unless there is no room. */
static void pl330_insert(PL330Lent *to, MemoryRegion *mr, dma330_region it)
{
    size_t n = to->count;

    if (n == DMA330_MAX_REGIONS) {
        warn_report_once("pl330: no DMA to memory from 0x%08" PRIx32 " on",
                         it.addr);
        return;
    }
    for (; n > 0 && to->regions[n - 1].addr > it.addr; n--) {
        to->regions[n] = to->regions[n - 1];
        to->owners[n] = to->owners[n - 1];
    }
    to->regions[n] = it;
    to->owners[n] = mr;
    to->count++;
}

/* Lends the bytes of a region that aren't lent already. */
static void pl330_lend(PL330Lent *lent, MemoryRegion *mr, dma330_region it)
{
    while (it.len > 0) {
        uintptr_t at = (uintptr_t)it.bytes;
        dma330_region part = it;
        bool is_lent = false;

        for (size_t n = 0; n < lent->count; n++) {
            uintptr_t from = (uintptr_t)lent->regions[n].bytes;

            if (from > at) {
                part.len = MIN(part.len, from - at);
            } else if (at - from < lent->regions[n].len) {
                part.len = MIN(part.len, lent->regions[n].len - (at - from));
                is_lent = true;
            }
        }
        if (!is_lent) {
            pl330_insert(lent, mr, part);
        }
        it.addr += part.len;
        it.bytes += part.len;
        it.len -= part.len;
    }
}

/*
 * Lends RAM below 4 GiB; commit lends ROM, so that RAM at two addresses can be
 * written if it can be at one. Sections come by rising address.
 */
static void pl330_add(MemoryListener *l, MemoryRegionSection *section)
{
    PL330State *s = container_of(l, PL330State, listener);
    hwaddr addr = section->offset_within_address_space;
    MemoryRegion *mr = section->mr;
    bool is_ram = memory_region_is_ram(mr) && !memory_region_is_ram_device(mr);
    dma330_region it;

    if ((!is_ram && !memory_region_is_romd(mr)) || addr > UINT32_MAX) {
        return;
    }
    it.addr = addr;
    it.bytes = memory_region_get_ram_ptr(mr) + section->offset_within_region;
    it.len = MIN(int128_get64(section->size), UINT32_MAX - addr + 1);
    it.read_only = section->readonly || !is_ram;
    if (it.read_only) {
        pl330_insert(&s->roms, mr, it);
    } else {
        pl330_lend(&s->next, mr, it);
    }
}

/* Takes the regions since begin, and drops the references to the old. */
static void pl330_commit(MemoryListener *l)
{
    PL330State *s = container_of(l, PL330State, listener);

    for (size_t n = 0; n < s->roms.count; n++) {
        pl330_lend(&s->next, s->roms.owners[n], s->roms.regions[n]);
    }
    for (size_t n = 0; n < s->next.count; n++) {
        memory_region_ref(s->next.owners[n]);
        trace_dma330_lend(s->next.regions[n].addr, s->next.regions[n].len,
                          s->next.regions[n].read_only);
    }
    for (size_t n = 0; n < s->lent.count; n++) {
        memory_region_unref(s->lent.owners[n]);
    }
    s->lent = s->next;
}

static int pl330_pre_save(void *opaque)
{
    PL330State *s = opaque;
    size_t len = 0;
    int32_t code = dma330_device_save(&s->device, s->save, sizeof(s->save),
                                      &len);

    s->save_len = len;
    return code == DMA330_OK ? 0 : -EINVAL;
}

/*
 * Sets no line: what the lines lead to migrates with its own state. The timer
 * came with this one, and is armed anew if it lies beyond the longest pause, as
 * it may in a damaged stream.
 */
static int pl330_post_load(void *opaque, int version_id)
{
    PL330State *s = opaque;
    uint64_t latest = qemu_clock_get_ns(QEMU_CLOCK_VIRTUAL) +
        MAX(PL330_PAUSE_NS, pl330_steps_ns(s, (PL330_TIMED_STEPS + 1) *
                                           s->config.channels));

    if (s->save_len > sizeof(s->save) ||
        dma330_device_restore(&s->device, s->save, s->save_len) != DMA330_OK) {
        error_report("pl330: the state is damaged, or another device's");
        return -EINVAL;
    }
    for (int n = -1; n < (int)s->config.channels; n++) {
        s->status[1 + n] = pl330_status(s, n);
    }
    if (timer_expire_time_ns(s->timer) > latest) {
        timer_del(s->timer);
    }
    pl330_arm(s, 1, 0);
    return 0;
}

/* A save of another size needs another version. */
QEMU_BUILD_BUG_ON(DMA330_MAX_DEVICE_SAVE != 68204);

static const VMStateDescription vmstate_pl330 = {
    .name = "dma330",
    .version_id = 1,
    .minimum_version_id = 1,
    .pre_save = pl330_pre_save,
    .post_load = pl330_post_load,
    .fields = (const VMStateField[]) {
        VMSTATE_UINT64(save_len, PL330State),
        VMSTATE_BUFFER(save, PL330State),
        VMSTATE_TIMER_PTR(timer, PL330State),
        VMSTATE_END_OF_LIST()
    }
};

static void pl330_reset_enter(Object *obj, ResetType type)
{
    PL330State *s = PL330(obj);

    dma330_device_reset(&s->device);
    memset(s->status, PL330_STOPPED, sizeof(s->status));
    s->next_channel = 0;
    timer_del(s->timer);
}

#if QEMU_VERSION_MAJOR < 10
static void pl330_reset_hold(Object *obj)
#else
static void pl330_reset_hold(Object *obj, ResetType type)
#endif
{
    pl330_set_irqs(PL330(obj));
}

/* A peripheral's request does nothing: the library has no peripherals. */
static void pl330_request(void *opaque, int n, int level)
{
    PL330State *s = opaque;

    if (level && !s->has_request) {
        s->has_request = true;
        qemu_log_mask(LOG_UNIMP, "pl330: requests of peripherals do nothing; "
                      "the first is of peripheral %d\n", n);
    }
}

static void pl330_realize(DeviceState *dev, Error **errp)
{
    PL330State *s = PL330(dev);
    SysBusDevice *sbd = SYS_BUS_DEVICE(dev);
    int32_t code;

    if (!s->memory) {
        error_setg(errp, "'memory' link is not set");
        return;
    }
    s->config.revision = 2; /* r1p1 */
    code = dma330_device_open(&s->device, &s->config);
    if (code == DMA330_BAD_CONFIG) {
        error_setg(errp, "no PL330 has these num_chnls, num_events, data_width "
                   "and data_buffer_dep");
        return;
    } else if (code != DMA330_OK) {
        error_setg(errp, "the library returned %s", dma330_code_name(code));
        return;
    }
    memory_region_init_io(&s->iomem, OBJECT(s), &pl330_ops, s, "pl330", 0x1000);
    sysbus_init_mmio(sbd, &s->iomem);
    sysbus_init_irq(sbd, &s->irq_abort);
    for (uint32_t n = 0; n < s->config.events; n++) {
        sysbus_init_irq(sbd, &s->irq[n]);
    }
    qdev_init_gpio_in(dev, pl330_request, 32);
    s->timer = timer_new_ns(QEMU_CLOCK_VIRTUAL, pl330_slice, s);
    s->space = g_new0(PL330Space, 1);
    address_space_init(&s->space->as, s->memory, "pl330");
    s->listener = (MemoryListener) {
        .name = "pl330",
        .begin = pl330_begin,
        .region_add = pl330_add,
        .region_nop = pl330_add,
        .commit = pl330_commit,
    };
    memory_listener_register(&s->listener, &s->space->as);
}

static void pl330_unrealize(DeviceState *dev)
{
    PL330State *s = PL330(dev);

    timer_free(s->timer);
    /* (begins and commits without regions, which drops all references) */
    memory_listener_unregister(&s->listener);
    /* (RCU calls in order, so it frees what it has destroyed) */
    address_space_destroy(&s->space->as);
    g_free_rcu(s->space, rcu);
    dma330_device_close(&s->device);
}

#if QEMU_VERSION_MAJOR < 10
#define PL330_CONST
#else
#define PL330_CONST const
#endif

#define PL330_IGNORED(n, name, value) \
    DEFINE_PROP_UINT32(name, PL330State, ignored[n], value)

static PL330_CONST Property pl330_properties[] = {
    DEFINE_PROP_UINT32("num_chnls", PL330State, config.channels, 8),
    DEFINE_PROP_UINT32("num_events", PL330State, config.events, 16),
    DEFINE_PROP_UINT32("mgr_ns_at_rst", PL330State, config.nonsecure, 0),
    DEFINE_PROP_UINT32("data_width", PL330State, config.bus, 64),
    DEFINE_PROP_UINT32("data_buffer_dep", PL330State, config.lines, 256),
    DEFINE_PROP_UINT32("step-ns", PL330State, step_ns, 0),
    PL330_IGNORED(0, "num_periph_req", 4), PL330_IGNORED(1, "i-cache_len", 4),
    PL330_IGNORED(2, "num_i-cache_lines", 8), PL330_IGNORED(3, "wr_cap", 8),
    PL330_IGNORED(4, "wr_q_dep", 16), PL330_IGNORED(5, "rd_cap", 8),
    PL330_IGNORED(6, "rd_q_dep", 16), PL330_IGNORED(7, "boot_addr", 0),
    PL330_IGNORED(8, "INS", 0), PL330_IGNORED(9, "PNS", 0),
    DEFINE_PROP_LINK("memory", PL330State, memory, TYPE_MEMORY_REGION,
                     MemoryRegion *),
#ifdef DEFINE_PROP_END_OF_LIST
    DEFINE_PROP_END_OF_LIST(), /* until QEMU 9.2 */
#endif
};

static void pl330_class_init(ObjectClass *klass, void *data)
{
    DeviceClass *dc = DEVICE_CLASS(klass);
    ResettableClass *rc = RESETTABLE_CLASS(klass);

    dc->realize = pl330_realize;
    dc->unrealize = pl330_unrealize;
    dc->vmsd = &vmstate_pl330;
    rc->phases.enter = pl330_reset_enter;
    rc->phases.hold = pl330_reset_hold;
    device_class_set_props(dc, pl330_properties);
}

static const TypeInfo pl330_types[] = { {
    .name = TYPE_PL330,
    .parent = TYPE_SYS_BUS_DEVICE,
    .instance_size = sizeof(PL330State),
    .class_init = pl330_class_init,
} };

DEFINE_TYPES(pl330_types)
