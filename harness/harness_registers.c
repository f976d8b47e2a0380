/* The device's registers as a chip shows them, and which accesses are wrong there. */
#include "harness_inside.h"

#include <stdio.h>
#include <string.h>

enum { MOST_ACCESSES = 50000, MOST_KILLS = 10000 };

/* ---- the log ---- */

static bool is_same(const struct access *one, const struct access *other)
{
    return one->offset == other->offset && one->value == other->value && one->is_write == other->is_write;
}

/* Returns the access that is `back` before the next one of the log. */
static struct access *logged(uint32_t back)
{
    return &machine.last[(machine.accesses - back) % ROOM];
}

/* Appends an access to the log. If the last ones repeat those before them, these are counted in their place. */
static void append(const struct access *it)
{
    machine.last[machine.accesses++ % ROOM] = *it;
    for (uint32_t period = 1; period <= PERIOD && machine.accesses >= 2 * period; period++) {
        uint32_t n = 1;
        while (n <= period && is_same(logged(n), logged(n + period)) && logged(n + period)->again == 0)
            n++;
        if (n <= period)
            continue;
        machine.accesses -= period;
        logged(1)->period = machine.period = period;
        logged(1)->again = 1;
        logged(1)->last = it->tick;
        return;
    }
}

/* Logs an access. One that goes on with a repetition is only counted when that is whole. */
static void log_access(uint32_t offset, uint32_t value, bool is_write)
{
    const struct access access = {machine.tick, offset, value, is_write, 0, 0, 0};

    machine.now = access;
    if (machine.period > 0 && is_same(&access, logged(machine.period - machine.waiting))) {
        machine.begun[machine.waiting++] = access;
        if (machine.waiting < machine.period)
            return;
        machine.waiting = 0;
        logged(1)->again++;
        logged(1)->last = machine.tick;
        return;
    }
    machine.period = 0;
    for (uint32_t n = 0; n < machine.waiting; n++)
        machine.last[machine.accesses++ % ROOM] = machine.begun[n];
    machine.waiting = 0;
    append(&access);
}

/* ---- accesses ---- */

/* Notes that the driver has read a register, if it is a CSR, a SAR or a DAR. */
static void note_channel(uint32_t offset, uint32_t value)
{
    uint32_t channel = (offset - CSR) / 8, wide = (offset - SAR) / 32;

    if (offset >= CSR && channel < MOST_CHANNELS && offset % 8 == 0) {
        machine.csr[channel] = value;
        machine.csr_shown[channel] = machine.tick;
    }
    if (offset >= SAR && wide < MOST_CHANNELS && offset % 32 <= 4)
        machine.shown[wide][offset % 32 / 4] = value;
}

/* Notes an access, and lets the time pass that the chip needs for what it was told before. */
static void note_access(uint32_t offset, uint32_t value, bool is_write)
{
    char name[NAME];

    log_access(offset, value, is_write);
    machine.is_access = true;
    machine.debug_busy -= machine.debug_busy > 0;
    for (int n = 0; n < MOST_CHANNELS; n++)
        machine.killing[n] -= machine.killing[n] > 0;
    if (*name_of_register(offset, name) == '\0')
        fail("there is no register at 0x%03lX", (unsigned long)offset);
    if (!is_write && (offset == INTMIS || offset == INT_EVENT_RIS))
        note_status(offset, value);
    if (!is_write && offset == FSRC && value != 0)
        machine.fault_shown = machine.tick;
    if (!is_write)
        note_channel(offset, value);
    if (++machine.accesses_of_call == MOST_ACCESSES && machine.last_kill == 0)
        fail("the driver doesn't return: %d accesses in one call, and no byte is stored; %s is 0x%lX", MOST_ACCESSES,
             name, (unsigned long)value);
    if (machine.accesses_of_call == MOST_ACCESSES)
        fail("the driver doesn't return: %d accesses in one call, and no byte is stored; %s is 0x%lX, and the last "
             "DMAKILL was of channel %lu", MOST_ACCESSES, name, (unsigned long)value,
             (unsigned long)machine.last_kill - 1);
}

/* Returns a register as the chip shows it, which takes some time to execute a debug instruction. */
static uint32_t shown(uint32_t offset)
{
    uint32_t channel = (offset - CSR) / 8;

    if (offset == DBGSTATUS)
        return machine.debug_busy > 0;
    if (offset >= CSR && channel < MOST_CHANNELS && offset % 8 == 0 && machine.killing[channel] > 0)
        return (look(offset) & ~15u) | KILLING;
    return look(offset);
}

/* Begins the tick of an access. At times the processor does something else before it. */
static void begin_access(void)
{
    for (uint32_t n = draw(32) == 0 ? draw(65) : 0; n > 0; n--) {
        begin_tick();
        end_tick();
    }
    begin_tick();
}

uint32_t harness_read(uint32_t offset)
{
    uint32_t value;

    begin_access();
    value = shown(offset);
    note_access(offset, value, false);
    end_tick();
    return value;
}

/* Expects that a DMAGO starts its channel. */
static void expect_go(uint32_t channel)
{
    uint32_t status;

    if (machine.first & 1)
        fail("a DMAGO is given to a channel: only the manager executes it");
    if (channel >= machine.driver->chip.channels)
        fail("a DMAGO of channel %lu, but the chip has %lu", (unsigned long)channel,
             (unsigned long)machine.driver->chip.channels);
    status = machine.killing[channel] > 0 ? (uint32_t)KILLING : status_of(channel);
    if (status != STOPPED && machine.first & 0xFF00)
        fail("a DMAGO of channel %lu, whose status is %s: DBGINST0 is 0x%08lX, and a DMAGO's channel is in its bits "
             "31:24", (unsigned long)channel, dma330_csr_name(status), (unsigned long)machine.first);
    if (status != STOPPED)
        fail("a DMAGO of channel %lu, whose status is %s: the chip ignores it; %s", (unsigned long)channel,
             dma330_csr_name(status), why_running(machine.of_channel[channel]));
}

/* Expects that a channel which is killed has failed, or that something has gone wrong, or that a copy is stopped. */
static void expect_kill(uint32_t channel)
{
    const struct program *it = machine.of_channel[channel];
    const struct share *share;

    if (status_of(channel) == STOPPED)
        return;
    if (++machine.kills == MOST_KILLS)
        fail("channels are killed for the %dth time in this run, this time channel %lu, %lu ticks after the DMAGO of "
             "its program: the driver doesn't wait long enough", MOST_KILLS, (unsigned long)channel,
             (unsigned long)(machine.tick - it->started));
    if (status_of(channel) == FAULTING || is_disturbed() || machine.stops > 0)
        return;
    machine.about = copy_of(it);
    share = &it->shares[machine.about - machine.copies];
    fail("channel %lu is killed without need, %lu ticks after the DMAGO of its program, which has stored %lu of %lu "
         "bytes of copy %ld: %s", (unsigned long)channel, (unsigned long)(machine.tick - it->started),
         (unsigned long)share->stored, (unsigned long)share->bytes, (long)(machine.about - machine.copies),
         why_waiting(machine.about));
}

/* Notes that a DMAKILL ends a thread. A channel then is killing for some accesses. */
static void note_kill(void)
{
    uint32_t channel = machine.first >> 8 & 7;

    if (!(machine.first & 1)) {
        if ((look(DSR) & 15) != FAULTING)
            fail("DBGCMD executes DBGINST0, 0x%08lX: a DMAKILL of the manager, which isn't faulting, since bit 0 is 0",
                 (unsigned long)machine.first);
        return;
    }
    if (channel >= machine.driver->chip.channels)
        fail("a DMAKILL of channel %lu, but the chip has %lu", (unsigned long)channel,
             (unsigned long)machine.driver->chip.channels);
    expect_kill(channel);
    program_ends(channel, KILLED);
    machine.last_kill = channel + 1;
    if (machine.slow_until[channel] == STUCK)
        machine.slow_until[channel] = 0;
    machine.killing[channel] = draw(12);
}

/* Fails: a DMAGO has started no channel. */
static void fail_started(void)
{
    bool is_refused = (look(DSR) >> 9 & 1) != 0 && (machine.first >> 17 & 1) == 0;
    char names[NAMES];

    fail("a DMAGO has started no channel: the manager has failed with %s%s", names_of_faults(look(FTRD), names),
         is_refused ? "; it is non-secure, and the DMAGO is for a secure channel" : "");
}

/* Expects that a DMASEV signals an event. */
static void expect_signal(uint32_t event)
{
    if (event >= machine.driver->chip.events)
        fail("a DMASEV of event %lu, but the chip has %lu", (unsigned long)event,
             (unsigned long)machine.driver->chip.events);
    if (machine.first >> 24 & 7)
        fail("a DMASEV that fails: DBGINST0 is 0x%08lX, and a DMASEV's event is in its bits 31:27, with 0 in bits 26:24",
             (unsigned long)machine.first);
}

/* Executes the debug instruction: expects that the chip does. */
static void execute(uint32_t value)
{
    uint32_t code = machine.first >> 16 & 0xFF, channel = machine.first >> 24, event = machine.first >> 27;
    bool is_go = code == 0xA0 || code == 0xA2, was_set;

    if (value & 3)
        fail("DBGCMD is written with 0x%lX: only 0 executes", (unsigned long)value);
    if (is_go)
        expect_go(channel);
    else if (code == 0x01)
        note_kill();
    else if (code == DMASEV)
        expect_signal(event);
    else
        fail("DBGINST0 has instruction 0x%02lX: the device executes DMAGO, DMASEV and DMAKILL there",
             (unsigned long)code);
    machine.debug_busy = draw(2) * (1 + draw(6));
    was_set = look(INTMIS) >> event & 1;
    set_register(DBGCMD, value);
    if (code == DMASEV)
        note_event(event, NULL, was_set);
    if (is_go && status_of(channel) == EXECUTING)
        program_starts(channel, machine.second);
    else if (is_go)
        fail_started();
}

void harness_write(uint32_t offset, uint32_t value)
{
    bool is_busy = machine.debug_busy > 0;
    char name[NAME];

    begin_access();
    note_access(offset, value, true);
    if (is_busy && (offset == DBGCMD || offset == DBGINST0 || offset == DBGINST1))
        fail("a debug register is written while DBGSTATUS is busy: the chip ignores it");
    if (offset == DBGINST0)
        machine.first = value;
    if (offset == DBGINST1)
        machine.second = value;
    if (offset == INTCLR)
        note_clear(value);
    if (offset == DBGCMD)
        execute(value);
    else if (offset != INTEN && offset != INTCLR && offset != DBGINST0 && offset != DBGINST1)
        fail("%s is written, which can only be read", name_of_register(offset, name));
    else
        set_register(offset, value);
    end_tick();
}
