/* What is noted of events, for the causes of failures. */
#include "harness_inside.h"

void note_event(uint32_t event, const struct program *by, bool was_set)
{
    struct event *it = &machine.events[event];

    if (was_set) {
        it->again = machine.tick;
        it->again_by = by == NULL ? (uint32_t)MOST_CHANNELS : by->channel;
        return;
    }
    it->signalled = machine.tick;
    it->by = by == NULL ? 0 : by->serial;
    it->is_ignored = false;
    it->inten = look(INTEN);
    it->is_plain = (it->inten >> event & 1) == 0;
}

void note_status(uint32_t offset, uint32_t value)
{
    uint32_t plain = offset == INT_EVENT_RIS ? value & ~look(INTMIS) : 0;

    for (uint32_t n = 0; n < EVENTS; n++) {
        if (value >> n & 1)
            machine.events[n].shown = machine.tick;
        if (plain >> n & 1)
            machine.events[n].raw = machine.tick;
    }
}

void note_clear(uint32_t value)
{
    uint64_t lines = high_lines();

    machine.clear = value;
    machine.clear_tick = machine.tick;
    for (uint32_t n = 0; n < EVENTS; n++) {
        struct event *it = &machine.events[n];
        if ((value >> n & 1) == 0 || (lines >> n & 1) == 0)
            continue;
        it->is_ignored = (look(INTEN) >> n & 1) == 0;
        it->was_shown = it->shown >= it->signalled;
        it->cleared = it->is_ignored ? it->cleared : machine.tick;
    }
}
