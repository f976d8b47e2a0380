/* The causes of failures, from what was noted of programs, events and the driver's accesses. */
#include "harness_inside.h"

#include <stdarg.h>
#include <stdio.h>
#include <string.h>

enum { WHY = 1200 };

static char why[WHY];

/* ---- texts ---- */

/* Appends to the cause. */
static void say(const char *format, ...)
{
    size_t len = strlen(why);
    va_list values;

    va_start(values, format);
    vsnprintf(why + len, WHY - len, format, values);
    va_end(values);
}

/* Says what became of an event's interrupt. */
static void say_interrupt(uint32_t event, const struct event *it)
{
    bool is_read = it->shown >= it->signalled, is_cleared = it->cleared >= it->signalled;

    if (high_lines() >> event & 1)
        say(", and irq[%lu] has been high since then", (unsigned long)event);
    if (is_cleared && !it->was_shown)
        say(", and INTCLR cleared it at tick %lu, before the driver had read it", (unsigned long)it->cleared);
    else if (!is_read)
        say(", and the driver hasn't read it");
    else if (is_cleared)
        say(", the driver read it at tick %lu, and INTCLR cleared it at tick %lu", (unsigned long)it->shown,
            (unsigned long)it->cleared);
    else if (it->is_ignored)
        say(", and INTCLR hasn't cleared it, since INTEN was 0 then");
    else if (machine.clear_tick >= it->signalled)
        say(": the driver read it at tick %lu, and INTCLR, written as 0x%lX at tick %lu, hasn't cleared it",
            (unsigned long)it->shown, (unsigned long)machine.clear, (unsigned long)machine.clear_tick);
    else
        say(": the driver read it at tick %lu, and hasn't written INTCLR since then", (unsigned long)it->shown);
}

/* Says which channel it is; MOST_CHANNELS is the manager. */
static void say_channel(uint32_t channel)
{
    if (channel < MOST_CHANNELS)
        say("channel %lu", (unsigned long)channel);
    else
        say(channel == MOST_CHANNELS ? "the manager" : "an earlier program");
}

/* Says what happened to an event. */
static void say_event(uint32_t event)
{
    const struct event *it = &machine.events[event];
    const struct program *by = find_program(it->by);

    if (it->raw > 0 && it->raw == it->shown) {
        say("INT_EVENT_RIS, read at tick %lu, has event %lu, which is no interrupt: INTMIS doesn't have it",
            (unsigned long)it->raw, (unsigned long)event);
        return;
    }
    if (it->signalled == 0) {
        say("event %lu wasn't signalled", (unsigned long)event);
        return;
    }
    say("event %lu was signalled at tick %lu by ", (unsigned long)event, (unsigned long)it->signalled);
    say_channel(it->by == 0 ? (uint32_t)MOST_CHANNELS : by != NULL ? by->channel : (uint32_t)EVENTS);
    if (it->is_plain)
        say(", and made no interrupt: INTEN %s 0x%lX", it->inten == look(INTEN) ? "is" : "was then",
            (unsigned long)it->inten);
    else
        say_interrupt(event, it);
    if (it->again <= it->signalled)
        return;
    say("; it was signalled again at tick %lu, while it was set, by ", (unsigned long)it->again);
    say_channel(it->again_by);
}

/* Says what happened to each event of a set, which another channel than that of a program may have signalled; or that
 * the program signals none. */
static void say_events(uint32_t events, const struct program *it)
{
    const char *before = "";

    for (uint32_t n = 0; n < EVENTS; n++) {
        const struct program *by = find_program(machine.events[n].by);
        if ((events >> n & 1) == 0)
            continue;
        say("%s", before);
        if (it != NULL && by != NULL && by->channel != it->channel)
            say("channel %lu signals event %lu too: ", (unsigned long)by->channel, (unsigned long)n);
        say_event(n);
        before = "; ";
    }
    if (events == 0)
        say("its program signals no event");
}

/* Says what the driver has read since a tick, other than a set event: since then, or since a later tick, if not 0, when
 * the copy was busy. */
static void say_no_event(uint32_t since, uint32_t busy, const struct program *it)
{
    uint32_t channel = it == NULL ? 0 : it->channel;

    if (busy == 0)
        say("the driver has read no event as set since then");
    else
        say("the driver has read no event as set since tick %lu, when the copy was busy", (unsigned long)busy);
    since = busy == 0 ? since : busy;
    if (it != NULL && machine.csr_shown[channel] <= since)
        say(", nor CSR%lu", (unsigned long)channel);
    else if (it != NULL)
        say(", but CSR%lu as %s at tick %lu", (unsigned long)channel, dma330_csr_name(machine.csr[channel]),
            (unsigned long)machine.csr_shown[channel]);
    if (machine.idle_call > since)
        say("; its handler was called at tick %lu, while no line was high", (unsigned long)machine.idle_call);
}

/* Returns which event of a set the driver has last read as set after a tick, or EVENTS. */
static uint32_t last_shown(uint32_t events, uint32_t since)
{
    uint32_t last = EVENTS;

    for (uint32_t n = 0; n < EVENTS; n++)
        if (events >> n & 1 && machine.events[n].shown > since &&
            (last == EVENTS || machine.events[n].shown >= machine.events[last].shown))
            last = n;
    return last;
}

/* Says why the driver may take a copy as done: by an event of its program that it has read as set since the DMAGO, or
 * else by another one since the copy was last busy. */
static void say_shown(const struct copy *copy, const struct program *it)
{
    uint32_t since = it == NULL ? copy->started : it->started, events = it == NULL ? 0 : it->signals;
    uint32_t own = last_shown(events, since), other = last_shown(~events, copy->busy);

    if (own == EVENTS && other == EVENTS) {
        say_no_event(since, last_shown(~events, since) == EVENTS ? 0 : copy->busy, it);
        return;
    }
    if (own == EVENTS)
        say("the driver has read none of this copy's events as set, but another one: ");
    else if (machine.events[own].by == it->serial)
        say("its program signals event %lu before its last store: ", (unsigned long)own);
    else if (machine.events[own].raw != machine.events[own].shown)
        say("the interrupt is %s: ", machine.events[own].signalled < it->started ? "from before this program" :
            machine.events[own].by == 0 ? "the manager's" : "another program's");
    say_event(own != EVENTS ? own : other);
}

/* Says how a program has failed or was killed. */
static void say_end(const struct program *it)
{
    char names[NAMES], text[TEXT];
    uint32_t at = look(CPC + 8 * it->channel) - it->addr;

    if (it->end == KILLED)
        say("channel %lu was killed at tick %lu", (unsigned long)it->channel, (unsigned long)it->ended);
    if (it->end == FAILED)
        say("channel %lu failed with %s at tick %lu", (unsigned long)it->channel, names_of_faults(it->ftr, names),
            (unsigned long)it->ended);
    if (it->end == FAILED && machine.of_channel[it->channel] == it && status_of(it->channel) == FAULTING)
        say(" at %s, and FSRC was %s", text_of_instruction(it, at, text),
            machine.fault_shown >= it->ended ? "read since" : "not read since");
}

/* ---- causes ---- */

/* Says which bytes of a copy a program stores, and which ones the program before had only loaded. */
static void say_range(const struct copy *it, const struct program *last)
{
    size_t n = (size_t)(it - machine.copies);
    const struct share *share = &last->shares[n];
    const struct program *before = last_program(it, last->serial);
    bool is_last = last == last_program(it, machine.started + 1);
    uint32_t loaded = before == NULL ? 0 : (before->sar - it->src) - (before->dar - it->dst);

    say("its %sprogram stores %lu of its %lu bytes", !is_last ? "next " : before != NULL ? "last " : "",
        (unsigned long)share->bytes, (unsigned long)it->len);
    if (share->bytes > 0 && (share->first > 0 || before != NULL))
        say(", from %lu on", (unsigned long)share->first);
    if (share->hole_end > 0)
        say(", and leaves out those from %lu to %lu", (unsigned long)share->hole, (unsigned long)share->hole_end - 1);
    if (before == NULL || before->end == ENDED)
        return;
    say("; the one before had stored %lu, and had loaded %lu more: ", (unsigned long)before->shares[n].stored,
        (unsigned long)loaded);
    say_end(before);
}

/* Says why a program isn't explained. */
static void say_cause(const struct program *it)
{
    char text[TEXT], place[PLACE];

    say("its program isn't explained: %s at offset %lu, %s", dma330_cause_name(it->cause), (unsigned long)it->pc,
        text_of_instruction(it, it->pc, text));
    if (it->at != 0)
        say(", for 0x%08lX%s", (unsigned long)it->at, place_of(it->at, place));
}

/* Returns whether an explained program has stored a byte of its copy. */
static bool has_stored(const struct program *it, const struct share *share, uint32_t byte)
{
    uint32_t last = it->end == ENDED ? share->last : share->first + share->stored;

    if (share->bytes < share->last - share->first && it->end == ENDED)
        last = share->hole;
    return it->is_explained && share->first <= byte && byte < last;
}

/* Returns the first of a copy's last programs that begin after a byte, or the last program. */
static const struct program *around(const struct copy *it, uint32_t byte, const struct program *last)
{
    size_t n = (size_t)(it - machine.copies);
    const struct program *before = last_program(it, last->serial);

    while (before != NULL && before->is_explained && before->shares[n].first > byte) {
        last = before;
        before = last_program(it, last->serial);
    }
    return last;
}

/* Says why a copy has a wrong byte though its last program has ended. */
static void say_byte(const struct copy *it, uint32_t byte, const struct program *last)
{
    size_t n = (size_t)(it - machine.copies);
    const struct program *by = last;

    while (by != NULL && !has_stored(by, &by->shares[n], byte))
        by = last_program(it, by->serial);
    if (by != NULL)
        say("channel %lu has stored it, and then the driver has changed it", (unsigned long)by->channel);
    else if (last->cause != DMA330_CAUSE_NONE)
        say_cause(last);
    else
        say_range(it, around(it, byte, last));
}

const char *why_early(const struct program *it)
{
    why[0] = '\0';
    say_shown(copy_of(it), it);
    return why;
}

const char *why_running(const struct program *it)
{
    const struct copy *copy;

    why[0] = '\0';
    if (it == NULL) {
        say("no program was started on it before");
        return why;
    }
    copy = copy_of(it);
    say("it was started at tick %lu for copy %ld, and ", (unsigned long)it->started, (long)(copy - machine.copies));
    if (copy == machine.stopping)
        say("that copy is being stopped");
    else
        say_shown(copy, it);
    return why;
}

const char *why_done(const struct copy *it, uint32_t byte)
{
    const struct program *last = last_program(it, machine.started + 1);
    char odd[ODD];

    why[0] = '\0';
    if (last == NULL) {
        say("no program was started for it; ");
        say_shown(it, NULL);
        return why;
    }
    if (last->end == RUNS) {
        say("channel %lu executes its program; ", (unsigned long)last->channel);
        say_shown(it, last);
    } else if (last->end == ENDED) {
        say_byte(it, byte, last);
    } else {
        say_end(last);
        say(", and nothing was started for the copy since then");
    }
    say("%s", what_is_odd(last, odd));
    return why;
}

/* Says whether the last program of all was started after a tick, and stores no byte of a copy. */
static void say_nothing(uint32_t since)
{
    const struct program *last = find_program(machine.started);
    bool is_none = last != NULL && last->is_explained && last->started >= since;

    for (size_t n = 0; is_none && n < HARNESS_MOST_COPIES; n++)
        is_none = last->shares[n].bytes == 0;
    if (is_none)
        say("; the last program, started at tick %lu on channel %lu, stores no byte of a copy",
            (unsigned long)last->started, (unsigned long)last->channel);
}

/* Says what a program that runs does now. */
static void say_present(const struct program *it)
{
    uint32_t csr = look(CSR + 8 * it->channel);
    char text[TEXT];

    if ((csr & 15) == WAITING)
        say("channel %lu waits for event %lu", (unsigned long)it->channel, (unsigned long)(csr >> 4 & 31));
    else
        say("channel %lu %s at %s", (unsigned long)it->channel,
            machine.slow_until[it->channel] == STUCK ? "is stuck, until a DMAKILL," : "is",
            text_of_instruction(it, look(CPC + 8 * it->channel) - it->addr, text));
}

const char *why_waiting(const struct copy *it)
{
    const struct program *last = last_program(it, machine.started + 1);

    why[0] = '\0';
    if (last == NULL) {
        say("no program was started for it");
        say_nothing(it->started);
        return why;
    }
    if (it->programs > 1)
        say("%lu programs were started for it up to tick %lu; ", (unsigned long)it->programs,
            (unsigned long)last->started);
    if (last->end == RUNS) {
        say_present(last);
    } else if (last->end == ENDED) {
        say("channel %lu ended its program at tick %lu; ", (unsigned long)last->channel,
            (unsigned long)last->ended);
        say_events(last->signals, last);
        say_nothing(last->ended);
    } else {
        say_end(last);
        say(", and nothing was started for the copy since then");
        say_nothing(last->ended);
    }
    return why;
}

const char *why_again(const struct program *before)
{
    why[0] = '\0';
    say("channel %lu had stored the same bytes, and ended at tick %lu; ", (unsigned long)before->channel,
        (unsigned long)before->ended);
    say_events(before->signals, before);
    return why;
}

const char *why_high(void)
{
    uint64_t lines = high_lines();

    why[0] = '\0';
    if ((uint32_t)lines != 0)
        say_events((uint32_t)lines, NULL);
    for (uint32_t n = 0; n < machine.driver->chip.channels && lines >> 32 != 0; n++)
        if (look(FSRC) >> n & 1) {
            say("%sirq_abort is high: ", why[0] != '\0' ? "; " : "");
            say_end(machine.of_channel[n]);
            if (machine.last_kill > 0)
                say(", and the last DMAKILL was of channel %lu", (unsigned long)machine.last_kill - 1);
        }
    return why;
}
