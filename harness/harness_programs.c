/* The programs that channels run: what they do, and what a chip would see that the model doesn't. */
#include "harness_inside.h"

#include <stdio.h>
#include <string.h>

enum { MOST_RANGES = 1024, MOST_INSTRUCTIONS = 16777216 };

/* The ranges and events of a program that is explained. */
static struct {
    dma330_repeated src[MOST_RANGES];
    dma330_segment dst[MOST_RANGES], zeros[MOST_RANGES];
    dma330_event events[MOST_RANGES];
    dma330_explanation explanation;
} found;

const struct program *find_program(uint32_t serial)
{
    for (int n = 0; n < KEPT; n++)
        if (serial != 0 && machine.programs[n].serial == serial)
            return &machine.programs[n];
    return NULL;
}

const struct program *last_program(const struct copy *it, uint32_t limit)
{
    const struct program *last = NULL;
    size_t copy = (size_t)(it - machine.copies);

    for (int n = 0; n < KEPT; n++) {
        const struct program *program = &machine.programs[n];
        if (program->serial > 0 && program->serial < limit && program->shares[copy].serial == it->serial &&
            (last == NULL || program->serial > last->serial))
            last = program;
    }
    return last;
}

const struct copy *copy_of(const struct program *it)
{
    uint32_t n = 0;

    while (n + 1 < HARNESS_MOST_COPIES && it->shares[n].serial == 0)
        n++;
    return &machine.copies[n];
}

/* Fails: something is wrong with an instruction of a program. */
static void fail_at(const struct program *it, uint32_t offset, const char *why)
{
    char text[TEXT], odd[ODD];

    fail("the program of channel %lu at 0x%08lX: %s at offset %lu, %s%s", (unsigned long)it->channel,
         (unsigned long)it->addr, why, (unsigned long)offset, text_of_instruction(it, offset, text),
         what_is_odd(it, odd));
}

/* ---- which bytes ---- */

/* Writes whether the driver has read a DAR that isn't of the copy of the channel's program before. */
static void say_dar(uint32_t channel, char text[PLACE])
{
    const struct program *before = machine.of_channel[channel];
    uint32_t dar = machine.shown[channel][1];

    for (unsigned n = 0; before != NULL && before->end != ENDED && dar != 0 && n < HARNESS_MOST_COPIES; n++) {
        const struct copy *it = &machine.copies[n];
        if (it->runs && it->serial == before->shares[n].serial && !is_inside(dar, 0, it->dst, it->len))
            sprintf(text, "; DAR%lu was read as 0x%08lX, which isn't in the destination of copy %u",
                    (unsigned long)channel, (unsigned long)dar, n);
    }
}

/* Writes what an address of a program that a DMAGO starts is to the copies, or to what the driver has read; returns the
 * buffer. */
static const char *what_is_there(uint32_t channel, uint32_t addr, char text[PLACE])
{
    const struct copy *starting = machine.starting;

    if (place_of(addr, text)[0] == '\0' && starting != NULL)
        sprintf(text, ": copy %ld, which is being started, is from 0x%08lX to 0x%08lX",
                (long)(starting - machine.copies), (unsigned long)starting->src, (unsigned long)starting->dst);
    if (text[0] == '\0')
        say_dar(channel, text);
    return text;
}

/* Expects that a program reads, stores or clears only ranges of running copies. */
static void expect_range(const struct program *it, uint32_t addr, uint32_t len, const char *does)
{
    bool is_store = strcmp(does, "reads") != 0;
    char place[PLACE], odd[ODD];

    if (may_use(addr, len, is_store))
        return;
    fail("the program of channel %lu at 0x%08lX %s %lu bytes at 0x%08lX, which aren't inside a running copy's %s%s%s",
         (unsigned long)it->channel, (unsigned long)it->addr, does, (unsigned long)len, (unsigned long)addr,
         is_store ? "destination" : "source", what_is_there(it->channel, addr, place), what_is_odd(it, odd));
}

/* Fails: a program stores a byte of a copy from a wrong address. */
static void fail_place(const struct program *it, uint32_t src, uint32_t dst, bool is_fixed, const struct copy *copy)
{
    const struct program *before = last_program(copy, it->serial);
    const uint32_t *shown = before == NULL ? NULL : machine.shown[before->channel];
    uint32_t wanted = copy->src + (dst - copy->dst);
    char odd[ODD], why[PLACE] = "";

    if (is_fixed)
        sprintf(why, ": the source's address doesn't rise");
    else if (shown != NULL && (shown[0] - copy->src) - (shown[1] - copy->dst) == src - wanted)
        sprintf(why, ": SAR was %lu bytes ahead of DAR, which were loaded and not stored",
                (unsigned long)(src - wanted));
    machine.about = copy;
    fail("the program of channel %lu at 0x%08lX stores byte %lu of copy %ld from 0x%08lX, wanted from 0x%08lX%s%s",
         (unsigned long)it->channel, (unsigned long)it->addr, (unsigned long)(dst - copy->dst),
         (long)(copy - machine.copies), (unsigned long)src, (unsigned long)wanted, why, what_is_odd(it, odd));
}

/* Expects that a program which copies a range stores each byte of a running copy from its place. Bytes from or to the
 * driver's RAM may come from anywhere. */
static void expect_place(struct program *it, uint32_t src, uint32_t dst, uint32_t len, bool is_fixed)
{
    const struct copy *copy = copy_that_stores(dst);
    struct share *share;
    uint32_t first;

    if (copy == NULL)
        return;
    if (!is_inside(src, 1, HARNESS_RAM, HARNESS_DRIVER_BYTES) && src - copy->src != dst - copy->dst)
        fail_place(it, src, dst, is_fixed, copy);
    share = &it->shares[copy - machine.copies];
    first = dst - copy->dst;
    if (share->bytes > 0 && first > share->last && share->hole_end == 0) {
        share->hole = share->last;
        share->hole_end = first;
    }
    share->first = share->bytes == 0 || first < share->first ? first : share->first;
    share->last = first + len > share->last ? first + len : share->last;
    share->serial = copy->serial;
    share->bytes += len;
}

/* Expects that each byte that an explained program copies comes from its place. */
static void expect_places(struct program *it)
{
    size_t from = 0, to = 0;
    uint32_t read = 0, stored = 0, round = 0;

    while (from < found.explanation.src_len && to < found.explanation.dst_len) {
        const dma330_repeated *src = &found.src[from];
        const dma330_segment *dst = &found.dst[to];
        uint32_t len = src->len - read < dst->len - stored ? src->len - read : dst->len - stored;
        expect_place(it, src->addr + read, dst->addr + stored, len, src->times > 1 && round > 0);
        read += len;
        stored += len;
        if (read == src->len) {
            read = 0;
            round = round + 1 < src->times ? round + 1 : 0;
            from += round == 0;
        }
        if (stored == dst->len) {
            stored = 0;
            to++;
        }
    }
}

/* ---- what a program does ---- */

/* Notes that a program signals an event, or waits for it, and expects that the chip has it. */
static void note_use(struct program *it, uint32_t event, bool is_signal)
{
    if (event >= machine.driver->chip.events)
        fail("the program of channel %lu at 0x%08lX %s event %lu, but the chip has %lu", (unsigned long)it->channel,
             (unsigned long)it->addr, is_signal ? "signals" : "waits for", (unsigned long)event,
             (unsigned long)machine.driver->chip.events);
    it->signals |= is_signal ? 1u << event : 0;
}

/* Expects that the library explains a program. Some causes are left to the comparison of bytes. */
static void explain(struct program *it)
{
    int32_t code = dma330_device_explain(&machine.device, (uint8_t)it->channel, MOST_INSTRUCTIONS, found.src,
                                         MOST_RANGES, found.dst, MOST_RANGES, found.zeros, MOST_RANGES, found.events,
                                         MOST_RANGES, &found.explanation);

    it->cause = code == DMA330_UNEXPLAINED ? found.explanation.cause : (uint32_t)DMA330_CAUSE_NONE;
    it->pc = found.explanation.pc;
    it->at = found.explanation.addr;
    if (code == DMA330_UNEXPLAINED && it->cause != DMA330_CAUSE_STORES_TWICE &&
        it->cause != DMA330_CAUSE_STORES_SOURCE && it->cause != DMA330_CAUSE_STORES_FIXED)
        fail_at(it, it->pc, dma330_cause_name(it->cause));
    it->is_explained = code == DMA330_OK;
    if (!it->is_explained)
        return;
    for (size_t n = 0; n < found.explanation.src_len; n++)
        expect_range(it, found.src[n].addr, found.src[n].len, "reads");
    for (size_t n = 0; n < found.explanation.dst_len; n++)
        expect_range(it, found.dst[n].addr, found.dst[n].len, "stores");
    for (size_t n = 0; n < found.explanation.zeros_len; n++)
        expect_range(it, found.zeros[n].addr, found.zeros[n].len, "clears");
    expect_places(it);
    for (size_t n = 0; n < found.explanation.events_len; n++)
        note_use(it, found.events[n].event, found.events[n].kind == DMA330_SIGNALS);
}

/* Returns whether a program is the last one of its channel, or of a running copy. */
static bool is_last(const struct program *it)
{
    bool is = machine.of_channel[it->channel] == it;

    for (int n = 0; it->serial > 0 && n < HARNESS_MOST_COPIES; n++)
        is = is || (machine.copies[n].runs && last_program(&machine.copies[n], machine.started + 1) == it);
    return is;
}

/* Returns the oldest program that isn't such a last one. */
static struct program *oldest_program(void)
{
    struct program *oldest = NULL;

    for (int n = 0; n < KEPT; n++) {
        struct program *it = &machine.programs[n];
        if (!is_last(it) && (oldest == NULL || it->serial < oldest->serial))
            oldest = it;
    }
    return oldest;
}

/* Returns the program that has already stored, and ended, what a new one stores in copy n, or NULL. */
static const struct program *done_before(const struct program *it, size_t n)
{
    const struct copy *copy = &machine.copies[n];
    const struct share *share = &it->shares[n];

    for (const struct program *old = last_program(copy, it->serial); old != NULL;
         old = last_program(copy, old->serial)) {
        const struct share *done = &old->shares[n];
        bool is_one = done->bytes > 0 && done->bytes == done->last - done->first;
        if (old->end == ENDED && share->bytes > 0 && is_one && done->first <= share->first && share->last <= done->last)
            return old;
        if (old->end == ENDED && copy->len > 0 && copy->stored >= copy->len)
            return old;
    }
    return NULL;
}

/* Finds the copies and events of a program that isn't explained, by its DMAMOV DAR and DMASEV instructions. */
static void scan(struct program *it)
{
    uint32_t len;

    for (uint32_t at = 0; at + 6 <= it->len && it->bytes[at] != 0; at += len) {
        const uint8_t *move = it->bytes + at;
        uint32_t addr = move[2] | (uint32_t)move[3] << 8 | (uint32_t)move[4] << 16 | (uint32_t)move[5] << 24;
        const struct copy *copy = copy_that_stores(addr);
        len = length_of_instruction(move[0]);
        if (move[0] == 0xBC && move[1] == 2 && copy != NULL)
            it->shares[copy - machine.copies].serial = copy->serial;
        if (move[0] == DMASEV)
            note_use(it, move[1] >> 3, true);
    }
}

/* Expects that a program stores nothing that is stored already. One that stores in no copy, as far as is known, is for
 * the copy that is being started. */
static void expect_needed(struct program *it)
{
    bool is_known = false;

    if (!it->is_explained)
        scan(it);
    for (int n = 0; n < HARNESS_MOST_COPIES; n++)
        is_known = is_known || it->shares[n].serial != 0;
    if (!is_known && machine.starting != NULL)
        it->shares[machine.starting - machine.copies].serial = machine.starting->serial;
    for (unsigned n = 0; n < HARNESS_MOST_COPIES; n++) {
        struct copy *copy = &machine.copies[n];
        const struct program *before = done_before(it, n);
        if (!copy->runs || it->shares[n].serial != copy->serial)
            continue;
        copy->moved = machine.tick;
        copy->programs++;
        machine.about = copy;
        if (before != NULL && !is_disturbed())
            fail("copy %u is started again without need: %s", n, why_again(before));
        machine.about = NULL;
    }
}

void program_starts(uint32_t channel, uint32_t addr)
{
    struct program *it = oldest_program();
    uint32_t len = bytes_at(addr);

    memset(it, 0, sizeof *it);
    it->serial = ++machine.started;
    it->channel = channel;
    it->addr = addr;
    it->started = machine.tick;
    it->len = len < DMA330_MAX_PROGRAM ? len : DMA330_MAX_PROGRAM;
    if (len == 0)
        fail("a DMAGO of channel %lu at 0x%08lX, which is no address of RAM", (unsigned long)channel,
             (unsigned long)addr);
    memcpy(it->bytes, harness_ram(addr), it->len);
    explain(it);
    expect_needed(it);
    machine.of_channel[channel] = it;
    memset(machine.shown[channel], 0, sizeof machine.shown[channel]);
}

void program_ends(uint32_t channel, enum end end)
{
    struct program *it = machine.of_channel[channel];

    if (it == NULL || it->end != RUNS)
        return;
    it->end = end;
    it->ended = machine.tick;
    it->sar = look(SAR + 32 * channel);
    it->dar = look(DAR + 32 * channel);
    it->ftr = end == FAILED ? look(FTR + 4 * channel) : 0;
}

void expect_no_fault(uint32_t channel)
{
    const struct program *it = machine.of_channel[channel];
    char names[NAMES];

    if (machine.trouble != GAP && machine.trouble != ROM)
        fail_at(it, look(CPC + 8 * channel) - it->addr, names_of_faults(look(FTR + 4 * channel), names));
}

/* Expects that the chip's buffer has room for a channel's loads. */
static void expect_room(uint32_t channel)
{
    const dma330_device_config *chip = &machine.driver->chip;
    uint32_t ccr = look(CCR + 32 * channel), bytes = ((ccr >> 4 & 15) + 1) << (ccr >> 1 & 7);

    if (bytes > chip->lines * chip->bus / 8)
        fail("a DMALD of %lu bytes: the chip's buffer has %lu lines of %lu", (unsigned long)bytes,
             (unsigned long)chip->lines, (unsigned long)chip->bus / 8);
}

uint32_t expect_instruction(uint32_t channel)
{
    const struct program *it = machine.of_channel[channel];
    uint32_t at = look(CPC + 8 * channel) - it->addr, len;
    char text[TEXT];
    uint8_t first, next = 0;

    if (at >= it->len)
        return EVENTS;
    first = it->bytes[at];
    len = length_of_instruction(first);
    if (first == DMASEV && at + len < it->len) { /* if it raises an interrupt, the turn executes one more */
        next = it->bytes[at + len];
        len += length_of_instruction(next);
    }
    if (at + len > it->len)
        return EVENTS;
    if (memcmp(harness_ram(it->addr + at), it->bytes + at, len) != 0)
        fail("the running program of channel %lu at 0x%08lX was overwritten at offset %lu, %s: a chip reads the new "
             "bytes; %s", (unsigned long)channel, (unsigned long)it->addr, (unsigned long)at,
             text_of_instruction(it, at, text), why_running(it));
    if (first == DMALD || next == DMALD)
        expect_room(channel);
    return first == DMASEV ? it->bytes[at + 1] >> 3 : (uint32_t)EVENTS;
}
