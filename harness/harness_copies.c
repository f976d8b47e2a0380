/* The copies that the test makes, and their bytes. */
#include "harness_inside.h"

#include <stdio.h>
#include <string.h>

enum { SLOWEST = 20000, TICKS_PER_BYTE = 100, SHORT = 10000, AROUND = 256 };

/* ---- what copies may use ---- */

bool is_inside(uint32_t addr, uint64_t len, uint32_t outer, uint64_t outer_len)
{
    return addr >= outer && addr - outer + len <= outer_len;
}

bool may_use(uint32_t addr, uint64_t len, bool is_store)
{
    if (is_inside(addr, len, HARNESS_RAM, HARNESS_DRIVER_BYTES))
        return true;
    for (int n = 0; n < HARNESS_MOST_COPIES; n++) {
        const struct copy *it = &machine.copies[n];
        if (it->runs && is_inside(addr, len, is_store ? it->dst : it->src, it->len))
            return true;
    }
    return false;
}

struct copy *copy_that_stores(uint32_t addr)
{
    for (int n = 0; n < HARNESS_MOST_COPIES; n++)
        if (machine.copies[n].runs && is_inside(addr, 1, machine.copies[n].dst, machine.copies[n].len))
            return &machine.copies[n];
    return NULL;
}

/* Writes what an address is to a copy, if anything. */
static void say_place(uint32_t addr, const struct copy *it, char text[PLACE])
{
    bool is_src = is_inside(addr, 1, it->src, it->len), is_dst = is_inside(addr, 1, it->dst, it->len);
    unsigned n = (unsigned)(it - machine.copies);

    if (it->serial == 0)
        return;
    if (is_src || is_dst)
        sprintf(text, ": the %s of copy %u%s has %lu bytes from there on", is_src ? "source" : "destination", n,
                it->runs ? "" : it->is_stopped ? ", which was stopped," : ", which is done,",
                (unsigned long)(it->len - (addr - (is_src ? it->src : it->dst))));
    else if (it->runs && it->len == 0 && (addr == it->src || addr == it->dst))
        sprintf(text, ": copy %u has 0 bytes", n);
    else if (addr == it->dst + it->len)
        sprintf(text, ": they begin right after the destination of copy %u", n);
}

const char *place_of(uint32_t addr, char text[PLACE])
{
    text[0] = '\0';
    for (uint32_t n = 0; n < machine.driver->copies; n++)
        say_place(addr, &machine.copies[n], text);
    return text;
}

/* Fails: a channel has stored what it may not. */
static void fail_store(uint32_t channel, dma330_segment range)
{
    const struct program *it = machine.of_channel[channel];
    char place[PLACE], odd[ODD];

    for (int n = 0; n < HARNESS_MOST_COPIES; n++)
        if (it->shares[n].serial != 0 && it->shares[n].serial == machine.copies[n].serial)
            machine.about = &machine.copies[n];
    fail("channel %lu has stored %lu bytes at 0x%08lX, which aren't inside a running copy's destination%s%s",
         (unsigned long)channel, (unsigned long)range.len, (unsigned long)range.addr, place_of(range.addr, place),
         what_is_odd(it, odd));
}

void note_store(uint32_t channel, dma330_segment range)
{
    struct copy *it = copy_that_stores(range.addr);
    struct share *share;

    if (!may_use(range.addr, range.len, true))
        fail_store(channel, range);
    machine.accesses_of_call = 0;
    if (it == NULL)
        return;
    it->stored += range.len;
    it->moved = machine.tick;
    share = &machine.of_channel[channel]->shares[it - machine.copies];
    share->serial = it->serial;
    share->stored += range.len;
}

/* ---- bytes ---- */

/* Returns the index of the byte at an address in memory.ram and wanted, and the address at an index. */
static uint32_t index_of(uint32_t addr)
{
    return (uint32_t)(harness_ram(addr) - memory.ram);
}

static uint32_t address_of(uint32_t index)
{
    return index < machine.low_bytes ? HARNESS_RAM + index : machine.high + (index - machine.low_bytes);
}

/* Fails: the byte at an index, of no running copy, is wrong. */
static void fail_byte(uint32_t n)
{
    uint32_t addr = address_of(n);

    fail("the byte at 0x%08lX, in which no copy may store, is 0x%02X, wanted 0x%02X: no channel has stored it, but the "
         "driver itself", (unsigned long)addr, memory.ram[n], memory.wanted[n]);
}

/* Expects the wanted bytes from an index up to another, except where copies run. */
static void expect_range(uint32_t from, uint32_t to)
{
    if (memcmp(memory.ram + from, memory.wanted + from, to - from) == 0)
        return;
    for (uint32_t n = from; n < to; n++)
        if (memory.ram[n] != memory.wanted[n] && copy_that_stores(address_of(n)) == NULL)
            fail_byte(n);
}

void expect_bytes(void)
{
    expect_range(HARNESS_DRIVER_BYTES, machine.low_bytes);
    expect_range(machine.low_bytes, machine.low_bytes + 2 * machine.place);
}

/* Expects the wanted bytes from some before a range up to some after it. */
static void expect_around(uint32_t addr, uint32_t len)
{
    bool is_low = index_of(addr) < machine.low_bytes;
    uint32_t first = is_low ? (uint32_t)HARNESS_DRIVER_BYTES : machine.low_bytes;
    uint32_t last = is_low ? machine.low_bytes : machine.low_bytes + 2 * machine.place;
    uint32_t from = index_of(addr) - AROUND, to = index_of(addr) + len + AROUND;

    expect_range(from < first ? first : from, to > last ? last : to);
}

/* Expects that each byte of a stopped copy is as before or copied, and wants it so from now on. */
static void want_stopped(const struct copy *it)
{
    uint32_t from = index_of(it->src), to = index_of(it->dst);

    for (uint32_t n = 0; n < it->len; n++) {
        uint8_t is = memory.ram[to + n];
        if (is != memory.wanted[to + n] && is != memory.wanted[from + n])
            fail("byte %lu of a stopped copy to 0x%08lX is 0x%02X, wanted 0x%02X or 0x%02X", (unsigned long)n,
                 (unsigned long)it->dst, is, memory.wanted[to + n], memory.wanted[from + n]);
        memory.wanted[to + n] = is;
    }
}

/* Returns what the bytes of a copy from a wrong one on are, by their values: as before, or others of its source. */
static const char *what_bytes(const struct copy *it, uint32_t first)
{
    enum { SURE = 4 };
    const uint8_t *src = memory.wanted + index_of(it->src), *dst = memory.ram + index_of(it->dst) + first;
    static char text[80];
    uint32_t len = 0;

    while (len < 2 * SURE && first + len < it->len && dst[len] != src[first + len])
        len++;
    if (memcmp(dst, memory.wanted + index_of(it->dst) + first, len) == 0)
        return "it is as before; ";
    for (uint32_t n = 0; len >= SURE && n + len <= it->len; n++)
        if (memcmp(src + n, dst, len) == 0) {
            sprintf(text, "from there on it has the source's bytes from %lu on; ", (unsigned long)n);
            return text;
        }
    return "";
}

/* Expects that all bytes of a copy are copied, and wants them so from now on. */
static void want_copied(const struct copy *it)
{
    uint32_t from = index_of(it->src), to = index_of(it->dst);

    for (uint32_t n = 0; n < it->len; n++)
        if (memory.ram[to + n] != memory.wanted[from + n])
            fail("a copy of %lu bytes from 0x%08lX to 0x%08lX is done, and its byte %lu is 0x%02X, wanted 0x%02X: %s%s",
                 (unsigned long)it->len, (unsigned long)it->src, (unsigned long)it->dst, (unsigned long)n,
                 memory.ram[to + n], memory.wanted[from + n], what_bytes(it, n), why_done(it, n));
    memcpy(memory.wanted + to, memory.wanted + from, it->len);
}

/* ---- copies ---- */

void start_copy(uint32_t n, uint32_t number)
{
    struct copy *it = &machine.copies[n];

    draw_copy(n);
    it->number = number;
    it->serial = ++machine.count;
    it->stored = it->programs = 0;
    it->is_stopped = false;
    it->is_kept = machine.kinds & STOPS && draw(3) == 0;
    it->started = it->moved = it->busy = machine.tick;
    it->most = 0;
    for (uint32_t k = 0; k < it->len; k++)
        memory.wanted[index_of(it->src) + k] = *harness_ram(it->src + k) = (uint8_t)draw(256);
    it->runs = true;
    machine.budget += draw(3);
    machine.accesses_of_call = 0;
    machine.starting = it;
    machine.driver->start(n, it->src, it->dst, it->len);
    machine.starting = NULL;
}

/* Returns whether a program that runs still has to store bytes of copy n, or, if that is stopped, is for it alone. */
static bool is_unfinished(const struct program *it, size_t n, bool is_stopped)
{
    uint32_t others = 0;

    if (it == NULL || it->end != RUNS || it->shares[n].serial != machine.copies[n].serial)
        return false;
    for (size_t k = 0; k < HARNESS_MOST_COPIES; k++)
        others += k != n && it->shares[k].serial != 0;
    return it->shares[n].stored < it->shares[n].bytes || (is_stopped && others == 0);
}

/* Returns the first of these programs, or NULL. */
static const struct program *unfinished_program(size_t n, bool is_stopped)
{
    for (int channel = 0; channel < MOST_CHANNELS; channel++)
        if (is_unfinished(machine.of_channel[channel], n, is_stopped))
            return machine.of_channel[channel];
    return NULL;
}

/* Ends copy n, which the driver has done or stopped: expects that no channel executes it any more. */
static void end(uint32_t n, bool is_stopped)
{
    struct copy *it = &machine.copies[n];
    const struct program *program = unfinished_program(n, is_stopped);

    machine.about = it;
    if (program != NULL && is_stopped)
        fail("copy %lu is stopped while channel %lu executes its program, which has stored %lu of %lu bytes",
             (unsigned long)n, (unsigned long)program->channel, (unsigned long)program->shares[n].stored,
             (unsigned long)program->shares[n].bytes);
    if (program != NULL)
        fail("copy %lu is done while channel %lu executes its program, which has stored %lu of %lu bytes: %s",
             (unsigned long)n, (unsigned long)program->channel, (unsigned long)program->shares[n].stored,
             (unsigned long)program->shares[n].bytes, why_early(program));
    it->is_stopped = is_stopped;
    if (it->len > 0 && is_stopped)
        want_stopped(it);
    else if (it->len > 0)
        want_copied(it);
    it->runs = false;
    machine.about = NULL;
    if (it->len == 0)
        return;
    expect_around(it->src, it->len);
    expect_around(it->dst, it->len);
    if (it->stored >= 2 * it->len && !is_disturbed())
        fail("the destination of %lu bytes at 0x%08lX was stored twice without need", (unsigned long)it->len,
             (unsigned long)it->dst);
}

/* Fails: copy n is stopped, and busy. */
static void fail_stop(uint32_t n)
{
    const struct program *program = unfinished_program(n, true);

    machine.about = &machine.copies[n];
    if (program != NULL)
        fail("a stopped copy is busy: channel %lu executes its program, which was started at tick %lu",
             (unsigned long)program->channel, (unsigned long)program->started);
    fail("a stopped copy is busy, and no channel executes its program");
}

/* Stops copy n. */
static void stop(uint32_t n)
{
    machine.stops++;
    machine.accesses_of_call = 0;
    machine.stopping = &machine.copies[n];
    machine.driver->stop(n);
    machine.stopping = NULL;
    if (machine.driver->is_busy(n))
        fail_stop(n);
    end(n, true);
}

/* Returns how many ticks may pass without progress of a copy, which may wait for all others that run now. */
static uint32_t patience(void)
{
    const uint32_t most = SHORT;
    uint32_t ticks = SLOWEST;

    for (int n = 0; n < HARNESS_MOST_COPIES; n++) {
        uint32_t len = machine.copies[n].runs ? machine.copies[n].len : 0;
        ticks += TICKS_PER_BYTE * (len < most ? len : most) + TICKS_PER_BYTE / 10 * len;
    }
    return ticks;
}

/* Returns whether a copy is to be stopped now: mostly at any time, and often right after its last byte is stored. */
static bool draw_stop(const struct copy *it)
{
    bool is_ending = it->len > 0 && it->stored >= it->len && machine.tick - it->moved < 16;

    return machine.kinds & STOPS && !it->is_kept && draw(is_ending ? 16 : 600) == 0;
}

void watch_copy(uint32_t n)
{
    struct copy *it = &machine.copies[n];
    uint32_t most = patience();

    it->most = most > it->most ? most : it->most;
    if (!machine.driver->is_busy(n)) {
        end(n, false);
        return;
    }
    it->busy = machine.tick;
    if (draw_stop(it)) {
        stop(n);
    } else if (machine.tick - it->moved > it->most || machine.tick - it->started > 10 * it->most) {
        machine.about = it;
        fail("copy %lu, of %lu bytes, isn't done after %lu ticks: %s", (unsigned long)n, (unsigned long)it->len,
             (unsigned long)(machine.tick - it->started), why_waiting(it));
    }
}
