/* Runs each row of channels.txt in three ways: as it is; with a call for each single step of a row of `step`, where the
 * channel is saved and restored as another one before each call; and with a heap whose allocations all fail, until a
 * call that may be out of memory is made again. Also checks that a call that fails writes nothing and changes no
 * register, that each call has failed with each code that dma330.h names for it, and that nothing is leaked. */
#include "heap.h"
#include "rows.h"
#include "words.h"

#include <stdio.h>
#include <string.h>

enum { RAM_BYTES = 1 << 23, MOST_REGIONS = 80, MOST_MARKS = 16, ANSWER_ROOM = 4096, UNWRITTEN = 0xA5 };

static enum { PLAIN, SAVED, WITHOUT_MEMORY, WAYS } way;
static long passed, failed;

static void count(int holds, const char *title, const char *line, const char *answer)
{
    passed += holds;
    failed += !holds;
    if (!holds)
        printf("WRONG, way %d: %s: %s: the answer is %s\n", (int)way, title, line, answer);
}

static int is_failing; /* whether all allocations fail */

int allocation_fails(void)
{
    return is_failing;
}

/* ---- a channel, and its caller's memory and flags ---- */

static dma330_channel channel;
static uint8_t ram[RAM_BYTES];
static dma330_region regions[MOST_REGIONS];
static uint32_t flags;
static dma330_segment marks[MOST_MARKS];
static uint32_t kinds[MOST_MARKS];
static uint8_t saved[DMA330_MAX_SAVE];
static size_t region_count, mark_count, saved_len;
static arguments given;

/* The outputs of calls. */
static struct {
    dma330_channel_report report;
    dma330_registers registers;
    size_t len;
    uint8_t save[1 << 14];
} outputs, blank;

static void set_regions(const dma330_segment *list, size_t list_count)
{
    uint8_t *at = ram;
    region_count = 0;
    while (region_count < list_count && region_count < MOST_REGIONS) {
        dma330_region *region = &regions[region_count];
        region->addr = list[region_count].addr;
        region->len = list[region_count++].len;
        region->bytes = at;
        region->read_only = 0;
        memset(at, 0, region->len);
        at += region->len;
    }
}

static uint8_t *byte_at(uint32_t addr)
{
    size_t n;
    for (n = 0; n < region_count; n++)
        if (addr >= regions[n].addr && addr - regions[n].addr < regions[n].len)
            return regions[n].bytes + (addr - regions[n].addr);
    bad_line("no region has the address", "poke, peek or equal");
    return NULL;
}

/* Replaces the channel with another one that has its save and its marks. */
static int replace_channel(void)
{
    static uint8_t save[DMA330_MAX_SAVE];
    dma330_channel next = DMA330_CHANNEL_INIT;
    size_t len = 0, n;
    int is_ok = dma330_channel_save(&channel, save, sizeof save, &len) == DMA330_OK && len <= sizeof save &&
                dma330_channel_open(&next) == DMA330_OK && dma330_channel_restore(&next, save, len) == DMA330_OK;
    for (n = 0; n < mark_count; n++)
        is_ok = is_ok && dma330_channel_inject_error(&next, kinds[n], marks[n]) == DMA330_OK;
    dma330_channel_close(&channel);
    channel = next;
    return is_ok;
}

/* ---- the calls ---- */

#define INVOKE(name, call, with) \
    static int32_t invoke_##name(void) \
    { \
        return dma330_channel_##call with; \
    }
INVOKE(open, open, (&channel))
INVOKE(load_copy, load_copy, (&channel, given.src, given.src_count, given.dst, given.dst_count, given.wait, given.signal))
INVOKE(load_fill, load_fill, (&channel, given.numbers[0], given.dst, given.dst_count, given.wait, given.signal))
INVOKE(load_program, load_program, (&channel, given.bytes, given.len))
INVOKE(load_from, load_from, (&channel, regions, region_count, given.numbers[0]))
INVOKE(stop, stop, (&channel))
INVOKE(registers, registers, (&channel, &outputs.registers))
INVOKE(restore, restore, (&channel, saved, saved_len))
INVOKE(restore_bytes, restore, (&channel, given.bytes, given.len))

static int32_t invoke_close(void)
{
    dma330_channel_close(&channel);
    mark_count = 0;
    return DMA330_OK;
}

static int32_t invoke_load_text(void)
{
    static uint8_t program[DMA330_MAX_PROGRAM];
    size_t len = 0, place = 0;
    is_failing = 0;
    if (dma330_assemble(given.text, given.text_len, program, sizeof program, &len, &place) != DMA330_OK)
        bad_line("no program", given.text);
    is_failing = way == WITHOUT_MEMORY;
    return dma330_channel_load_program(&channel, program, len);
}

/* Returns the smallest range that contains both. */
static dma330_segment joined(dma330_segment a, dma330_segment b)
{
    dma330_segment both = a.addr < b.addr ? a : b;
    uint64_t a_end = (uint64_t)a.addr + a.len, b_end = (uint64_t)b.addr + b.len;
    if (a.len == 0 || b.len == 0)
        return a.len == 0 ? b : a;
    both.len = (uint32_t)((a_end > b_end ? a_end : b_end) - both.addr);
    return both;
}

static int32_t invoke_call(void)
{
    if (way == SAVED && channel.is_open && !replace_channel())
        return DMA330_BAD_SAVE;
    return dma330_channel_step(&channel, regions, region_count, &flags, given.numbers[0], &outputs.report);
}

static int32_t invoke_step(void)
{
    uint32_t taken = 0, most = given.numbers[0];
    dma330_segment written = {0, 0};
    int32_t code;
    if (way != SAVED || !channel.is_open)
        return invoke_call();
    do {
        if (!replace_channel())
            return DMA330_BAD_SAVE;
        code = dma330_channel_step(&channel, regions, region_count, &flags, most > 0, &outputs.report);
        if (code != DMA330_OK)
            return code;
        taken += outputs.report.taken;
        written = joined(written, outputs.report.written);
        if (outputs.report.last == DMA330_NO_STEP && taken > 0)
            outputs.report.last = DMA330_MOVED; /* what the step before it did */
    } while (outputs.report.last == DMA330_MOVED && outputs.report.taken > 0 && taken < most);
    outputs.report.taken = taken;
    outputs.report.written = written;
    return code;
}

static int32_t invoke_inject_error(void)
{
    dma330_segment range = {given.numbers[1], given.numbers[2]};
    int32_t code = dma330_channel_inject_error(&channel, given.numbers[0], range);
    kinds[mark_count] = given.numbers[0];
    marks[mark_count] = range;
    mark_count += code == DMA330_OK;
    return code;
}

static int32_t invoke_uninject_errors(void)
{
    mark_count = 0;
    return dma330_channel_uninject_errors(&channel);
}

/* Saves the channel to `saved`. Checks that a buffer with one byte less than the save is too small. */
static int32_t invoke_save(void)
{
    int32_t code = dma330_channel_save(&channel, outputs.save, given.numbers[0], &outputs.len);
    if (code != DMA330_OK)
        return code;
    if (outputs.len > sizeof saved ||
        dma330_channel_save(&channel, outputs.save, outputs.len - 1, &saved_len) != DMA330_BUFFER_TOO_SMALL)
        return DMA330_BAD_SAVE;
    return dma330_channel_save(&channel, saved, outputs.len, &saved_len);
}

/* Restores each beginning of the save, and the save with each byte changed. Returns the last code other than BAD_SAVE,
 * or BAD_SAVE. */
static int32_t invoke_restore_damaged(void)
{
    int32_t code, answer = DMA330_BAD_SAVE;
    size_t n;
    for (n = 0; n < 2 * saved_len; n++) {
        saved[n / 2] ^= 0x10;
        code = dma330_channel_restore(&channel, saved, n % 2 ? n / 2 : saved_len);
        saved[n / 2] ^= 0x10;
        if (code != DMA330_BAD_SAVE)
            answer = code;
    }
    return answer;
}

#define LISTS "EMPTY_LIST TOO_MANY_SEGMENTS EMPTY_SEGMENT SEGMENT_WRAPS TOO_LONG DESTINATIONS_MEET SOURCE_MEETS_DESTINATION "

/* The codes are those that dma330.h names for the call, without NO_MEMORY if the call allocates nothing in an open
 * channel. */
static const struct call {
    const char *name;
    const char *shape;
    int32_t (*invoke)(void);
    const char *codes;
} calls[] = {
    {"open", "", invoke_open, "OK ALREADY_OPEN NO_MEMORY"},
    {"close", "", invoke_close, "OK"},
    {"load_copy", "sd", invoke_load_copy, "OK NOT_OPEN " LISTS "TOTALS_DIFFER BAD_EVENT NO_MEMORY"},
    {"load_fill", "nd", invoke_load_fill, "OK NOT_OPEN " LISTS "BAD_EVENT NO_MEMORY"},
    {"load_program", "b", invoke_load_program, "OK NOT_OPEN PROGRAM_TOO_LONG"},
    {"load_text", "t", invoke_load_text, "OK"},
    {"load_from", "n", invoke_load_from, "OK NOT_OPEN BAD_REGIONS"},
    {"step", "n", invoke_step, "OK NOT_OPEN BAD_REGIONS NO_PROGRAM"},
    {"call", "n", invoke_call, "OK"},
    {"stop", "", invoke_stop, "OK NOT_OPEN"},
    {"registers", "", invoke_registers, "OK NOT_OPEN"},
    {"inject_error", "kr", invoke_inject_error, "OK NOT_OPEN BAD_ACCESS BAD_RANGE NO_MEMORY"},
    {"uninject_errors", "", invoke_uninject_errors, "OK NOT_OPEN"},
    {"save", "n", invoke_save, "OK NOT_OPEN BUFFER_TOO_SMALL"},
    {"restore", "", invoke_restore, "OK NOT_OPEN"},
    {"restore_bytes", "b", invoke_restore_bytes, "OK BAD_SAVE"},
    {"restore_damaged", "", invoke_restore_damaged, "BAD_SAVE"},
};

enum { CALLS = sizeof calls / sizeof calls[0] };

static unsigned char returned[CALLS][MOST_CODES];

static void compare_codes(void)
{
    int n, code;
    for (n = 0; n < CALLS; n++)
        for (code = 0; code < MOST_CODES; code++) {
            const char *name = dma330_code_name(-code);
            int may = has_word(calls[n].codes, name), has = returned[n][code];
            if ((may || has) && strcmp(name, "NO_MEMORY") != 0)
                count(may == has, "all codes", calls[n].name, name);
        }
}

/* ---- rows ---- */

static void append_report(answer *to, const dma330_channel_report *r)
{
    append(to, "%lu ", (unsigned long)r->taken);
    append_lower(to, dma330_last_step_name(r->last));
    if (r->last == DMA330_WAITING || r->last == DMA330_SIGNALLED || r->event != 0)
        append(to, " %lu", (unsigned long)r->event);
    if (r->last == DMA330_FAULT || r->fault != 0) {
        append(to, " ");
        append_camel(to, dma330_fault_name(r->fault));
    }
    append(to, " at %lu", (unsigned long)r->pc);
    if (r->written.len > 0)
        append(to, " wrote 0x%08lX+%lu", (unsigned long)r->written.addr, (unsigned long)r->written.len);
}

static void append_registers(answer *to, const dma330_registers *r)
{
    append(to, "%lu 0x%08lX 0x%08lX 0x%08lX %d %d %d %lu %lu", (unsigned long)r->pc, (unsigned long)r->sar,
        (unsigned long)r->dar, (unsigned long)r->ccr, r->lc0, r->lc1, r->is_loaded, (unsigned long)r->taken,
        (unsigned long)r->stored);
}

/* Makes a call, and makes it again with a working heap if it may be out of memory and is. Returns whether the calls that
 * failed wrote nothing and changed no register. */
static int make_call(const struct call *c, int32_t *code)
{
    static dma330_registers before, after;
    int is_ok = 1, is_again;
    memset(&blank, UNWRITTEN, sizeof blank);
    do {
        int32_t was = dma330_channel_registers(&channel, &before);
        memcpy(&outputs, &blank, sizeof outputs);
        *code = c->invoke();
        is_again = is_failing && *code == DMA330_NO_MEMORY && has_word(c->codes, "NO_MEMORY");
        is_failing = 0;
        if (*code >= 0)
            break;
        is_ok = is_ok && memcmp(&outputs, &blank, sizeof outputs) == 0 && dma330_channel_registers(&channel, &after) == was &&
                (was != DMA330_OK || memcmp(&before, &after, sizeof before) == 0);
    } while (is_again);
    if (is_code(*code))
        returned[c - calls][-*code] = 1;
    return is_ok;
}

/* Runs a line that is no call, but an act of the caller. Returns whether it is one. */
static int run_act(const char *word, const char *rest, answer *to)
{
    static const char *const acts[] = {"regions", "s", "poke", "nb", "peek", "r", "equal", "nnn", "raise", "n", "flags", "",
                                       "saved", "", "rom", "n"};
    const uint32_t *numbers = given.numbers;
    uint32_t n;
    int line = 0;
    while (line < 16 && strcmp(acts[line], word) != 0)
        line += 2;
    if (line == 16)
        return 0;
    read_arguments(acts[line + 1], rest, &given);
    if (line == 0)
        set_regions(given.src, given.src_count);
    for (n = 0; line == 2 && n < given.len; n++)
        *byte_at(numbers[0] + n) = given.bytes[n];
    for (n = 0; line == 4 && n < numbers[1]; n++)
        given.bytes[n] = *byte_at(numbers[0] + n);
    append_bytes(to, line == 4 ? given.bytes : saved, line == 4 ? numbers[1] : line == 12 ? saved_len : 0);
    if (line == 6 && memcmp(byte_at(numbers[0]), byte_at(numbers[1]), numbers[2]) != 0)
        append(to, "not equal");
    if (line == 8)
        flags |= (uint32_t)1 << numbers[0];
    if (line == 14)
        regions[numbers[0]].read_only = 1;
    if (line == 10)
        append(to, "0x%08lX", (unsigned long)flags);
    return 1;
}

static void run_row(const group *of, const row *next)
{
    static char text[ANSWER_ROOM];
    answer to = {text, sizeof text};
    const char *rest = next->line;
    const struct call *c = calls;
    char word[32];
    int is_ok = 1;
    int32_t code;
    text[0] = '\0';
    next_word(&rest, word, sizeof word);
    if (!run_act(word, rest, &to)) {
        while (strcmp(c->name, word) != 0)
            if (++c == calls + CALLS)
                bad_line("no call", word);
        read_arguments(c->shape, rest, &given);
        is_failing = way == WITHOUT_MEMORY;
        is_ok = make_call(c, &code);
        if (code != DMA330_OK) {
            append(&to, "refused ");
            append_camel(&to, dma330_code_name(code));
        }
        if (code == DMA330_OK && (c->invoke == invoke_step || c->invoke == invoke_call))
            append_report(&to, &outputs.report);
        if (code == DMA330_OK && c->invoke == invoke_registers)
            append_registers(&to, &outputs.registers);
    }
    if (text[0] == '\0')
        append(&to, "ok");
    count(is_ok && strcmp(text, next->answer) == 0, of->title, next->line, text);
}

int main(int words_count, char **words)
{
    const group *groups = read_groups(words_count > 1 ? words[1] : "channels.txt");
    for (way = PLAIN; way < WAYS; way++) {
        const group *of;
        for (of = groups; of->title != NULL; of++) {
            int n;
            flags = 0;
            region_count = mark_count = saved_len = 0;
            for (n = 0; n < of->count; n++)
                run_row(of, &of->rows[n]);
            dma330_channel_close(&channel);
            count(live_blocks == 0, of->title, "leaked blocks", "");
        }
    }
    compare_codes();
    printf("%ld passed, %ld failed\n", passed, failed);
    return failed != 0;
}
