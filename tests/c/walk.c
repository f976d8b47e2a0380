/* Carries out each group of the files that it is given, rows.txt and calls of dmasim, in three ways: with a call for each
 * step; with as few calls as possible; and the same again, where a call that fails must change no reading. Also checks
 * that every call has returned every code that the header names for it, and what no row covers: programs cut at each
 * byte, programs with all pairs of first bytes, the longest texts, lengths above 32 bits, and regions that end at
 * 2^64 or above. */
#define _DEFAULT_SOURCE
#include "lines.h"
#include "rows.h"

#include <stdio.h>
#include <string.h>
#include <sys/mman.h>

static long passed, failed;

static int is_right(int holds)
{
    if (holds)
        passed++;
    else
        failed++;
    return holds;
}

/* ---- scripts and rows ---- */

static runner walker;

/* Carries out the lines of a group, each of which is a check. */
static void walk(const group *of, way way, int is_watched)
{
    static char output[OUTPUT_ROOM];
    const char *left = of->wanted;
    int n;
    make_runner(&walker, way);
    walker.is_watched = is_watched;
    for (n = 0; n < of->count && left != NULL; n++) {
        int wrongs = walker.wrongs;
        carry_out(&walker, of, &of->rows[n], output);
        left = text_after(left, output);
        if (!is_right(left != NULL && walker.wrongs == wrongs))
            printf("WRONG, way %d%s: %s: %.200s: it prints %.200s\n", (int)way, is_watched ? ", watched" : "", of->title,
                   of->rows[n].line, output);
    }
    if (left != NULL && !is_right(*left == '\0'))
        printf("WRONG, way %d: %s: it does not print %.200s\n", (int)way, of->title, left);
    dma330_close(&walker.controller);
}

/* ---- all codes of all calls ---- */

/* The codes in the comments of dma330.h, except NO_MEMORY, which refuse.c tests, and two that no test can reach:
 * COOKIES_SPENT comes after 2^31 submits, STEPS_SPENT after 2^64 steps. */
static const struct {
    const char *call;
    const char *codes;
} codes_of_calls[] = {
    {"open", "OK ALREADY_OPEN BAD_CHANNELS SIZE_OUT_OF_RANGE"},
    {"close", "OK"},
    {"write", "OK NOT_OPEN OUT_OF_MEMORY_RANGE BUSY"},
    {"read", "OK NOT_OPEN OUT_OF_MEMORY_RANGE BUSY"},
    {"submit", "OK NOT_OPEN EMPTY_LIST TOO_MANY_SEGMENTS EMPTY_SEGMENT SEGMENT_WRAPS TOTALS_DIFFER TOO_LONG "
               "DESTINATIONS_MEET SOURCE_MEETS_DESTINATION BAD_EVENT NO_CHANNEL OUT_OF_MEMORY_RANGE"},
    {"submit_fill", "OK NOT_OPEN EMPTY_LIST TOO_MANY_SEGMENTS EMPTY_SEGMENT SEGMENT_WRAPS TOO_LONG DESTINATIONS_MEET "
                    "SOURCE_MEETS_DESTINATION BAD_EVENT NO_CHANNEL OUT_OF_MEMORY_RANGE"},
    {"issue", "OK NOT_OPEN NO_CHANNEL"},
    {"pause", "OK NOT_OPEN NO_CHANNEL"},
    {"resume", "OK NOT_OPEN NO_CHANNEL"},
    {"terminate", "OK NOT_OPEN NO_CHANNEL"},
    {"step", "OK NOT_OPEN NO_CHANNEL"},
    {"status", "OK NOT_OPEN"},
    {"result", "OK NOT_OPEN NO_RESULT"},
    {"running", "OK NOT_OPEN NOT_RUNNING"},
    {"unfinished", "OK NOT_OPEN"},
    {"forgotten", "OK NOT_OPEN"},
    {"steps", "OK NOT_OPEN"},
    {"history_entries", "OK NOT_OPEN"},
    {"history_bytes", "OK NOT_OPEN"},
    {"running_count", "OK NOT_OPEN"},
    {"inject_error", "OK NOT_OPEN BAD_ACCESS BAD_RANGE"},
    {"uninject_errors", "OK NOT_OPEN"},
    {"raise", "OK NOT_OPEN BAD_EVENT"},
    {"checkpoint", "OK NOT_OPEN RUNNING"},
    {"version", "OK BUFFER_TOO_SMALL"},
    {"run_program", "OK SIZE_OUT_OF_RANGE PROGRAM_TOO_LONG"},
    {"assemble", "OK BAD_MNEMONIC BAD_OPERAND NUMBER_OUT_OF_RANGE PROGRAM_TOO_LONG BUFFER_TOO_SMALL"},
    {"disassemble", "OK CUT_INSTRUCTION UNKNOWN_INSTRUCTION BAD_FIELD BUFFER_TOO_SMALL"},
    {"explain", "OK BAD_CONFIG PROGRAM_TOO_LONG UNEXPLAINED BUFFER_TOO_SMALL"},
    {"plan", "OK BAD_CONFIG EMPTY_LIST TOO_MANY_SEGMENTS EMPTY_SEGMENT SEGMENT_WRAPS TOTALS_DIFFER TOO_LONG "
             "DESTINATIONS_MEET SOURCE_MEETS_DESTINATION BAD_EVENT BUFFER_TOO_SMALL"},
    {"plan_fill", "OK BAD_CONFIG EMPTY_LIST TOO_MANY_SEGMENTS EMPTY_SEGMENT SEGMENT_WRAPS TOO_LONG DESTINATIONS_MEET "
                  "SOURCE_MEETS_DESTINATION BAD_EVENT BUFFER_TOO_SMALL"},
};

static void compare_codes(const char *call, const char *codes)
{
    int n;
    for (n = 0; n < MOST_CODES; n++) {
        const char *code = dma330_code_name(-n);
        int may = has_word(codes, code), has = is_code(-n) && has_returned(call, code);
        if ((may || has) && !is_right(may == has))
            printf("WRONG: %s %s %s\n", call, has ? "returned" : "never returned", code);
    }
}

static void compare_all_codes(void)
{
    size_t n;
    for (n = 0; n < sizeof codes_of_calls / sizeof codes_of_calls[0]; n++)
        compare_codes(codes_of_calls[n].call, codes_of_calls[n].codes);
}

/* ---- a program cut at each byte ---- */

/* The program of a copy of 300 bytes from 0x1000 to 0x2000. */
static const uint8_t copy_of_300[47] = {
    0xBC, 0x00, 0x00, 0x10, 0x00, 0x00, 0xBC, 0x02, 0x00, 0x20, 0x00, 0x00, 0xBC, 0x01, 0xF9, 0x40,
    0x3E, 0x00, 0x22, 0x00, 0x04, 0x12, 0x08, 0x13, 0x3C, 0x04, 0xBC, 0x01, 0x19, 0x40, 0x06, 0x00,
    0x04, 0x12, 0x08, 0x13, 0xBC, 0x01, 0xB1, 0x40, 0x2C, 0x00, 0x04, 0x12, 0x08, 0x13, 0x00
};

/* The offsets of its instructions. */
static const uint32_t offsets[] = {0, 6, 12, 18, 20, 21, 22, 23, 24, 26, 32, 33, 34, 35, 36, 42, 43, 44, 45, 46};

static uint32_t last_offset(size_t cut)
{
    size_t n = sizeof offsets / sizeof offsets[0];
    while (offsets[--n] > cut)
        ;
    return offsets[n];
}

/* Returns how many bytes the first `cut` bytes of it store, in bursts of 256, 32 and 12. The stores are at the offsets
 * 22, 34 and 44. */
static size_t stored_by(size_t cut)
{
    return cut <= 22 ? 0 : cut <= 34 ? 256 : cut <= 44 ? 288 : 300;
}

/* Runs the first `cut` bytes of it over a memory with the 300 bytes. Returns whether exactly the bytes of their stores
 * are copied. */
static int run_cut_program(size_t cut, dma330_run_end *end)
{
    static uint8_t memory[0x4000], wanted[0x4000];
    size_t n;
    memset(memory, 0, sizeof memory);
    for (n = 0; n < 300; n++)
        memory[0x1000 + n] = (uint8_t)(n % 251 + 1);
    memcpy(wanted, memory, sizeof wanted);
    memcpy(wanted + 0x2000, memory + 0x1000, stored_by(cut));
    return dma330_run_program(copy_of_300, cut, memory, sizeof memory, 1000, end) == DMA330_OK &&
           memcmp(memory, wanted, sizeof memory) == 0;
}

/* Checks that it stops at the first instruction that isn't whole, and without a cut at its end. */
static void run_cut_programs(void)
{
    dma330_run_end end;
    size_t cut;
    for (cut = 0; cut < sizeof copy_of_300; cut++)
        if (!is_right(run_cut_program(cut, &end) && end.end == DMA330_END_FAULT && end.fault == DMA330_INSTR_FETCH_ERR &&
                      end.pc == last_offset(cut)))
            printf("WRONG: a program cut at %lu bytes: offset %lu\n", (unsigned long)cut, (unsigned long)end.pc);
    if (!is_right(run_cut_program(sizeof copy_of_300, &end) && end.end == DMA330_END_ENDED && end.steps == 20))
        printf("WRONG: the program of 300 bytes\n");
}

/* ---- every pair of first bytes of a program, followed by five zeros, each of which is an operand or DMAEND ---- */

/* How a run ends: enum dma330_end; the turns, the event, or the fault and its offset. */
typedef struct ending {
    uint32_t end, number, pc;
} ending;

static ending ends(uint32_t end, uint32_t number, uint32_t pc)
{
    ending made;
    made.end = end;
    made.number = number;
    made.pc = pc;
    return made;
}

/* Returns how a program ends whose first instruction is one byte long and goes on, by its second byte. */
static ending end_of_second(int is_loaded, uint32_t second)
{
    switch (second) {
    case 0x00: /* DMAEND */
        return ends(DMA330_END_ENDED, 2, 0);
    case 0x08: /* DMAST, with something or nothing loaded */
        return is_loaded ? ends(DMA330_END_ENDED, 3, 0) : ends(DMA330_END_FAULT, DMA330_ST_DATA_UNAVAILABLE, 1);
    case 0x04: case 0x12: case 0x13: case 0x18: /* DMALD, DMARMB, DMAWMB, DMANOP */
    case 0x20: case 0x22: case 0x34: case 0x38: case 0x3C: /* DMALP, DMASEV 0, DMALPEND of a counter that is 0 */
        return ends(DMA330_END_ENDED, 3, 0);
    case 0x36: /* DMAWFE 0, whose flag is clear */
        return ends(DMA330_END_WAITING, 0, 0);
    case 0xBC: /* DMAMOV SAR takes all zeros, and nothing follows it */
        return ends(DMA330_END_FAULT, DMA330_INSTR_FETCH_ERR, 7);
    default:
        return ends(DMA330_END_FAULT, DMA330_UNDEF_INSTR, 1);
    }
}

/* Returns how a pair ends, by the table of codes and what instructions do. */
static ending end_of_pair(uint32_t first, uint32_t second)
{
    switch (first) {
    case 0x00: /* DMAEND */
        return ends(DMA330_END_ENDED, 1, 0);
    case 0x04: case 0x12: case 0x13: case 0x18: /* DMALD, DMARMB, DMAWMB and DMANOP have no second byte */
        return end_of_second(first == 0x04, second);
    case 0x08: /* DMAST, with nothing loaded */
        return ends(DMA330_END_FAULT, DMA330_ST_DATA_UNAVAILABLE, 0);
    case 0x20: case 0x22: case 0x38: case 0x3C: /* DMALP, and DMALPEND of a counter that is 0 */
        return ends(DMA330_END_ENDED, 2, 0);
    case 0x34: /* DMASEV */
        return second % 8 == 0 ? ends(DMA330_END_ENDED, 2, 0) : ends(DMA330_END_FAULT, DMA330_OPERAND_INVALID, 0);
    case 0x36: /* DMAWFE, with or without the invalid flag; all flags are clear */
        return second % 8 == 0 || second % 8 == 2 ? ends(DMA330_END_WAITING, second / 8, 0)
                                                  : ends(DMA330_END_FAULT, DMA330_OPERAND_INVALID, 0);
    case 0xBC: /* DMAMOV of 0, which is a control word too */
        return second <= 2 ? ends(DMA330_END_ENDED, 2, 0) : ends(DMA330_END_FAULT, DMA330_OPERAND_INVALID, 0);
    default:
        return ends(DMA330_END_FAULT, DMA330_UNDEF_INSTR, 0);
    }
}

static int ends_as_wanted(uint32_t first, uint32_t second)
{
    static uint8_t memory[512];
    uint8_t program[7] = {0};
    ending wanted = end_of_pair(first, second);
    dma330_run_end end;
    program[0] = (uint8_t)first;
    program[1] = (uint8_t)second;
    if (dma330_run_program(program, sizeof program, memory, sizeof memory, 1000, &end) != DMA330_OK ||
        end.end != wanted.end)
        return 0;
    if (end.end == DMA330_END_FAULT)
        return end.fault == wanted.number && end.pc == wanted.pc;
    return (end.end == DMA330_END_ENDED ? end.steps : end.event) == wanted.number;
}

/* Returns whether a program ends in its first instruction with this fault. */
static int fails_first(ending of, uint32_t fault)
{
    return of.end == DMA330_END_FAULT && of.number == fault && of.pc == 0;
}

/* Each first byte is a check, and so are the numbers of pairs that begin an instruction, of pairs that begin one with a
 * wrong field, and of pairs that begin none. */
static void run_all_pairs(void)
{
    uint32_t first, second, instructions = 0, wrong_fields = 0, unknown = 0;
    for (first = 0; first < 0x100; first++) {
        for (second = 0; second < 0x100 && ends_as_wanted(first, second); second++) {
            ending found = end_of_pair(first, second);
            if (fails_first(found, DMA330_UNDEF_INSTR))
                unknown++;
            else if (fails_first(found, DMA330_OPERAND_INVALID))
                wrong_fields++;
            else
                instructions++;
        }
        if (!is_right(second == 0x100))
            printf("WRONG: a program that begins with %02lX %02lX\n", (unsigned long)first, (unsigned long)second);
    }
    if (!is_right(instructions == 2659 && wrong_fields == 669 && unknown == 62208))
        printf("WRONG: %lu instructions, %lu wrong fields, %lu unknown\n", (unsigned long)instructions,
               (unsigned long)wrong_fields, (unsigned long)unknown);
}

/* ---- the version, and the longest text ---- */

/* Checks that the header's numbers are those of its text. A row checks that of the library. */
static void compare_version(void)
{
    char numbers[64];
    sprintf(numbers, "dilkwafam %d.%d", DMA330_VERSION_MAJOR, DMA330_VERSION_MINOR);
    if (!is_right(strcmp(numbers, DMA330_VERSION) == 0))
        printf("WRONG: the header's numbers are those of %s, and its text is %s\n", numbers, DMA330_VERSION);
}

/* Disassembles `len` bytes of an instruction again and again into `room` bytes. Checks the code, the length of the text
 * and its last line. */
static void disassemble_again(const uint8_t *bytes, size_t width, size_t len, size_t room, size_t wanted, const char *line)
{
    int32_t code = wanted > 0 ? DMA330_OK : DMA330_BUFFER_TOO_SMALL;
    static uint8_t program[DMA330_MAX_PROGRAM];
    static char text[DMA330_MAX_TEXT(DMA330_MAX_PROGRAM)];
    size_t n, place, text_len = 0;
    for (n = 0; n < len; n++)
        program[n] = bytes[n % width];
    if (!is_right(dma330_disassemble(program, len, text, room, &text_len, &place) == code && text_len == wanted &&
                  (wanted == 0 || memcmp(text + wanted - strlen(line), line, strlen(line)) == 0)))
        printf("WRONG: the text of %lu bytes in %lu\n", (unsigned long)len, (unsigned long)room);
}

/* Checks that DMA330_MAX_TEXT is room for the text of every program, and no more than the longest needs. */
static void write_longest_texts(void)
{
    static const uint8_t longest[2] = {0x36, 0xFA}, shortest[1] = {0x00};
    size_t n;
    for (n = 2; n <= DMA330_MAX_PROGRAM; n *= 8) {
        disassemble_again(longest, 2, n, DMA330_MAX_TEXT(n), DMA330_MAX_TEXT(n), "DMAWFE 31 invalid\n");
        disassemble_again(longest, 2, n, DMA330_MAX_TEXT(n) - 1, 0, "");
        disassemble_again(shortest, 1, n, DMA330_MAX_TEXT(n), 7 * n, "DMAEND\n");
    }
}

/* ---- lengths above 32 bits, whose low halves alone would be accepted ---- */

static void call_channel_with_long_lengths(uint8_t *bytes, size_t len)
{
    dma330_channel channel = DMA330_CHANNEL_INIT;
    dma330_region region = {0, NULL, 0, 0};
    dma330_channel_report report;
    uint32_t flags = 0;
    region.bytes = bytes;
    region.len = len;
    if (!is_right(dma330_channel_open(&channel) == DMA330_OK &&
                  dma330_channel_load_program(&channel, bytes, len) == DMA330_PROGRAM_TOO_LONG &&
                  dma330_channel_restore(&channel, bytes, len) == DMA330_BAD_SAVE &&
                  dma330_channel_load_from(&channel, &region, 1, 0) == DMA330_BAD_REGIONS &&
                  dma330_channel_step(&channel, &region, 1, &flags, 1, &report) == DMA330_BAD_REGIONS))
        printf("WRONG: a channel with more than 4 GiB\n");
    dma330_channel_close(&channel);
}

static void call_with_long_lengths(void)
{
    const size_t len = ((size_t)1 << 32) + 8;
    const uint8_t end_of_program = 0;
    dma330_controller controller = DMA330_CONTROLLER_INIT;
    dma330_conflict conflict;
    dma330_run_end end;
    uint8_t *bytes = mmap(NULL, len, PROT_READ | PROT_WRITE, MAP_PRIVATE | MAP_ANONYMOUS | MAP_NORESERVE, -1, 0);
    if (bytes == MAP_FAILED || dma330_open(&controller, 64, 1) != DMA330_OK) {
        printf("lengths above 32 bits are left out: there is no room for them\n");
        return;
    }
    bytes[0] = 7;
    if (!is_right(dma330_read(&controller, 0, bytes, len, &conflict) == DMA330_OUT_OF_MEMORY_RANGE && bytes[0] == 7))
        printf("WRONG: a read of more than 4 GiB\n");
    if (!is_right(dma330_write(&controller, 0, bytes, len, &conflict) == DMA330_OUT_OF_MEMORY_RANGE))
        printf("WRONG: a write of more than 4 GiB\n");
    if (!is_right(dma330_run_program(&end_of_program, 1, bytes, len, 10, &end) == DMA330_SIZE_OUT_OF_RANGE))
        printf("WRONG: a program over more than 4 GiB\n");
    call_channel_with_long_lengths(bytes, len);
    dma330_close(&controller);
    munmap(bytes, len);
}

/* ---- regions that end at 2^64 or above, whose end modulo 2^64 would be accepted ---- */

/* Returns whether a channel refuses a region of this length at address 16, and neither the flags, the report nor the
 * bytes change. */
static int refuses_region(dma330_channel *channel, size_t len)
{
    static uint8_t bytes[64];
    static const uint8_t zeros[sizeof bytes];
    dma330_region region = {16, NULL, 0, 0};
    dma330_channel_report report, former;
    uint32_t flags = 5;
    memset(&report, 7, sizeof report);
    memset(&former, 7, sizeof former);
    region.bytes = bytes;
    region.len = len;
    return dma330_channel_load_from(channel, &region, 1, 16) == DMA330_BAD_REGIONS &&
           dma330_channel_step(channel, &region, 1, &flags, 100, &report) == DMA330_BAD_REGIONS && flags == 5 &&
           memcmp(&report, &former, sizeof report) == 0 && memcmp(bytes, zeros, sizeof bytes) == 0;
}

static void refuse_regions_past_2_64(void)
{
    static uint8_t before[DMA330_MAX_SAVE], after[DMA330_MAX_SAVE];
    const uint8_t sets_event_3[3] = {0x34, 0x18, 0x00};
    dma330_channel channel = DMA330_CHANNEL_INIT;
    size_t less, len = 0, left = 0;
    if (!is_right(dma330_channel_open(&channel) == DMA330_OK &&
                  dma330_channel_load_program(&channel, sets_event_3, sizeof sets_event_3) == DMA330_OK &&
                  dma330_channel_save(&channel, before, sizeof before, &len) == DMA330_OK))
        printf("WRONG: a channel that sets an event\n");
    for (less = 1; less <= 16; less++)
        if (!is_right(refuses_region(&channel, (size_t)0 - less)))
            printf("WRONG: a region of 2^64 - %lu bytes\n", (unsigned long)less);
    if (!is_right(dma330_channel_save(&channel, after, sizeof after, &left) == DMA330_OK && left == len &&
                  memcmp(before, after, len) == 0))
        printf("WRONG: a channel that refused regions\n");
    dma330_channel_close(&channel);
}

int main(int count, char **words)
{
    while (--count > 0) {
        const group *next = read_groups(*++words);
        for (; next->title != NULL; next++) {
            walk(next, SINGLE, 0);
            walk(next, MANY, 0);
            walk(next, MANY, 1);
        }
    }
    compare_all_codes();
    run_cut_programs();
    run_all_pairs();
    compare_version();
    write_longest_texts();
    call_with_long_lengths();
    refuse_regions_past_2_64();
    printf("%ld passed, %ld failed\n", passed, failed);
    return failed != 0;
}
