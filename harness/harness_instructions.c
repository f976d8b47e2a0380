/* The instructions of programs, as texts, and what is odd about them. */
#include "harness_inside.h"

#include <stdio.h>
#include <string.h>

enum { DMAEND = 0x00, DMAST = 0x08, MOST_LINES = 48, MOST_LOOPS = 8 };

uint32_t length_of_instruction(uint8_t first)
{
    switch (first) {
    case 0xBC:
        return 6;
    case 0x54: case 0x56: case 0x5C: case 0x5E:
        return 3;
    case 0x20: case 0x22: case 0x28: case 0x2C: case 0x34: case 0x36: case 0x38: case 0x3C:
        return 2;
    default:
        return 1;
    }
}

/* Returns the name of an instruction that dma330_disassemble doesn't have, by its first byte, or NULL. */
static const char *chip_name(uint8_t first)
{
    switch (first) {
    case 0x0C: return "DMASTZ";
    case 0x28: case 0x2C: return "DMALPEND of a DMALPFE";
    case 0x54: case 0x56: return "DMAADDH";
    case 0x5C: case 0x5E: return "DMAADNH";
    default: return NULL;
    }
}

const char *text_of_instruction(const struct program *it, uint32_t at, char text[TEXT])
{
    uint32_t len;
    size_t length = 0, place = 0;

    if (at >= it->len)
        return "outside the program";
    len = length_of_instruction(it->bytes[at]);
    if (at + len > it->len)
        return "cut off";
    if (chip_name(it->bytes[at]) != NULL)
        return chip_name(it->bytes[at]);
    if (dma330_disassemble(it->bytes + at, len, text, TEXT - 1, &length, &place) != DMA330_OK)
        return "no instruction";
    text[length > 0 ? length - 1 : 0] = '\0'; /* without the line feed */
    return text;
}

void print_program(const struct program *it)
{
    char text[TEXT];
    uint32_t lines = 0;

    for (uint32_t at = 0; at < it->len && lines < MOST_LINES; at += length_of_instruction(it->bytes[at])) {
        printf("      %4lu %s\n", (unsigned long)at, text_of_instruction(it, at, text));
        lines++;
        if (it->bytes[at] == DMAEND)
            return;
    }
}

/* ---- loops ---- */

/* A loop that is open: its counter, and the offsets of its DMALP and of its first instruction. */
struct loop {
    uint32_t counter, at, body;
};

/* Writes what is wrong with a DMALP, if anything. */
static void judge_begin(const struct loop *loops, uint32_t count, const struct loop *it, char text[ODD])
{
    for (uint32_t n = 0; n < count; n++)
        if (loops[n].counter == it->counter)
            sprintf(text, "; the loop at offset %lu counts in LC%lu, as the one around it at offset %lu",
                    (unsigned long)it->at, (unsigned long)it->counter, (unsigned long)loops[n].at);
}

/* Writes what is wrong with the DMALPEND at an offset, which ends a loop, or none. */
static void judge_end(const struct program *program, uint32_t at, const struct loop *it, char text[ODD])
{
    uint32_t counter = program->bytes[at] >> 2 & 1, body = at - program->bytes[at + 1];

    if (it == NULL)
        sprintf(text, "; the DMALPEND at offset %lu ends no loop", (unsigned long)at);
    else if (counter != it->counter)
        sprintf(text, "; the DMALPEND at offset %lu counts in LC%lu, and its DMALP in LC%lu", (unsigned long)at,
                (unsigned long)counter, (unsigned long)it->counter);
    else if (body != it->body)
        sprintf(text, "; the DMALPEND at offset %lu jumps to offset %ld, and its loop begins at offset %lu",
                (unsigned long)at, (long)(int32_t)body, (unsigned long)it->body);
}

/* Writes what is wrong with a program's loops, if anything. */
static void judge_loops(const struct program *it, char text[ODD])
{
    struct loop loops[MOST_LOOPS];
    uint32_t count = 0, len, last = it->cause == DMA330_CAUSE_UNDEF_INSTR ? it->pc : it->len;

    for (uint32_t at = 0; at < last && it->bytes[at] != DMAEND && text[0] == '\0'; at += len) {
        uint8_t first = it->bytes[at];
        const struct loop loop = {first >> 1 & 1u, at, at + 2};
        len = length_of_instruction(first);
        if (at + len > it->len)
            return;
        if ((first & ~2) == 0x20 && count < MOST_LOOPS) {
            judge_begin(loops, count, &loop, text);
            loops[count++] = loop;
        }
        if ((first & ~4) == 0x38) {
            judge_end(it, at, count > 0 ? &loops[count - 1] : NULL, text);
            count -= count > 0;
        }
    }
}

/* ---- addresses ---- */

/* Writes whether a program begins bursts at an address that isn't a multiple of their beats. */
static void judge_beats(const struct program *it, char text[ODD])
{
    static const char *const names[] = {"SAR", "CCR", "DAR"};
    uint32_t values[3] = {0, 0, 0}, len, last = it->cause == DMA330_CAUSE_UNDEF_INSTR ? it->pc : it->len;

    for (uint32_t at = 0; at < last && it->bytes[at] != DMAEND && text[0] == '\0'; at += len) {
        const uint8_t *code = it->bytes + at;
        int which = code[0] == DMALD ? 0 : 2;
        uint32_t beat = 1u << (values[1] >> (which == 0 ? 1 : 15) & 7);
        len = length_of_instruction(code[0]);
        if (at + len > it->len)
            return;
        if (len == 6 && code[1] <= 2)
            values[code[1]] = code[2] | (uint32_t)code[3] << 8 | (uint32_t)code[4] << 16 | (uint32_t)code[5] << 24;
        if ((code[0] == DMALD || code[0] == DMAST) && values[which] % beat != 0)
            sprintf(text, "; %s 0x%08lX isn't a multiple of the beat, %lu bytes", names[which],
                    (unsigned long)values[which], (unsigned long)beat);
    }
}

/* ---- control words ---- */

/* Writes what is wrong with a DMAMOV CCR that the chip refuses. */
static void judge_refused(const struct program *it, char text[ODD])
{
    uint32_t ccr, load, store, bus = machine.driver->chip.bus / 8;
    const uint8_t *code;

    if (it->cause != DMA330_CAUSE_OPERAND_INVALID || it->len < 6 || it->pc > it->len - 6)
        return;
    code = it->bytes + it->pc;
    if (code[0] != 0xBC || code[1] != 1)
        return;
    ccr = code[2] | (uint32_t)code[3] << 8 | (uint32_t)code[4] << 16 | (uint32_t)code[5] << 24;
    load = 1u << (ccr >> 1 & 7);
    store = 1u << (ccr >> 15 & 7);
    if (load > bus || store > bus)
        sprintf(text, "; its beats have %lu bytes for loads and %lu for stores, and the bus has %lu",
                (unsigned long)load, (unsigned long)store, (unsigned long)bus);
    else if (ccr >> 28 != 0)
        sprintf(text, "; its bits 31:28 are 0x%lX, and the device takes only 0", (unsigned long)(ccr >> 28));
}

/* Writes whether a program that fails for its buffer has loads and stores of different lengths. */
static void judge_halves(const struct program *it, char text[ODD])
{
    bool is_buffer = it->cause == DMA330_CAUSE_MFIFO_ERR || it->cause == DMA330_CAUSE_ST_DATA_UNAVAILABLE ||
                     it->cause == DMA330_CAUSE_BYTES_LEFT;
    uint32_t len, load, store;

    for (uint32_t at = 0; is_buffer && at < it->pc && at + 6 <= it->len && text[0] == '\0'; at += len) {
        const uint8_t *code = it->bytes + at;
        uint32_t ccr = code[2] | (uint32_t)code[3] << 8 | (uint32_t)code[4] << 16 | (uint32_t)code[5] << 24;
        len = length_of_instruction(code[0]);
        load = ((ccr >> 4 & 15) + 1) << (ccr >> 1 & 7);
        store = ((ccr >> 18 & 15) + 1) << (ccr >> 15 & 7);
        if (code[0] == 0xBC && code[1] == 1 && load != store)
            sprintf(text, "; by the CCR at offset %lu a load has %lu bytes and a store %lu", (unsigned long)at,
                    (unsigned long)load, (unsigned long)store);
    }
}

const char *what_is_odd(const struct program *it, char text[ODD])
{
    text[0] = '\0';
    judge_refused(it, text);
    if (text[0] == '\0')
        judge_loops(it, text);
    judge_beats(it, text);
    judge_halves(it, text);
    if (text[0] == '\0' && it->cause == DMA330_CAUSE_UNDEF_INSTR)
        strcpy(text, "; no DMAEND comes before it");
    return text;
}
