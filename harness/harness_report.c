/* The report of a failure. */
#include "harness_inside.h"

#include <stdarg.h>
#include <stdio.h>
#include <string.h>

jmp_buf failing;
bool is_brief, is_silent;

/* ---- names ---- */

/* A bit of FTRD, which no channel's FTR has. */
enum { DMAGO_ERR = 4 };

static const struct {
    uint32_t offset;
    const char *name;
} registers[] = {
    {DSR, "DSR"}, {0x004, "DPC"}, {INTEN, "INTEN"}, {INT_EVENT_RIS, "INT_EVENT_RIS"}, {INTMIS, "INTMIS"},
    {INTCLR, "INTCLR"}, {FSRD, "FSRD"}, {FSRC, "FSRC"}, {FTRD, "FTRD"}, {DBGSTATUS, "DBGSTATUS"}, {DBGCMD, "DBGCMD"},
    {DBGINST0, "DBGINST0"}, {DBGINST1, "DBGINST1"}, {0xE00, "CR0"}, {0xE04, "CR1"}, {0xE08, "CR2"}, {0xE0C, "CR3"},
    {0xE10, "CR4"}, {0xE14, "CRD"}, {0xE80, "WD"}, {0xFE0, "PERIPH_ID_0"}, {0xFE4, "PERIPH_ID_1"},
    {0xFE8, "PERIPH_ID_2"}, {0xFEC, "PERIPH_ID_3"}, {0xFF0, "PCELL_ID_0"}, {0xFF4, "PCELL_ID_1"},
    {0xFF8, "PCELL_ID_2"}, {0xFFC, "PCELL_ID_3"}
};

/* Returns the name of the register that each channel has, by the offset from channel 0's first one; NULL for none. */
static const char *of_channel(uint32_t offset, uint32_t *channel)
{
    static const char *const wide[] = {"SAR", "DAR", "CCR", "LC0", "LC1"};

    *channel = (offset - FTR) / 4;
    if (offset >= FTR && *channel < MOST_CHANNELS)
        return "FTR";
    *channel = (offset - CSR) / 8;
    if (offset >= CSR && *channel < MOST_CHANNELS)
        return offset % 8 == 0 ? "CSR" : "CPC";
    *channel = (offset - SAR) / 32;
    if (offset >= SAR && *channel < MOST_CHANNELS && offset % 32 < 4 * 5)
        return wide[offset % 32 / 4];
    return NULL;
}

const char *name_of_register(uint32_t offset, char name[NAME])
{
    uint32_t channel = 0;
    const char *it = offset % 4 == 0 ? of_channel(offset, &channel) : NULL;

    name[0] = '\0';
    if (it != NULL)
        sprintf(name, "%s%lu", it, (unsigned long)(channel % MOST_CHANNELS));
    for (size_t n = 0; n < sizeof registers / sizeof registers[0]; n++)
        if (registers[n].offset == offset)
            strcpy(name, registers[n].name);
    return name;
}

const char *names_of_faults(uint32_t ftr, char names[NAMES])
{
    strcpy(names, ftr == 0 ? "0" : "");
    for (uint32_t bit = 0; bit < 32; bit++)
        if (ftr >> bit & 1) {
            strcat(names, names[0] != '\0' ? " " : "");
            strcat(names, bit == DMAGO_ERR ? "DMAGO_ERR" : dma330_ftr_name(bit));
        }
    return names;
}

/* ---- the machine's state ---- */

static void print_channel(uint32_t channel)
{
    uint32_t status = look(CSR + 8 * channel), pc = look(CPC + 8 * channel), ftr = look(FTR + 4 * channel);
    const struct program *it = machine.of_channel[channel];
    char names[NAMES], text[TEXT];

    printf("  channel %lu: CSR %s", (unsigned long)channel,
           dma330_csr_name(machine.killing[channel] > 0 ? (uint32_t)KILLING : status));
    if ((status & 15) == WAITING)
        printf(" %lu", (unsigned long)(status >> 4 & 31));
    printf(", FTR %s", names_of_faults(ftr, names));
    if ((status & 15) != STOPPED && it != NULL)
        printf("\n    CPC 0x%08lX: %s\n    SAR 0x%08lX, DAR 0x%08lX, CCR 0x%08lX", (unsigned long)pc,
               text_of_instruction(it, pc - it->addr, text), (unsigned long)look(SAR + 32 * channel),
               (unsigned long)look(DAR + 32 * channel), (unsigned long)look(CCR + 32 * channel));
    printf("\n");
}

static void print_registers(void)
{
    static const uint32_t shown[] = {INTEN, INT_EVENT_RIS, INTMIS, FSRC, FSRD};
    char name[NAME], names[NAMES];

    for (size_t n = 0; n < sizeof shown / sizeof shown[0]; n++)
        printf("%s%s 0x%lX", n == 0 ? "  " : ", ", name_of_register(shown[n], name), (unsigned long)look(shown[n]));
    if (look(FSRD) != 0)
        printf(", FTRD %s", names_of_faults(look(FTRD), names));
    printf("%s\n", machine.is_handling ? "; the handler runs" : "");
}

static void print_access(const struct access *it)
{
    char name[NAME];

    printf("    tick %lu: %s %s 0x%08lX", (unsigned long)it->tick, it->is_write ? "write" : "read ",
           name_of_register(it->offset, name), (unsigned long)it->value);
    if (it->period > 1)
        printf("\n      these %lu", (unsigned long)it->period);
    if (it->again > 0)
        printf(", %lu times up to tick %lu", (unsigned long)it->again + 1, (unsigned long)it->last);
    printf("\n");
}

/* Prints the last accesses, the oldest first. Those that were repeated are there once. */
static void print_accesses(void)
{
    const uint32_t most = LOGGED, count = machine.accesses < most ? machine.accesses : most;

    printf("  the last accesses to registers:\n");
    for (uint32_t n = machine.accesses - count; n != machine.accesses; n++)
        print_access(&machine.last[n % ROOM]);
    for (uint32_t n = 0; n < machine.waiting; n++)
        print_access(&machine.begun[n]);
}

/* Prints a program of copy n: its channel, what it did, and its instructions. */
static void print_work(const struct program *it, size_t n)
{
    static const char *const ends[] = {"not ended", "ended", "failed", "killed"};
    const struct share *share = &it->shares[n];

    printf("    a program on channel %lu, at 0x%08lX, started at tick %lu, %s", (unsigned long)it->channel,
           (unsigned long)it->addr, (unsigned long)it->started, ends[it->end]);
    if (it->end != RUNS)
        printf(" at tick %lu", (unsigned long)it->ended);
    if (it->is_explained)
        printf(": has stored %lu of its %lu bytes\n", (unsigned long)share->stored, (unsigned long)share->bytes);
    else
        printf(": has stored %lu bytes, unexplained: %s\n", (unsigned long)share->stored, dma330_cause_name(it->cause));
    print_program(it);
}

/* Prints a copy; the one that the failure is about with its programs, the last one first. */
static void print_copy(const struct copy *it)
{
    enum { MOST = 3 };
    size_t n = (size_t)(it - machine.copies);
    const struct program *program = last_program(it, machine.started + 1);

    printf("  copy %lu, number %lu of the run: %lu bytes from 0x%08lX to 0x%08lX, started at tick %lu\n",
           (unsigned long)n, (unsigned long)it->number, (unsigned long)it->len, (unsigned long)it->src,
           (unsigned long)it->dst, (unsigned long)it->started);
    for (int k = 0; it == machine.about && program != NULL && k < MOST; k++) {
        print_work(program, n);
        program = last_program(it, program->serial);
    }
}

static void print_machine(void)
{
    printf("  in the run with %s\n", machine.run);
    for (int n = 0; n < HARNESS_MOST_COPIES; n++)
        if (machine.copies[n].runs || &machine.copies[n] == machine.about)
            print_copy(&machine.copies[n]);
    for (uint32_t channel = 0; channel < machine.driver->chip.channels; channel++)
        print_channel(channel);
    print_registers();
    print_accesses();
}

/* ---- failures ---- */

void fail(const char *format, ...)
{
    static bool is_failing;
    bool is_first = !is_failing;
    va_list values;

    is_failing = true;
    if (is_first && !is_silent) {
        printf("WRONG: ");
        va_start(values, format);
        vprintf(format, values);
        va_end(values);
        printf(" (seed %lu, tick %lu)\n", (unsigned long)machine.seed, (unsigned long)machine.tick);
        print_machine();
    }
    is_failing = false;
    machine.has_failed = true;
    longjmp(failing, 1);
}

void expect(bool holds, const char *wrong)
{
    if (!holds)
        fail("%s", wrong);
}
