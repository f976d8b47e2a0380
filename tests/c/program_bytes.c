/* Checks the macros of dma330_program.h: each instruction against the bytes that dma330_assemble writes for its text,
 * for all operands; control words against those in the programs of dma330_plan and dma330_plan_fill, whose form is in
 * docs/PROGRAMS.md; other words, and instructions that it doesn't assemble, against the manual, worked out by hand. */
#include "dma330.h"
#include "dma330_program.h"

#include <stdio.h>
#include <string.h>

enum { LONGEST = 6 };

static long passed, failed;

static void check(int holds, const char *what, uint32_t n)
{
    passed += holds;
    failed += !holds;
    if (!holds)
        printf("WRONG: %s (%lu)\n", what, (unsigned long)n);
}

/* Checks that an instruction's bytes are those of its text, which may have a number in it. */
static void same(const uint8_t *bytes, size_t len, const char *format, uint32_t n)
{
    char text[64];
    uint8_t wanted[LONGEST];
    size_t wanted_len = 0, place = 0;
    int32_t code;

    sprintf(text, format, (unsigned long)n);
    code = dma330_assemble(text, strlen(text), wanted, sizeof wanted, &wanted_len, &place);
    check(code == DMA330_OK && wanted_len == len && memcmp(bytes, wanted, len) == 0, text, n);
}

#define SAME(format, n, ...) do { const uint8_t it[] = {__VA_ARGS__}; same(it, sizeof it, format, n); } while (0)

static void plain_instructions(void)
{
    SAME("DMAEND", 0, DMA330_DMAEND);
    SAME("DMALD", 0, DMA330_DMALD);
    SAME("DMAST", 0, DMA330_DMAST);
    SAME("DMARMB", 0, DMA330_DMARMB);
    SAME("DMAWMB", 0, DMA330_DMAWMB);
    SAME("DMANOP", 0, DMA330_DMANOP);
}

static void instructions_with_operands(void)
{
    static const uint32_t values[] = {0, 1, 0xFF, 0x12345678, 0x80001000, 0xFFFFFFFF};

    for (size_t n = 0; n < sizeof values / sizeof values[0]; n++) {
        SAME("DMAMOV SAR 0x%08lX", values[n], DMA330_DMAMOV_SAR(values[n]));
        SAME("DMAMOV CCR 0x%08lX", values[n], DMA330_DMAMOV_CCR(values[n]));
        SAME("DMAMOV DAR 0x%08lX", values[n], DMA330_DMAMOV_DAR(values[n]));
    }
    for (uint32_t n = 1; n <= 256; n++) {
        SAME("DMALP 0 %lu", n, DMA330_DMALP(0, n));
        SAME("DMALP 1 %lu", n, DMA330_DMALP(1, n));
        SAME("DMALPEND 0 %lu", n - 1, DMA330_DMALPEND(0, n - 1));
        SAME("DMALPEND 1 %lu", n - 1, DMA330_DMALPEND(1, n - 1));
    }
    for (uint32_t n = 0; n < 32; n++) {
        SAME("DMASEV %lu", n, DMA330_DMASEV(n));
        SAME("DMAWFE %lu", n, DMA330_DMAWFE(n));
        SAME("DMAWFE %lu invalid", n, DMA330_DMAWFE_INVALID(n));
    }
}

static void instructions_of_a_device(void)
{
    static const uint8_t found[] = {
        DMA330_DMASTZ, DMA330_DMAADDH_SAR(0x1234), DMA330_DMAADDH_DAR(0xFFFF), DMA330_DMAADNH_SAR(0xFFF0),
        DMA330_DMAADNH_DAR(0), DMA330_DMALPEND_FOREVER(255)
    };
    static const uint8_t wanted[] = {
        0x0C, 0x54, 0x34, 0x12, 0x56, 0xFF, 0xFF, 0x5C, 0xF0, 0xFF, 0x5E, 0x00, 0x00, 0x2C, 0xFF
    };

    check(sizeof found == sizeof wanted && memcmp(found, wanted, sizeof wanted) == 0, "a device's instructions", 0);
}

/* Returns the first control word of a program that begins with DMAMOVs. */
static unsigned long control_of(const uint8_t *program, size_t len)
{
    for (size_t at = 0; at + 6 <= len && program[at] == 0xBC; at += 6)
        if (program[at + 1] == 1)
            return (unsigned long)program[at + 5] << 24 | (unsigned long)program[at + 4] << 16 |
                   (unsigned long)program[at + 3] << 8 | program[at + 2];
    return 0xFFFFFFFF;
}

/* A copy of some beats from and to addresses that no wider beat divides has bursts of these beats. */
static void planned_words(uint32_t bytes, uint32_t beats)
{
    const dma330_segment src = {0x1000 + bytes, bytes * beats}, dst = {0x4000 + bytes, bytes * beats};
    static uint8_t program[DMA330_MAX_PROGRAM];
    const int32_t none = DMA330_NO_EVENT;
    size_t len = 0;
    int32_t code = dma330_plan(&src, 1, &dst, 1, none, none, 128, program, sizeof program, &len);

    check(code == DMA330_OK && control_of(program, len) == DMA330_CCR_COPY(beats, bytes), "copy", 100 * bytes + beats);
    if (bytes > 1)
        return;
    code = dma330_plan_fill(0x1000, &dst, 1, none, none, 128, program, sizeof program, &len);
    check(code == DMA330_OK && control_of(program, len) == DMA330_CCR(beats, 1, 0, beats, 1, 1), "a fill", beats);
}

/* By the manual: bit 0 (src) and 14 (dst) rise, 3:1 and 17:15 size, 7:4 and 21:18 beats less 1, 10:8 and 24:22
 * protection, 13:11 and 27:25 cache. DBGINST0: the instruction's bytes 0 and 1 in 23:16 and 31:24, the channel in 10:8,
 * whether a channel executes it in 0. */
static void words(void)
{
    check(DMA330_CCR(16, 16, 1, 1, 1, 0) == 0x000000F9, "loads of 256 bytes", 0);
    check(DMA330_CCR(1, 1, 0, 16, 16, 1) == 0x003E4000, "stores of 256 bytes", 0);
    check(DMA330_CCR(1, 4, 1, 2, 2, 0) == 0x00048005, "two sizes", 0);
    check(DMA330_CCR_SRC_PROT(7) == 0x00000700 && DMA330_CCR_SRC_CACHE(7) == 0x00003800, "loads", 0);
    check(DMA330_CCR_DST_PROT(7) == 0x01C00000 && DMA330_CCR_DST_CACHE(7) == 0x0E000000, "stores", 0);
    check(DMA330_DBGINST0_GO(5) == 0x05A00000 && DMA330_DBGINST0_GO_NONSECURE(5) == 0x05A20000, "DMAGO", 0);
    check(DMA330_DBGINST0_KILL(5) == 0x00010501 && DMA330_DBGINST0_KILL_MANAGER == 0x00010000, "DMAKILL", 0);
    check(DMA330_DBGINST0_SEV(31) == 0xF8340000, "DMASEV", 0);
    check(sizeof DMA330_CCR(16, 16, 1, 1, 1, 0) == 4 && sizeof DMA330_CCR_DST_CACHE(7) == 4, "control words' type", 0);
    check(sizeof DMA330_DBGINST0_GO(5) == 4 && sizeof DMA330_DBGINST0_KILL(5) == 4, "DBGINST0's type", 0);
}

int main(void)
{
    plain_instructions();
    instructions_with_operands();
    instructions_of_a_device();
    for (uint32_t bytes = 1; bytes <= 16; bytes *= 2)
        for (uint32_t beats = 1; beats <= 16; beats++)
            planned_words(bytes, beats);
    words();
    printf("%ld passed, %ld failed\n", passed, failed);
    return failed != 0;
}
