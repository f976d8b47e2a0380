/* Stores to places between which registers lie, in one turn: a store to DDR, the DMASEV of an interrupt, and in the
 * step after it a store to the on-chip memory. No register may change. Then a store to a register, and one over code
 * that the processor has executed. */
#include "guest.h"

#define PROGRAM 0x00200000u
#define SOURCE 0x00300000u
#define CODE 0x00400000u

static const struct watched {
    const char *name;
    uint32_t at;
} watched[] = {
    {"UART1 CR", 0xE0001000},    {"UART1 MR", 0xE0001004},    {"UART1 IMR", 0xE0001010},
    {"UART1 BAUD", 0xE0001018},
    {"USB0", 0xE0002140},        {"SPI0 CR", 0xE0006000},     {"GEM0 NWCTRL", 0xE000B000}, {"GEM0 NWCFG", 0xE000B004},
    {"GEM0 RXQBAR", 0xE000B018}, {"SDHCI0 SYSA", 0xE0100000}, {"SDHCI0 BLK", 0xE0100004},  {"SLCR LOCKST", 0xF800000C},
    {"SLCR UARTCK", 0xF8000154}, {"TTC0 CLK", 0xF8001000},    {"TTC0 CNTR", 0xF800100C},   {"PL330 CSR1", 0xF8003108},
    {"PL330 FTR1", 0xF8003044},  {"DEVCFG CTRL", 0xF8007000}, {"DEVCFG SRC", 0xF8007018},  {"XADC CFG", 0xF8007100},
    {"SCU CTRL", 0xF8F00000},    {"GICC CTLR", 0xF8F00100},   {"MPTIMER LD", 0xF8F00600},  {"GICD CTLR", 0xF8F01000},
    {"GICD EN1", 0xF8F01104},
};
#define WATCHED (sizeof watched / sizeof watched[0])

/* Stores a word to `first` and one to `second`, `rounds` times, with the DMASEV of an event, or of an interrupt,
 * between the two; then looks for changed registers. */
static void two_stores(uint32_t first, uint32_t second, uint32_t rounds, int interrupt)
{
    uint32_t before[WATCHED];
    uint8_t *at = (uint8_t *)PROGRAM, *loop;

    for (unsigned n = 0; n < WATCHED; n++)
        before[n] = REG(watched[n].at);
    for (uint32_t n = 0; n < 1024; n++)
        REG(SOURCE + 4 * n) = 0x11223344 + n;
    REG(first) = 0;
    REG(second) = 0;
    at = move(at, CCR, CONTROL(2, 1, 1, 1));
    at = move(at, SAR, SOURCE);
    loop = at = op2(at, DMALP_0, rounds - 1);
    at = op(op(move(at, DAR_, first), DMALD), DMAST);
    at = op(move(at, DAR_, second), DMALD);
    at = op(op2(at, DMASEV, 3 << 3), DMAST);
    at = op2(at, DMALPEND_0, at - loop);
    op(at, DMAEND);

    REG(INTEN) = interrupt << 3;
    go(0, PROGRAM);
    wait_for(0, 100000000);
    REG(UART) = 0x14;
    check(status(0) == STOPPED, "two stores: the channel isn't stopped");
    check(REG(first) == 0x11223344 + 2 * rounds - 2, "two stores: the first");
    check(REG(second) == 0x11223344 + 2 * rounds - 1, "two stores: the second");
    for (unsigned n = 0; n < WATCHED; n++)
        check(REG(watched[n].at) == before[n], watched[n].name);
    REG(INTEN) = 0;
    REG(DMA + 0x2C) = ~0u;
}

/* Copies a word to a register. QEMU's own PL330 writes it; dma330.c refuses the store. */
static void store_to_register(void)
{
    uint32_t to = 0xF8001024, before = REG(to); /* the interval of a timer */
    uint8_t *at = (uint8_t *)PROGRAM;

    REG(SOURCE) = before ^ 0x55;
    at = move(at, CCR, CONTROL(2, 1, 1, 1));
    at = move(at, SAR, SOURCE);
    at = move(at, DAR_, to);
    op(op(op(at, DMALD), DMAST), DMAEND);
    go(0, PROGRAM);
    wait_for(0, 100000000);
    if (REG(to) != before)
        print("guest: DMA reaches a register\n");
    else
        check(status(0) == FAULTING && REG(FTR(0)) >> 17 & 1, "a store to a register: the fault");
    REG(to) = before;
    stop(0);
}

/* Puts a function that returns this value at CODE, or elsewhere. */
static void write_code(uint32_t address, uint8_t value)
{
    REG(address) = 0xE3A00000 | value; /* mov r0, #value */
    REG(address + 4) = 0xE12FFF1E;     /* bx lr */
}

/* Executes code, stores other code over it by DMA, and executes that. */
static void store_over_code(void)
{
    uint32_t (*code)(void) = (uint32_t (*)(void))CODE;
    uint8_t *at = (uint8_t *)PROGRAM;

    write_code(CODE, 1);
    check(code() == 1, "code before the copy");
    write_code(SOURCE, 2);
    at = move(at, CCR, CONTROL(2, 2, 1, 1));
    at = move(at, SAR, SOURCE);
    at = move(at, DAR_, CODE);
    op(op(op(at, DMALD), DMAST), DMAEND);
    go(0, PROGRAM);
    wait_for(0, 100000000);
    check(code() == 2, "code after the copy");
}

int main(void)
{
    begin();
    two_stores(0x0FFFFF00, 0xFFFC0000, 1, 1);
    two_stores(0x0FFFFF00, 0xFFFC0000, 1, 0);
    two_stores(0x0FFFFF00, 0xFFFC0000, 200, 1);
    two_stores(0x01000000, 0x0FFFFF00, 200, 1);
    store_to_register();
    store_over_code();
    end();
}
