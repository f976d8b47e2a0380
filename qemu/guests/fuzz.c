/* Random programs, debug instructions, and accesses of all sizes to the registers, drawn from SEED, in ROUNDS rounds.
 * QEMU may not crash, and a DMAKILL must stop each channel. */
#include "guest.h"

#ifndef ROUNDS
#define ROUNDS 20000
#endif
#ifndef SEED
#define SEED 1
#endif
#define FREE 0x04000000u /* here begins RAM that has neither this guest nor its programs */

static uint32_t state = SEED;

static uint32_t draw(void)
{
    state ^= state << 13;
    state ^= state >> 17;
    state ^= state << 5;
    return state;
}

static uint32_t draw_address(void)
{
    switch (draw() % 10) {
    case 0:
        return 0xFFFC0000u + draw() % 0x40000; /* on-chip memory */
    case 1:
        return 0x0FFFFE00u + draw() % 0x400; /* the end of DDR */
    case 2:
        return 0xFFFFFE00u + draw() % 0x200; /* the end of the address space */
    case 3:
        return 0xE2000000u + draw() % 0x1000; /* the flash */
    case 4:
        return 0xE0000000u + draw() % 0x1000; /* registers */
    case 5:
        return draw();
    default:
        return FREE + draw() % 0x4000000;
    }
}

/* Appends a DMAMOV. A destination is never this guest; the endian swap and wide beats are mostly left out of CCR. */
static uint8_t *draw_move(uint8_t *at)
{
    uint8_t to = draw() % 3 ? draw() & 2 : CCR;
    uint32_t value = to == CCR ? draw() & 0x3FFDFFF7 : draw_address();

    if (to == DAR_ && value < FREE)
        value = FREE + 0x01000000;
    return move(at, to, value);
}

/* A program begins with a DMAMOV DAR, since a DMAGO keeps DAR, and stores in no loop for ever. */
static void draw_program(uint8_t *at)
{
    at = move(at, DAR_, FREE);
    for (uint32_t count = draw() % 40; count; count--) {
        switch (draw() % 16) {
        case 0:
        case 1:
            at = draw_move(at);
            break;
        case 2:
        case 3:
            at = op(at, DMALD);
            break;
        case 4:
        case 5:
            at = op(at, DMAST);
            break;
        case 6:
            at = op2(at, DMASEV, draw() % 17 << 3);
            break;
        case 7:
        case 8:
            at = op(at, 0x12 + draw() % 2); /* DMARMB, DMAWMB */
            break;
        case 9:
            at = op2(at, DMALP_0 | (draw() & 2), draw() % 20);
            break;
        case 10:
            at = op2(at, DMALPEND_0 | (draw() & 4), draw() % 12);
            break;
        case 11:
            if (draw() % 6 == 0)
                at = op2(at, DMAWFE, draw() % 16 << 3);
            break;
        case 12:
            at = op(at, DMASTZ);
            break;
        case 13: /* DMAADDH and DMAADNH of SAR */
            at = op(op2(at, DMAADDH | (draw() & 8), draw()), draw());
            break;
        case 14:
            if (draw() % 6 == 0)
                at = op2(op2(at, DMAWFE, draw() % 16 << 3), DMALPEND_FE | (draw() & 4), 2);
            break;
        default:
            if (draw() % 8 == 0)
                at = op(at, draw());
            break;
        }
    }
    op(at, DMAEND);
}

/* Reads or writes a register, or what is between two, but not the one that executes a debug instruction. */
static void draw_access(void)
{
    uint32_t at = DMA + draw() % 0x1000;

    if ((at & ~3u) == DMA + 0xD04)
        at = DMA;
    switch (draw() % 6) {
    case 0:
        (void)BYTE(at);
        break;
    case 1:
        (void)*(volatile uint16_t *)(at & ~1u);
        break;
    case 2:
        (void)REG(at & ~3u);
        break;
    case 3:
        BYTE(at) = draw();
        break;
    case 4:
        *(volatile uint16_t *)(at & ~1u) = draw();
        break;
    default:
        REG(at & ~3u) = draw();
        break;
    }
}

/* Starts a random program on a random channel, mostly, and returns the channel. */
static uint32_t draw_start(void)
{
    uint32_t channel = draw() % 8, at = 0x00200000u + channel * 0x10000u + (draw() % 4 ? 0 : draw() % 100);

    draw_program((uint8_t *)at);
    if (draw() % 4 == 0)
        REG(INTEN) = draw() & draw();
    if (draw() % 3 == 0)
        REG(DMA + 0x2C) = draw();
    REG(DMA + 0xD08) = draw() % 50 ? 0xA0u << 16 | channel << 24 : draw();
    REG(DMA + 0xD0C) = draw() % 50 ? at : draw_address();
    REG(DMA + 0xD04) = draw() % 20 ? 0 : draw();
    return channel;
}

static uint32_t counts[16]; /* how often a round left its channel in each status */

int main(void)
{
    uint32_t stuck = 0;

    begin();
    for (uint32_t round = 0; round < ROUNDS; round++) {
        uint32_t channel = draw_start();

        wait_for(channel, 50);
        counts[status(channel)]++;
        if (draw() % 10 == 0)
            draw_access();
        if (status(channel) != STOPPED && draw() % 2) {
            stop(channel);
            stuck += status(channel) != STOPPED;
        }
        if ((REG(DMA) & 15) == FAULTING && draw() % 2)
            stop_manager();
        if (draw() % 200 == 0)
            *(volatile uint16_t *)0xE2000000u = draw() % 2 ? 0xF0 : 0x98; /* the flash becomes memory, or registers */
    }
    REG(UART) = 0x14;
    check(stuck == 0, "a DMAKILL doesn't stop a channel");
    check(counts[STOPPED] > ROUNDS / 20 && counts[FAULTING] > ROUNDS / 20, "few programs end, or few fail");
    print("guest: stopped ");
    print_number(counts[STOPPED]);
    print(", faulting ");
    print_number(counts[FAULTING]);
    print(", waiting ");
    print_number(counts[WAITING]);
    print("\n");
    end();
}
