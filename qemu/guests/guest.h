/* What the guests of this folder share. Each is a program without an operating system for QEMU's machine
 * xilinx-zynq-a9, or with EXYNOS=1 for smdkc210. It prints lines to the first serial port, and ends the machine. */
#ifndef GUEST_H
#define GUEST_H

#include <stdint.h>

#define REG(address) (*(volatile uint32_t *)(address))
#define BYTE(address) (*(volatile uint8_t *)(address))
#ifndef UART
#define UART 0xE0000000u
#endif
#define SLCR 0xF8000000u
#if EXYNOS
#define RAM 0x40000000u
#define SEND 0x13800020u  /* takes the bytes for the serial port */
#define TIMER 0x10500200u /* the global timer, 100 ticks a microsecond */
#define CONTROLLERS {0x12680000, 0x12690000, 0x12850000}
#else
#define RAM 0u
#define SEND (UART + 0x30)
#define TIMER 0xF8F00200u
#define CONTROLLERS {0xF8003000}
#endif
#define DMA controllers[controller]
#define INTEN (DMA + 0x20)
#define RIS (DMA + 0x24)
#define FTR(channel) (DMA + 0x40 + 4 * (channel))
#define CSR(channel) (DMA + 0x100 + 8 * (channel))
#define DAR(channel) (DMA + 0x404 + 0x20 * (channel))
#define STOPPED 0
#define WAITING 4
#define FAULTING 15

/* All processors begin here; the second one waits for ever. The first passes r0, r1 and r2 to main. */
__asm__(".section .text.start\n.global _start\n_start:\n mrc p15, 0, r3, c0, c0, 5\n tst r3, #15\n"
        "1: wfine\n bne 1b\n ldr sp, =stack_top\n bl main\n2: b 2b\n.text\n");

static uint32_t wrong; /* how many checks failed */
static const uint32_t controllers[] = CONTROLLERS;
static uint32_t controller; /* the one that the functions below use */

static inline void print(const char *text)
{
    while (*text)
        REG(SEND) = *text++;
}

static inline void print_hex(uint32_t value)
{
    for (int at = 28; at >= 0; at -= 4)
        REG(SEND) = "0123456789ABCDEF"[value >> at & 15];
}

static inline void print_number(uint32_t value)
{
    if (value > 9)
        print_number(value / 10);
    REG(SEND) = '0' + value % 10;
}

/* Prints a line and counts it, unless the check holds. */
static inline void check(int holds, const char *text)
{
    if (holds)
        return;
    wrong++;
    print("guest: wrong: ");
    print(text);
    print("\n");
}

static inline void begin(void)
{
#if !EXYNOS
    REG(UART) = 0x14; /* transmit and receive */
#endif
    REG(TIMER + 8) = 1;
}

/* Prints the last line, and ends the machine. */
__attribute__((noreturn)) static inline void end(void)
{
    begin();
    print("guest: ends with ");
    print_number(wrong);
    print(" wrong\n");
#if EXYNOS
    REG(0x1002330C) = 0; /* switches it off */
#else
    REG(SLCR + 8) = 0xDF0D;
    REG(SLCR + 0x200) = 1; /* resets it */
#endif
    for (;;)
        ;
}

/* ---- programs of the DMA-330 ---- */

enum { SAR = 0, CCR = 1, DAR_ = 2 };
enum { DMAEND = 0x00, DMALD = 0x04, DMAST = 0x08, DMASTZ = 0x0C, DMALP_0 = 0x20, DMALP_1 = 0x22, DMALPEND_FE = 0x28,
       DMASEV = 0x34, DMAWFE = 0x36, DMALPEND_0 = 0x38, DMALPEND_1 = 0x3C, DMAADDH = 0x54 };

/* CCR for bursts of `beats` beats of 1 << size bytes; source and destination rise if their flag is 1. */
#define CONTROL(size, beats, src_rises, dst_rises) \
    ((src_rises) | (size) << 1 | ((beats) - 1) << 4 | (dst_rises) << 14 | (size) << 15 | ((beats) - 1) << 18)

/* Appends one byte, two bytes, or a DMAMOV to a program. */
static inline uint8_t *op(uint8_t *at, uint8_t byte)
{
    *at = byte;
    return at + 1;
}

static inline uint8_t *op2(uint8_t *at, uint8_t byte, uint8_t operand)
{
    return op(op(at, byte), operand);
}

static inline uint8_t *move(uint8_t *at, uint8_t to, uint32_t value)
{
    at = op2(at, 0xBC, to);
    for (int shift = 0; shift < 32; shift += 8)
        at = op(at, value >> shift);
    return at;
}

/* Starts a channel by a DMAGO of the manager. */
static inline void go(uint32_t channel, uint32_t program)
{
    REG(DMA + 0xD08) = 0xA0u << 16 | channel << 24;
    REG(DMA + 0xD0C) = program;
    REG(DMA + 0xD04) = 0;
}

/* Stops a channel by a DMAKILL. */
static inline void stop(uint32_t channel)
{
    REG(DMA + 0xD08) = 1u << 16 | 1 | channel << 8;
    REG(DMA + 0xD0C) = 0;
    REG(DMA + 0xD04) = 0;
}

/* Stops the manager by a DMAKILL, so that one that is faulting executes DMAGO again. */
static inline void stop_manager(void)
{
    REG(DMA + 0xD08) = 1u << 16;
    REG(DMA + 0xD0C) = 0;
    REG(DMA + 0xD04) = 0;
}

static inline uint32_t status(uint32_t channel)
{
    return REG(CSR(channel)) & 15;
}

/* Waits until a channel is stopped or faulting; reads its status at most this many times. */
static inline void wait_for(uint32_t channel, uint32_t reads)
{
    while (reads-- && status(channel) != STOPPED && status(channel) != FAULTING)
        ;
}

#endif
