/* All channels copy 16 MiB each in bursts of 16 beats, while the processor reads a timer: the longest time between two
 * reads is how long the device keeps it from QEMU's big lock, if the machine has a processor for each of QEMU's
 * threads. It reads as many times without copies. With FIXED=1, each channel stores to one address, which the library
 * does instruction by instruction. With EXYNOS=1 there are three controllers, two of them with a bus of 32 bits; with
 * FIXED=1 too, each channel copies 8 MiB. */
#include "guest.h"

#ifndef FIXED
#define FIXED 0
#endif
#define MOST_MS 200 /* by which a wait may exceed the longest one without copies, which shows how busy the host is */
#define CHANNELS (8 * sizeof controllers / sizeof controllers[0])
#define PARTS (EXYNOS && !FIXED ? 4 : 2) /* of 65,536 bursts */
#define SOURCE (RAM + 0x04000000u)
#define TARGET(n) (RAM + 0x06000000u + (n)*0x01000000u)
#define PROGRAM(n) (RAM + 0x00200000u + (n)*0x1000u)

/* Uses the controller of one of all channels, and returns the channel's number there. */
static uint32_t use(uint32_t n)
{
    controller = n / 8;
    return n % 8;
}

static void write_program(uint32_t n)
{
    uint8_t *at = (uint8_t *)PROGRAM(n), *outer, *inner;

    at = move(at, CCR, CONTROL(EXYNOS ? 2 : 3, 16, 1, !FIXED));
    at = move(at, SAR, SOURCE);
    at = move(at, DAR_, TARGET(n));
    for (int part = 0; part < PARTS; part++) {
        outer = at = op2(at, DMALP_0, 255);
        inner = at = op2(at, DMALP_1, 255);
        at = op(op(at, DMALD), DMAST);
        at = op2(at, DMALPEND_1, at - inner);
        at = op2(at, DMALPEND_0, at - outer);
    }
    op(at, DMAEND);
}

/* The ticks between two reads of the timer: the longest, and how many were more than a millisecond. */
static uint32_t last, worst, over;

static void read_timer(void)
{
    uint32_t now = REG(TIMER);

    if (now - last > worst)
        worst = now - last;
    over += now - last > 100000;
    last = now;
}

/* Prints the times since `began`, and returns the longest in microseconds. */
static uint32_t report(const char *what, uint32_t began, uint32_t reads)
{
    uint32_t longest = worst / 100;

    print("guest: ");
    print(what);
    print_number((last - began) / 100000);
    print(" ms, longest wait ");
    print_number(longest);
    print(" us, above 1 ms ");
    print_number(over);
    print(" of ");
    print_number(reads);
    print("\n");
    worst = over = 0;
    return longest;
}

/* Returns whether a channel still runs. */
static int runs(void)
{
    int found = 0;

    for (uint32_t n = 0; n < CHANNELS; n++) {
        uint32_t now = status(use(n));

        found |= now != STOPPED && now != FAULTING;
        read_timer();
    }
    return found;
}

static void check_copies(void)
{
    for (uint32_t n = 0; n < CHANNELS; n++)
        check(status(use(n)) == STOPPED, "a channel fails");
    for (uint32_t n = 0; n < CHANNELS && !FIXED; n++)
        for (uint32_t at = 0; at < 0x01000000; at += 4096)
            if (REG(TARGET(n) + at) != at + 1) {
                check(0, "the bytes of a copy");
                return;
            }
}

int main(void)
{
    uint32_t began, longest, reads = 0;

    begin();
    for (uint32_t at = 0; at < 0x01000000; at += 4096)
        REG(SOURCE + at) = at + 1;
    for (uint32_t n = 0; n < CHANNELS; n++) {
        write_program(n);
        /* (so that no turn is long because the host makes pages for QEMU) */
        for (uint32_t at = 0; at < 0x01000000; at += 4096)
            REG(TARGET(n) + at) = 0;
    }
    began = last = REG(TIMER);
    for (uint32_t n = 0; n < CHANNELS; n++)
        go(use(n), PROGRAM(n));
    do
        read_timer();
    while (++reads % 16 || runs());
    longest = report("copies for ", began, reads);
    check_copies();
    began = last = REG(TIMER);
    for (uint32_t n = 0; n < reads; n++) {
        read_timer();
        if (n % 16 == 0)
            runs();
    }
    check(longest < report("no copies for ", began, reads) + 1000 * MOST_MS, "the device keeps the processor waiting");
    end();
}
