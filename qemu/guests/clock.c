/* A guest finds a transfer while it runs: the device's property step-ns is STEP_NS. It looks at a running copy, stops
 * it, measures a whole one, and stops one that waits for an event which nobody sends. With EXACT=1, which needs
 * -icount, it must find the copy, and the measured time is also bounded from above. */
#include "guest.h"

#ifndef STEP_NS
#define STEP_NS 100
#endif
#ifndef EXACT
#define EXACT 1
#endif
#define PROGRAM 0x00200000u
#define SOURCE 0x04000000u
#define TARGET 0x05000000u
#define BYTES 0x40000u
#define STEPS (3 + 16 * (2 + 256 * 3) + 1)

/* Waits for some microseconds. */
static void pause_us(uint32_t us)
{
    uint32_t began = REG(TIMER);

    while (REG(TIMER) - began < 100 * us)
        ;
}

/* Starts a copy of BYTES bytes, whose target is zeros. */
static void start_copy(void)
{
    uint8_t *at = (uint8_t *)PROGRAM, *outer, *inner;

    for (uint32_t n = 0; n < BYTES; n += 4) {
        REG(SOURCE + n) = n + 1;
        REG(TARGET + n) = 0;
    }
    at = move(at, CCR, CONTROL(3, 8, 1, 1));
    at = move(at, SAR, SOURCE);
    at = move(at, DAR_, TARGET);
    outer = at = op2(at, DMALP_0, 15);
    inner = at = op2(at, DMALP_1, 255);
    at = op(op(at, DMALD), DMAST);
    at = op2(at, DMALPEND_1, at - inner);
    at = op2(at, DMALPEND_0, at - outer);
    op(at, DMAEND);
    go(0, PROGRAM);
}

/* Returns how many of the target's first bytes are the source's. Checks that the rest is zero. */
static uint32_t copied(void)
{
    uint32_t n = 0, found;

    while (n < BYTES && REG(TARGET + n) == n + 1)
        n += 4;
    for (found = n; n < BYTES; n += 4)
        if (REG(TARGET + n) != 0) {
            check(0, "a byte after the stop");
            break;
        }
    return found;
}

/* Waits until DAR is above an address or the channel is stopped, and returns DAR. */
static uint32_t wait_to_pass(uint32_t address)
{
    for (uint32_t reads = 0; reads < 10000000 && status(0) != STOPPED; reads++)
        if (REG(DAR(0)) > address)
            break;
    return REG(DAR(0));
}

static void stop_a_copy(void)
{
    uint32_t first, second, stored;

    start_copy();
    check(!EXACT || status(0) != STOPPED, "the copy ends at once");
    first = wait_to_pass(TARGET);
    second = wait_to_pass(first);
    stop(0);
    stored = REG(DAR(0)) - TARGET;
    check(status(0) == STOPPED, "a DMAKILL");
    check(!EXACT || (second > first && stored < BYTES), "the guest doesn't meet the copy");
    pause_us(STEPS * STEP_NS / 4000);
    check(copied() == stored, "the bytes that DAR counts");
}

static void time_a_copy(void)
{
    uint32_t began, us;

    start_copy();
    began = REG(TIMER);
    wait_for(0, 1000000000);
    us = (REG(TIMER) - began) / 100;
    check(copied() == BYTES, "the whole copy");
    check(us > STEPS * STEP_NS / 1000 * 9 / 10, "the copy takes less time than its steps");
    check(!EXACT || us < STEPS * STEP_NS / 1000 * 11 / 10, "the copy takes more time than its steps");
    print("guest: ");
    print_number(STEPS);
    print(" steps in ");
    print_number(us);
    print(" us\n");
}

static void time_out(void)
{
    op(op2((uint8_t *)PROGRAM, DMAWFE, 5 << 3), DMAEND);
    go(0, PROGRAM);
    pause_us(STEP_NS);
    check(status(0) == WAITING, "a wait for an event");
    stop(0);
    check(status(0) == STOPPED, "a DMAKILL of a wait");
}

int main(void)
{
    begin();
    stop_a_copy();
    time_a_copy();
    time_out();
    end();
}
