/* Tests the events and interrupts of dma330_device with a guest's driver. */
#include "guest.h"

static machine m;

/* Channel 1 copies the result of channel 0's copy, once channel 0 signals. */
static void waits_for_another_channel(void)
{
    set_up(&m, plain(2, 8, false));
    put_copy(&m, LOW, NO_EVENT, LOW + 0x100, FAR, 2, 5);
    put_copy(&m, LOW + 0x80, 5, FAR, NEXT + 0x101, 2, 6);
    want_ram(&m);
    want_copy(&m, LOW + 0x100, FAR, 2);
    want_copy(&m, FAR, NEXT + 0x101, 2);
    set(&m, INTEN, 1 << 6);
    start(&m, 1, LOW + 0x80);
    check(run(&m, 1) && get(&m, CSR + 8) == (4 | 5 << 4), "it waits for event 5", 0);
    check(get(&m, CPC + 8) == LOW + 0x80 && get(&m, FSRC) == 0 && !can_step(&m), "at its DMAWFE", 0);
    start(&m, 0, LOW);
    check(!run(&m, 0) && get(&m, INT_EVENT_RIS) == 1 << 5 && can_step(&m), "the event is set", 0);
    check(get(&m, INTMIS) == 0 && irqs(&m) == 0, "and is no interrupt", 0);
    set(&m, INTCLR, 1 << 5);
    check(get(&m, INT_EVENT_RIS) == 1 << 5, "INTCLR clears no event that is no interrupt", 0);
    check(!run(&m, 1) && get(&m, INT_EVENT_RIS) == 1 << 6 && is_ram_wanted(&m), "it has passed", 0);
    tear_down(&m);
}

/* A channel waits at a DMAWFE, and the guest signals its event through the manager, and through each channel; an
 * interrupt does not end the wait. */
static void waits_for_the_guest(void)
{
    set_up(&m, plain(2, 8, false));
    put_wait(&m, LOW, 7);
    for (int thread = MANAGER; thread < 2; thread++) {
        start(&m, 0, LOW);
        check(run(&m, 0) && !can_step(&m), "it waits", (uint32_t)thread + 1);
        debug(&m, thread, DMASEV, 7 << 3, 0);
        check(can_step(&m) && !run(&m, 0) && get(&m, INT_EVENT_RIS) == 0, "it is awake", (uint32_t)thread + 1);
    }
    set(&m, INTEN, 1 << 7);
    start(&m, 0, LOW);
    debug(&m, MANAGER, DMASEV, 7 << 3, 0);
    check(run(&m, 0) && get(&m, CSR) == (4 | 7 << 4) && irqs(&m) == 1 << 7 && !can_step(&m), "an interrupt", 0);
    set(&m, INTCLR, 1 << 7);
    set(&m, INTEN, 0);
    check(turn(&m, 0, 10) && get(&m, INT_EVENT_RIS) == 0, "doesn't wake it, and is cleared", 0);
    tear_down(&m);
}

/* DMASEV 3 is followed by DMAWFE 3: the wait ends if INTEN makes it an event, and not if it is an interrupt. */
static void waits_for_itself(void)
{
    set_up(&m, plain(1, 4, false));
    put_wait(&m, put_two(&m, LOW, DMASEV, 3 << 3), 3);
    start(&m, 0, LOW);
    check(!run(&m, 0) && get(&m, INT_EVENT_RIS) == 0, "an event of its own", 0);
    set(&m, INTEN, 1 << 3);
    start(&m, 0, LOW);
    check(run(&m, 0) && get(&m, CSR) == (4 | 3 << 4) && irqs(&m) == 1 << 3, "an interrupt", 1);
    tear_down(&m);
}

/* A device of 32 has each event and interrupt, and each channel and the manager can signal it. */
static void has_each_event(uint32_t event)
{
    uint32_t bit = 1u << event;

    set_up(&m, plain(8, 32, false));
    for (int thread = MANAGER; thread < 8; thread++) {
        set(&m, INTEN, bit);
        debug(&m, thread, DMASEV, event << 3, 0);
        check(get(&m, INT_EVENT_RIS) == bit && get(&m, INTMIS) == bit && irqs(&m) == bit, "an interrupt", event);
        set(&m, INTCLR, ~bit);
        check(irqs(&m) == bit, "which another bit of INTCLR keeps", event);
        set(&m, INTCLR, bit);
        check(irqs(&m) == 0 && get(&m, INT_EVENT_RIS) == 0, "and its own clears", event);
        set(&m, INTEN, ~bit);
        debug(&m, thread, DMASEV, event << 3, 0);
        set(&m, INTCLR, 0xFFFFFFFF);
        check(get(&m, INT_EVENT_RIS) == bit && get(&m, INTMIS) == 0 && irqs(&m) == 0, "an event", event);
        put_wait(&m, LOW, event);
        start(&m, 7, LOW);
        check(!run(&m, 7) && get(&m, INT_EVENT_RIS) == 0, "which a DMAWFE takes", event);
    }
    set(&m, INTEN, bit);
    put_signal(&m, LOW, event);
    start(&m, event % 8, LOW);
    check(!run(&m, event % 8) && irqs(&m) == bit, "an interrupt of a program", event);
    tear_down(&m);
}

/* Signals event 3 by the manager or by a program of channel 1. */
static void signal_3(bool is_program)
{
    if (!is_program) {
        debug(&m, MANAGER, DMASEV, 3 << 3, 0);
        return;
    }
    put_signal(&m, LOW + 0x100, 3);
    start(&m, 1, LOW + 0x100);
    check(!run(&m, 1), "a program that signals", 3);
}

/* A DMASEV makes an event or an interrupt, as INTEN then says. A later write to INTEN makes neither of the other: an
 * event that was set lowers no line and waits for its DMAWFE, which passes while INTEN makes it an event. An INTCLR
 * clears the event and the interrupt, but only while INTEN makes them an interrupt. */
static void keeps_events_and_interrupts_apart(bool is_program)
{
    set_up(&m, plain(2, 8, false));
    put_wait(&m, LOW, 3);
    signal_3(is_program);
    set(&m, INTCLR, 1 << 3);
    set(&m, INTEN, 1 << 3);
    set(&m, INTCLR, ~(1u << 3));
    check(get(&m, INT_EVENT_RIS) == 1 << 3 && get(&m, INTMIS) == 0 && irqs(&m) == 0, "an event is no interrupt", 0);
    start(&m, 0, LOW);
    check(run(&m, 0) && get(&m, CSR) == (4 | 3 << 4) && !can_step(&m), "no channel sees it", 0);
    signal_3(is_program);
    check(irqs(&m) == 1 << 3 && get(&m, INT_EVENT_RIS) == 1 << 3 && !can_step(&m), "an interrupt beside it", 0);
    set(&m, INTCLR, 1 << 3);
    set(&m, INTEN, 0);
    check(irqs(&m) == 0 && get(&m, INT_EVENT_RIS) == 0 && !can_step(&m), "both are cleared", 0);
    signal_3(is_program);
    check(can_step(&m) && !run(&m, 0) && get(&m, INT_EVENT_RIS) == 0, "a later event is taken", 0);
    set(&m, INTEN, 1 << 3);
    signal_3(is_program);
    set(&m, INTEN, 0);
    check(irqs(&m) == 1 << 3 && get(&m, INTMIS) == 1 << 3 && get(&m, INT_EVENT_RIS) == 1 << 3, "an interrupt stays", 0);
    set(&m, INTCLR, 1 << 3);
    start(&m, 0, LOW);
    check(run(&m, 0) && irqs(&m) == 1 << 3 && !can_step(&m), "is no event", 0);
    signal_3(is_program);
    check(can_step(&m) && !run(&m, 0) && irqs(&m) == 1 << 3, "which comes beside it", 0);
    set(&m, INTEN, 1 << 3);
    set(&m, INTCLR, 1 << 3);
    check(irqs(&m) == 0 && get(&m, INT_EVENT_RIS) == 0, "and is cleared at last", 0);
    tear_down(&m);
}

/* What the handler of Linux's pl330 does (pl330_update in drivers/dma/pl330.c): it takes each event that INT_EVENT_RIS
 * has for done, and clears those that INTEN makes interrupts. Returns the events. */
static uint32_t handle_as_linux(void)
{
    uint32_t events = get(&m, INT_EVENT_RIS);

    for (uint32_t n = 0; n < 8; n++)
        if (events & get(&m, INTEN) & 1u << n)
            set(&m, INTCLR, 1u << n);
    return events;
}

/* Firmware copies on channel 0 while INTEN is 0, and reads CSR until it is stopped, so its event 0 stays set. Later
 * Linux copies on channel 0, with event 0, and on channel 1, with event 1. It clears the old event at its first
 * interrupt. From then on it takes no copy for done that still runs. */
static void clears_what_firmware_left(void)
{
    set_up(&m, plain(2, 8, false));
    put_copy(&m, LOW, NO_EVENT, LOW + 0x1000, NEXT, 1, 0);
    start(&m, 0, LOW);
    check(!run(&m, 0) && get(&m, INT_EVENT_RIS) == 1 << 0, "firmware leaves event 0", 0);
    set(&m, INTEN, 1 << 0 | 1 << 1);
    check(get(&m, INT_EVENT_RIS) == 1 << 0 && get(&m, INTMIS) == 0 && irqs(&m) == 0, "which is no interrupt", 0);
    for (uint32_t round = 0; round < 3; round++) {
        put_copy(&m, LOW, NO_EVENT, LOW + 0x1000, FAR, 8, 0);
        put_copy(&m, LOW + 0x80, NO_EVENT, LOW + 0x1000, NEXT, 1, 1);
        start(&m, 0, LOW);
        start(&m, 1, LOW + 0x80);
        check(turn(&m, 0, 16) && !run(&m, 1) && irqs(&m) == 1 << 1, "only the short copy is done", round);
        check(handle_as_linux() == (round == 0 ? 3 : 2), "what Linux takes for done", round);
        check(get(&m, INT_EVENT_RIS) == 0, "and clears", round);
        check(!run(&m, 0) && irqs(&m) == 1 << 0 && handle_as_linux() == 1, "then the long one is done", round);
        check(get(&m, INT_EVENT_RIS) == 0 && irqs(&m) == 0, "and no event is left", round);
    }
    tear_down(&m);
}

int main(void)
{
    waits_for_another_channel();
    waits_for_the_guest();
    waits_for_itself();
    for (uint32_t event = 0; event < 32; event++)
        has_each_event(event);
    keeps_events_and_interrupts_apart(false);
    keeps_events_and_interrupts_apart(true);
    clears_what_firmware_left();
    return end_checks();
}
