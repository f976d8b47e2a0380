/* The machine: RAM, time, trouble and interrupts. */
#include "harness_inside.h"

#include <stdio.h>
#include <stdlib.h>
#include <string.h>

enum { MOST_CALLS = 50 };

struct machine machine;
struct memory memory;

uint32_t harness_now(void)
{
    return machine.tick;
}

uint32_t draw(uint32_t limit)
{
    uint32_t high;

    machine.drawn = 1664525 * machine.drawn + 1013904223;
    high = machine.drawn >> 16;
    if (limit <= 0x10000)
        return high % limit;
    machine.drawn = 1664525 * machine.drawn + 1013904223;
    return (high << 16 | machine.drawn >> 16) % limit;
}

uint32_t bytes_at(uint32_t addr)
{
    if (addr - HARNESS_RAM < machine.low_bytes)
        return machine.low_bytes - (addr - HARNESS_RAM);
    return addr >= machine.high ? 0u - addr : 0;
}

uint8_t *harness_ram(uint32_t addr)
{
    if (bytes_at(addr) == 0)
        fail("0x%08lX is no address of RAM", (unsigned long)addr);
    return memory.ram + (addr >= machine.high ? machine.low_bytes + (addr - machine.high) : addr - HARNESS_RAM);
}

/* Fills RAM, with bytes that differ from one to the next. */
static void fill_ram(void)
{
    uint32_t drawn = draw(0xFFFFFFFF);

    for (uint32_t n = 0; n < machine.low_bytes + 2 * machine.place; n++) {
        drawn = 1664525 * drawn + 1013904223;
        memory.wanted[n] = memory.ram[n] = (uint8_t)(drawn >> 24);
    }
}

void open_machine(const harness_driver *driver, uint32_t seed)
{
    memset(&machine, 0, sizeof machine);
    machine.driver = driver;
    machine.seed = machine.drawn = seed;
    machine.place = (driver->longest + PAGE - 1) / PAGE * PAGE + 3 * PAGE;
    machine.low_bytes = HARNESS_DRIVER_BYTES + 2 * driver->copies * machine.place;
    machine.high = 0u - 2 * machine.place;
    machine.lent[0].addr = HARNESS_RAM;
    machine.lent[0].bytes = memory.ram;
    machine.lent[0].len = machine.low_bytes;
    machine.lent[1].addr = machine.high;
    machine.lent[1].bytes = memory.ram + machine.low_bytes;
    machine.lent[1].len = 2 * machine.place;
    fill_ram();
    if (dma330_device_open(&machine.device, &driver->chip) != DMA330_OK) {
        fprintf(stderr, "no device has the driver's `chip`\n");
        exit(2);
    }
}

void set_register(uint32_t offset, uint32_t value)
{
    expect(dma330_device_write(&machine.device, offset, value, machine.lent, 2) == DMA330_OK,
           "dma330_device_write failed");
}

void set_events(void)
{
    for (uint32_t n = 0; n < machine.driver->chip.events; n++) {
        if (draw(2) || machine.driver->waits >> n & 1)
            continue;
        set_register(DBGINST0, n << 27 | (uint32_t)DMASEV << 16);
        set_register(DBGCMD, 0);
    }
    set_register(DBGINST0, 0);
}

bool is_disturbed(void)
{
    return (machine.kinds & (SLOW | GAP | ROM)) != 0;
}

uint32_t look(uint32_t offset)
{
    uint32_t value = 0;

    expect(dma330_device_read(&machine.device, offset, &value) == DMA330_OK, "dma330_device_read failed");
    return value;
}

uint64_t high_lines(void)
{
    uint32_t irqs = 0, irq_abort = 0;

    expect(dma330_device_lines(&machine.device, &irqs, &irq_abort) == DMA330_OK, "dma330_device_lines failed");
    return (uint64_t)irq_abort << 32 | irqs;
}

/* ---- ticks ---- */

uint32_t status_of(uint32_t channel)
{
    return look(CSR + 8 * channel) & 15;
}

/* Notes what a step of a channel has done: which event it has signalled, or EVENTS, which was set before or not. */
static void note_step(uint32_t channel, const dma330_device_turn *turn, uint32_t event, bool was_set)
{
    uint32_t status = status_of(channel);

    if (turn->written.len > 0)
        note_store(channel, turn->written);
    if (event < EVENTS && status != FAULTING)
        note_event(event, machine.of_channel[channel], was_set);
    if (status == STOPPED)
        program_ends(channel, ENDED);
    if (status != FAULTING) {
        machine.trouble = 0;
        return;
    }
    expect_no_fault(channel);
    program_ends(channel, FAILED);
    machine.faults |= look(FTR + 4 * channel);
}

/* Lets a channel take a step. If no burst fails in it, the tick is without trouble. */
static void step(uint32_t channel)
{
    dma330_device_turn turn;
    uint32_t status = status_of(channel), event;
    bool was_set;

    if (status == STOPPED || status == FAULTING)
        return;
    event = expect_instruction(channel);
    was_set = event < EVENTS && look(INTMIS) >> event & 1;
    for (int n = 0; n < 2; n++)
        machine.lent[n].read_only = machine.trouble == ROM;
    if (dma330_device_step(&machine.device, (uint8_t)channel, 1, machine.lent, machine.trouble == GAP ? 0 : 2, &turn) !=
        DMA330_OK)
        fail("dma330_device_step failed");
    note_step(channel, &turn, event, was_set);
}

/* Draws the trouble of this tick. Each copy brings some that may come. */
static uint32_t draw_trouble(uint32_t channel)
{
    uint32_t kind = 2u << draw(3);

    if (draw(20) != 0 || machine.budget == 0 || machine.tick < machine.slow_until[channel])
        return 0;
    return status_of(channel) == EXECUTING ? machine.kinds & kind : 0;
}

void begin_tick(void)
{
    uint32_t channel = draw(machine.driver->chip.channels);

    machine.tick++;
    machine.trouble = draw_trouble(channel);
    if (machine.trouble == SLOW)
        machine.slow_until[channel] = draw(4) == 0 ? STUCK : machine.tick + 1000;
    else if (machine.tick >= machine.slow_until[channel])
        step(channel);
    if (machine.trouble != 0) {
        machine.troubles++;
        machine.budget--;
    }
}

void end_tick(void)
{
    show_wave();
    machine.is_access = false;
}

/* ---- interrupts ---- */

/* Returns the high lines whose interrupts aren't lost. */
static uint64_t seen_lines(void)
{
    uint64_t high = high_lines(), risen = high & ~machine.lines_before;

    machine.lines_before = high;
    machine.lost &= high;
    if (risen != 0 && machine.kinds & LOST && draw(3) == 0) {
        machine.lost |= risen;
        machine.troubles++;
    }
    return high & ~machine.lost;
}

/* Returns whether no channel takes a step before a tick. */
static bool is_still(uint32_t until)
{
    uint32_t can_step = 1;

    expect(dma330_device_can_step(&machine.device, &can_step) == DMA330_OK, "dma330_device_can_step failed");
    for (uint32_t channel = 0; can_step != 0 && channel < machine.driver->chip.channels; channel++) {
        uint32_t status = status_of(channel);
        if (status != STOPPED && status != FAULTING && machine.slow_until[channel] < until)
            return false;
    }
    return true;
}

void pass(void)
{
    const uint32_t next = machine.last_timer + HARNESS_TIMER;
    bool is_high;

    if (machine.tick + 1 < next && (high_lines() & ~machine.lost) == 0 && !(machine.kinds & SHARED) && is_still(next))
        machine.tick = next - 1;
    begin_tick();
    end_tick();
    is_high = seen_lines() != 0;
    machine.calls = is_high ? machine.calls + 1 : 0;
    if (machine.calls == MOST_CALLS)
        fail("the handler leaves a line high: %s", why_high());
    machine.is_handling = is_high || (machine.kinds & SHARED && draw(20) == 0);
    machine.troubles += machine.is_handling && !is_high;
    machine.idle_call = machine.is_handling && !is_high ? machine.tick : machine.idle_call;
    machine.accesses_of_call = 0;
    if (machine.is_handling)
        machine.driver->handle_irq();
    machine.is_handling = false;
}
