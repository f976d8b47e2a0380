/* A copy from submit to finish, and then a device in the loop of an emulator: a guest's register writes submit copies,
 * the main loop steps them, and the guest polls for completion. It prints the text of example.txt. */
#include "dma330.h"

#include <stdio.h>
#include <stdlib.h>

/* Ends the program if a call failed, which no call here should. */
static void expect_ok(int32_t code, const char *call)
{
    if (code != DMA330_OK) {
        fprintf(stderr, "%s failed: %ld\n", call, (long)code);
        exit(1);
    }
}

static void print_memory(dma330_controller *controller, uint32_t addr, uint8_t count)
{
    dma330_conflict conflict;
    uint8_t bytes[255];
    uint8_t n;
    expect_ok(dma330_read(controller, addr, bytes, count, &conflict), "dma330_read");
    printf("read 0x%08lX", (unsigned long)addr);
    for (n = 0; n < count; n++)
        printf(" %02X", bytes[n]);
    printf("\n");
}

/* ---- a copy ---- */

static void copy_three_bytes(void)
{
    static const uint8_t bytes[3] = {0xAA, 0xBB, 0xCC};
    const dma330_segment from = {0x10, 3};
    const dma330_segment to = {0x20, 3};
    dma330_controller controller = DMA330_CONTROLLER_INIT;
    dma330_conflict conflict;
    dma330_report report;
    dma330_outcome outcome;
    uint32_t cookie, issued;

    expect_ok(dma330_open(&controller, 64, 1), "dma330_open");
    expect_ok(dma330_write(&controller, 0x10, bytes, sizeof bytes, &conflict), "dma330_write");
    expect_ok(dma330_submit(&controller, 0, &from, 1, &to, 1, DMA330_NO_EVENT, DMA330_NO_EVENT, &cookie), "dma330_submit");
    expect_ok(dma330_issue(&controller, 0, &issued), "dma330_issue");
    do
        expect_ok(dma330_step(&controller, 0, 5, &report), "dma330_step");
    while (report.last == DMA330_STARTED || report.last == DMA330_MOVED);
    expect_ok(dma330_result(&controller, 0, cookie, &outcome), "dma330_result");
    printf("copy finished %lu %s residue %lu\n", (unsigned long)cookie,
           outcome.result == DMA330_NO_ERROR ? "NoError" : "with an error", (unsigned long)outcome.residue);
    print_memory(&controller, 0x1F, 5);
    dma330_close(&controller);
}

/* ---- a device: a controller behind registers, a block of them for each channel ---- */

enum { CHANNELS = 2, STEPS_OF_A_TURN = 4, NONE = -1 };

/* The registers of a channel. A write to START submits the copy that the others describe; STATE and ERROR are read. */
enum { SRC, DST, LEN, WAIT, SIGNAL, START, STATE, ERROR, REGISTERS };

typedef struct device {
    dma330_controller controller;
    uint32_t registers[CHANNELS][REGISTERS];
    uint32_t cookies[CHANNELS];    /* the last one given, 0 for none */
    uint32_t last_turns[CHANNELS]; /* what the last step of a turn did */
} device;

static void reset(device *dev)
{
    int channel;
    expect_ok(dma330_open(&dev->controller, 0x400, CHANNELS), "dma330_open");
    for (channel = 0; channel < CHANNELS; channel++) {
        dev->registers[channel][WAIT] = (uint32_t)NONE;
        dev->registers[channel][SIGNAL] = (uint32_t)NONE;
    }
}

static int32_t event_of(uint32_t value)
{
    return value == (uint32_t)NONE ? DMA330_NO_EVENT : (int32_t)(value & 31);
}

/* A guest's mistake is not an error of the emulator: a register reports it to the guest. */
static void start(device *dev, uint8_t channel)
{
    uint32_t *registers = dev->registers[channel];
    dma330_segment from, to;
    uint32_t issued;
    int32_t code;
    from.addr = registers[SRC];
    to.addr = registers[DST];
    from.len = to.len = registers[LEN];
    code = dma330_submit(&dev->controller, channel, &from, 1, &to, 1, event_of(registers[WAIT]), event_of(registers[SIGNAL]),
                         &dev->cookies[channel]);
    if (code == DMA330_OK)
        code = dma330_issue(&dev->controller, channel, &issued);
    registers[ERROR] = (uint32_t)-code;
}

static void write_register(device *dev, uint8_t channel, uint32_t which, uint32_t value)
{
    dev->registers[channel][which] = value;
    if (which == START)
        start(dev, channel);
}

static uint32_t read_register(device *dev, uint8_t channel, uint32_t which)
{
    if (which == STATE)
        return (uint32_t)dma330_status(&dev->controller, channel, dev->cookies[channel]);
    return dev->registers[channel][which];
}

static void print_turn(device *dev, uint8_t channel, const dma330_report *report)
{
    if (report->last == DMA330_WAITING && dev->last_turns[channel] != DMA330_WAITING)
        printf("channel %d waits for event %lu\n", channel, (unsigned long)report->event);
    if (report->last == DMA330_FINISHED)
        printf("channel %d finished cookie %lu\n", channel, (unsigned long)report->cookie);
    dev->last_turns[channel] = report->last;
}

/* Takes some steps of each channel: the device's part of a round of the main loop. */
static void turn(device *dev)
{
    uint8_t channel;
    for (channel = 0; channel < CHANNELS; channel++) {
        dma330_report report;
        expect_ok(dma330_step(&dev->controller, channel, STEPS_OF_A_TURN, &report), "dma330_step");
        print_turn(dev, channel, &report);
    }
}

/* ---- a guest: a message goes to a mailbox, and a doorbell rings after it ---- */

enum action { STORE, SET, POLL, HALT };

/* STORE a byte at an address; SET a register of a channel; POLL until all of a channel's copies are complete. */
typedef struct instruction {
    enum action what;
    uint8_t channel;
    uint32_t at;
    uint32_t value;
} instruction;

static const instruction guest[] = {
    {STORE, 0, 0x100, 0x0A}, {STORE, 0, 0x101, 0x0B}, {STORE, 0, 0x180, 0x01},
    /* the doorbell is submitted first, and waits for event 3 */
    {SET, 1, SRC, 0x180}, {SET, 1, DST, 0x300}, {SET, 1, LEN, 1}, {SET, 1, WAIT, 3}, {SET, 1, START, 1},
    /* the message signals event 3 when all of its bytes are stored */
    {SET, 0, SRC, 0x100}, {SET, 0, DST, 0x200}, {SET, 0, LEN, 2}, {SET, 0, SIGNAL, 3}, {SET, 0, START, 1},
    {POLL, 1, 0, 0}, {HALT, 0, 0, 0}
};

/* Executes one instruction, and returns whether it is done. */
static int execute(device *dev, const instruction *next)
{
    dma330_conflict conflict;
    uint8_t byte = (uint8_t)next->value;
    switch (next->what) {
    case STORE:
        expect_ok(dma330_write(&dev->controller, next->at, &byte, 1, &conflict), "dma330_write");
        return 1;
    case SET:
        write_register(dev, next->channel, next->at, next->value);
        return 1;
    case POLL:
        return read_register(dev, next->channel, STATE) == DMA330_COMPLETE;
    default:
        return 1;
    }
}

int main(void)
{
    static device dev; /* zeros */
    const instruction *next = guest;
    copy_three_bytes();
    reset(&dev);
    while (next->what != HALT) {
        next += execute(&dev, next);
        turn(&dev);
    }
    print_memory(&dev.controller, 0x200, 2);
    print_memory(&dev.controller, 0x300, 1);
    dma330_close(&dev.controller);
    return 0;
}
