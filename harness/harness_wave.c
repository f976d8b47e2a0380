/* The waveform (VCD, IEEE 1364), with a nanosecond for each tick: the trouble, the driver's accesses to registers, and
 * for each channel its interrupt, event, CSR, CPC, SAR and DAR. */
#include "harness_inside.h"

#include <stdio.h>

/* The signals of the kit, and then those of each channel. `offset` is the register, channel 0's if `stride` isn't 0. */
enum { OWN = 7, OF_CHANNEL = 6, MOST_SIGNALS = OWN + OF_CHANNEL * MOST_CHANNELS };
static const struct {
    const char *name;
    int width;
    uint32_t offset, stride;
} signals[OWN + OF_CHANNEL] = {
    {"trouble", 6, 0, 0}, {"handler", 1, 0, 0}, {"irq_abort", 1, 0, 0}, {"debug_busy", 1, 0, 0},
    {"access", 2, 0, 0}, {"offset", 12, 0, 0}, {"value", 32, 0, 0},
    {"irq", 1, INTMIS, 0}, {"event", 1, INT_EVENT_RIS, 0}, {"state", 4, CSR, 8},
    {"pc", 32, CPC, 8}, {"sar", 32, SAR, 32}, {"dar", 32, DAR, 32}
};

static FILE *wave;
static int count;

/* Returns which signal of the table number n is, and of which channel. */
static int kind_of(int n, uint32_t *channel)
{
    *channel = n < OWN ? 0 : (uint32_t)(n - OWN) / OF_CHANNEL;
    return n < OWN ? n : OWN + (n - OWN) % OF_CHANNEL;
}

bool open_wave(const char *path, const harness_driver *driver)
{
    wave = fopen(path, "w");
    if (wave == NULL)
        return false;
    count = OWN + OF_CHANNEL * (int)driver->chip.channels;
    count = count < MOST_SIGNALS ? count : MOST_SIGNALS;
    fprintf(wave, "$timescale 1 ns $end\n$scope module dma330 $end\n");
    for (int n = 0; n < count; n++) {
        uint32_t channel;
        int kind = kind_of(n, &channel);
        fprintf(wave, "$var wire %d %c %s", signals[kind].width, '!' + n, signals[kind].name);
        if (n >= OWN)
            fprintf(wave, "%lu", (unsigned long)channel);
        fprintf(wave, " $end\n");
    }
    fprintf(wave, "$upscope $end\n$enddefinitions $end\n");
    return true;
}

/* Returns the kit's signal number n. `access` is 1 for a read and 2 for a write. */
static uint32_t own(int n)
{
    switch (n) {
    case 0:
        return machine.trouble | (machine.lost != 0 ? 1u * LOST : 0u);
    case 1:
        return machine.is_handling;
    case 2:
        return high_lines() >> 32 != 0;
    case 3:
        return machine.debug_busy > 0;
    case 4:
        return machine.is_access ? 1u + machine.now.is_write : 0;
    case 5:
        return machine.is_access ? machine.now.offset : 0;
    default:
        return machine.is_access ? machine.now.value : 0;
    }
}

/* Returns the value that a signal has now. */
static uint32_t value_of(int n)
{
    uint32_t channel, first;
    int kind = kind_of(n, &channel);

    if (n < OWN)
        return own(n);
    first = signals[kind].stride == 0 ? channel : 0;
    return look(signals[kind].offset + signals[kind].stride * channel) >> first &
           0xFFFFFFFFu >> (32 - signals[kind].width);
}

/* Writes a signal's new value. */
static void put(int n, uint32_t value)
{
    uint32_t channel;
    int width = signals[kind_of(n, &channel)].width;

    fputs(width > 1 ? "b" : "", wave);
    for (int bit = width - 1; bit >= 0; bit--)
        fputc('0' + (int)(value >> bit & 1), wave);
    fprintf(wave, "%s%c\n", width > 1 ? " " : "", '!' + n);
}

void show_wave(void)
{
    static uint32_t shown[MOST_SIGNALS];

    if (wave == NULL)
        return;
    fprintf(wave, "#%lu\n", (unsigned long)machine.tick);
    for (int n = 0; n < count; n++) {
        uint32_t value = value_of(n);
        if (machine.tick == 1 || value != shown[n])
            put(n, value);
        shown[n] = value;
    }
}

bool close_wave(void)
{
    bool is_written = wave == NULL || !ferror(wave);

    if (wave != NULL && fclose(wave) != 0)
        is_written = false;
    wave = NULL;
    return is_written;
}
