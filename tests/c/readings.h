/* The results of calls that only read a controller, and bytes of its memory. */
#ifndef READINGS_H
#define READINGS_H

#include "dma330.h"

enum { READ_CHANNELS = DMA330_MAX_CHANNELS + 1, READ_COOKIES = 6, LOW_BYTES = 0x4000, HIGH_BYTES = 0x40, PIECE = 0x40 };

/* A member is 0 if its call failed, or has nothing to read. */
typedef struct readings {
    int32_t steps_code;
    uint64_t steps;
    int32_t running_code;
    uint32_t running_count;
    struct {
        int32_t codes[3];
        uint32_t unfinished;
        uint32_t forgotten;
        dma330_run run;
        int32_t states[READ_COOKIES];
        int32_t result_codes[READ_COOKIES];
        dma330_outcome outcomes[READ_COOKIES];
    } channels[READ_CHANNELS];
    int32_t piece_codes[(LOW_BYTES + HIGH_BYTES) / PIECE];
    uint8_t low[LOW_BYTES];   /* the first bytes of the memory */
    uint8_t high[HIGH_BYTES]; /* the last ones */
} readings;

/* Takes the readings of a controller whose memory has `size` bytes, except the bytes that a running transfer writes.
 * It adds reads to the history, so the history's counts of entries and bytes are not among the readings. */
void take_readings(dma330_controller *controller, uint32_t size, readings *out);

/* Returns whether they are the same, and prints the first that differ. */
int are_same(const readings *a, const readings *b);

#endif
