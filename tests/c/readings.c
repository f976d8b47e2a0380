#include "readings.h"

#include <stdio.h>
#include <string.h>

static void read_bytes(dma330_controller *controller, uint32_t size, readings *out)
{
    uint32_t low = size < LOW_BYTES ? size : LOW_BYTES;
    uint32_t high = size < HIGH_BYTES ? size : HIGH_BYTES;
    dma330_conflict conflict;
    uint32_t at;
    int piece = 0;
    for (at = 0; at < low; at += PIECE) {
        uint32_t len = low - at < PIECE ? low - at : PIECE;
        out->piece_codes[piece++] = dma330_read(controller, at, out->low + at, len, &conflict);
    }
    out->piece_codes[piece] = dma330_read(controller, size - high, out->high, high, &conflict);
}

void take_readings(dma330_controller *controller, uint32_t size, readings *out)
{
    uint8_t channel;
    uint32_t cookie;
    memset(out, 0, sizeof *out);
    out->steps_code = dma330_steps(controller, &out->steps);
    out->running_code = dma330_running_count(controller, &out->running_count);
    for (channel = 0; channel < READ_CHANNELS; channel++) {
        out->channels[channel].codes[0] = dma330_unfinished(controller, channel, &out->channels[channel].unfinished);
        out->channels[channel].codes[1] = dma330_forgotten(controller, channel, &out->channels[channel].forgotten);
        out->channels[channel].codes[2] = dma330_running(controller, channel, &out->channels[channel].run);
        for (cookie = 0; cookie < READ_COOKIES; cookie++) {
            out->channels[channel].states[cookie] = dma330_status(controller, channel, cookie);
            out->channels[channel].result_codes[cookie] =
                dma330_result(controller, channel, cookie, &out->channels[channel].outcomes[cookie]);
        }
    }
    read_bytes(controller, size, out);
}

int are_same(const readings *a, const readings *b)
{
    int channel;
    if (memcmp(a, b, sizeof *a) == 0)
        return 1;
    if (a->steps_code != b->steps_code || a->steps != b->steps)
        printf("steps differ\n");
    if (a->running_code != b->running_code || a->running_count != b->running_count)
        printf("the numbers of running transfers differ\n");
    for (channel = 0; channel < READ_CHANNELS; channel++)
        if (memcmp(&a->channels[channel], &b->channels[channel], sizeof a->channels[channel]) != 0)
            printf("the readings of channel %d differ\n", channel);
    if (memcmp(a->piece_codes, b->piece_codes, sizeof a->piece_codes) != 0)
        printf("the busy bytes differ\n");
    if (memcmp(a->low, b->low, LOW_BYTES) != 0 || memcmp(a->high, b->high, HIGH_BYTES) != 0)
        printf("bytes differ\n");
    return 0;
}
