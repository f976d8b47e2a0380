/* Threads that share a controller behind a lock, as the processors of an emulator do: all begin at once, and each submits
 * copies to a channel of its own and steps the channel until they are complete, two steps each time that it has the
 * lock. The thread that opens the controller is not the one that closes it. */
#define _POSIX_C_SOURCE 200112L
#include "dma330.h"

#include <pthread.h>
#include <stdio.h>
#include <stdlib.h>
#include <string.h>

enum { THREADS = 4, REGION = 0x1000, COPY = 0x400, COPIES = 3, MOST = 2, ROUNDS = 1000 };

typedef struct board {
    pthread_barrier_t start;
    pthread_mutex_t lock;
    dma330_controller dma; /* used only with the lock */
} board;

typedef struct processor {
    board *board;
    uint8_t channel;
} processor;

static void expect(int holds, const char *what)
{
    if (!holds) {
        fprintf(stderr, "%s\n", what);
        exit(1);
    }
}

static void take(board *b)
{
    expect(pthread_mutex_lock(&b->lock) == 0, "the lock can't be taken");
}

static void give(board *b)
{
    expect(pthread_mutex_unlock(&b->lock) == 0, "the lock can't be released");
}

/* Copies one block upward within the processor's region. It takes and releases the lock several times. */
static void copy_upward(const processor *p, uint32_t n)
{
    const uint32_t from = p->channel * (uint32_t)REGION + n * COPY;
    const dma330_segment src = {from, COPY}, dst = {from + COPY, COPY};
    dma330_report report;
    dma330_outcome outcome;
    uint32_t cookie, issued, rounds = 0;
    int32_t code, state;
    take(p->board);
    code = dma330_submit(&p->board->dma, p->channel, &src, 1, &dst, 1, DMA330_NO_EVENT, DMA330_NO_EVENT, &cookie);
    expect(code == DMA330_OK, "not submitted");
    expect(dma330_issue(&p->board->dma, p->channel, &issued) == DMA330_OK && issued == 1, "not issued");
    give(p->board);
    do {
        take(p->board);
        expect(dma330_step(&p->board->dma, p->channel, MOST, &report) == DMA330_OK, "not stepped");
        expect(report.last == DMA330_STARTED || report.last == DMA330_MOVED || report.last == DMA330_FINISHED,
               "the copy doesn't go on");
        expect(rounds++ < ROUNDS, "the copy doesn't end");
        state = dma330_status(&p->board->dma, p->channel, cookie);
        give(p->board);
    } while (state == DMA330_IN_PROGRESS);
    take(p->board);
    expect(dma330_result(&p->board->dma, p->channel, cookie, &outcome) == DMA330_OK, "no result");
    give(p->board);
    expect(outcome.result == DMA330_NO_ERROR && outcome.residue == 0, "not copied");
}

static void *run(void *argument)
{
    const processor *p = argument;
    uint32_t n;
    pthread_barrier_wait(&p->board->start);
    for (n = 0; n < COPIES; n++)
        copy_upward(p, n);
    return NULL;
}

/* Writes the bytes with which the region of a channel begins, and which fill it at the end. */
static void pattern(uint8_t channel, uint8_t bytes[COPY])
{
    uint32_t n;
    for (n = 0; n < COPY; n++)
        bytes[n] = (uint8_t)((n % 251) ^ channel);
}

static void begin(board *b)
{
    dma330_conflict conflict;
    uint8_t bytes[COPY], channel;
    expect(pthread_barrier_init(&b->start, NULL, THREADS) == 0, "no barrier");
    expect(pthread_mutex_init(&b->lock, NULL) == 0, "no lock");
    memset(&b->dma, 0, sizeof b->dma);
    expect(dma330_open(&b->dma, THREADS * REGION, THREADS) == DMA330_OK, "no controller");
    for (channel = 0; channel < THREADS; channel++) {
        pattern(channel, bytes);
        expect(dma330_write(&b->dma, channel * (uint32_t)REGION, bytes, COPY, &conflict) == DMA330_OK, "not written");
    }
}

/* Runs in a thread of its own, which uses the controller after all others. */
static void *end(void *argument)
{
    board *b = argument;
    dma330_conflict conflict;
    uint8_t bytes[COPY], found[COPY], channel;
    uint32_t n;
    for (channel = 0; channel < THREADS; channel++) {
        pattern(channel, bytes);
        for (n = 0; n <= COPIES; n++) {
            uint32_t at = channel * (uint32_t)REGION + n * COPY;
            expect(dma330_read(&b->dma, at, found, COPY, &conflict) == DMA330_OK, "not read");
            expect(memcmp(found, bytes, COPY) == 0, "other bytes");
        }
    }
    dma330_close(&b->dma);
    return NULL;
}

int main(void)
{
    board b;
    processor processors[THREADS];
    pthread_t threads[THREADS], last;
    uint8_t channel;
    begin(&b);
    for (channel = 0; channel < THREADS; channel++) {
        processors[channel].board = &b;
        processors[channel].channel = channel;
        expect(pthread_create(&threads[channel], NULL, run, &processors[channel]) == 0, "no thread");
    }
    for (channel = 0; channel < THREADS; channel++)
        expect(pthread_join(threads[channel], NULL) == 0, "a thread isn't joined");
    expect(pthread_create(&last, NULL, end, &b) == 0 && pthread_join(last, NULL) == 0, "no last thread");
    expect(pthread_mutex_destroy(&b.lock) == 0 && pthread_barrier_destroy(&b.start) == 0, "a lock isn't destroyed");
    printf("%d copies of %d threads behind one lock\n", THREADS * COPIES, THREADS);
    return 0;
}
