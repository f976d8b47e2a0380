/* Two models of a DMA engine over a controller: one copies ranges that are longer than a transfer, as pieces, and one
 * keeps the guest's memory itself. The status is 0 if all bytes are copied. */
#include "dma330.h"

#include <stdio.h>
#include <stdlib.h>
#include <string.h>

enum { MOST = 1024 };

static void expect(int holds, const char *what)
{
    if (!holds) {
        fprintf(stderr, "%s\n", what);
        exit(1);
    }
}

/* ---- a copy as pieces ---- */

/* Queues a copy of any length above 0 as pieces, and writes the last one's cookie. The memory has both ranges. */
static int32_t submit_large(dma330_controller *dma, uint8_t channel, uint32_t src, uint32_t dst, uint32_t len, uint32_t *last)
{
    uint32_t issued;
    if (src < dst + len && dst < src + len)
        return DMA330_SOURCE_MEETS_DESTINATION;
    for (uint32_t at = 0; at < len; at += DMA330_MAX_BYTES) {
        uint32_t size = len - at < DMA330_MAX_BYTES ? len - at : DMA330_MAX_BYTES;
        dma330_segment from = {src + at, size}, to = {dst + at, size};
        int32_t code = dma330_submit(dma, channel, &from, 1, &to, 1, DMA330_NO_EVENT, DMA330_NO_EVENT, last);
        if (code != DMA330_OK)
            return code; /* dma330_terminate then drops the earlier pieces */
    }
    return dma330_issue(dma, channel, &issued);
}

/* ---- a model that keeps the guest's memory ---- */

/* Copies within `ram`, the guest's memory from address 0 on, and returns how many bytes were copied: the first ones, all
 * but the residue, or none if there is no memory to read them out. It writes what the transfer reads after the submit
 * (DMA330_BUSY if another transfer uses it), and reads the destination before it steps anything else. The next transfer
 * is submitted when dma330_unfinished writes 0. */
static uint32_t copy_in_ram(dma330_controller *dma, uint8_t *ram, dma330_segment from, dma330_segment to)
{
    dma330_conflict conflict;
    dma330_report report;
    uint32_t cookie, count, copied = 0;
    if (dma330_submit(dma, 0, &from, 1, &to, 1, DMA330_NO_EVENT, DMA330_NO_EVENT, &cookie) != DMA330_OK)
        return 0;
    if (dma330_write(dma, from.addr, ram + from.addr, from.len, &conflict) == DMA330_OK)
        dma330_issue(dma, 0, &count);
    while (dma330_step(dma, 0, MOST, &report) == DMA330_OK)
        if (report.last != DMA330_STARTED && report.last != DMA330_MOVED) {
            copied = report.last == DMA330_FINISHED ? from.len - report.residue : 0;
            break;
        }
    if (dma330_read(dma, to.addr, ram + to.addr, copied, &conflict) != DMA330_OK)
        copied = 0; /* out of memory: the bytes are copied, but `ram` hasn't got them */
    if (copied < from.len)
        dma330_terminate(dma, 0, &count); /* out of memory, or a burst has failed */
    return copied;
}

/* ---- both ---- */

static void fill(uint8_t *to, size_t len)
{
    for (size_t at = 0; at < len; at++)
        to[at] = (uint8_t)(at * 7 + at / 251);
}

/* three pieces, the last one shorter */
static void copy_a_large_range(void)
{
    static uint8_t sent[5 << 19], got[5 << 19];
    dma330_controller controller = DMA330_CONTROLLER_INIT;
    dma330_conflict conflict;
    dma330_report report;
    uint32_t last;
    fill(sent, sizeof sent);
    expect(dma330_open(&controller, 8 << 20, 1) == DMA330_OK, "not opened");
    expect(dma330_write(&controller, 100, sent, sizeof sent, &conflict) == DMA330_OK, "not written");
    expect(submit_large(&controller, 0, 100, 101, 2, &last) == DMA330_SOURCE_MEETS_DESTINATION, "an overlap is accepted");
    expect(submit_large(&controller, 0, 100, 4 << 20, sizeof sent, &last) == DMA330_OK && last == 3, "not submitted");
    while (dma330_status(&controller, 0, last) == DMA330_IN_PROGRESS)
        expect(dma330_step(&controller, 0, MOST, &report) == DMA330_OK, "not stepped");
    expect(dma330_read(&controller, 4 << 20, got, sizeof got, &conflict) == DMA330_OK, "not read");
    expect(memcmp(got, sent, sizeof got) == 0, "other bytes");
    dma330_close(&controller);
}

/* the guest changes its memory between two copies */
static void copy_for_a_guest(void)
{
    static uint8_t memory[1 << 16];
    dma330_controller controller = DMA330_CONTROLLER_INIT;
    dma330_segment from = {0x1001, 5000}, to = {0x8003, 5000}, past = {0xFFFF, 5000};
    expect(dma330_open(&controller, sizeof memory, 1) == DMA330_OK, "not opened");
    for (int round = 0; round < 3; round++) {
        fill(memory + 0x1001 + round, 4000);
        expect(copy_in_ram(&controller, memory, from, to) == 5000, "not copied");
        expect(memcmp(memory + to.addr, memory + from.addr, 5000) == 0, "other bytes");
    }
    expect(copy_in_ram(&controller, memory, past, to) == 0, "copied beyond the memory");
    dma330_close(&controller);
}

int main(void)
{
    copy_a_large_range();
    copy_for_a_guest();
    return 0;
}
