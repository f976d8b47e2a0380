/* A kit for tests of a driver of the PL330: a machine with RAM, the device's registers, time and interrupts, and a test
 * that starts copies, makes trouble and checks each byte. HARNESS.md says how to test your own driver, and what the
 * kit can't find. All that happens is drawn from a seed, so the same seed gives the same run. */
#ifndef HARNESS_H
#define HARNESS_H

#include "dma330.h"

#include <stdbool.h>
#include <stdint.h>

#ifdef __cplusplus
extern "C" {
#endif

/* ---- what a driver uses ---- */

/* The first address of RAM. The driver may use the HARNESS_DRIVER_BYTES bytes from there on, for its programs; all
 * others are the test's. */
#define HARNESS_RAM 0x10000000u
#define HARNESS_DRIVER_BYTES 0x1000u

/* Returns the byte at an address of RAM. The bytes after it follow, up to the end of the RAM around it. */
uint8_t *harness_ram(uint32_t addr);

/* Read and write a register of the device. Each access takes a tick, in which one of the channels takes a step. */
uint32_t harness_read(uint32_t offset);
void harness_write(uint32_t offset, uint32_t value);

/* Returns the number of ticks so far. */
uint32_t harness_now(void);

/* ---- a driver ---- */

/* The most copies at a time, the longest copy, the ticks between two calls of handle_timer, and how many sizes of its
 * own a driver names. */
enum { HARNESS_MOST_COPIES = 8, HARNESS_MOST_BYTES = 1048576, HARNESS_TIMER = 50, HARNESS_SIZES = 8 };

/* A driver under test. The test calls its functions one after another, in one thread: no interrupt comes within one. An
 * initializer that leaves out the last members sets them to 0, which asks for nothing. */
typedef struct harness_driver {
    /* The chip: channels, events, non-secure, bus, lines of the buffer, revision. */
    dma330_device_config chip;

    /* The number of copies at a time, 1 to HARNESS_MOST_COPIES, which the test numbers from 0. A driver makes copy n on
     * channel n, or on any other. */
    uint32_t copies;

    /* The longest copy, up to HARNESS_MOST_BYTES, and a power of two up to 256 that divides all addresses and lengths:
     * 1 if the driver makes copies of any length and alignment. */
    uint32_t longest, align;

    /* Sets the driver's variables to their first state, and makes the device ready. Its channels are stopped, and no
     * interrupt is enabled, but events may be set, as firmware leaves them. */
    void (*reset)(void);

    /* Starts copy n, which isn't busy: `len` bytes from address `src` to `dst`. The two ranges don't overlap, and
     * nobody else writes them until the copy is done. */
    void (*start)(uint32_t n, uint32_t src, uint32_t dst, uint32_t len);

    /* Returns whether copy n was started and isn't done. When it is done, each byte must be copied. */
    bool (*is_busy)(uint32_t n);

    /* Handles an interrupt. It is called while a line is high, and on a shared line also if none is. */
    void (*handle_irq)(void);

    /* Is called every HARNESS_TIMER ticks: looks for copies whose interrupt was lost or whose channel is stuck. */
    void (*handle_timer)(void);

    /* Stops copy n, which is busy. It isn't busy afterwards, and nothing more is stored. NULL if the driver can't. */
    void (*stop)(uint32_t n);

    /* Whether the driver takes copies of 0 bytes. */
    bool takes_empty;

    /* The driver's own sizes, 0 where there is none, such as the bytes that one of its programs copies at most: many
     * copies have such a length, or a multiple, or a few bytes more or less. Those of all bursts and loops, and each
     * other power of two, are tried anyway. */
    uint32_t sizes[HARNESS_SIZES];

    /* A bit for each event that the driver's programs wait for by DMAWFE: none of them is set before `reset`. */
    uint32_t waits;
} harness_driver;

/* Tests a driver, and returns the status to exit with: 0 if all is right, 1 if not, 2 for wrong options or a driver
 * with a number outside its range. The options are --seed N, or --seeds A-B for several in a row, and --vcd FILE for a
 * waveform of one seed. */
int harness_main(int argc, char **argv, const harness_driver *driver);

#ifdef __cplusplus
}
#endif

#endif
