/* The bytes of a program of the DMA-330, by its instructions' names (Technical Reference Manual, ARM DDI 0424): for
 * programs in arrays, in C and in C++. It needs nothing of dma330.h. This one copies 1,024 bytes and signals event 3:
 *
 *     const unsigned char program[] = {
 *         DMA330_DMAMOV_SAR(0x80001000), DMA330_DMAMOV_DAR(0x80002000), DMA330_DMAMOV_CCR(DMA330_CCR_COPY(16, 4)),
 *         DMA330_DMALP(0, 16), DMA330_DMALD, DMA330_DMAST, DMA330_DMALPEND(0, 2), DMA330_DMASEV(3), DMA330_DMAEND
 *     };
 *
 * No operand is tested: each comment has the range. An operand may be evaluated several times. */
#ifndef DMA330_PROGRAM_H
#define DMA330_PROGRAM_H

#include <stdint.h>

/* Byte number `n` of a number of 32 bits, from the lowest. */
#define DMA330_BYTE(value, n) ((unsigned char)((value) >> 8 * (n) & 0xFF))

/* ---- instructions ---- */

#define DMA330_DMAEND 0x00
#define DMA330_DMALD 0x04
#define DMA330_DMAST 0x08
#define DMA330_DMARMB 0x12
#define DMA330_DMAWMB 0x13
#define DMA330_DMANOP 0x18

/* Sets SAR, CCR or DAR to a number of 32 bits. */
#define DMA330_DMAMOV(to, value) \
    0xBC, (to), DMA330_BYTE(value, 0), DMA330_BYTE(value, 1), DMA330_BYTE(value, 2), DMA330_BYTE(value, 3)
#define DMA330_DMAMOV_SAR(value) DMA330_DMAMOV(0, value)
#define DMA330_DMAMOV_CCR(value) DMA330_DMAMOV(1, value)
#define DMA330_DMAMOV_DAR(value) DMA330_DMAMOV(2, value)

/* Begins a loop that runs `times` times, 1 to 256, with loop counter `lc`, 0 or 1. */
#define DMA330_DMALP(lc, times) ((unsigned char)(0x20 | (lc) << 1)), ((unsigned char)((times) - 1))

/* Ends a loop whose body has `length` bytes, 0 to 255: those between the DMALP and this instruction. */
#define DMA330_DMALPEND(lc, length) ((unsigned char)(0x38 | (lc) << 2)), ((unsigned char)(length))

/* Signals event `event`, or waits for it, 0 to 31. The second form of DMAWFE has the invalid flag, with which a chip
 * fetches what follows anew. */
#define DMA330_DMASEV(event) 0x34, ((unsigned char)((event) << 3))
#define DMA330_DMAWFE(event) 0x36, ((unsigned char)((event) << 3))
#define DMA330_DMAWFE_INVALID(event) 0x36, ((unsigned char)((event) << 3 | 2))

/* Instructions that only a device has, not a dma330_controller or a dma330_channel. DMASTZ stores a burst of zeros at
 * DAR. DMAADDH adds a number, 0 to 65,535, to an address. DMAADNH adds a number with ones above its 16 bits, so that
 * 0xFFF0 subtracts 16. The last one repeats for ever the `length` bytes before it, 0 to 255: the manual's DMALPFE,
 * which has no bytes, is at their start. Its first byte has the bit lc, which the manual sets for such a loop. */
#define DMA330_DMASTZ 0x0C
#define DMA330_DMAADDH_SAR(number) 0x54, DMA330_BYTE(number, 0), DMA330_BYTE(number, 1)
#define DMA330_DMAADDH_DAR(number) 0x56, DMA330_BYTE(number, 0), DMA330_BYTE(number, 1)
#define DMA330_DMAADNH_SAR(number) 0x5C, DMA330_BYTE(number, 0), DMA330_BYTE(number, 1)
#define DMA330_DMAADNH_DAR(number) 0x5E, DMA330_BYTE(number, 0), DMA330_BYTE(number, 1)
#define DMA330_DMALPEND_FOREVER(length) 0x2C, ((unsigned char)(length))

/* ---- control words, each a uint32_t ---- */

/* The control word of bursts of 1 to 16 beats of 1, 2, 4, 8 or 16 bytes, for loads (src) and for stores (dst). `rises`
 * is 1, or 0 if each beat has the same address. A program that copies has as many bytes in a load as in its store. */
#define DMA330_CCR(src_beats, src_bytes, src_rises, dst_beats, dst_bytes, dst_rises) \
    (DMA330_CCR_HALF(src_beats, src_bytes, src_rises) | DMA330_CCR_HALF(dst_beats, dst_bytes, dst_rises) << 14)

/* The same, if loads and stores have equal bursts and both addresses rise. */
#define DMA330_CCR_COPY(beats, bytes) DMA330_CCR(beats, bytes, 1, beats, bytes, 1)

/* To be combined by |: ARPROT[2:0] of loads and AWPROT[2:0] of stores, and the three bits of their cache fields. This
 * library ignores them. */
#define DMA330_CCR_SRC_PROT(bits) ((uint32_t)(bits) << 8)
#define DMA330_CCR_DST_PROT(bits) ((uint32_t)(bits) << 22)
#define DMA330_CCR_SRC_CACHE(bits) ((uint32_t)(bits) << 11)
#define DMA330_CCR_DST_CACHE(bits) ((uint32_t)(bits) << 25)

/* Bits 13:0 of a control word, and the code of a size of a beat. */
#define DMA330_CCR_HALF(beats, bytes, rises) \
    ((uint32_t)(rises) | DMA330_CCR_SIZE(bytes) << 1 | (uint32_t)((beats) - 1) << 4)
#define DMA330_CCR_SIZE(bytes) \
    ((bytes) >= 16 ? 4u : (bytes) >= 8 ? 3u : (bytes) >= 4 ? 2u : (bytes) >= 2 ? 1u : 0u)

/* ---- the debug registers, by words that are each a uint32_t ---- */

/* What DBGINST0 gets, so that a write of 0 to DBGCMD executes an instruction: a DMAGO, by the manager, of channel n at
 * the address in DBGINST1, which runs in the secure or in the non-secure state; a DMAKILL of channel n; a DMAKILL of
 * the manager; a DMASEV by the manager. DBGINST1 is 0 for all but DMAGO. */
#define DMA330_DBGINST0_GO(n) ((uint32_t)(n) << 24 | 0xA00000u)
#define DMA330_DBGINST0_GO_NONSECURE(n) ((uint32_t)(n) << 24 | 0xA20000u)
#define DMA330_DBGINST0_KILL(n) (0x010000u | (uint32_t)(n) << 8 | 1u)
#define DMA330_DBGINST0_KILL_MANAGER 0x010000u
#define DMA330_DBGINST0_SEV(event) ((uint32_t)(event) << 27 | 0x340000u)

#endif
