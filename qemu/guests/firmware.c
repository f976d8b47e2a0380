/* Firmware for the machine xilinx-zynq-a9 that leaves event 0 of the DMA controller set, and then starts Linux. QEMU
 * loads it as the kernel, and Linux's zImage is its last part. It copies 16 bytes by channel 0, and waits for the end
 * by reading INT_EVENT_RIS, while INTEN is 0: so it needs no INTCLR. (It leaves no other event set. Linux takes a set
 * event that belongs to no channel for that of channel -1, on every PL330.) */
#define EXYNOS 0
#define UART 0xE0001000u /* the second port, Linux's console */
#include "guest.h"

#define PROGRAM 0x04000000u
#define SOURCE 0x04001000u
#define TARGET 0x04002000u

__asm__(".section .data.kernel, \"aw\"\n .balign 4096\n.global kernel\nkernel:\n .incbin \"zImage\"\n .text\n");
extern void kernel(uint32_t zero, uint32_t machine, uint32_t tree);

int main(uint32_t zero, uint32_t machine, uint32_t tree)
{
    uint8_t *at = (uint8_t *)PROGRAM;

    REG(UART) = 0x14;
    for (uint32_t n = 0; n < 16; n += 4) {
        REG(SOURCE + n) = n + 1;
        REG(TARGET + n) = 0;
    }
    at = move(at, CCR, CONTROL(2, 4, 1, 1));
    at = move(at, SAR, SOURCE);
    at = move(at, DAR_, TARGET);
    at = op(op(at, DMALD), DMAST);
    op(op2(at, DMASEV, 0 << 3), DMAEND);
    go(0, PROGRAM);
    for (uint32_t reads = 0; reads < 10000000 && !(REG(RIS) & 1); reads++)
        ;
    wait_for(0, 10000000);
    for (uint32_t n = 0; n < 16; n += 4)
        check(REG(TARGET + n) == n + 1, "the firmware's copy");
    check(REG(INTEN) == 0 && REG(RIS) == 1, "event 0 isn't set");
    if (!wrong)
        print("firmware: leaves event 0 set\n");
    kernel(zero, machine, tree);
    return 0;
}
