"""The registers of a device, by their offsets, and what a driver writes to DBGINST0.

    device[DBGINST0], device[DBGINST1], device[DBGCMD] = go(channel), program, 0
"""

DSR, DPC, INTEN, INT_EVENT_RIS, INTMIS, INTCLR = 0x000, 0x004, 0x020, 0x024, 0x028, 0x02C
FSRD, FSRC, FTRD = 0x030, 0x034, 0x038
DBGSTATUS, DBGCMD, DBGINST0, DBGINST1 = 0xD00, 0xD04, 0xD08, 0xD0C
CR0, CR1, CR2, CR3, CR4, CRD, WD = 0xE00, 0xE04, 0xE08, 0xE0C, 0xE10, 0xE14, 0xE80
PERIPH_ID_0, PCELL_ID_0 = 0xFE0, 0xFF0


def ftr(channel: int) -> int:
    """Returns the offset of a channel's fault type: a bit of `Ftr` for each fault."""
    return 0x040 + 4 * channel


def csr(channel: int) -> int:
    """Returns the offset of a channel's status, whose bits 3:0 are a `Csr`."""
    return 0x100 + 8 * channel


def cpc(channel: int) -> int:
    """Returns the offset of a channel's program counter."""
    return 0x104 + 8 * channel


def sar(channel: int) -> int:
    """Returns the offset of a channel's source address. DAR, CCR, LC0 and LC1 follow, 4 bytes each."""
    return 0x400 + 0x20 * channel


def go(channel: int, nonsecure: bool = False) -> int:
    """Returns the DBGINST0 of a DMAGO: the manager starts a channel at the address in DBGINST1."""
    return (channel << 24) | ((0xA2 if nonsecure else 0xA0) << 16)


def sev(event: int) -> int:
    """Returns the DBGINST0 of a DMASEV, by which the manager sets an event."""
    return (event << 27) | (0x34 << 16)


def kill(channel: int) -> int:
    """Returns the DBGINST0 of a DMAKILL, which stops a channel, running or faulting."""
    return (1 << 16) | (channel << 8) | 1
