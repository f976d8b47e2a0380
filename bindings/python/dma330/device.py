"""The registers of a DMA-330 over the caller's memory."""
from __future__ import annotations

from typing import TYPE_CHECKING, Iterable, SupportsIndex, Tuple

from . import registers as reg
from ._library import STRUCTS, byref, u32
from ._opened import OverRegions
from .errors import NoChannel
from .memory import Region, bytes_of, number
from .programs import explanation_of
from .values import MAX_DEVICE_SAVE, Csr, DeviceRows, DeviceTurn, Explanation, Registers, registers_of, turn_of

if TYPE_CHECKING:
    from .memory import Buffer


class Device(OverRegions):
    """The registers of a DMA-330 as a guest's driver sees them (ARM DDI 0424). Its channels execute the guest's
    programs in the caller's memory.

        ram = bytearray(1 << 20)
        chip = Device(regions=[Region(0x80000000, ram)])
        program = plan((0x80010000, 4096), (0x80020000, 4096), signal=5, bus=64)
        ram[:len(program)] = program
        chip[INTEN] = 1 << 5                # event 5 is an interrupt
        chip.go(2, 0x80000000)              # channel 2 begins at this address
        chip.run()
        assert chip.irqs == 1 << 5 and chip.status(2) == Csr.STOPPED
        chip[INTCLR] = 1 << 5

    `chip[offset]` reads a register, and `chip[offset] = value` writes it; `dma330.registers` has the offsets. An offset
    without a register reads as 0, and a write to it is ignored. A write of DBGCMD may be a DMAGO, which reads its
    program from the regions, 8192 bytes at most.

    The choices of the chip's designer: 1 to 8 channels, 1 to 32 events, whether the manager is non-secure after a
    reset, a bus of 32, 64 or 128 bits, 1 to 1024 lines of the buffer, which show only in CRD, and the revision, 0 for
    r0p0 to 3 for r1p2. A call with wrong regions raises BadRegions. Opening raises BadConfig, NoMemory.
    """
    _struct, _prefix = "device", "device_"

    def __init__(self, channels: SupportsIndex = 8, events: SupportsIndex = 32, nonsecure: bool = False,
                 bus: SupportsIndex = 64, lines: SupportsIndex = 128, revision: SupportsIndex = 3,
                 regions: Iterable[Region] = ()) -> None:
        choices = {"channels": channels, "events": events, "nonsecure": nonsecure, "bus": bus, "lines": lines,
                   "revision": revision}
        config = STRUCTS["device_config"](**{name: number(it, 32, name) for name, it in choices.items()})
        super().__init__(regions, byref(config))
        self._channels: int = config.channels

    def _about(self) -> str:
        return ", %d channels, %d regions" % (self._channels, len(self.regions))

    @property
    def channels(self) -> int:
        """The number of channels."""
        return self._channels

    __iter__ = None  # (a `for` would read all offsets)

    def __getitem__(self, offset: SupportsIndex) -> int:
        return int(self._get("read", u32, number(offset, 32, "offset")).value)

    def __setitem__(self, offset: SupportsIndex, value: SupportsIndex) -> None:
        lent = self._lent
        self._call("write", number(offset, 32, "offset"), number(value, 32, "value"), *lent.words)

    def _lines(self) -> Tuple[int, bool]:
        irqs, irq_abort = u32(), u32()
        self._call("lines", byref(irqs), byref(irq_abort))
        return irqs.value, irq_abort.value == 1

    @property
    def irqs(self) -> int:
        """The lines irq[31:0]. A high line stays high until the guest clears its interrupt by INTCLR, a reset, or a
        restore of a device in which it is low."""
        return self._lines()[0]

    @property
    def irq_abort(self) -> bool:
        """The line irq_abort, which is high until the guest kills each faulting thread."""
        return self._lines()[1]

    @property
    def can_step(self) -> bool:
        """Whether a channel runs and doesn't wait for an event that is clear or an interrupt. If not, nothing happens
        until the next write of a register, a reset or a restore."""
        return bool(self._get("can_step", u32).value)

    def step(self, channel: SupportsIndex, most: SupportsIndex = 1024) -> DeviceTurn:
        """Takes a turn of a channel, of at most `most` steps. It ends after a step that ends, waits, fails or executes
        a DMASEV (of an interrupt one step later), and before a store that neither overlaps nor touches the range that
        it has written. It does nothing for a channel that is stopped or faulting, or that the device doesn't have."""
        lent = self._lent
        return turn_of(self._get("step", STRUCTS["device_turn"], number(channel, 8, "channel"),
                                 number(most, 32, "most"), *lent.words))

    def step_rows(self, channel: SupportsIndex, most: SupportsIndex = 1024) -> DeviceRows:
        """Takes several turns of a channel, one for each row, where a loop copies the rows of a rectangle; else one
        turn. The result is that of `count` calls of `step` with a `most` of `steps`; `count` times `steps` is at most
        `most`."""
        lent = self._lent
        it = self._get("step_rows", STRUCTS["device_rows"], number(channel, 8, "channel"), number(most, 32, "most"),
                       *lent.words)
        return DeviceRows(turn_of(it.turn), it.pitch, it.count, it.steps)

    def run(self, most: SupportsIndex = 1024, turns: int = 1000000) -> None:
        """Lets all channels take turns until none can step. Raises TimeoutError if one still can after `turns` turns of
        each."""
        most = number(most, 32, "most")
        for _ in range(turns):
            if not self.can_step:
                return
            for channel in range(self._channels):
                self.step(channel, most)
        raise TimeoutError("a channel can still step after %d turns of each" % turns)

    def _own(self, channel: SupportsIndex) -> int:
        """Returns a channel's number, if the device has it."""
        it = number(channel, 8, "channel")
        if self.is_open and it >= self._channels:
            raise NoChannel
        return it

    def _debug(self, first: int, second: SupportsIndex) -> None:
        with self._alone():
            self[reg.DBGINST0], self[reg.DBGINST1], self[reg.DBGCMD] = first, second, 0

    def go(self, channel: SupportsIndex, addr: SupportsIndex, nonsecure: bool = False) -> None:
        """Starts a stopped channel at a program's address, by the debug registers, as a driver does. Raises
        NoChannel."""
        self._debug(reg.go(self._own(channel), nonsecure), addr)

    def kill(self, channel: SupportsIndex) -> None:
        """Stops a channel by a DMAKILL through the debug registers. Raises NoChannel."""
        self._debug(reg.kill(self._own(channel)), 0)

    def status(self, channel: SupportsIndex) -> Csr:
        """Returns the status of a channel, from its CSR. Raises NoChannel."""
        return Csr(self[reg.csr(self._own(channel))] & 15)

    def registers(self, channel: SupportsIndex) -> Registers:
        """Returns the registers and counts of a channel. If the channel has failed, they are those from before the
        instruction that failed. After each turn of a program that a DMAGO started, and that `explain` explained
        before the first turn, the first `stored` bytes of its `dst` and `zeros` are done, if nobody else writes what it
        reads or writes. Raises NoChannel."""
        return registers_of(self._get("registers", STRUCTS["registers"], number(channel, 8, "channel")))

    def explain(self, channel: SupportsIndex, most: SupportsIndex = 1000000) -> Explanation:
        """Returns what the program does that a DMAGO loaded into a channel, from its first instruction on, but with
        the registers that the channel has now; so ask before the channel's first turn. Raises NoChannel, NoProgram,
        NoMemory, Unexplained."""
        words = number(channel, 8, "channel"), number(most, 32, "most")
        return explanation_of(lambda *lists: self._code("explain", *words, *lists))

    def reset(self) -> None:
        """Puts the device into its state after a reset."""
        self._call("reset")

    def save(self) -> bytes:
        """Returns the whole device as bytes. The last 4 are a checksum of all before them."""
        return self._save(MAX_DEVICE_SAVE)

    def restore(self, save: Buffer) -> None:
        """Makes the device the one that was saved. A save in which one byte has changed is refused, and so is one whose
        values don't go together; a forged one may be accepted. Raises OtherDevice if the first 15 bytes are those of a
        save of another version or configuration; then nothing changes. Raises BadSave if anything else is wrong; then
        the device is in its state after a reset."""
        save = bytes_of(save)
        self._call("restore", save, len(save))
