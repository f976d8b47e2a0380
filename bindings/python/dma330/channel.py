"""A channel over the caller's memory."""
from __future__ import annotations

from typing import TYPE_CHECKING, Iterable, Optional, SupportsIndex

from ._library import STRUCTS, byref, u32
from ._opened import OverRegions
from .memory import Region, bytes_of, event_of, number, segment, segments
from .values import MAX_SAVE, Access, ChannelReport, LastStep, Registers, fault_of, registers_of, segment_of

if TYPE_CHECKING:
    from .memory import Buffer, Segments


class Channel(OverRegions):
    """A channel that runs one program after another in the caller's memory, without a controller.

        ram = bytearray(0x1000)
        it = Channel([Region(0x80000000, ram)])
        it.load_copy((0x80000000, 16), (0x80000100, 16))
        assert it.run().last == LastStep.ENDED

    Bit n of `flags` is the flag of event n. A call with wrong regions raises BadRegions. Opening raises NoMemory.
    """
    _struct, _prefix = "channel", "channel_"

    def __init__(self, regions: Iterable[Region] = ()) -> None:
        super().__init__(regions)
        self._flags = u32()

    def _about(self) -> str:
        return ", %d regions" % len(self.regions)

    @property
    def flags(self) -> int:
        """The flags of events 0 to 31, which the caller may change between two calls."""
        with self._alone():
            return self._flags.value

    @flags.setter
    def flags(self, flags: SupportsIndex) -> None:
        with self._alone():
            self._flags.value = number(flags, 32, "flags")

    def load_copy(self, src: Segments, dst: Segments, wait: Optional[SupportsIndex] = None,
                  signal: Optional[SupportsIndex] = None) -> None:
        """Loads the program of a copy in place of the one before, and sets registers and counts to 0. Raises EmptyList,
        TooManySegments, EmptySegment, SegmentWraps, TotalsDiffer, TooLong, DestinationsMeet, SourceMeetsDestination,
        BadEvent, NoMemory."""
        self._call("load_copy", *segments(src), *segments(dst), event_of(wait, "wait"), event_of(signal, "signal"))

    def load_fill(self, src: SupportsIndex, dst: Segments, wait: Optional[SupportsIndex] = None,
                  signal: Optional[SupportsIndex] = None) -> None:
        """Loads the program of a fill, which copies the byte at address `src` to every place of the list. Raises what
        `load_copy` raises, except TotalsDiffer."""
        self._call("load_fill", number(src, 32, "src"), *segments(dst), event_of(wait, "wait"),
                   event_of(signal, "signal"))

    def load_program(self, program: Buffer) -> None:
        """Loads a copy of a program's bytes. Raises ProgramTooLong."""
        program = bytes_of(program)
        self._call("load_program", program, len(program))

    def load_from(self, addr: SupportsIndex) -> None:
        """Loads the program that begins at an address of the memory: the bytes from there up to the first address that
        no region has, 8192 at most."""
        lent = self._lent
        self._call("load_from", *lent.words, number(addr, 32, "address"))

    def step(self, most: SupportsIndex = 1024) -> ChannelReport:
        """Takes at most `most` steps. It ends after a step that doesn't move or that sets a flag, and before a store
        that neither overlaps nor touches the range that it has written. No fault is kept: the next step tries the
        instruction again. Raises BadRegions, NoProgram."""
        lent = self._lent
        it = self._get("step", STRUCTS["channel_report"], *lent.words, byref(self._flags), number(most, 32, "most"))
        return ChannelReport(it.taken, LastStep(it.last), it.event, fault_of(it.fault), it.pc,
                             segment_of(it.written))

    def run(self, most: SupportsIndex = 4096, limit: int = 100000000) -> ChannelReport:
        """Steps until the program ends, waits or fails, or has no step, and returns the last report. Raises
        TimeoutError if it still runs after `limit` steps, and what `step` raises."""
        taken = 0
        while True:
            report = self.step(most)
            taken += report.taken
            if report.last not in (LastStep.MOVED, LastStep.SIGNALLED):
                return report
            if taken >= limit:
                raise TimeoutError("the program still runs after %d steps, at offset %d" % (taken, report.pc))

    def stop(self) -> None:
        """Drops the program. Registers and counts stay."""
        self._call("stop")

    @property
    def registers(self) -> Registers:
        """The registers and counts."""
        return registers_of(self._get("registers", STRUCTS["registers"]))

    def inject_error(self, access: Access, addr: SupportsIndex, size: SupportsIndex) -> None:
        """Injects an error: loads or stores of this channel in a range, by `access`, fail from then on. The range may
        lie inside the memory or not. Raises BadAccess, BadRange, NoMemory."""
        self._call("inject_error", number(access, 32, "access"), segment(addr, size))

    def uninject_errors(self) -> None:
        """Removes all injected errors of this channel."""
        self._call("uninject_errors")

    def save(self) -> bytes:
        """Returns the whole channel, except its injected errors and flags, as bytes."""
        return self._save(MAX_SAVE)

    def restore(self, save: Buffer) -> None:
        """Makes the channel the one that was saved; its injected errors stay. Raises BadSave."""
        save = bytes_of(save)
        self._call("restore", save, len(save))
