"""A controller with a memory of its own."""
from __future__ import annotations

from typing import TYPE_CHECKING, Any, Optional, SupportsIndex

from ._error import check
from ._library import STRUCTS, byref, room_for, u8, u32, u64
from ._opened import Opened
from .errors import OutOfMemoryRange
from .memory import bytes_of, event_of, number, segment, segments
from .values import Access, LastStep, Outcome, Report, Result, Run, Status

if TYPE_CHECKING:
    from .memory import Buffer, Segments


class Controller(Opened):
    """A controller with a memory of `size` zeros and with `channels` channels, 1 to 8, whose calls are modelled on
    those of Linux's dmaengine: transfers are submitted and issued, and channels step through them in any order.

        with Controller(64) as it:
            it.write(0x10, b"abc")
            cookie = it.submit(0, (0x10, 3), (0x20, 3))
            it.issue(0)
            while it.status(0, cookie) == Status.IN_PROGRESS:
                it.step(0, 4)
            assert it.read(0x1F, 5) == b"\\0abc\\0"

    Opening raises BadChannels, SizeOutOfRange or NoMemory.
    """
    _struct = "controller"

    def __init__(self, size: SupportsIndex, channels: SupportsIndex = 1) -> None:
        words = number(size, 32, "size"), number(channels, 8, "channels")
        super().__init__(*words)
        self._size, self._channels = words

    def _about(self) -> str:
        return ", %d bytes, %d channels" % (self._size, self._channels)

    def _conflicting(self, name: str, *words: Any) -> None:
        conflict = STRUCTS["conflict"]()
        check(self._code(name, *words, byref(conflict)), conflict.channel, conflict.cookie)

    def _count(self, name: str, kind: Any, *words: Any) -> int:
        return int(self._get(name, kind, *words).value)

    def write(self, addr: SupportsIndex, data: Buffer) -> None:
        """Writes bytes into the memory from an address on, also where an error is injected. Raises OutOfMemoryRange;
        Busy if a running transfer reads or writes one of the addresses; NoMemory."""
        data = bytes_of(data)
        self._conflicting("write", number(addr, 32, "address"), data, len(data))

    def read(self, addr: SupportsIndex, size: SupportsIndex) -> bytes:
        """Reads bytes of the memory, also where an error is injected; the history keeps a copy of them. Raises
        OutOfMemoryRange; Busy if a running transfer writes one of the addresses; NoMemory."""
        first, count = number(addr, 32, "address"), number(size, 32, "size")
        if self.is_open and first + count > self._size:
            raise OutOfMemoryRange
        out, pointer = room_for(u8, count if self.is_open else 0)
        self._conflicting("read", first, pointer, count)
        return bytes(out[:count])

    def submit(self, channel: SupportsIndex, src: Segments, dst: Segments, wait: Optional[SupportsIndex] = None,
               signal: Optional[SupportsIndex] = None) -> int:
        """Queues a copy of the source list's bytes to the places of the destination list, and returns its cookie, 1 for
        the first of the channel. A list has pairs of an address and a length; one pair is a list, too.

        The copy waits for the event `wait` before it begins, and signals `signal` once all is stored. It doesn't start
        before `issue`. Raises EmptyList, TooManySegments, EmptySegment, SegmentWraps, TotalsDiffer, TooLong,
        DestinationsMeet, SourceMeetsDestination, BadEvent, NoMemory, NoChannel, OutOfMemoryRange, CookiesSpent."""
        return self._count("submit", u32, number(channel, 8, "channel"), *segments(src), *segments(dst),
                           event_of(wait, "wait"), event_of(signal, "signal"))

    def submit_fill(self, channel: SupportsIndex, src: SupportsIndex, dst: Segments,
                    wait: Optional[SupportsIndex] = None, signal: Optional[SupportsIndex] = None) -> int:
        """Queues a fill, which copies the byte at address `src` to every place of the destination list, as `submit`
        queues a copy. Raises what `submit` raises, except TotalsDiffer."""
        return self._count("submit_fill", u32, number(channel, 8, "channel"), number(src, 32, "src"), *segments(dst),
                           event_of(wait, "wait"), event_of(signal, "signal"))

    def issue(self, channel: SupportsIndex) -> int:
        """Allows all submitted transfers of a channel to start, and returns how many were not allowed before. Raises
        NoChannel, NoMemory."""
        return self._count("issue", u32, number(channel, 8, "channel"))

    def pause(self, channel: SupportsIndex) -> None:
        """Pauses a channel: its steps do nothing until `resume` or `terminate`. Raises NoChannel."""
        self._call("pause", number(channel, 8, "channel"))

    def resume(self, channel: SupportsIndex) -> None:
        """Ends the pause of a channel. Raises NoChannel."""
        self._call("resume", number(channel, 8, "channel"))

    def terminate(self, channel: SupportsIndex) -> int:
        """Aborts all unfinished transfers of a channel, issued or not, ends its pause and its halt, and returns how
        many transfers it aborted. Stored bytes stay stored, and raised events stay raised. Raises NoChannel,
        NoMemory."""
        return self._count("terminate", u32, number(channel, 8, "channel"))

    def step(self, channel: SupportsIndex, most: SupportsIndex = 1024) -> Report:
        """Steps a channel up to `most` times, or until a step neither starts nor moves. Raises, of the first step,
        NoChannel, StepsSpent, NoMemory; if a later one is refused, the next call tries it again."""
        it = self._get("step", STRUCTS["report"], number(channel, 8, "channel"), number(most, 32, "most"))
        return Report(it.taken, LastStep(it.last), it.channel, it.cookie, it.event, Result(it.result), it.residue)

    def run(self, channel: SupportsIndex) -> Report:
        """Steps a channel until a step neither starts nor moves, and returns the last report: at FINISHED another
        transfer may be next. Raises what `step` raises."""
        while True:
            report = self.step(channel)
            if report.last not in (LastStep.STARTED, LastStep.MOVED):
                return report

    def status(self, channel: SupportsIndex, cookie: SupportsIndex) -> Status:
        """Returns the state of a cookie; that of one that was never given is UNKNOWN."""
        return Status(self._call("status", number(channel, 8, "channel"), number(cookie, 32, "cookie")))

    def result(self, channel: SupportsIndex, cookie: SupportsIndex) -> Outcome:
        """Returns how a cookie finished. Raises NoResult."""
        it = self._get("result", STRUCTS["outcome"], number(channel, 8, "channel"), number(cookie, 32, "cookie"))
        return Outcome(Result(it.result), it.residue)

    def running(self, channel: SupportsIndex) -> Run:
        """Returns the transfer that runs on a channel. Raises NotRunning."""
        it = self._get("running", STRUCTS["run"], number(channel, 8, "channel"))
        return Run(it.cookie, it.stored)

    def unfinished(self, channel: SupportsIndex) -> int:
        """Returns the number of unfinished cookies of a channel, 0 for a channel that doesn't exist."""
        return self._count("unfinished", u32, number(channel, 8, "channel"))

    def forgotten(self, channel: SupportsIndex) -> int:
        """Returns how many cookies of a channel, from 1 on, have results that checkpoints have forgotten."""
        return self._count("forgotten", u32, number(channel, 8, "channel"))

    @property
    def steps(self) -> int:
        """The number of steps that moved or finished, on all channels."""
        return self._count("steps", u64)

    @property
    def history_entries(self) -> int:
        """The number of entries of the history."""
        return self._count("history_entries", u64)

    @property
    def history_bytes(self) -> int:
        """The number of bytes of writes and reads that the history keeps, in time proportional to its entries."""
        return self._count("history_bytes", u64)

    @property
    def running_count(self) -> int:
        """The number of running transfers of all channels."""
        return self._count("running_count", u32)

    def inject_error(self, access: Access, addr: SupportsIndex, size: SupportsIndex) -> None:
        """Injects an error: bursts that read a range, or write it, by `access`, fail from then on. The range may lie
        inside the memory or not. Raises BadAccess, BadRange, NoMemory."""
        self._call("inject_error", number(access, 32, "access"), segment(addr, size))

    def uninject_errors(self) -> None:
        """Removes all injected errors. Raises NoMemory."""
        self._call("uninject_errors")

    def raise_event(self, event: SupportsIndex) -> None:
        """Sets the flag of an event, which stays set until a transfer that waits for it passes. Raises BadEvent,
        NoMemory."""
        self._call("raise", number(event, 8, "event"))

    def checkpoint(self) -> None:
        """Drops the history and the results of finished transfers, and frees their memory. Raises Running, NoMemory."""
        self._conflicting("checkpoint")
