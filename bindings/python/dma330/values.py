"""What calls take and return: the enums of dma330.h, by its names, and its structs as named tuples.

A member of a report is 0 unless its comment names what the last step did.
"""
from __future__ import annotations

from dataclasses import dataclass
from enum import IntEnum
from typing import Any, Iterator, List, NamedTuple, Optional

__all__ = ["MAX_SEGMENTS", "MAX_BYTES", "MAX_PROGRAM", "MAX_CHANNELS", "MAX_REGIONS", "MAX_SAVE", "MAX_DEVICE_SAVE",
           "LastStep", "Result", "Status", "Access", "End", "Fault", "Known", "EventKind", "Cause", "Csr", "Ftr",
           "Ftrd", "Segment", "Outcome", "Run", "Report", "ChannelReport", "Registers", "DeviceTurn", "DeviceRows",
           "RunEnd", "Repeated", "Start", "Event", "Explanation"]

MAX_SEGMENTS, MAX_BYTES, MAX_PROGRAM, MAX_CHANNELS, MAX_REGIONS = 64, 1048576, 8192, 8, 64
MAX_SAVE, MAX_DEVICE_SAVE = 8500, 68204

# ---- enums ----


class LastStep(IntEnum):
    """What the last of some steps did: of a `Channel` up to SIGNALLED, of a controller's channel the others, NO_STEP,
    MOVED and WAITING."""
    NO_STEP = 0  # none was taken: `most` was 0, or a `Channel` had executed 4294967295 instructions
    MOVED = 1  # one instruction was executed
    WAITING = 2  # for an event whose flag is clear; nothing has changed
    ENDED = 3  # it was DMAEND: the program is gone
    FAULT = 4  # the instruction failed; it has changed nothing
    SIGNALLED = 5  # it was DMASEV: the flag of `event` is set
    STARTED = 6  # the channel's next transfer began to run
    FINISHED = 7  # the transfer has finished
    NOTHING = 8  # no transfer is issued and unfinished
    HELD = 9  # the next transfer conflicts with a running one
    PAUSED = 10  # until resume or terminate
    HALTED = 11  # by a transfer that failed, until terminate


class Result(IntEnum):
    """How a transfer finished."""
    NO_ERROR = 0
    READ_FAILED = 1  # a load met an injected error
    WRITE_FAILED = 2  # a store did
    ABORTED = 3  # by terminate


class Status(IntEnum):
    """The state of a cookie. One that isn't issued yet is in progress; one that failed or was aborted is complete."""
    UNKNOWN = 0
    IN_PROGRESS = 1
    COMPLETE = 2


class Access(IntEnum):
    """The accesses to a range that fail."""
    READS = 0
    WRITES = 1


class End(IntEnum):
    """How a program that ran alone ended. OUT_OF_STEPS: it hasn't, after as many instructions as were allowed."""
    OUT_OF_STEPS = 0
    ENDED = 1
    WAITING = 2
    FAULT = 3


class Fault(IntEnum):
    """The manual's faults of a channel."""
    UNDEF_INSTR = 1
    OPERAND_INVALID = 2
    MFIFO_ERR = 3
    ST_DATA_UNAVAILABLE = 4
    INSTR_FETCH_ERR = 5
    DATA_WRITE_ERR = 6
    DATA_READ_ERR = 7


class Known(IntEnum):
    """The registers of a `Start` that are known, as bits."""
    NONE = 0
    SAR = 1
    DAR = 2
    CCR = 4
    LC0 = 8
    LC1 = 16
    ALL = 31


class EventKind(IntEnum):
    """A DMAWFE or a DMASEV."""
    WAITS = 0
    SIGNALS = 1


class Cause(IntEnum):
    """Why a program isn't explained. From 9 on, a store may be a DMASTZ."""
    NONE = 0
    UNDEF_INSTR = 1
    OPERAND_INVALID = 2  # the bus doesn't accept the beats of a DMAMOV CCR, or a field is reserved
    MFIFO_ERR = 3  # the buffer of 256 bytes has no room for a load
    ST_DATA_UNAVAILABLE = 4  # the buffer has too few bytes for a store
    INSTR_FETCH_ERR = 5  # the program ends before its DMAEND, or a jump goes to before its start
    LOADS_PAST = 8  # a load goes beyond address 4294967295
    STORES_PAST = 9  # a store does
    STORES_FIXED = 10  # a store's address doesn't rise
    DROPS_BYTES = 11  # a DMAMOV, DMAADDH or DMAADNH at which a chip drops bytes that are loaded and not stored
    BYTES_LEFT = 12  # at DMAEND loaded bytes aren't stored
    STORES_TWICE = 13  # at DMAEND a byte was stored twice
    STORES_SOURCE = 14  # at DMAEND a byte was stored at an address that was read
    NO_END = 15  # no DMAEND is among the first `most` instructions
    UNSET_SAR = 16  # the instruction uses a register that isn't known, and that the program hasn't set
    UNSET_DAR = 17  # also for a DMAMOV DAR, DMAADDH or DMAADNH while bytes are in the buffer
    UNSET_CCR = 18
    UNSET_LC0 = 19
    UNSET_LC1 = 20


class Csr(IntEnum):
    """The status of a channel, bits 3:0 of CSR. A device of this library has the four with a comment."""
    STOPPED = 0  # here too
    EXECUTING = 1  # here too
    CACHE_MISS = 2
    UPDATING_PC = 3
    WAITING_FOR_EVENT = 4  # here too; bits 8:4 are the event
    AT_BARRIER = 5
    WAITING_FOR_PERIPHERAL = 7
    KILLING = 8
    COMPLETING = 9
    FAULTING_COMPLETING = 14
    FAULTING = 15  # here too


class Ftr(IntEnum):
    """The bits of a channel's FTR, by number."""
    UNDEF_INSTR = 0
    OPERAND_INVALID = 1
    CH_EVNT_ERR = 5
    CH_PERIPH_ERR = 6
    CH_RDWR_ERR = 7
    MFIFO_ERR = 12
    ST_DATA_UNAVAILABLE = 13
    INSTR_FETCH_ERR = 16
    DATA_WRITE_ERR = 17
    DATA_READ_ERR = 18
    DBG_INSTR = 30  # beside another bit: the instruction came from the debug registers
    LOCKUP_ERR = 31


class Ftrd(IntEnum):
    """The bits of the manager's FTRD, by number."""
    UNDEF_INSTR = 0
    OPERAND_INVALID = 1
    DMAGO_ERR = 4
    MGR_EVNT_ERR = 5
    INSTR_FETCH_ERR = 16
    DBG_INSTR = 30  # beside another bit


# ---- structs ----


class Segment(NamedTuple):
    """The addresses from `addr` up to, and not including, `addr + len`."""
    addr: int
    len: int


class Outcome(NamedTuple):
    """How a transfer finished, and how many of its bytes were not stored."""
    result: Result
    residue: int


class Run(NamedTuple):
    """The transfer that runs on a channel, and how many of its bytes are stored so far."""
    cookie: int
    stored: int


class Report(NamedTuple):
    """What some steps of a controller's channel did."""
    taken: int  # the number of steps, the last one included, whatever it did
    last: LastStep  # what the last one did
    channel: int  # of HELD: the channel of the conflicting transfer
    cookie: int  # of STARTED and FINISHED; of HELD that of the conflicting transfer
    event: int  # of WAITING
    result: Result  # of FINISHED
    residue: int  # of FINISHED


class ChannelReport(NamedTuple):
    """What some steps of a `Channel` did."""
    taken: int  # the number of steps, the last one included, whatever it did
    last: LastStep  # what the last one did
    event: int  # of SIGNALLED: whose flag it set; of WAITING: the one it waits for
    fault: Optional[Fault]  # of FAULT, else None
    pc: int  # the offset of the next instruction; of WAITING, FAULT and ENDED that of the last one
    written: Segment  # the steps wrote each byte of this range, and no other; its len is 0 if they wrote nothing


class Registers(NamedTuple):
    """A channel's registers and counts."""
    pc: int = 0  # the offset of the next instruction in the program
    sar: int = 0
    dar: int = 0
    ccr: int = 0
    lc0: int = 0
    lc1: int = 0
    is_loaded: bool = False  # whether it has a program
    taken: int = 0  # the number of instructions executed since the program was loaded, DMAEND included
    stored: int = 0  # the number of bytes stored since then


class DeviceTurn(NamedTuple):
    """What a turn of a device's channel did."""
    written: Segment  # its steps wrote each byte of this range, and no other; its len is 0 if they wrote nothing
    taken: int  # the number of steps, the last one included, whatever it did
    lines_changed: bool  # whether `irqs` or `irq_abort` has changed
    can_step: bool  # what `can_step` is now


@dataclass(frozen=True)
class DeviceRows:
    """What several turns of a device's channel did, one for each row."""
    turn: DeviceTurn  # what the first turn wrote, the steps of each turn, and the rest of all turns together
    pitch: int  # turn k, counted from 0, wrote as many bytes from turn.written.addr + k * pitch on
    count: int  # the number of turns, at least 1
    steps: int  # each turn is what `Device.step` does with this `most`

    def ranges(self) -> Iterator[Segment]:
        """Returns the range that each turn wrote, in order."""
        first = self.turn.written
        return (Segment(first.addr + k * self.pitch, first.len) for k in range(self.count))


class RunEnd(NamedTuple):
    """How a program that ran alone ended."""
    end: End
    steps: int  # of ENDED: the number of executed instructions, DMAEND included
    event: int  # of WAITING
    fault: Optional[Fault]  # of FAULT, else None
    pc: int  # of FAULT: the offset of the instruction


class Repeated(NamedTuple):
    """The addresses from `addr` up to, and not including, `addr + len`, all of which are read `times` times."""
    addr: int
    len: int
    times: int


class Start(NamedTuple):
    """The registers with which a program begins; None may be anything, as after another program."""
    sar: Optional[int] = None
    dar: Optional[int] = None
    ccr: Optional[int] = None
    lc0: Optional[int] = None
    lc1: Optional[int] = None


class Event(NamedTuple):
    """A DMAWFE or a DMASEV that a program executes, and how many bytes it has copied, and set to 0, before."""
    kind: EventKind
    event: int
    copied: int
    cleared: int


class Explanation(NamedTuple):
    """What a program copies, byte number p that it reads being byte number p that it stores, and what its DMASTZ set to
    0: other bytes, each once, and none that it reads."""
    src: List[Repeated]  # what it reads, in the order of the run
    dst: List[Segment]  # where it stores that
    zeros: List[Segment]  # what it sets to 0, in the order of the run
    events: List[Event]
    copied: int  # the number of bytes that it copies
    cleared: int  # the number of bytes that it sets to 0
    steps: int  # the number of instructions executed, DMAEND included


def segment_of(raw: Any) -> Segment:
    return Segment(raw.addr, raw.len)


def registers_of(raw: Any) -> Registers:
    return Registers(raw.pc, raw.sar, raw.dar, raw.ccr, raw.lc0, raw.lc1, raw.is_loaded == 1, raw.taken, raw.stored)


def fault_of(number: int) -> Optional[Fault]:
    return Fault(number) if number else None


def turn_of(raw: Any) -> DeviceTurn:
    return DeviceTurn(segment_of(raw.written), raw.taken, raw.lines_changed == 1, raw.can_step == 1)
