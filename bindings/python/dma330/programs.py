"""Programs of a channel: what they copy, the program of a copy, their text."""
from __future__ import annotations

import struct
from typing import TYPE_CHECKING, Any, Callable, List, Optional, SupportsIndex, Tuple, Union

from ._error import check
from ._library import CALLS, STRUCTS, byref, room_for, size_t, u8, u32, u64
from .errors import BufferTooSmall
from .memory import Region, bytes_of, event_of, number, segments
from .values import (MAX_PROGRAM, Cause, End, Event, EventKind, Explanation, Known, Registers, Repeated, RunEnd,
                     Segment, Start, fault_of)

if TYPE_CHECKING:
    from .memory import Buffer, Segments

    Call = Callable[..., int]

_FORMATS = {u32: "I", u64: "Q"}
_FIRST_ROOM = 64
_LISTS = {"src": "repeated", "dst": "segment", "zeros": "segment", "events": "event"}


def _rows(room: bytearray, kind: Any, count: int) -> List[Tuple[int, ...]]:
    form = "=" + "".join(_FORMATS[it] for _, it in kind._fields_)
    return list(struct.iter_unpack(form, bytes(room[:count * struct.calcsize(form)])))


def explanation_of(call: Call) -> Explanation:
    """Makes a call that explains, with more room if the lists need it."""
    kinds = [STRUCTS[it] for it in _LISTS.values()]
    counts = [_FIRST_ROOM] * len(kinds)
    while True:
        found = STRUCTS["explanation"]()
        rooms = [room_for(kind, count) for kind, count in zip(kinds, counts)]
        words = [word for (_, pointer), count in zip(rooms, counts) for word in (pointer, count)]
        code = call(*words, byref(found))
        counts = [getattr(found, name + "_len") for name in _LISTS]
        if code != BufferTooSmall.code:
            break
    check(code, Cause(found.cause), found.pc, found.steps, found.addr)
    src, dst, zeros, events = (_rows(room, kind, count) for (room, _), kind, count in zip(rooms, kinds, counts))
    return Explanation([Repeated(*it) for it in src], [Segment(*it) for it in dst], [Segment(*it) for it in zeros],
                       [Event(EventKind(kind), *rest) for kind, *rest in events], found.copied, found.cleared,
                       found.steps)


def _start_of(start: Union[Start, Registers]) -> Any:
    """Returns the struct of dma330.h."""
    raw = STRUCTS["start"]()
    for name, bits in (("sar", 32), ("dar", 32), ("ccr", 32), ("lc0", 8), ("lc1", 8)):
        value = getattr(start, name)
        if value is not None:
            setattr(raw, name, number(value, bits, name))
            raw.known += Known[name.upper()]
    return raw


def explain(program: Buffer, bus: SupportsIndex = 0, start: Union[Start, Registers] = Start(),
            most: SupportsIndex = 1000000) -> Explanation:
    """Returns what a program does: which bytes it reads, where it stores them, what its DMASTZ set to 0, and its
    events.

        found = explain(plan((0x1000, 300), (0x2000, 300), signal=3))
        assert found.src == [(0x1000, 300, 1)] and found.dst == [(0x2000, 300)]
        assert found.events == [(EventKind.SIGNALS, 3, 300, 0)]

    `bus` is 0 for a `Channel`, or the width of a device's bus, 32, 64 or 128. The program runs without a memory for at
    most `most` instructions. It begins with the registers of `start`, as far as they are known, and what is found holds
    whatever the others are; `Registers` are all known. Raises BadConfig for another bus, and for a CCR that no channel
    on the bus has; ProgramTooLong, NoMemory, Unexplained."""
    program = bytes_of(program)
    words = (program, len(program), number(bus, 32, "bus"), byref(_start_of(start)), number(most, 32, "most"))
    return explanation_of(lambda *lists: CALLS["explain"](*words, *lists))


def _written(name: str, *words: Any) -> bytes:
    out, pointer = room_for(u8, MAX_PROGRAM)
    size = size_t()
    check(CALLS[name](*words, pointer, MAX_PROGRAM, byref(size)))
    return bytes(out[:size.value])


def plan(src: Segments, dst: Segments, wait: Optional[SupportsIndex] = None, signal: Optional[SupportsIndex] = None,
         bus: SupportsIndex = 0) -> bytes:
    """Returns the program of a copy: for bus 0 the one that `Channel.load_copy` loads, else one for a device with a bus
    of 32, 64 or 128 bits.

        program = plan((0x80010000, 4096), [(0x80020000, 4000), (0x80030000, 96)], signal=5, bus=64)

    Raises BadConfig for another bus, and what `Channel.load_copy` raises."""
    return _written("plan", *segments(src), *segments(dst), event_of(wait, "wait"), event_of(signal, "signal"),
                    number(bus, 32, "bus"))


def plan_fill(src: SupportsIndex, dst: Segments, wait: Optional[SupportsIndex] = None,
              signal: Optional[SupportsIndex] = None, bus: SupportsIndex = 0) -> bytes:
    """Returns the program of a fill with the byte at address `src`, as `plan`. Raises what `plan` raises, except
    TotalsDiffer."""
    return _written("plan_fill", number(src, 32, "src"), *segments(dst), event_of(wait, "wait"),
                    event_of(signal, "signal"), number(bus, 32, "bus"))


def assemble(text: str) -> bytes:
    """Returns the bytes of a program's text, an instruction a line.

        assert assemble("DMALP 0 4\\nDMALD\\nDMAST\\nDMALPEND 0 2\\nDMAEND\\n").hex() == "20030408380200"

    Raises BadMnemonic, BadOperand, NumberOutOfRange or ProgramTooLong with the line in `place`; NoMemory."""
    data = text.encode()
    out, pointer = room_for(u8, MAX_PROGRAM)
    size, place = size_t(), size_t()
    check(CALLS["assemble"](data, len(data), pointer, MAX_PROGRAM, byref(size), byref(place)), place.value)
    return bytes(out[:size.value])


def disassemble(program: Buffer) -> str:
    """Returns the text of a program. Raises CutInstruction, UnknownInstruction or BadField with the offset in `place`;
    NoMemory."""
    program = bytes_of(program)
    room = 9 * len(program)
    out, pointer = room_for(u8, room)
    size, place = size_t(), size_t()
    code = CALLS["disassemble"](program, len(program), pointer, room, byref(size), byref(place))
    check(code, place.value)
    return bytes(out[:size.value]).decode()


def run_program(program: Buffer, memory: Buffer, limit: SupportsIndex = 1000000) -> RunEnd:
    """Runs a program alone over a memory that begins at address 0, in place, with all flags clear, for at most `limit`
    instructions. Raises SizeOutOfRange, ProgramTooLong, NoMemory; TypeError for memory that can't
    be written."""
    lent, program = Region(0, memory), bytes_of(program)
    if lent.read_only:
        raise TypeError("the program's memory must be one that can be written")
    it = STRUCTS["run_end"]()
    check(CALLS["run_program"](program, len(program), lent.place, len(lent), number(limit, 32, "limit"), byref(it)))
    return RunEnd(End(it.end), it.steps, it.event, fault_of(it.fault), it.pc)
