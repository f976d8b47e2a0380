"""The exceptions: one for each code of the library, all of which are `Error`.

A call raises the first that applies of those in its documentation; `NotOpen` comes before all others. A call that
raises has changed nothing, except that `BadSave` leaves a device in its state after a reset. Wrong arguments, such as a
guest's, are a `ValueError`, too. `Busy` and `Running` have the channel to step before the call is made again.

`tools/declarations` writes this file: change the comments of dma330.h, not the file.
"""
from __future__ import annotations

from ._error import Error
from .values import Cause

__all__ = ["Error", "NotOpen", "AlreadyOpen", "NoMemory", "BufferTooSmall", "NoChannel", "NoProgram", "ProgramTooLong",
           "BadChannels", "SizeOutOfRange", "BadRegions", "BadConfig", "BadEvent", "BadAccess", "BadRange",
           "OutOfMemoryRange", "EmptyList", "TooManySegments", "EmptySegment", "SegmentWraps", "TotalsDiffer",
           "TooLong", "DestinationsMeet", "SourceMeetsDestination", "Busy", "Running", "NotRunning", "NoResult",
           "CookiesSpent", "StepsSpent", "BadSave", "OtherDevice", "BadMnemonic", "BadOperand", "NumberOutOfRange",
           "CutInstruction", "UnknownInstruction", "BadField", "Unexplained"]


class NotOpen(Error, RuntimeError):
    """The controller, channel or device is zeroed or closed."""


class AlreadyOpen(Error, RuntimeError):
    """An open of a controller, channel or device that is open."""


class NoMemory(Error, MemoryError):
    """Out of memory: malloc or realloc returned NULL."""


class BufferTooSmall(Error, RuntimeError):
    """The output has more bytes or items than there is room. The module makes room, so no call raises it."""


class NoChannel(Error, ValueError):
    """The channel's number isn't below the number of channels."""


class NoProgram(Error, RuntimeError):
    """The channel has no program."""


class ProgramTooLong(Error, ValueError):
    """A program has more than 8192 bytes. Of `assemble`, `place` is the line with which it does, else 0."""
    about = ("place",)
    place: int = 0


class BadChannels(Error, ValueError):
    """The number of channels isn't 1 to 8."""


class SizeOutOfRange(Error, ValueError):
    """The size of a memory isn't 1 to 4294963200."""


class BadRegions(Error, ValueError):
    """More than 64 regions, or one begins before the end of the one before it (also if one of the two is empty), or one
    ends above 4294967296."""


class BadConfig(Error, ValueError):
    """No device can have this configuration, this bus, or this Start."""


class BadEvent(Error, ValueError):
    """An event is above 31."""


class BadAccess(Error, ValueError):
    """Neither READS nor WRITES."""


class BadRange(Error, ValueError):
    """A range in which accesses are to fail is empty, or ends above 2^32."""


class OutOfMemoryRange(Error, ValueError):
    """A range or a segment ends above the memory's size."""


class EmptyList(Error, ValueError):
    """A list has no segment."""


class TooManySegments(Error, ValueError):
    """A list has more than 64 segments."""


class EmptySegment(Error, ValueError):
    """A segment has length 0."""


class SegmentWraps(Error, ValueError):
    """A segment ends above 2^32."""


class TotalsDiffer(Error, ValueError):
    """The lists have different numbers of bytes."""


class TooLong(Error, ValueError):
    """A list has more than 1048576 bytes."""


class DestinationsMeet(Error, ValueError):
    """Two destination segments share an address."""


class SourceMeetsDestination(Error, ValueError):
    """A source and a destination segment share an address."""


class Busy(Error, RuntimeError):
    """A running transfer conflicts. It is `cookie` on `channel`, of several the one on the lowest channel."""
    about = ("channel", "cookie")
    channel: int
    cookie: int


class Running(Error, RuntimeError):
    """A checkpoint, and a transfer runs. It is `cookie` on `channel`, of several the one on the lowest channel."""
    about = ("channel", "cookie")
    channel: int
    cookie: int


class NotRunning(Error, LookupError):
    """Nothing runs on the channel, or there is no such channel."""


class NoResult(Error, LookupError):
    """The cookie hasn't finished, was never given, or its result is forgotten."""


class CookiesSpent(Error, RuntimeError):
    """The channel has used cookie 2147483647."""


class StepsSpent(Error, RuntimeError):
    """An instruction is due, and the step count is 2^64 - 1."""


class BadSave(Error, ValueError):
    """The bytes are no save of a channel, or of any device."""


class OtherDevice(Error, ValueError):
    """The bytes begin as a save of another version, or of another configuration."""


class BadMnemonic(Error, ValueError):
    """No instruction has this name. `place` is the line, from 1."""
    about = ("place",)
    place: int


class BadOperand(Error, ValueError):
    """An operand is missing, of a wrong form, or one too many. `place` is the line, from 1."""
    about = ("place",)
    place: int


class NumberOutOfRange(Error, ValueError):
    """A number is outside its range. `place` is the line, from 1."""
    about = ("place",)
    place: int


class CutInstruction(Error, ValueError):
    """The bytes end within an instruction. `place` is the offset of the instruction's first byte."""
    about = ("place",)
    place: int


class UnknownInstruction(Error, ValueError):
    """No instruction begins with this byte. `place` is its offset."""
    about = ("place",)
    place: int


class BadField(Error, ValueError):
    """A field is outside its range. `place` is the offset of the instruction's first byte."""
    about = ("place",)
    place: int


class Unexplained(Error, ValueError):
    """The program isn't explained; the explanation has the cause. `cause` is a `Cause`, `pc` the offset of the
    instruction that has it, and `steps` how many are executed before it. `addr` is the lowest address that is stored
    twice, for STORES_TWICE, or read and stored, for STORES_SOURCE; else it is 0."""
    about = ("cause", "pc", "steps", "addr")
    cause: Cause
    pc: int
    steps: int
    addr: int
