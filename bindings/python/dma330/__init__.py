"""A verified software DMA controller (ARM DMA-330, memory to memory), over its shared library: no compiler is needed.

- `Device`: the registers of the chip, over memory of yours, for an emulator or for the test of a driver. `dma330.bench`
  runs drivers on it, as coroutines.
- `Channel`: one channel that runs programs in memory of yours.
- `Controller`: a model of a DMA engine with its own memory, to which transfers are submitted, as with Linux's
  dmaengine.
- `explain`: what a program copies and sets to 0, or why it does nothing of this kind. `plan`, `plan_fill`: the
  program of a copy. `assemble`, `disassemble`: its text.

This copies 4,096 bytes as a driver does:

    from dma330 import Device, Region, plan
    from dma330.registers import INTCLR, INTEN

    ram = bytearray(1 << 20)
    chip = Device(regions=[Region(0x80000000, ram)])
    program = plan((0x80010000, 4096), (0x80020000, 4096), signal=5, bus=64)
    ram[:len(program)] = program
    chip[INTEN] = 1 << 5
    chip.go(2, 0x80000000)
    chip.run()
    assert chip.irqs == 1 << 5
    chip[INTCLR] = 1 << 5

A refused call raises the exception of its code, such as `Busy` for DMA330_BUSY; all of these are `Error`. A number that
has more bits than the library's argument, or is negative, raises OverflowError.

The library is proved; this module isn't, and a test compares its declarations with dma330.h. It keeps the duties at the
head of dma330.h: one call at a time, memory that stays where it is, no two regions of the same bytes. Two are
yours: each thread has 64 KiB of stack, and while a call runs, nobody else writes what it reads, or reads what it
writes. Python's other threads run during a call.

The library is the file that DMA330_SO names, else libdma330.so.1 beside the module (as in a wheel), in ../lib, ../../lib
or ../../../lib seen from there (as in a release or an install), or where the loader finds it. It must have this version
or a later one of the same MAJOR.
"""
from . import errors, values
from ._library import VERSION as __version__
from ._library import version
from .channel import Channel
from .controller import Controller
from .device import Device
from .errors import *
from .memory import Region
from .programs import assemble, disassemble, explain, plan, plan_fill, run_program
from .values import *

__all__ = ["Channel", "Controller", "Device", "Region", "assemble", "disassemble", "explain", "plan", "plan_fill",
           "run_program", "version", "__version__"]
__all__ += errors.__all__
__all__ += values.__all__
