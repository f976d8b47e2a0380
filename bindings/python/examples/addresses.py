#!/usr/bin/env python3
"""A walk from the dump of a driver's program to its addresses over time: addresses.py DUMP [PICTURE.svg] [--bus BITS]

DUMP is a text of pairs of hexadecimal digits, with comments after #, as in examples/scripts/linux.hex. The addresses
after each instruction are printed, or drawn with matplotlib (Debian's python3-matplotlib).
"""
import argparse
import re
import sys

import dma330
from dma330 import Csr
from dma330.registers import DBGCMD, DBGINST0, DBGINST1, csr, sev

CHANNEL = 0


def read_dump(path):
    """1. The bytes of the program."""
    with open(path, encoding="ascii") as file:
        return bytes.fromhex(re.sub("#.*", "", file.read()))


def lend(found, program):
    """2. Memory for all that the program reads and writes, which `explain` lists without running it, and for the
    program itself, at the first address from which on there is room. Returns regions, and the program's address."""
    ranges = sorted((one[0], one[0] + one[1]) for one in [*found.src, *found.dst, *found.zeros])
    joined = []
    for begin, end in ranges:
        if joined and begin <= joined[-1][1]:
            begin, end = joined[-1][0], max(end, joined.pop()[1])
        joined.append((begin, end))
    at = 0
    for begin, end in joined:
        if at + len(program) > begin:
            at = end
    regions = [dma330.Region(begin, bytearray(end - begin)) for begin, end in joined]
    return [*regions, dma330.Region(at, program)], at


def trace(program, bus):
    """3. A driver writes the program's address to the device, and the channel takes one step after another. Where it
    waits for an event, the driver sets it. Returns a row for each instruction: its number, and SAR and DAR after it."""
    found = dma330.explain(program, bus, dma330.Registers())
    regions, at = lend(found, program)
    chip = dma330.Device(bus=bus, regions=regions)
    chip.go(CHANNEL, at)
    rows = []
    while chip.status(CHANNEL) in (Csr.EXECUTING, Csr.WAITING_FOR_EVENT):
        if chip.status(CHANNEL) == Csr.WAITING_FOR_EVENT:
            event = chip[csr(CHANNEL)] >> 4 & 31
            chip[DBGINST0], chip[DBGINST1], chip[DBGCMD] = sev(event), 0, 0
        before = chip.registers(CHANNEL).taken
        chip.step(CHANNEL, 1)
        it = chip.registers(CHANNEL)
        if it.taken > before:
            rows.append((it.taken, it.sar, it.dar))
    return rows


def draw(rows, title, path):
    """4. The picture: two lines over the same time, each with its own addresses from the instruction on that sets
    them."""
    import matplotlib
    matplotlib.use("svg")
    matplotlib.rcParams.update({"svg.fonttype": "none", "svg.hashsalt": "dma330"})  # texts; the same bytes each time
    from matplotlib import pyplot, ticker

    figure, axes = pyplot.subplots(2, sharex=True, figsize=(8, 5), constrained_layout=True)
    steps, *addresses = zip(*rows)
    for axis, name, them in zip(axes, ("SAR", "DAR"), addresses):
        begin = next((n for n, it in enumerate(them) if it != 0), 0)
        axis.step(steps[begin:], them[begin:], where="post")
        axis.set_ylabel(name)
        span = max(them[begin:]) - min(them[begin:])
        axis.yaxis.set_major_locator(ticker.MultipleLocator(1 << max(0, span.bit_length() - 3)))
        axis.yaxis.set_major_formatter(lambda address, _: "0x%08X" % int(address))
        axis.grid(alpha=0.3)
    axes[0].set_title(title)
    axes[1].set_xlabel("instruction")
    figure.savefig(path, metadata={"Date": None})


def main():
    parser = argparse.ArgumentParser(description=__doc__, formatter_class=argparse.RawDescriptionHelpFormatter)
    parser.add_argument("dump")
    parser.add_argument("picture", nargs="?")
    parser.add_argument("--bus", type=int, default=64, choices=(32, 64, 128))
    asked = parser.parse_args()
    try:
        rows = trace(read_dump(asked.dump), asked.bus)
    except dma330.Unexplained as error:
        sys.exit("%s: %s at offset %d, after %d instructions" % (asked.dump, error.cause.name, error.pc, error.steps))
    if asked.picture:
        draw(rows, asked.dump, asked.picture)
    else:
        for row in rows:
            print("%5d SAR 0x%08X DAR 0x%08X" % row)


if __name__ == "__main__":
    main()
