"""A device: registers, turns, interrupts, faults, saves, rows."""
import os
import random
import threading
import unittest

import dma330
from dma330 import Csr, Device, Region
from dma330 import registers as reg

RAM = 0x80000000


def device(ram, **choices):
    it = Device(regions=[Region(RAM, ram)], **choices)
    it[reg.INTEN] = 0xFF
    return it


def put(ram, offset, program):
    ram[offset:offset + len(program)] = program


class Devices(unittest.TestCase):
    def test_the_choices_of_the_chip(self):
        it = Device(channels=4, events=16, bus=64, lines=64)
        self.assertEqual(it[reg.CR0], 3 << 4 | 15 << 17)
        self.assertEqual((it[0x1000], it[0xFFFFFFFC], it.channels, it.irqs, it.can_step), (0, 0, 4, 0, False))
        for call in (lambda: iter(it), lambda: it[0:4]):
            self.assertRaises(TypeError, call)
        for choices in ({"channels": 0}, {"channels": 9}, {"events": 33}, {"bus": 256}, {"lines": 0}, {"revision": 4}):
            with self.subTest(choices), self.assertRaises(dma330.BadConfig):
                Device(**choices)

    def test_a_planned_program(self):
        ram = bytearray(1 << 20)
        ram[0x10000:0x11000] = os.urandom(4096)
        it = device(ram, bus=128)
        put(ram, 0, dma330.plan((RAM + 0x10000, 4096), (RAM + 0x20000, 4096), signal=5, bus=128))
        self.assertRaises(dma330.NoProgram, it.explain, 2)
        it.go(2, RAM)
        found = it.explain(2)
        self.assertEqual((found.src, found.dst), ([(RAM + 0x10000, 4096, 1)], [(RAM + 0x20000, 4096)]))
        self.assertEqual((found.zeros, found.copied, found.cleared), ([], 4096, 0))
        self.assertEqual(it.status(2), Csr.EXECUTING)
        turn = it.step(2, 8)
        self.assertEqual((turn.taken, turn.can_step, turn.lines_changed), (8, True, False))
        self.assertEqual(turn.written, (RAM + 0x20000, it.registers(2).stored))
        it.run()
        self.assertEqual((it.irqs, it.status(2), it.irq_abort), (1 << 5, Csr.STOPPED, False))
        self.assertEqual(ram[0x20000:0x21000], ram[0x10000:0x11000])
        self.assertEqual((it.registers(2).stored, it.registers(2).taken), (4096, found.steps))
        it[reg.INTCLR] = 1 << 5
        self.assertEqual(it.irqs, 0)
        self.assertRaises(dma330.NoProgram, it.explain, 2)
        self.assertRaises(dma330.NoChannel, it.explain, 8)
        for call in (it.registers, it.status, it.kill, lambda channel: it.go(channel, RAM)):
            self.assertRaises(dma330.NoChannel, call, 8)
        self.assertEqual(it.step(8).written.len, 0)

    def test_zeros(self):
        ram = bytearray(b"\xFF" * 256)
        it = device(ram)
        put(ram, 0, bytes.fromhex("BC 02 80 00 00 80 BC 01 37 C0 0D 00 0C 34 18 00"))  # DMASTZ: 4 beats of 8 bytes
        it.go(1, RAM)
        found = it.explain(1)
        self.assertEqual((found.zeros, found.cleared, found.copied), ([(RAM + 0x80, 32)], 32, 0))
        self.assertEqual(found.events, [(dma330.EventKind.SIGNALS, 3, 0, 32)])
        it.run()
        self.assertEqual((ram[0x7F:0xA1], it.irqs), (b"\xFF" + bytes(32) + b"\xFF", 1 << 3))

    def test_rows(self):
        """A loop copies 8 rows of 16 bytes, each 64 bytes after the one before, by DMALD, DMAST, DMAADDH of both."""
        rows = bytes.fromhex("BC 00 00 10 00 80 BC 02 00 20 00 80 BC 01 17 C0 05 00"
                             "20 07 04 08 54 30 00 56 30 00 38 08 00")
        sides = []
        for by_rows in (True, False):
            ram = bytearray(random.Random(1).getrandbits(8 * 0x4000).to_bytes(0x4000, "little"))
            it = device(ram)
            put(ram, 0, rows)
            it.go(0, RAM)
            ranges, steps = [], 0
            while it.can_step:
                if by_rows:
                    found = it.step_rows(0, 1000)
                    self.assertEqual(len(list(found.ranges())), found.count)
                    ranges += found.ranges()
                    steps += found.count * found.turn.taken
                else:
                    ranges.append(it.step(0, 1000).written)
            if by_rows:
                self.assertEqual(steps, 3 + 1 + 8 * 5 + 1)
            for k in range(8):
                self.assertEqual(ram[0x2000 + 64 * k:][:16], ram[0x1000 + 64 * k:][:16])
            sides.append(([range for range in ranges if range.len], bytes(ram), it.save()))
        self.assertEqual(sides[0][0], [(RAM + 0x2000 + 64 * k, 16) for k in range(8)])
        self.assertEqual(sides[0], sides[1])

    def test_saves(self):
        ram = bytearray(os.urandom(1 << 17))
        it = device(ram)
        put(ram, 0, dma330.plan((RAM + 0x8000, 16384), (RAM + 0x10000, 16384), signal=0, bus=64))
        it.go(0, RAM)
        it.step(0, 100)
        save, copy = it.save(), bytearray(ram)
        other = device(copy)
        other.restore(save)
        it.run()
        other.run()
        self.assertEqual((ram, ram[0x8000:0xC000], other.irqs), (copy, ram[0x10000:0x14000], 1))
        flipped = bytearray(save)
        flipped[random.randrange(len(save))] ^= 1 << random.randrange(8)
        self.assertRaises((dma330.BadSave, dma330.OtherDevice), other.restore, flipped)
        self.assertRaises(dma330.OtherDevice, device(bytearray(8), channels=4).restore, save)
        it.reset()
        self.assertEqual((it.irqs, it[reg.INTEN]), (0, 0))

    def test_a_fault_raises_irq_abort_until_the_kill(self):
        ram = bytearray(4096)
        it = device(ram)
        put(ram, 0, dma330.plan((RAM, 16), (0x1000, 16), bus=64))  # nothing is lent there
        it.go(3, RAM)
        it.run()
        self.assertTrue(it.irq_abort)
        self.assertEqual((it.status(3), it[reg.FSRC]), (Csr.FAULTING, 1 << 3))
        self.assertEqual(it[reg.ftr(3)], 1 << dma330.Ftr.DATA_WRITE_ERR)
        it.kill(3)
        self.assertEqual((it.irq_abort, it.status(3)), (False, Csr.STOPPED))

    def test_a_program_without_an_end(self):
        ram = bytearray([0x20, 1, 0x38, 2])
        it = device(ram)
        it.go(0, RAM)
        self.assertRaises(TimeoutError, it.run, 10, 10)

    def test_wrong_regions(self):
        it = device(bytearray(64))
        it.regions = [Region(0, bytearray(16)), Region(8, bytearray(16))]
        self.assertRaises(dma330.BadRegions, it.step, 0)
        self.assertRaises(dma330.BadRegions, it.step_rows, 0)
        with self.assertRaises(dma330.BadRegions):
            it[reg.DBGCMD] = 0

    def test_threads_with_a_device_each_share_memory(self):
        ram = bytearray(os.urandom(0x40000)) + bytearray(0x40000)
        programs = [dma330.plan((RAM + 0x8000 * n + 0x400, 0x7000), (RAM + 0x40000 + 0x8000 * n, 0x7000), bus=64)
                    for n in range(8)]

        def work(n):
            it = device(ram)
            put(ram, 0x8000 * n, programs[n])
            for _ in range(20):
                it.go(n, RAM + 0x8000 * n)
                it.run(64)

        threads = [threading.Thread(target=work, args=(n,)) for n in range(8)]
        for one in threads:
            one.start()
        for one in threads:
            one.join()
        for n in range(8):
            self.assertEqual(ram[0x40000 + 0x8000 * n:][:0x7000], ram[0x8000 * n + 0x400:][:0x7000])


if __name__ == "__main__":
    unittest.main()
