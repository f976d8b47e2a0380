"""Lent memory: any buffer that can be written, without a copy, and kept where it is."""
import array
import gc
import mmap
import os
import pickle
import tempfile
import unittest

import dma330
from dma330 import Channel, Controller, LastStep, Fault, Region

try:
    import numpy
except ImportError:
    numpy = None

RAM = 0x80000000


class Memory(unittest.TestCase):
    def test_a_channel_copies_in_a_bytearray(self):
        ram = bytearray(os.urandom(8192)) + bytearray(8192)
        it = Channel([Region(RAM, ram)])
        it.load_copy((RAM, 8192), (RAM + 8192, 8192), signal=7)
        report = it.step()
        self.assertEqual((report.last, report.event, it.flags), (LastStep.SIGNALLED, 7, 1 << 7))
        self.assertEqual(report.written, (RAM + 8192, 8192))
        self.assertEqual(it.run().last, LastStep.ENDED)
        self.assertEqual(ram[:8192], ram[8192:])
        self.assertEqual((it.registers.stored, it.registers.is_loaded), (8192, False))

    def test_each_kind_of_buffer(self):
        with tempfile.TemporaryFile() as file:
            file.write(bytes(64))
            file.flush()
            for memory in (bytearray(64), array.array("I", [0] * 16), mmap.mmap(-1, 64), memoryview(bytearray(64)),
                           memoryview(bytearray(64)).cast("I"), memoryview(bytearray(80))[16:],
                           memoryview(bytearray(64)).cast("B", (4, 16)),
                           mmap.mmap(file.fileno(), 64, access=mmap.ACCESS_COPY)):
                it = Channel([Region(0, b"\xA5"), Region(RAM, memory)])
                it.load_fill(0, (RAM + 3, 61))
                with self.subTest(type(memory)):
                    self.assertEqual(it.run().last, LastStep.ENDED)
                    self.assertEqual(memoryview(memory).tobytes(), bytes(3) + b"\xA5" * 61)

    @unittest.skipUnless(numpy, "there is no numpy: the tests of its arrays are")
    def test_numpy_arrays(self):
        src = numpy.arange(1 << 16, dtype=numpy.uint32).reshape(256, 256)
        dst = numpy.zeros(src.shape, dtype=">u4")
        it = Channel([Region(0, src, read_only=True), Region(1 << 24, dst)])
        it.load_copy((numpy.uint32(0), src.nbytes), (1 << 24, numpy.int64(dst.nbytes)))
        self.assertEqual(it.run().last, LastStep.ENDED)
        self.assertEqual(src.tobytes(), dst.tobytes())
        frozen = numpy.zeros(8)
        frozen.flags.writeable = False
        for memory, error in ((src[:, ::2], ValueError), (src.T, ValueError), (frozen, TypeError)):
            with self.assertRaises(error):
                Region(0, memory)
        with self.assertRaises(ValueError):
            dst.resize((1, 1))

    def test_rom(self):
        rom, ram = b"ROM!" * 64, bytearray(256)
        it = Channel([Region(0x2000, ram), Region(0x1000, rom)])
        self.assertEqual([one.addr for one in it.regions], [0x1000, 0x2000])
        it.load_copy((0x1000, 256), (0x2000, 256))
        self.assertEqual(it.run().last, LastStep.ENDED)
        self.assertEqual(ram, rom)
        for memory in (Region(0x1000, rom), Region(0x1000, bytearray(rom), read_only=True)):
            it.regions = [memory, Region(0x2000, ram)]
            it.load_copy((0x2000, 4), (0x1000, 4))
            report = it.run()
            self.assertEqual((report.last, report.fault), (LastStep.FAULT, Fault.DATA_WRITE_ERR))
        self.assertEqual(rom, b"ROM!" * 64)

    def test_what_is_refused(self):
        with tempfile.TemporaryFile() as file:
            file.write(bytes(64))
            file.flush()
            mapped = mmap.mmap(file.fileno(), 64, access=mmap.ACCESS_READ)
            for memory, error in ((mapped, TypeError), (memoryview(b"ab"), TypeError), (bytearray(8)[::1], None),
                                  (memoryview(bytearray(8))[::2], ValueError), ("text", TypeError), (None, TypeError),
                                  (5, TypeError), ([1, 2], TypeError), (memoryview(bytearray(8))[::-1], ValueError)):
                with self.subTest(memory):
                    if error is None:
                        Region(0, memory)
                    else:
                        self.assertRaises(error, Region, 0, memory)

    def test_lent_memory_stays_where_it_is(self):
        held, numbers, mapped = bytearray(64), array.array("B", bytes(64)), mmap.mmap(-1, 4096)
        below = bytearray(64)
        view = memoryview(below)
        it = Channel([Region(0, held), Region(64, numbers), Region(128, view), Region(4096, mapped)])
        view.release()
        for call in (lambda: held.extend(b"x"), held.clear, lambda: numbers.append(1), below.clear, mapped.close):
            with self.assertRaises(BufferError):
                call()
        it.regions = []
        gc.collect()
        held.extend(b"x")
        below.clear()
        mapped.close()

    def test_lent_memory_lives_as_long_as_it_is_lent(self):
        it = Channel()
        it.regions = (Region(RAM + 4096 * n, bytearray(b"\x11" * 4096)) for n in range(4))
        for _ in range(3):
            gc.collect()
            self.assertEqual(len([bytearray(4096) for _ in range(64)]), 64)  # takes what was freed
        it.load_fill(RAM, (RAM + 256, 4 * 4096 - 256))
        self.assertEqual(it.run().last, LastStep.ENDED)
        self.assertTrue(all(one.buffer == b"\x11" * 4096 for one in it.regions))

    def test_regions_that_the_library_refuses(self):
        rows = {"share an address": [Region(0, bytearray(16)), Region(8, bytearray(16))],
                "end above the last address": [Region(0xFFFFFFF8, bytearray(9))],
                "65": [Region(16 * n, bytearray(8)) for n in range(65)],
                "one of them empty": [Region(0, bytearray(16)), Region(8, b"")]}
        it = Channel()
        it.load_fill(0, (4, 4))
        for name, regions in rows.items():
            it.regions = regions
            with self.subTest(name), self.assertRaises(dma330.BadRegions):
                it.step()
        it.regions = rows["65"][:64]
        self.assertEqual(it.run().last, LastStep.ENDED)

    def test_shared_bytes_are_refused(self):
        ram = bytearray(64)
        for regions in ([Region(0, ram), Region(64, ram)],
                        [Region(0, ram), Region(4096, memoryview(ram)[60:])]):
            with self.assertRaises(ValueError):
                Channel(regions)
        Channel([Region(0, memoryview(ram)[:32]), Region(4096, memoryview(ram)[32:])])

    def test_empty_memory(self):
        it = Channel([Region(0, bytearray()), Region(1, b""), Region(2, bytearray(8))])
        it.load_fill(2, (3, 7))
        self.assertEqual(it.run().last, LastStep.ENDED)
        it = Channel()
        it.load_fill(2, (3, 7))
        self.assertEqual(it.run().fault, Fault.DATA_READ_ERR)

    def test_the_last_addresses(self):
        ram = bytearray(b"\7" + bytes(15))
        it = Channel([Region(0xFFFFFFF0, ram)])
        it.load_fill(0xFFFFFFF0, (0xFFFFFFF1, 15))
        self.assertEqual((it.run().last, ram), (LastStep.ENDED, b"\7" * 16))

    def test_a_region_is_neither_copied_nor_changed(self):
        it = Region(RAM, bytearray(16))
        self.assertEqual(repr(it), "<dma330.Region at 0x80000000, 16 bytes of bytearray>")
        self.assertRaises(TypeError, pickle.dumps, it)
        for name in ("addr", "buffer", "read_only", "place", "more"):
            with self.assertRaises(AttributeError):
                setattr(it, name, 0)

    def test_an_empty_region_at_the_address_of_another(self):
        ram = bytearray(b"\7" + bytes(15))
        regions = [Region(0, ram), Region(0, b""), Region(16, bytearray())]
        for them in (regions, regions[::-1], [regions[1], regions[2], regions[0]]):
            it = Channel(them)
            self.assertEqual([len(one) for one in it.regions], [0, 16, 0])
            it.load_fill(0, (1, 15))
            self.assertEqual(it.run().last, LastStep.ENDED)

    def test_a_region_is_made_once(self):
        """What a channel uses stays where it is, whatever becomes of the region."""
        ram, other = bytearray(b"\x11" * 4096), bytearray(4096)
        region = Region(RAM, ram)
        it = Channel([region])
        self.assertRaises(RuntimeError, region.__init__, 0, other)
        self.assertEqual((region.addr, region.buffer is ram, len(region)), (RAM, True, 4096))
        other.clear()
        del region._parts
        for _ in range(3):
            gc.collect()
            self.assertRaises(BufferError, ram.clear)
        it.load_fill(RAM, (RAM + 256, 64))
        self.assertEqual(it.run().last, LastStep.ENDED)
        it.regions = []
        ram.clear()

    def test_a_region_whose_making_failed(self):
        region = Region.__new__(Region)
        self.assertRaises(AttributeError, lambda: region.addr)
        self.assertRaises(AttributeError, repr, region)
        self.assertRaises(AttributeError, Channel, [region])
        self.assertRaises(OverflowError, region.__init__, -1, bytearray(8))
        region.__init__(0, bytearray(8))
        self.assertEqual(len(Channel([region]).regions[0]), 8)

    def test_classes_derived_from_region(self):
        """A derived class may add to a region, and has no say in where its memory is."""
        class Named(Region):
            def __init__(self, name, *words):
                super().__init__(*words)
                self.name = name

        class Other(Region):
            addr, place = property(lambda self: 0x5000), property(lambda self: 16)
            read_only = property(lambda self: False)

            def __len__(self):
                return 1 << 30

        class Hidden(Region):
            _parts = (0, 1 << 30, 16, False, None)

        class Kept(Region):
            _parts = property(lambda self: self.it, lambda self, it: setattr(self, "it", it))

        ram = bytearray(range(16))
        it = Channel([Named("ram", 0, ram), Other(16, b"\7" * 16)])
        self.assertEqual(it.regions[0].name, "ram")
        it.load_copy((16, 4), (0, 4))
        self.assertEqual((it.run().last, ram[:5]), (LastStep.ENDED, b"\7\7\7\7\4"))
        it.load_copy((0, 4), (16, 4))
        self.assertEqual(it.run().fault, Fault.DATA_WRITE_ERR)
        self.assertRaises(RuntimeError, Hidden, 0, bytearray(8))
        self.assertRaises(AttributeError, lambda: Channel([Kept(0, bytearray(8))]))
        for other in (None, 5, ram, Controller, Region):
            self.assertRaises(TypeError, Channel, [other])

    def test_a_class_derived_from_bytes(self):
        class Longer(bytes):
            def __len__(self):
                return 8192

        self.assertRaises(TypeError, Region, 0, Longer(16))
        self.assertEqual(dma330.disassemble(Longer(b"\0")), "DMAEND\n")
        it = Channel()
        self.assertRaises(dma330.BadSave, it.restore, Longer(it.save()[:-1]))
        it.restore(Longer(it.save()))


class Channels(unittest.TestCase):
    def test_events_marks_and_saves(self):
        ram = bytearray(os.urandom(64)) + bytearray(64)
        it = Channel([Region(0, ram)])
        it.load_copy((0, 64), (64, 64), wait=3)
        report = it.run()
        self.assertEqual((report.last, report.event), (LastStep.WAITING, 3))
        it.flags |= 1 << 3
        it.inject_error(dma330.Access.READS, 0, 1)
        self.assertEqual(it.run().fault, Fault.DATA_READ_ERR)
        it.uninject_errors()
        other = Channel(it.regions)
        other.restore(it.save())
        self.assertEqual(other.registers, it.registers)
        self.assertEqual((other.run().last, other.flags), (LastStep.ENDED, 0))
        self.assertEqual(ram[:64], ram[64:])
        with self.assertRaises(dma330.BadSave):
            other.restore(b"no save")

    def test_programs(self):
        ram = bytearray(range(128))
        program = dma330.plan((0, 16), (64, 16))
        ram[32:32 + len(program)] = program
        it = Channel([Region(0, ram)])
        with self.assertRaises(dma330.NoProgram):
            it.step()
        it.load_from(32)
        self.assertEqual((it.run().last, ram[64:80]), (LastStep.ENDED, ram[:16]))
        it.load_program(dma330.plan((0, 16), (80, 16)))
        it.stop()
        self.assertRaises(dma330.NoProgram, it.step)
        self.assertRaises(dma330.ProgramTooLong, it.load_program, bytes(8193))
        it.load_program(memoryview(dma330.plan((0, 16), (80, 16))))
        self.assertEqual((it.run().last, ram[80:96]), (LastStep.ENDED, ram[:16]))

    def test_a_program_without_an_end(self):
        it = Channel()
        it.load_program(bytes([0x20, 1, 0x38, 2]))  # DMALP 0 2; DMALPEND back to the DMALP
        self.assertRaises(TimeoutError, it.run, 100, 1000)


if __name__ == "__main__":
    unittest.main()
