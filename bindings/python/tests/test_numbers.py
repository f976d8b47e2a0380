"""Which buffers are lent: those that have only numbers, and neither references to Python's objects nor pointers."""
import array
import ctypes
import io
import mmap
import multiprocessing.shared_memory
import multiprocessing.sharedctypes
import pickle
import sys
import unittest
from ctypes import (POINTER, Structure, Union, c_char_p, c_double, c_int, c_uint8, c_uint32, c_void_p, c_wchar_p,
                    py_object)

from dma330 import Channel, LastStep, Region

try:
    import numpy
except ImportError:
    numpy = None

BYTES = c_uint8 * 8


def record(*fields, base=Structure, pack=0):
    """Returns a class of ctypes with these fields."""
    return type("Record", (base,), {"_pack_": pack, "_fields_": fields} if pack else {"_fields_": fields})


class Numbers(Structure):
    _fields_ = [("O", c_uint32), ("P:", c_double * 3), ("low", c_int, 3), ("high", c_int, 5)]


class Derived(Numbers):
    pass


class WithObject(Numbers):
    _fields_ = [("one", py_object)]


class Below(WithObject):
    _fields_ = [("last", c_uint8)]


PACKED = record(("one", py_object), pack=1)
EITHER = record(("one", py_object), ("bytes", BYTES), base=Union)
PLAIN = record(("number", ctypes.c_uint64), ("bytes", BYTES), base=Union)


class Exporter:
    """Shows another object's memory, by a method for which Python 3.12 asks."""

    def __init__(self, it):
        self.it = it

    def __buffer__(self, flags):
        return memoryview(self.it).cast("B")


class _buffer_wrapper(Structure):
    _fields_ = [("one", py_object)]


class Exporters(unittest.TestCase):
    def refused(self, buffers):
        for number, it in enumerate(buffers):
            with self.subTest("refused %d" % number), self.assertRaisesRegex(TypeError, "memory to lend must have"):
                Region(0, it)

    def lent(self, buffers):
        """Lends each, and stores 5 into its first byte."""
        for number, it in enumerate(buffers):
            with self.subTest("lent %d" % number):
                region = Region(0x100, it)
                self.assertEqual(len(region), memoryview(it).nbytes)
                channel = Channel([Region(0, b"\5"), region])
                channel.load_fill(0, (0x100, 1))
                self.assertEqual(channel.run().last, LastStep.ENDED)
                self.assertEqual(memoryview(it).tobytes()[0], 5)

    def test_references_to_objects(self):
        named = _buffer_wrapper()
        named.view = memoryview(b"")
        self.refused([py_object(1), (py_object * 4)(), (py_object * 0)(), PACKED(), (PACKED * 3)(), EITHER(),
                      WithObject(), Below(), (Below * 2)(), record(("in", EITHER * 2), pack=1)(), named])

    def test_names_with_colons(self):
        self.refused([record(("a:", py_object), pack=1)(), record(("a:", py_object))(),
                      record(("a:", c_uint8), ("b:", py_object))(),
                      record(("a:B", c_int), ("one", py_object), ("x:", c_int))()])
        self.lent([record(("a:", c_uint8), ("O", c_uint8))()])

    def test_pointers(self):
        call = ctypes.CFUNCTYPE(c_int)
        self.refused([kind() for kind in (c_void_p, c_char_p, c_wchar_p, POINTER(c_int), call, c_void_p * 2)])
        self.refused([record(("it", kind), base=base, pack=1)() for base in (Structure, Union)
                      for kind in (c_void_p, c_char_p, c_wchar_p, POINTER(c_int), call, POINTER(c_int) * 2)])
        self.refused([memoryview(bytearray(8)).cast("P")])

    def test_parts_and_views_of_what_has_references(self):
        part = EITHER().bytes
        self.refused([part, memoryview(part).cast("B"), memoryview(PACKED()).cast("B")[4:],
                      pickle.PickleBuffer(PACKED()), BYTES.from_buffer(PACKED()), BYTES.from_buffer(memoryview(part)),
                      PLAIN.from_buffer(PACKED()).bytes, memoryview(BYTES.from_buffer(BYTES.from_buffer(part))),
                      PACKED.from_buffer(bytearray(8))])

    def test_numbers_of_ctypes(self):
        swapped = type("Swapped", (ctypes.BigEndianStructure,), {"_fields_": [("one", c_uint32)]})
        self.lent([BYTES(), (c_double * 2)(), Numbers(), Derived(), (Derived * 3)(), PLAIN(), PLAIN().bytes, swapped(),
                   ctypes.create_string_buffer(8), ctypes.create_unicode_buffer(8), (ctypes.c_bool * 2)(),
                   ctypes.c_longdouble(), (BYTES * 4)()[1], BYTES.from_buffer(bytearray(8)),
                   ctypes.cast(ctypes.pointer(BYTES()), POINTER(BYTES)).contents,
                   memoryview((c_uint32 * 2)()).cast("B")])

    def test_other_numbers(self):
        self.lent([bytearray(8), array.array("d", [0]), mmap.mmap(-1, 8), memoryview(bytearray(64)).cast("d"),
                   io.BytesIO(b"abcd").getbuffer(), multiprocessing.sharedctypes.RawArray("d", 4),
                   pickle.PickleBuffer(bytearray(8)), type("Derived", (bytearray,), {})(8)])
        shared = multiprocessing.shared_memory.SharedMemory(create=True, size=64)
        self.lent([shared.buf])
        shared.close()
        shared.unlink()

    @unittest.skipUnless(sys.version_info >= (3, 12), "Python before 3.12 has no method __buffer__: its tests are")
    def test_classes_with_a_buffer(self):
        self.refused([Exporter(PACKED()), Exporter(Exporter(PACKED())), memoryview(Exporter(EITHER().bytes))])
        self.lent([Exporter(bytearray(8)), Exporter(Exporter(BYTES()))])

    @unittest.skipUnless(numpy, "there is no numpy: the tests of its records and objects are")
    def test_numpy(self):
        lying = type("Lying", (numpy.ndarray,), {"base": None, "dtype": numpy.dtype("u1")})
        shown = numpy.frombuffer(PACKED(), "u1")
        self.refused([numpy.zeros(4, object), numpy.zeros(4, [("a", "i4"), ("b", object)]), shown, shown[2:4],
                      memoryview(shown), shown.view(lying), numpy.zeros(1, object).view(lying),
                      BYTES.from_buffer(shown), numpy.ndarray(8, "u1", numpy.zeros(1, object)),
                      numpy.frombuffer(EITHER().bytes, "u1"),
                      numpy.frombuffer(pickle.PickleBuffer(PACKED()), "u1"), numpy.ctypeslib.as_array(EITHER().bytes),
                      numpy.lib.stride_tricks.as_strided(shown, (8,), (1,))])
        mixed = [("O", "u1"), ("b", "2f4"), ("c", "S3"), ("d", "U2")]
        self.lent([numpy.zeros(4, it) for it in ("f8", "?", "c16", "f2", "V5", ">u4", "g", "i4,f8", mixed)])
        self.lent([numpy.zeros(4, numpy.dtype(mixed, align=True)), numpy.frombuffer(bytearray(8), "u4"),
                   numpy.ctypeslib.as_array(BYTES()), numpy.zeros(8).view(numpy.recarray), numpy.ma.zeros(4),
                   numpy.frombuffer(mmap.mmap(-1, 64), "u1"),
                   numpy.lib.stride_tricks.as_strided(numpy.zeros(8), (4,))])


if __name__ == "__main__":
    unittest.main()
