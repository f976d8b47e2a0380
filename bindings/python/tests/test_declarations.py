"""The declarations are those of dma330.h: structs, calls, numbers, names. DMA330_H may name the header."""
import ctypes
import inspect
import pathlib
import re
import sys
import unittest

import dma330
from dma330 import _error, _library, values

sys.path.append(str(pathlib.Path(__file__).resolve().parents[3] / "tools"))

import header

ENUMS = {"last_step": values.LastStep, "result_code": values.Result, "state": values.Status, "access": values.Access,
         "end": values.End, "fault": values.Fault, "known": values.Known, "cause": values.Cause,
         "event_kind": values.EventKind, "csr": values.Csr, "ftr": values.Ftr, "ftrd": values.Ftrd}


class Declarations(unittest.TestCase):
    maxDiff = None

    def test_sizes_and_offsets(self):
        text = header.code()
        offsets = re.findall(r"offsetof\(dma330_(\w+), (\w+)\) == (\d+)", text)
        self.assertEqual(header.sizes(), {name: ctypes.sizeof(it) for name, it in _library.STRUCTS.items()})
        self.assertIn("sizeof(void *) == %d && sizeof(size_t) == %d" % (
            ctypes.sizeof(ctypes.c_void_p), ctypes.sizeof(ctypes.c_size_t)), text)
        self.assertGreaterEqual(len(offsets), 25)
        for name, member, offset in offsets:
            self.assertEqual(getattr(_library.STRUCTS[name], member).offset, int(offset), (name, member))

    def test_the_module_makes_each_call(self):
        folder = pathlib.Path(dma330.__file__).parent
        text = "".join(it.read_text(encoding="utf-8") for it in folder.glob("*.py"))
        for call in _library.CALLS:
            word = re.sub("^(channel|device)_", "", call)
            self.assertRegex(text, r'"(%s|%s)"' % (call, word), call)

    def test_enums(self):
        found = {name: {it.name: it.value for it in enum} for name, enum in ENUMS.items()}
        self.assertEqual({name: it for name, it in header.enums().items() if name != "code"}, found)

    def test_codes(self):
        made = {it(*range(len(it.about))).name: code for code, it in _error.BY_CODE.items()}
        self.assertEqual(header.enums()["code"], {"OK": 0, **made})
        self.assertTrue(all(getattr(dma330, it.__name__) is it for it in _error.BY_CODE.values()))

    def test_numbers(self):
        found = header.defines()
        sizes = {name: int(it) for name, it in found.items() if name.startswith("MAX_")}
        self.assertEqual(sizes.pop("MAX_VERSION"), _library.MAX_VERSION)
        self.assertEqual(sizes, {name: getattr(dma330, name) for name in values.__all__ if name.startswith("MAX_")})
        parts = [found["VERSION_" + it] for it in ("MAJOR", "MINOR", "PATCH")]
        self.assertEqual(dma330.__version__, ".".join(parts))

    def test_everything_has_a_docstring(self):
        for name in dma330.__all__:
            it = getattr(dma330, name)
            if inspect.isclass(it) or inspect.isfunction(it):
                self.assertTrue(it.__doc__, name)
            for member, what in vars(it).items() if inspect.isclass(it) and not issubclass(it, (tuple, int)) else ():
                if not member.startswith("_") and (callable(what) or isinstance(what, property)) and member != "name":
                    self.assertTrue(what.__doc__, (name, member))


if __name__ == "__main__":
    unittest.main()
