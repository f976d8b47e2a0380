"""The example's numbers and its picture, and the code in the module's documentation."""
import doctest
import importlib
import os
import subprocess
import sys
import tempfile
import textwrap
import unittest
from xml.etree import ElementTree

import dma330

HERE = os.path.dirname(os.path.realpath(__file__))
EXAMPLE = os.path.join(HERE, "../examples/addresses.py")
DUMPS = os.path.join(HERE, "../../../examples/scripts")
try:
    import matplotlib
except ImportError:
    matplotlib = None


def run(*words):
    env = dict(os.environ, PYTHONPATH=os.path.dirname(os.path.dirname(dma330.__file__)))
    done = subprocess.run([sys.executable, EXAMPLE, *words], env=env, stdout=subprocess.PIPE, stderr=subprocess.STDOUT,
                          universal_newlines=True, check=False)
    return done.returncode, done.stdout


class Examples(unittest.TestCase):
    def test_numbers(self):
        """linux.hex: 4 instructions, 8 times a burst of 128 bytes and DMALPEND, one of 40, DMASEV, DMAEND."""
        src, dst = 0x10000000, 0x10001000
        rows = [(0, 0), (src, 0), (src, dst), (src, dst)]
        for n in range(8):
            rows += [(src + 128 * n + 128, dst + 128 * n), *[(src + 128 * n + 128, dst + 128 * n + 128)] * 2]
        rows += [(src + 1024, dst + 1024), (src + 1064, dst + 1024), *[(src + 1064, dst + 1064)] * 3]
        wanted = ["%5d SAR 0x%08X DAR 0x%08X" % (n + 1, *row) for n, row in enumerate(rows)]
        status, printed = run(os.path.join(DUMPS, "linux.hex"))
        self.assertEqual((status, printed.split("\n")[:-1]), (0, wanted))

    def test_an_event(self):
        """handshake.hex: DMAWFE, 3 DMAMOVs, a burst of 16 bytes, DMASEV, DMAEND."""
        src, dst = 0x10000000, 0x10001000
        rows = [(0, 0), (0, 0), (src, 0), (src, dst), (src + 16, dst), *[(src + 16, dst + 16)] * 3]
        wanted = ["%5d SAR 0x%08X DAR 0x%08X" % (n + 1, *row) for n, row in enumerate(rows)]
        status, printed = run(os.path.join(DUMPS, "handshake.hex"))
        self.assertEqual((status, printed.split("\n")[:-1]), (0, wanted))

    def test_a_faulty_program(self):
        status, printed = run(os.path.join(DUMPS, "stale_tail.hex"))
        self.assertEqual(status, 1)
        self.assertRegex(printed, r"stale_tail\.hex: ST_DATA_UNAVAILABLE at offset 31, after 30 instructions\n$")

    @unittest.skipUnless(matplotlib, "there is no matplotlib: the test of the picture is")
    def test_picture(self):
        with tempfile.TemporaryDirectory() as room:
            path = os.path.join(room, "it.svg")
            self.assertEqual(run(os.path.join(DUMPS, "linux.hex"), path), (0, ""))
            found = {it.text for it in ElementTree.parse(path).iter() if it.tag.endswith("}text")}
            self.assertLessEqual({"SAR", "DAR", "0x10000000", "0x10001400", "instruction"}, found)


class Documentation(unittest.TestCase):
    def test_code_in_docstrings(self):
        """Each indented block of a docstring runs, one after another in a module, with the module's names."""
        ran = 0
        for name in ("", ".bench", ".channel", ".controller", ".device", ".memory", ".programs"):
            module = importlib.import_module("dma330" + name)
            known = {"dma330": dma330, **vars(dma330), **vars(dma330.registers), **vars(module), "channel": 2}
            for test in doctest.DocTestFinder(exclude_empty=False).find(module):
                for block in blocks_of(test.docstring):
                    with self.subTest(test.name):
                        exec(compile(block, test.name, "exec"), known)
                    ran += 1
        self.assertGreaterEqual(ran, 7)


def blocks_of(text):
    """Returns the blocks of code in a docstring: what is indented more than the text around it."""
    first, _, rest = text.partition("\n")
    lines = textwrap.dedent(rest).split("\n")
    code = "\n".join(line if line.startswith("    ") or not line else "\0" for line in lines)
    return [textwrap.dedent(block) for block in code.split("\0") if block.strip()]


if __name__ == "__main__":
    unittest.main()
