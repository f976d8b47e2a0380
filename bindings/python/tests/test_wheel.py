"""The wheel: its name, its bytes, and that pip installs it."""
import glob
import hashlib
import os
import shutil
import struct
import subprocess
import sys
import tempfile
import unittest
import zipfile

import dma330
from dma330 import _library

WHEEL = os.path.join(os.path.dirname(os.path.realpath(__file__)), "../wheel")


def run(*words, **more):
    """Runs a command, and returns its status and what it printed."""
    env = {name: it for name, it in os.environ.items() if name not in ("DMA330_SO", "PYTHONPATH")}
    done = subprocess.run(words, env=env, stdout=subprocess.PIPE, stderr=subprocess.STDOUT, universal_newlines=True,
                          check=False, **more)
    return done.returncode, done.stdout


class Wheels(unittest.TestCase):
    def setUp(self):
        self.room = tempfile.mkdtemp()
        self.addCleanup(shutil.rmtree, self.room)
        self.library = _library._path()
        if not os.path.exists(self.library):
            self.skipTest("DMA330_SO names no file: the tests of the wheel are")

    def make(self, name):
        status, printed = run(sys.executable, WHEEL, self.library, os.path.join(self.room, name))
        self.assertEqual(status, 0, printed)
        return printed.strip()

    def test_its_bytes(self):
        paths = [self.make("one"), self.make("two")]
        digests = {hashlib.sha256(open_bytes(path)).hexdigest() for path in paths}
        self.assertEqual((len(digests), len({os.path.basename(path) for path in paths})), (1, 1))
        machine = os.uname().machine
        self.assertRegex(os.path.basename(paths[0]), r"^dma330-%s-py3-none-manylinux_2_\d+_%s\.whl$" % (
            dma330.__version__.replace(".", r"\."), machine))
        with zipfile.ZipFile(paths[0]) as wheel:
            names = wheel.namelist()
            self.assertIsNone(wheel.testzip())
            record = wheel.read("dma330-%s.dist-info/RECORD" % dma330.__version__).decode().split("\n")
        self.assertEqual([line.split(",")[0] for line in record[:-1]], [it for it in names if it[-6:] != "RECORD"] + [
            it for it in names if it[-6:] == "RECORD"])
        here = os.path.dirname(dma330.__file__)
        self.assertEqual({it[len("dma330/"):] for it in names if it.startswith("dma330/")} - {"libdma330.so.1"},
                         {it for it in os.listdir(here) if it.endswith((".py", ".typed"))})

    def test_other_processors(self):
        elf, path = open_bytes(self.library), os.path.join(self.room, "it.so")
        for number, name, least in ((62, "x86_64", 5), (183, "aarch64", 17)):
            with open(path, "wb") as file:
                file.write(elf[:18] + struct.pack("<H", number) + elf[20:])
            status, printed = run(sys.executable, WHEEL, path, self.room)
            self.assertRegex(printed, r"manylinux_2_\d+_%s\.whl$" % name)
            self.assertGreaterEqual(int(printed.split("manylinux_2_")[1].split("_")[0]), least)

    def test_what_is_no_library(self):
        elf = open_bytes(self.library)
        for data in (b"no library", elf[:18] + struct.pack("<H", 40) + elf[20:], elf[:16] + b"\2" + elf[17:]):
            path = os.path.join(self.room, "it.so")
            with open(path, "wb") as file:
                file.write(data)
            status, printed = run(sys.executable, WHEEL, path, self.room)
            self.assertEqual((status, printed[:10]), (1, "wheel: the"))
        self.assertEqual(run(sys.executable, WHEEL)[0], 1)

    def test_a_folder_beside_lib(self):
        """The module finds the library of a release, in which the folders python and lib are neighbours."""
        shutil.copytree(os.path.dirname(dma330.__file__), os.path.join(self.room, "python/dma330"))
        os.mkdir(os.path.join(self.room, "lib"))
        shutil.copy(self.library, os.path.join(self.room, "lib/libdma330.so.1"))
        status, printed = run(sys.executable, "-c", "import dma330; print(dma330.version())",
                              cwd=os.path.join(self.room, "python"))
        self.assertEqual((status, printed.strip()), (0, dma330.version()))

    def test_pip_installs_it(self):
        fresh, python = os.path.join(self.room, "it"), os.path.join(self.room, "it/bin/python")
        pip = (sys.executable, "-m", "pip", "--disable-pip-version-check", "--python", python)
        if run(sys.executable, "-m", "venv", "--without-pip", fresh)[0] or run(*pip, "--version")[0]:
            self.skipTest("python3 has no venv, or no pip from 22.3 on: the test of the wheel's install is")
        status, printed = run(*pip, "install", "--no-index", "--quiet", self.make("out"), cwd=self.room)
        self.assertEqual(status, 0, printed)
        text = ("import dma330, dma330.bench; it = dma330.Device(); it[dma330.registers.INTEN] = 5;"
                "print(dma330.version(), it[dma330.registers.INTEN], dma330._library._path())")
        status, printed = run(python, "-c", text, cwd=self.room)
        self.assertEqual(status, 0, printed)
        where, = glob.glob(os.path.join(fresh, "lib/python*/site-packages/dma330"))
        self.assertEqual(printed.split()[-2:], ["5", os.path.realpath(where) + "/libdma330.so.1"])


def open_bytes(path):
    with open(path, "rb") as file:
        return file.read()


if __name__ == "__main__":
    unittest.main()
