"""Wrong use: closed objects, numbers that don't fit, threads, forks, copies, the end of a program, wrong libraries."""
import copy
import gc
import inspect
import os
import pickle
import signal
import subprocess
import sys
import threading
import time
import unittest
import unittest.mock
import warnings
import weakref

import dma330
from dma330 import Channel, Controller, Device, Region, _library
from dma330 import registers as reg

# An argument that a call takes, by its name.
GOOD = {"addr": 0, "bus": 64, "channel": 0, "cookie": 1, "data": b"a", "dst": (32, 1), "event": 0, "access": 0,
        "limit": 10, "lines": 1, "memory": bytearray(8), "most": 1, "offset": 0, "program": b"\0",
        "regions": (), "revision": 0, "save": b"", "signal": 0, "size": 1, "src": 0, "start": dma330.Registers(),
        "text": "", "turns": 1, "value": 0, "wait": 0, "nonsecure": False}
# Numbers of Python's own loops, and flags, which the library doesn't see.
LOOPS = ("limit", "turns", "nonsecure", "read_only")


def openers():
    return (lambda: Controller(64)), (lambda: Channel()), (lambda: Device())


def calls_of(it):
    """Returns the calls of an object or module: each one's name, function, and the names of its arguments."""
    where = it if it is dma330 else type(it)
    for name in dma330.__all__ if it is dma330 else dir(where):
        if inspect.isfunction(getattr(where, name)) and name != "close" and (
                not name.startswith("_") or name in ("__getitem__", "__setitem__")):
            call = getattr(it, name)
            yield name, call, list(inspect.signature(call).parameters)


def words_of(call, names, name=None, value=None):
    good = GOOD if call.endswith("fill") else dict(GOOD, src=(0, 1))
    return [value if one == name else good[one] for one in names]


def run_python(text, *flags):
    """Runs a program, and returns its status and what it printed."""
    folder = os.path.dirname(os.path.dirname(dma330.__file__))
    done = subprocess.run([sys.executable, *flags, "-c", text], env=dict(os.environ, PYTHONPATH=folder), timeout=60,
                          stdout=subprocess.PIPE, stderr=subprocess.STDOUT, universal_newlines=True, check=False)
    return done.returncode, done.stdout


class Hostile(unittest.TestCase):
    def test_closed_objects(self):
        for opener in openers():
            it = opener()
            it.close()
            it.close()
            self.assertFalse(it.is_open)
            self.assertIn(", closed>", repr(it))
            for name, call, names in calls_of(it):
                with self.subTest("%s.%s" % (type(it).__name__, name)), self.assertRaises(dma330.NotOpen):
                    call(*words_of(name, names))
            for name, what in inspect.getmembers(type(it)):
                if isinstance(what, property) and name not in ("is_open", "regions", "flags", "channels"):
                    with self.subTest("%s.%s" % (type(it).__name__, name)), self.assertRaises(dma330.NotOpen):
                        getattr(it, name)

    def test_numbers_that_do_not_fit(self):
        """Each number of each call: negative, of 33 bits, huge, no number at all."""
        tried = 0
        for it in [opener() for opener in openers()] + [dma330]:
            for name, call, names in calls_of(it):
                for one in names:
                    if type(GOOD[one]) is not int or one in LOOPS or one in ("src", "wait", "signal"):
                        continue
                    for value, error in ((-1, OverflowError), (1 << 32, OverflowError), (1 << 9999, OverflowError),
                                         (1.5, TypeError), ("1", TypeError), (None, TypeError)):
                        tried += 1
                        shown = "huge" if value == 1 << 9999 else value
                        with self.subTest((name, one, shown)), self.assertRaises(error):
                            call(*words_of(name, names, one, value))
        self.assertGreater(tried, 200)

    def test_numbers_in_lists_and_events(self):
        it = Controller(64)
        for src, dst, more in (((-1, 1), (32, 1), {}), ((0, 1 << 32), (0, 1), {}), ((0, 1), [(1 << 32, 1)], {}),
                               ((0, 1), (32, 1), {"wait": -1}), ((0, 1), (32, 1), {"signal": 1 << 31})):
            with self.subTest((src, dst, more)), self.assertRaises(OverflowError):
                it.submit(0, src, dst, **more)
        for src in (0, None, "ab", [1], [(1,)], [(1, 2, 3)], [(0.5, 1)], {1: 2}):
            with self.subTest(src), self.assertRaises((TypeError, ValueError)):
                it.submit(0, src, (32, 1))
        self.assertRaises(dma330.NoChannel, it.submit, True, (0, 1), (32, 1))  # a bool is 0 or 1
        self.assertEqual(it.submit(False, (False, True), (32, True)), 1)
        for data in (5, "text", None, [1, 2]):
            self.assertRaises(TypeError, it.write, 0, data)
        it.write(0, bytearray(b"ab"))
        it.write(0, memoryview(b"abcd")[::2])
        self.assertEqual(it.read(0, 2), b"ac")

    def test_copies_and_pickles_are_refused(self):
        for opener in openers():
            it = opener()
            for call in (copy.copy, copy.deepcopy, pickle.dumps):
                self.assertRaises(TypeError, call, it)

    def test_blocks_close(self):
        for opener in openers():
            with opener() as it:
                self.assertTrue(it.is_open)
            self.assertFalse(it.is_open)
            with self.assertRaises(ZeroDivisionError), opener() as it:
                raise ZeroDivisionError
            self.assertFalse(it.is_open)

    def test_what_is_dropped_is_closed(self):
        for opener in openers():
            it = opener()
            raw, gone = it._raw, weakref.ref(it)
            it.itself = it
            del it
            gc.collect()
            self.assertIsNone(gone())
            self.assertEqual(raw.is_open, 0)

    def test_an_object_whose_open_failed(self):
        for call in (lambda: Controller(0), lambda: Controller(-1), lambda: Device(bus=1), lambda: Channel([None])):
            self.assertRaises((ValueError, OverflowError, TypeError), call)
        gc.collect()

    def test_what_is_open_is_not_opened_again(self):
        """A second `__init__` changes nothing: what is open stays as it was, with its memory."""
        ram = bytearray(b"\7" + bytes(15))
        channel = Channel([Region(0, ram)])
        channel.flags = 5
        channel.load_fill(0, (1, 15))
        device, controller = Device(channels=3), Controller(64, 2)
        them = ((channel, {"regions": [Region(0, bytearray(9))]}), (device, {"channels": 8}),
                (controller, {"size": 1 << 20, "channels": 1}))
        for it, words in them:
            kept, raw, end = repr(it), it._raw, it._end
            with self.subTest(kept):
                self.assertRaises(RuntimeError, it.__init__, **words)
                self.assertTrue(it.is_open and it._raw is raw and it._end is end)
                self.assertEqual(repr(it), kept)
        self.assertEqual((channel.flags, channel.run().last, ram), (5, dma330.LastStep.ENDED, b"\7" * 16))
        self.assertRaises(dma330.NoChannel, device.go, 3, 0)
        self.assertRaises(dma330.OutOfMemoryRange, controller.read, 64, 1)
        for it, words in them:
            it.close()
            self.assertRaises(RuntimeError, it.__init__, **words)
            self.assertFalse(it.is_open)

    def test_an_object_that_was_never_opened(self):
        for kind in (Channel, Controller, Device):
            it = kind.__new__(kind)
            for name, call, names in calls_of(it):
                with self.subTest("%s.%s" % (kind.__name__, name)), self.assertRaises((AttributeError, RuntimeError)):
                    call(*words_of(name, names))
            self.assertRaises(AttributeError, it.close)

    def test_representations(self):
        self.assertEqual(repr(Controller(64, 2)), "<dma330.Controller, 64 bytes, 2 channels>")
        self.assertEqual(repr(Channel([Region(0, b"a")])), "<dma330.Channel, 1 regions>")
        self.assertEqual(repr(Device(channels=3)), "<dma330.Device, 3 channels, 0 regions>")

    def test_threads_on_one_device(self):
        """Threads step, read, save, lend other memory and close: each call comes before or after each other one."""
        rams = [bytearray([0x20, 1, 0x38, 2] + [0] * 60) for _ in range(2)]
        it = Device(regions=[Region(0, rams[0])])
        it.go(0, 0)
        save, went, failed = it.save(), [], []

        def work(call):
            try:
                while True:
                    call()
                    went.append(1)
            except dma330.NotOpen:
                pass
            except BaseException as error:
                failed.append(error)

        def lend():
            it.regions = [Region(0, rams[len(went) % 2])]
            it.restore(save)

        def step():
            it.step(0, 10000)

        threads = [threading.Thread(target=work, args=(call,)) for call in (
            step, step, lambda: it.step_rows(0, 100), lambda: it[reg.csr(0)], it.save, lambda: it.go(1, 0), lend)]
        for one in threads:
            one.start()
        end = time.monotonic() + 30
        while len(went) < 200 and time.monotonic() < end:
            time.sleep(0.01)
        it.close()
        for one in threads:
            one.join(30)
            self.assertFalse(one.is_alive())
        self.assertEqual(failed, [])
        self.assertGreaterEqual(len(went), 200)

    def test_one_call_at_a_time(self):
        it, inside, most = Device(), [], []

        def reset(_):
            inside.append(1)
            time.sleep(0.001)
            most.append(len(inside))
            inside.pop()
            return 0

        with unittest.mock.patch.dict(_library.CALLS, {"device_reset": reset}):
            threads = [threading.Thread(target=it.reset) for _ in range(20)]
            for one in threads:
                one.start()
            for one in threads:
                one.join()
        self.assertEqual(most, [1] * 20)

    @unittest.skipUnless(hasattr(os, "fork"), "there is no fork: the test of a child is")
    def test_a_fork(self):
        """A thread holds the locks meanwhile, so a child that waits for one is killed by its alarm."""
        it, channel = Device(), Channel()
        held, ended = threading.Event(), threading.Event()

        def hold():
            with it._lock, channel._lock:
                held.set()
                ended.wait()

        holding = threading.Thread(target=hold)
        holding.start()
        held.wait()
        with warnings.catch_warnings():
            warnings.simplefilter("ignore", DeprecationWarning)
            child = os.fork()
        if child == 0:
            try:
                signal.alarm(30)
                for call in (it.reset, lambda: it.go(0, 0), lambda: channel.flags,
                             lambda: setattr(channel, "flags", 1)):
                    self.assertRaises(RuntimeError, call)
                it.close()
                os._exit(0 if Device()[reg.CR0] else 1)
            finally:
                os._exit(2)
        ended.set()
        holding.join()
        self.assertEqual(os.waitpid(child, 0)[1], 0)
        it.reset()

    def test_the_end_of_the_program(self):
        lines = ("import dma330, sys, threading, time", "ram = bytearray(1 << 20)",
                 "ring = [dma330.Device(regions=[dma330.Region(0, ram)]) for _ in range(3)]", "ring.append(ring)",
                 "kept = [dma330.Controller(64), dma330.Channel(), dma330.Region(0, bytearray(9))]",
                 "class Late:", "    def __del__(self, it=kept[0]): it.issue(0)", "kept.append(Late())",
                 "def work():", "    while True: ring[0].save()",
                 "threading.Thread(target=work, daemon=True).start()", "time.sleep(0.05)")
        for last in ("", "sys.exit(0)", "del ring, ram"):
            with self.subTest(last):
                self.assertEqual(run_python("\n".join([*lines, last]), "-X", "dev", "-W", "error"), (0, ""))

    def test_wrong_libraries(self):
        self.assertRaises(ImportError, _library.load, "/nowhere/libdma330.so.1", "1.0.0")
        self.assertRaises(ImportError, _library.load, os.path.abspath(__file__), "1.0.0")
        self.assertRaises(ImportError, _library.load, "libc.so.6", "1.0.0")
        major, minor = (int(it) for it in dma330.version().split()[1].split("."))
        path = _library._path()
        for needed in ((major + 1, 0), (major - 1, 0), (major, minor + 1)):
            with self.subTest(needed), self.assertRaises(ImportError) as caught:
                _library.load(path, "%d.%d.0" % needed)
            self.assertIn("%d.%d or a later one of %d is needed" % (*needed, needed[0]), str(caught.exception))
        _library.load(path, "%d.0.0" % major)
        os.environ["DMA330_SO"], kept = "/nowhere/it.so", os.environ.get("DMA330_SO")
        try:
            status, printed = run_python("import dma330")
        finally:
            os.environ.pop("DMA330_SO")
            os.environ.update({"DMA330_SO": kept} if kept else {})
        self.assertEqual(status, 1)
        self.assertIn("ImportError: /nowhere/it.so isn't loaded as libdma330", printed)


if __name__ == "__main__":
    unittest.main()
