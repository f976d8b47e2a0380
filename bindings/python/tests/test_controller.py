"""A controller: transfers, refusals, events, marks, history."""
import os
import pickle
import threading
import tracemalloc
import unittest

import dma330
from dma330 import Controller, Access, Result, Status, LastStep


class Controllers(unittest.TestCase):
    def test_readme(self):
        with Controller(64, 1) as it:
            it.write(0x10, b"\xAA\xBB\xCC")
            cookie = it.submit(0, (0x10, 3), (0x20, 3))
            self.assertEqual((cookie, it.unfinished(0), it.status(0, 2)), (1, 1, Status.UNKNOWN))
            self.assertEqual(it.issue(0), 1)
            while it.status(0, cookie) == Status.IN_PROGRESS:
                it.step(0, 4)
            self.assertEqual(it.read(0x1F, 5), b"\0\xAA\xBB\xCC\0")
            self.assertEqual(it.result(0, cookie), (Result.NO_ERROR, 0))

    def test_refusals_are_exceptions_by_code(self):
        it = Controller(4096, 2)
        with self.assertRaises(dma330.SourceMeetsDestination) as caught:
            it.submit(0, (0, 8), (4, 8))
        error = caught.exception
        self.assertEqual((error.code, error.name, str(error)), (-23, "SOURCE_MEETS_DESTINATION", error.name))
        self.assertIsInstance(error, ValueError)
        many = [(8 * n, 4) for n in range(65)]
        rows = [(dma330.TotalsDiffer, lambda: it.submit(0, [(0, 8)], [(16, 4)])),
                (dma330.EmptyList, lambda: it.submit(0, [], [])),
                (dma330.TooManySegments, lambda: it.submit(0, many, many)),
                (dma330.EmptySegment, lambda: it.submit(0, (0, 0), (8, 0))),
                (dma330.SegmentWraps, lambda: it.submit(0, (0xFFFFFFFF, 2), (8, 2))),
                (dma330.TooLong, lambda: it.submit_fill(0, 0, (1, 1048577))),
                (dma330.DestinationsMeet, lambda: it.submit_fill(0, 0, [(1, 4), (4, 1)])),
                (dma330.BadEvent, lambda: it.submit(0, (0, 1), (1, 1), wait=32)),
                (dma330.NoChannel, lambda: it.submit(2, (0, 1), (1, 1))),
                (dma330.OutOfMemoryRange, lambda: it.submit(0, (4095, 2), (0, 2))),
                (dma330.NoChannel, lambda: it.issue(2)), (dma330.NoChannel, lambda: it.step(2)),
                (dma330.BadEvent, lambda: it.raise_event(32)), (dma330.BadAccess, lambda: it.inject_error(2, 0, 1)),
                (dma330.BadRange, lambda: it.inject_error(Access.READS, 0xFFFFFFFF, 2)),
                (dma330.NoResult, lambda: it.result(0, 1)), (dma330.NotRunning, lambda: it.running(0)),
                (dma330.OutOfMemoryRange, lambda: it.write(4095, b"ab")),
                (dma330.OutOfMemoryRange, lambda: it.read(0, 0xFFFFFFFF)),
                (dma330.BadChannels, lambda: Controller(64, 9)), (dma330.SizeOutOfRange, lambda: Controller(0))]
        for n, (kind, call) in enumerate(rows):
            with self.subTest(n), self.assertRaises(kind):
                call()

    def test_a_refused_read_takes_no_memory(self):
        it = Controller(64)
        tracemalloc.start()
        try:
            self.assertRaises(dma330.OutOfMemoryRange, it.read, 0, 0xFFFFFFFF)
            self.assertLess(tracemalloc.get_traced_memory()[1], 1 << 20)
        finally:
            tracemalloc.stop()

    def test_lists_without_an_end_are_cut(self):
        def endless():
            while True:
                yield 0, 1
        with self.assertRaises(dma330.TooManySegments):
            Controller(64).submit_fill(0, 32, endless())

    def test_busy_has_the_transfer(self):
        it = Controller(4096, 2)
        it.submit(1, (0, 1024), (1024, 1024))
        it.issue(1)
        it.step(1, 3)
        for kind, call in ((dma330.Busy, lambda: it.write(1024, b"x")), (dma330.Busy, lambda: it.read(2047, 1)),
                           (dma330.Running, it.checkpoint)):
            with self.assertRaises(kind) as caught:
                call()
            self.assertEqual((caught.exception.channel, caught.exception.cookie), (1, 1))
            again = pickle.loads(pickle.dumps(caught.exception))
            self.assertEqual((type(again), again.channel, str(again)), (kind, 1, str(caught.exception)))
        self.assertEqual((it.running(1).cookie, it.running_count), (1, 1))
        self.assertEqual(it.run(1).last, LastStep.FINISHED)

    def test_events_marks_and_terminate(self):
        it = Controller(4096, 2)
        it.write(0, bytes(range(16)))
        it.submit(0, (0, 16), (64, 16), wait=3, signal=4)
        it.issue(0)
        report = it.run(0)
        self.assertEqual((report.last, report.event), (LastStep.WAITING, 3))
        it.pause(0)
        self.assertEqual(it.step(0).last, LastStep.PAUSED)
        it.resume(0)
        it.raise_event(3)
        self.assertEqual(it.run(0).last, LastStep.FINISHED)
        it.inject_error(Access.WRITES, 128, 8)
        failing = it.submit(0, (0, 16), (128, 16))
        it.issue(0)
        report = it.run(0)
        self.assertEqual((report.last, report.result, report.residue), (LastStep.FINISHED, Result.WRITE_FAILED, 16))
        self.assertEqual(it.step(0).last, LastStep.HALTED)
        queued = it.submit(0, (0, 16), (256, 16))
        self.assertEqual((it.terminate(0), it.result(0, queued).result), (1, Result.ABORTED))
        it.uninject_errors()
        self.assertEqual((it.result(0, failing).residue, it.unfinished(0)), (16, 0))

    def test_history_and_checkpoints(self):
        it = Controller(0x100)
        it.write(0x10, b"\1\2\3")
        it.read(0x10, 5)
        self.assertEqual((it.history_entries, it.history_bytes, it.steps), (2, 8, 0))
        it.submit_fill(0, 0x10, (0x20, 4))
        it.issue(0)
        it.run(0)
        it.checkpoint()
        self.assertEqual((it.history_entries, it.history_bytes, it.forgotten(0)), (0, 0, 1))
        self.assertEqual(it.read(0x20, 4), b"\1\1\1\1")

    def test_threads_take_turns(self):
        it = Controller(1 << 16, 8)
        it.write(0, os.urandom(4096))

        def work(channel):
            for _ in range(5):
                cookie = it.submit(channel, (0, 4096), (4096 * (channel + 1), 4096))
                it.issue(channel)
                while it.status(channel, cookie) == Status.IN_PROGRESS:
                    it.step(channel, 16)

        threads = [threading.Thread(target=work, args=(channel,)) for channel in range(8)]
        for one in threads:
            one.start()
        for one in threads:
            one.join()
        for channel in range(8):
            self.assertEqual(it.read(4096 * (channel + 1), 4096), it.read(0, 4096))


if __name__ == "__main__":
    unittest.main()
