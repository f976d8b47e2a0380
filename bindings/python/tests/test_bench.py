"""The bench: a driver as coroutines, all interleavings by seed, and the mistakes that it must find."""
import asyncio
import inspect
import unittest
from random import Random

import dma330
from dma330 import Csr, Device
from dma330.bench import Bench, Deadlock
from dma330.registers import (DBGCMD, DBGINST0, DBGINST1, DBGSTATUS, FSRC, INTCLR, INTEN, INTMIS, csr, ftr, go, kill)

SEEDS = range(20)


class NoLock:
    async def __aenter__(self):
        pass

    async def __aexit__(self, *_):
        pass


async def debug(bench, lock, first, second):
    """Executes an instruction by the debug registers, which are one for all channels."""
    async with lock:
        while await bench.read(DBGSTATUS) & 1:
            pass
        await bench.write(DBGINST0, first)
        await bench.write(DBGINST1, second)
        await bench.write(DBGCMD, 0)


async def copy(bench, channel, src, dst, size, lock, tries=20):
    """A driver: starts a copy, and waits for its interrupt; if that is lost, it looks at INTMIS. Returns the status."""
    at = bench.base + 0x400 * channel
    bench.store(at, dma330.plan((src, size), (dst, size), signal=channel, bus=64))
    async with lock:
        await bench.write(INTEN, await bench.read(INTEN) | 1 << channel)
    await debug(bench, lock, go(channel), at)
    for _ in range(tries):
        if await bench.interrupt(channel, timeout=2000) or await bench.read(INTMIS) >> channel & 1:
            await bench.write(INTCLR, 1 << channel)
            return await bench.read(csr(channel)) & 15
    return None


def drive(seed, with_lock, **trouble):
    """Lets three drivers copy side by side. Returns their statuses, which copies are right, and the time it took."""
    bench = Bench(seed, channels=4, **trouble)
    data = Random(seed).getrandbits(8 * 0x3000).to_bytes(0x3000, "little")
    bench.store(bench.base + 0x10000, data)
    rows = [(0x1000 * it + seed, 0x20000 + 0x1000 * it, 0xE00 + it) for it in range(3)]
    statuses = bench.run(*[copy(bench, channel, bench.base + 0x10000 + src, bench.base + dst, size,
                                bench.lock if with_lock else NoLock())
                           for channel, (src, dst, size) in enumerate(rows)])
    right = [bench.load(bench.base + dst, size) == data[src:src + size] for src, dst, size in rows]
    return statuses, right, bench.now


class Drivers(unittest.TestCase):
    def test_copies_whatever_the_order_is(self):
        for seed in SEEDS:
            with self.subTest(seed):
                self.assertEqual(drive(seed, True, lose=2, late=50)[:2], ([Csr.STOPPED] * 3, [True] * 3))

    def test_it_finds_a_driver_without_a_lock(self):
        found = [drive(seed, False)[:2] != ([Csr.STOPPED] * 3, [True] * 3) for seed in SEEDS]
        self.assertGreater(sum(found), 2)

    def test_a_seed_is_one_interleaving(self):
        times = [drive(seed, True, late=9)[2] for seed in range(6)]
        self.assertEqual([drive(seed, True, late=9)[2] for seed in range(6)], times)
        self.assertGreater(len(set(times)), 1)

    def test_a_fault_and_its_kill(self):
        async def driver(bench):
            bench.store(bench.base, dma330.plan((bench.base, 64), (0x1000, 64), signal=0, bus=64))  # no memory is there
            await debug(bench, bench.lock, go(1), bench.base)
            seen = [await bench.abort(1000), await bench.read(FSRC), await bench.read(ftr(1)),
                    await bench.interrupt(0, 10)]
            await debug(bench, bench.lock, kill(1), 0)
            return [*seen, await bench.abort(10), await bench.read(csr(1)) & 15]

        for seed in SEEDS:
            with self.subTest(seed):
                bench = Bench(seed)
                self.assertEqual(bench.run(driver(bench)), [[True, 2, 1 << 17, False, False, Csr.STOPPED]])


class Benches(unittest.TestCase):
    def test_time(self):
        async def sleep(bench, count):
            await bench.steps(count)
            return bench.now

        bench = Bench(channels=1)
        early, late = bench.run(sleep(bench, 10), sleep(bench, 5000000))
        self.assertTrue(10 <= early < 20 and 5000000 <= late < 5000010)
        self.assertEqual(bench.run(), [])

    def test_turns_take_their_steps(self):
        program = dma330.plan((0x80001000, 1000), (0x80002000, 1000), signal=0, bus=64)
        steps = dma330.explain(program, 64).steps

        async def driver(bench):
            bench.store(bench.base, program)
            await bench.write(INTEN, 1)
            await debug(bench, bench.lock, go(0), bench.base)
            began = bench.now
            await bench.interrupt(0)
            return bench.now - began

        for most in (1, 3, 1000):
            bench = Bench(most=most, channels=1)
            with self.subTest(most):
                self.assertEqual(bench.run(driver(bench)), [steps + 1])

    def test_a_deadlock_has_what_each_waits_for(self):
        async def waiting(bench):
            await bench.interrupt(3)

        async def locked(bench):
            async with bench.lock:
                await waiting(bench)

        bench = Bench(7)
        with self.assertRaises(Deadlock) as caught:
            bench.run(locked(bench), locked(bench), waiting(bench))
        message = str(caught.exception)
        self.assertIn("of seed 7", message)
        self.assertEqual((message.count("waits for interrupt 3"), message.count("waits for the lock")), (2, 1))
        self.assertRegex(message, r"driver 2, \S*waiting waits for interrupt 3")
        self.assertEqual(bench.run(free(bench)), ["free"])

    def test_a_lost_interrupt_is_a_deadlock_without_a_timeout(self):
        async def driver(bench):
            bench.store(bench.base, dma330.plan((bench.base, 1), (bench.base + 512, 1), signal=0, bus=64))
            await bench.write(INTEN, 1)
            await debug(bench, bench.lock, go(0), bench.base)
            await bench.interrupt(0)

        ends = []
        for seed in SEEDS:
            bench = Bench(seed, lose=2)
            try:
                ends.append(bench.run(driver(bench)))
            except Deadlock:
                ends.append(None)
        self.assertTrue(None in ends and [None] in ends)

    def test_a_late_interrupt(self):
        async def driver(bench):
            bench.store(bench.base, dma330.plan((bench.base, 1), (bench.base + 512, 1), signal=0, bus=64))
            await bench.write(INTEN, 1)
            await debug(bench, bench.lock, go(0), bench.base)
            await bench.until(lambda: bench.device.irqs == 1, "the line")
            rose = bench.now
            await bench.interrupt(0)
            return bench.now - rose

        for late in (0, 100):
            took = []
            for seed in SEEDS:
                bench = Bench(seed, late=late, channels=1)
                took += bench.run(driver(bench))
            with self.subTest(late):
                self.assertTrue(late // 2 <= max(took) <= late + 1, took)

    def test_a_driver_that_never_ends(self):
        async def polls(bench):
            while await bench.read(csr(0)) == 0:
                pass

        async def does_nothing(bench):
            while True:
                await bench.until(lambda: True, "nothing")

        for driver in (polls, does_nothing):
            bench = Bench()
            with self.subTest(driver.__name__), self.assertRaises(TimeoutError) as caught:
                bench.run(driver(bench), limit=1000)
            self.assertIn(driver.__name__, str(caught.exception))

    def test_what_a_driver_raises_ends_all(self):
        ended = []

        async def fails(bench):
            await bench.steps(5)
            raise ZeroDivisionError("mine")

        async def waits(bench):
            try:
                await bench.interrupt(0)
            finally:
                ended.append(1)
                await bench.write(INTEN, 0)

        bench = Bench()
        drivers = [waits(bench), bench.interrupt(1), fails(bench)]
        with self.assertRaisesRegex(ZeroDivisionError, "mine") as caught:
            bench.run(*drivers)
        self.assertEqual([inspect.getcoroutinestate(it) for it in drivers[1:]], [inspect.CORO_CLOSED] * 2)
        self.assertEqual(ended, [1])
        for note in getattr(caught.exception, "__notes__", []):
            self.assertRegex(note, r"^driver 2, \S*fails, at step \d+ of seed 0$")

    def test_what_is_no_driver(self):
        async def sleeps():
            await asyncio.sleep(0)

        bench = Bench()
        for driver in (sleeps(), 5, free, None):
            with self.subTest(driver), self.assertRaisesRegex(TypeError, "a driver"):
                bench.run(driver)
        unstarted = free(bench)
        with self.assertRaises(TypeError):
            bench.run(unstarted, 5)
        unstarted.close()

    def test_memory(self):
        bench = Bench(size=64, base=0x1000)
        bench.store(0x103F, b"x")
        self.assertEqual((bench.load(0x1000, 64)[-1:], bench.load(0x1040, 0)), (b"x", b""))
        for call in (lambda: bench.store(0x103F, b"xy"), lambda: bench.load(0xFFF, 1), lambda: bench.load(0x1001, -1)):
            self.assertRaises(IndexError, call)
        self.assertIsInstance(bench.device, Device)


async def free(bench):
    async with bench.lock:
        return "free" if bench.now < 1000 else None


if __name__ == "__main__":
    unittest.main()
