"""A bench for drivers: a driver is a coroutine that reads and writes registers, and waits for interrupts and for time.

    from dma330.bench import Bench
    from dma330.registers import DBGCMD, DBGINST0, DBGINST1, DBGSTATUS, INTCLR, INTEN, go

    async def copy(bench, channel, program):
        bench.store(bench.base, program)
        async with bench.lock:  # the debug registers are one for all channels
            await bench.write(INTEN, await bench.read(INTEN) | 1 << channel)
            while await bench.read(DBGSTATUS) & 1:
                pass
            await bench.write(DBGINST0, go(channel))
            await bench.write(DBGINST1, bench.base)
            await bench.write(DBGCMD, 0)
        if await bench.interrupt(channel, timeout=100000):
            await bench.write(INTCLR, 1 << channel)

    bench = Bench(seed=1)
    bench.run(copy(bench, 2, plan((0x80010000, 64), (0x80020000, 64), signal=2, bus=64)))

Drivers run side by side. The seed determines what happens next, an access of a driver or a turn of a channel, so the
same seed gives the same run. Nothing else happens while a driver runs up to its next `await`. Time is counted in steps:
a turn takes those of its channel, but at least one, and a driver takes one each time it goes on.
"""
from __future__ import annotations

import contextlib
import random
from typing import Any, Callable, Coroutine, Generator, List, Optional, Union

from .device import Device
from .memory import Region

Driver = Coroutine[Any, Any, Any]
_ABORT = 32


class Deadlock(Exception):
    """No driver can go on: the message has what each waits for."""


class _Wait:
    """What a driver awaits: until `is_over`, or until the time `end`. The result is whether `is_over`."""

    def __init__(self, what: str, is_over: Callable[[], bool], end: Optional[int] = None) -> None:
        self.what, self.is_over, self.end = what, is_over, end

    def __await__(self) -> Generator[_Wait, None, bool]:
        yield self
        return self.is_over()


class Lock:
    """`async with lock:` the other drivers that want it wait until the block ends."""

    def __init__(self, name: str = "lock") -> None:
        self.name, self.is_held = name, False

    async def __aenter__(self) -> None:
        await _Wait("the " + self.name, lambda: not self.is_held)
        self.is_held = True

    async def __aexit__(self, *_: object) -> None:
        self.is_held = False


class _Running:
    """A driver that hasn't ended."""

    def __init__(self, number: int, driver: Driver) -> None:
        if not hasattr(driver, "send"):
            raise TypeError("a driver is a coroutine, and not %r" % (driver,))
        self.name = "driver %d, %s" % (number, getattr(driver, "__qualname__", driver))
        self.number, self.driver, self.wait = number, driver, _Wait("its start", lambda: True)

    def can_go_on(self, now: int) -> bool:
        return self.wait.is_over() or (self.wait.end is not None and self.wait.end <= now)

    def resume(self) -> None:
        wait = self.driver.send(None)
        if not isinstance(wait, _Wait):
            raise TypeError("a driver awaits what the bench returns, and not %r" % (wait,))
        self.wait = wait


class Bench:
    """A device with RAM, on which drivers run.

    `ram` is a bytearray of `size` bytes, which the device sees from address `base` on. The most steps of a turn are
    drawn from 1 to `most`. A driver sees an interrupt up to `late` steps after its line has risen. If `lose` is above
    0, each is lost with a chance of 1 in `lose`: it isn't seen until its line rises again, so a driver needs a timeout.
    The `choices` are those of a `Device`.
    """

    def __init__(self, seed: int = 0, size: int = 1 << 20, base: int = 0x80000000, most: int = 16, late: int = 0,
                 lose: int = 0, **choices: Any) -> None:
        self.seed, self.base, self.most, self.late, self.lose = seed, base, most, late, lose
        self.random = random.Random(seed)
        self.ram = bytearray(size)
        self.device = Device(regions=[Region(base, self.ram)], **choices)
        self.now = 0
        self.lock = Lock()
        self._lines = 0
        self._seen_at: List[Union[int, float]] = [0] * (_ABORT + 1)

    def store(self, addr: int, data: bytes) -> None:
        """Writes bytes into the RAM."""
        self.ram[self._place(addr, len(data))] = data

    def load(self, addr: int, size: int) -> bytes:
        """Returns bytes of the RAM."""
        return bytes(self.ram[self._place(addr, size)])

    def _place(self, addr: int, size: int) -> slice:
        if not self.base <= addr <= addr + size <= self.base + len(self.ram):
            raise IndexError("%#x to %#x isn't in RAM" % (addr, addr + size))
        return slice(addr - self.base, addr - self.base + size)

    # ---- what a driver awaits ----

    async def read(self, offset: int) -> int:
        """Reads a register."""
        await self.until(lambda: True, "its read")
        return self.device[offset]

    async def write(self, offset: int, value: int) -> None:
        """Writes a register."""
        await self.until(lambda: True, "its write")
        self.device[offset] = value
        self._set_lines()

    async def steps(self, count: int) -> None:
        """Lets time pass."""
        await _Wait("step %d" % (self.now + count), lambda: False, self.now + count)

    async def interrupt(self, event: int, timeout: Optional[int] = None) -> bool:
        """Waits until the line of an event is high and seen, at most `timeout` steps. Returns whether it is."""
        return await self._line(event, "interrupt %d" % event, timeout)

    async def abort(self, timeout: Optional[int] = None) -> bool:
        """Waits, as `interrupt`, until irq_abort is high: a channel, or the manager, is faulting."""
        return await self._line(_ABORT, "irq_abort", timeout)

    async def until(self, is_over: Callable[[], bool], what: str, timeout: Optional[int] = None) -> bool:
        """Waits until a condition holds, such as that another driver has done something; `what` is for messages."""
        return await _Wait(what, is_over, None if timeout is None else self.now + timeout)

    async def _line(self, line: int, what: str, timeout: Optional[int]) -> bool:
        def is_seen() -> bool:
            return self._lines >> line & 1 == 1 and self._seen_at[line] <= self.now

        return await self.until(is_seen, what, timeout)

    # ---- time ----

    def _set_lines(self) -> None:
        """Sets the lines that drivers see, and draws when they see those that have risen."""
        lines = self.device.irqs | int(self.device.irq_abort) << _ABORT
        for line in range(_ABORT + 1):
            if lines >> line & ~self._lines >> line & 1:
                is_lost = self.lose > 0 and self.random.randrange(self.lose) == 0
                self._seen_at[line] = float("inf") if is_lost else self.now + self.random.randint(0, self.late)
        self._lines = lines

    def _turn(self) -> None:
        """Lets a channel take a turn."""
        most = self.random.randint(1, self.most)
        did = self.device.step_rows(self.random.randrange(self.device.channels), most)
        self.now += max(1, did.count * did.turn.taken)
        if did.turn.lines_changed:
            self._set_lines()

    def _waiting(self, running: List[_Running]) -> str:
        waits = ["%s waits for %s" % (it.name, it.wait.what) for it in running]
        return "at step %d of seed %d %s" % (self.now, self.seed, "; ".join(waits))

    def _wake(self, running: List[_Running]) -> None:
        """Moves time on to the next thing that happens, where no channel can step; raises Deadlock if nothing does."""
        times = [it.wait.end for it in running if it.wait.end is not None]
        times += [int(at) for line, at in enumerate(self._seen_at)
                  if self._lines >> line & 1 and self.now < at < float("inf")]
        if not times:
            raise Deadlock(self._waiting(running))
        self.now = max(self.now, min(times))

    def run(self, *drivers: Driver, limit: int = 10000000) -> List[Any]:
        """Runs drivers side by side until all have ended, and returns what they return. What a driver raises ends all.
        Raises Deadlock if no driver can go on, and TimeoutError after `limit` steps."""
        running = [_Running(number, driver) for number, driver in enumerate(drivers)]
        results: List[Any] = [None] * len(running)
        end = self.now + limit
        try:
            while running:
                self._go_on(running, results)
                if self.now > end and running:
                    raise TimeoutError(self._waiting(running))
        finally:
            for it in drivers:
                with contextlib.suppress(RuntimeError):  # of one that awaits something even now
                    it.close()
        return results

    def _go_on(self, running: List[_Running], results: List[Any]) -> None:
        """Lets one driver, or one channel, go on, by the seed."""
        able: List[Optional[_Running]] = [it for it in running if it.can_go_on(self.now)]
        if self.device.can_step:
            able.append(None)
        one = self.random.choice(able) if able else None
        if one is not None:
            self._resume(one, running, results)
        elif able:
            self._turn()
        else:
            self._wake(running)

    def _resume(self, one: _Running, running: List[_Running], results: List[Any]) -> None:
        self.now += 1
        try:
            one.resume()
        except StopIteration as ended:
            results[one.number] = ended.value
            running.remove(one)
        except Exception as error:
            if hasattr(error, "add_note"):
                error.add_note("%s, at step %d of seed %d" % (one.name, self.now, self.seed))
            raise
