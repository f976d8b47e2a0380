"""What controllers, channels and devices have in common: they are opened and closed, and serve one call at a time."""
from __future__ import annotations

import os
import threading
import weakref
from typing import Any, Iterable, NoReturn, Tuple, TypeVar

from ._error import check
from ._library import CALLS, STRUCTS, byref, room_for, size_t, u8
from .memory import Lent, Region

_Self = TypeVar("_Self", bound="Opened")
_forks = 0


def _forked() -> None:
    global _forks
    _forks += 1


os.register_at_fork(after_in_child=_forked)


def _close(kind: str, raw: Any, lock: Any, forks: int) -> None:
    """Closes it, unless the process is a child of a fork."""
    if forks == _forks:
        with lock:
            CALLS[kind + "close"](byref(raw))


class Opened:
    """It is open until `close`, the end of a `with` block, or until nothing refers to it.

    Threads may share it: each call waits until the one before it has returned. It belongs to the process that opened
    it; in the child of a fork its calls raise RuntimeError. It can't be copied or pickled, and it is opened once: a
    second `__init__` raises RuntimeError.
    """
    _struct = ""
    _prefix = ""

    # (Derived classes set their own members after this, so that a second `__init__` changes none of them.)
    def __init__(self, *words: Any) -> None:
        raw = STRUCTS[self._struct]()
        if vars(self).setdefault("_raw", raw) is not raw:
            raise RuntimeError("it was opened already: open another one")
        self._lock = threading.RLock()
        self._forks = _forks
        self._call("open", *words)
        self._end = weakref.finalize(self, _close, self._prefix, self._raw, self._lock, _forks)
        self._end.atexit = False

    def _alone(self) -> Any:
        """The lock, for a `with` block, except in the child of a fork, in which it may be held for ever."""
        if self._forks != _forks:
            raise RuntimeError("it was opened before a fork: open another one in the child")
        return self._lock

    def _code(self, name: str, *words: Any) -> int:
        """Makes a call, and returns its code."""
        with self._alone():
            code: int = CALLS[self._prefix + name](byref(self._raw), *words)
        return code

    def _call(self, name: str, *words: Any) -> int:
        """Makes a call, and returns what it returns, or raises the exception of its code."""
        return check(self._code(name, *words))

    def _get(self, name: str, kind: Any, *words: Any) -> Any:
        """Makes a call whose last argument is an output, and returns that."""
        found = kind()
        self._call(name, *words, byref(found))
        return found

    def _save(self, room: int) -> bytes:
        out, pointer = room_for(u8, room)
        size = self._get("save", size_t, pointer, room)
        return bytes(out[:size.value])

    @property
    def is_open(self) -> bool:
        """Whether it is open."""
        return bool(self._raw.is_open)

    def close(self) -> None:
        """Frees what it holds. Its later calls raise NotOpen, except for `close`, which does nothing."""
        self._end()

    def __enter__(self: _Self) -> _Self:
        return self

    def __exit__(self, *_: object) -> None:
        self.close()

    def _about(self) -> str:
        return ""

    def __repr__(self) -> str:
        return "<dma330.%s%s>" % (type(self).__name__, self._about() if self.is_open else ", closed")

    def __reduce__(self) -> NoReturn:
        raise TypeError("an open %s can't be copied or pickled" % type(self).__name__)


class OverRegions(Opened):
    """It works in the caller's memory, which `regions` lends to each call."""

    def __init__(self, regions: Iterable[Region], *words: Any) -> None:
        lent = Lent(regions)
        super().__init__(*words)
        self._lent = lent

    @property
    def regions(self) -> Tuple[Region, ...]:
        """The memory, as regions in the order of their addresses; others may be assigned between two calls."""
        return self._lent.regions

    @regions.setter
    def regions(self, regions: Iterable[Region]) -> None:
        self._lent = Lent(regions)
