"""Memory that is lent to the library, and the arguments of calls."""
from __future__ import annotations

import ctypes
import functools
import itertools
import operator
from typing import TYPE_CHECKING, Any, Iterable, List, NoReturn, Optional, SupportsIndex, Tuple, Union

from ._library import STRUCTS, u8
from ._numbers import check_numbers
from .values import MAX_SEGMENTS

if TYPE_CHECKING:
    from typing_extensions import Buffer

    Pair = Tuple[SupportsIndex, SupportsIndex]
    Segments = Union[Pair, Iterable[Pair]]

NO_EVENT = -1


def number(value: SupportsIndex, bits: int, what: str) -> int:
    """Returns a number that has at most this many bits; ctypes would cut a larger one."""
    it = operator.index(value)
    if it >> bits:  # (-1 if it is negative)
        raise OverflowError("%s %#x isn't a number of %d bits" % (what, it, bits))
    return it


def event_of(event: Optional[SupportsIndex], what: str) -> int:
    return NO_EVENT if event is None else number(event, 31, what)


@functools.lru_cache(maxsize=None)
def _array(kind: str, count: int) -> Any:
    return STRUCTS[kind] * max(1, count)


def segments(them: Segments) -> Tuple[Any, int]:
    """Returns a list of segments, or one, as an array and its length. A list of more than 64 is cut to 65."""
    items: Iterable[Any] = them
    rows: List[Any] = list(itertools.islice(items, MAX_SEGMENTS + 1))
    if len(rows) == 2 and hasattr(rows[0], "__index__"):
        rows = [rows]
    pairs = [(number(addr, 32, "address"), number(size, 32, "length")) for addr, size in rows]
    return _array("segment", len(pairs))(*pairs), len(pairs)


def segment(addr: SupportsIndex, size: SupportsIndex) -> Any:
    return STRUCTS["segment"](number(addr, 32, "address"), number(size, 32, "length"))


def bytes_of(data: Buffer) -> bytes:
    """Returns the bytes of a buffer (a number, of which `bytes` would make zeros, has none)."""
    return data if type(data) is bytes else memoryview(data).tobytes()


class Region:
    """A part of the caller's memory, whose first byte is at address `addr`: lent in place, never copied.

        ram = bytearray(1 << 20)
        region = Region(0x80000000, ram)

    `buffer` is anything that Python can write as one piece: a bytearray, an mmap, an array, a numpy array of numbers of
    any type or of records of numbers, an array or a Structure of ctypes with numbers, or a memoryview of one. As long
    as the region lives, or is lent, Python keeps the buffer where it is: a bytearray can't be resized, an mmap not
    closed. But `ctypes.resize`, and numpy's `resize` with `refcheck=False`, don't ask whether a buffer is lent, and
    neither does `os.truncate` of a mapped file: never use them while the region lives. The bytes are the caller's to
    read and write between two calls of the library.

    `bytes`, and a buffer with `read_only`, are ROM: loads and programs read it, and stores to it fail. Other memory
    that can't be written is refused; map a file with `mmap.ACCESS_COPY`.

    A copy over a reference to one of Python's objects, or over a pointer, would crash the interpreter. So TypeError is
    raised for a numpy array whose type has objects, for an object of ctypes whose type has a `py_object`, a pointer
    or a function, for what lies in the memory of one of these, and for any other buffer whose format isn't that of one
    number. Two things don't show: what is at an address of which ctypes has made an object (`from_address`, `cast`),
    and that an object of ctypes was made in a bytearray or another buffer with `from_buffer`. Lend no memory that has
    references or pointers in one of these ways.

    A region is made once: a second `__init__` raises RuntimeError.
    """
    __slots__ = ("_buffer", "_parts")

    def __init__(self, addr: SupportsIndex, buffer: Buffer, read_only: bool = False) -> None:
        if hasattr(self, "_parts"):
            raise RuntimeError("this Region has its memory: make another one")
        view = memoryview(buffer)
        if not view.c_contiguous:
            raise ValueError("memory to lend must be one piece: this is a view with gaps")
        check_numbers(view)
        # (a class derived from bytes may have another length, or other bytes)
        is_bytes = type(buffer) is bytes
        if view.readonly and not is_bytes:
            raise TypeError("memory that can't be written must be bytes")
        if is_bytes:
            first: Any = ctypes.c_char_p(buffer)
            place: int = ctypes.cast(first, ctypes.c_void_p).value or 0
        else:
            first = u8.from_buffer(view) if view.nbytes else u8()
            place = ctypes.addressof(first)
        self._buffer = buffer
        # The last of these holds the memory. All are in one member, so that another thread never reads parts of two.
        self._parts = number(addr, 32, "address"), view.nbytes, place, bool(read_only) or view.readonly, first

    @property
    def addr(self) -> int:
        """The address of the first byte."""
        return self._parts[0]

    @property
    def buffer(self) -> Buffer:
        """The memory."""
        return self._buffer

    @property
    def read_only(self) -> bool:
        """Whether it is ROM."""
        return self._parts[3]

    @property
    def place(self) -> int:
        """Where the first byte is, for the library."""
        return self._parts[2]

    def __len__(self) -> int:
        return self._parts[1]

    def __repr__(self) -> str:
        addr, size, _, read_only, _ = self._parts
        return "<dma330.Region at %#010x, %d bytes of %s%s>" % (
            addr, size, type(self._buffer).__name__, ", read-only" if read_only else "")

    def __reduce__(self) -> NoReturn:
        raise TypeError("a Region is lent memory, and isn't copied or pickled")


_PARTS: Any = vars(Region)["_parts"]


def _parts_of(region: Region) -> Any:
    """Returns what a region was made of. A class derived from Region may answer something else when it is asked."""
    if not issubclass(type(region), Region):
        raise TypeError("memory is lent as a Region, and not as %s" % type(region).__name__)
    return _PARTS.__get__(region)


class Lent:
    """Regions in the order of their addresses, as the library takes them. It holds their memory.

    Of two regions at one address the shorter one is first, since it may be empty: then it ends where the other begins.
    """

    def __init__(self, regions: Iterable[Region]) -> None:
        rows = sorted(((_parts_of(it), it) for it in regions), key=lambda row: row[0][:2])
        self.regions = tuple(it for _, it in rows)
        places = sorted((place, place + size) for (_, size, place, _, _), _ in rows if size)
        if any(end > begin for (_, end), (begin, _) in zip(places, places[1:])):
            raise ValueError("two regions share bytes: memory that is seen at two addresses is lent at one")
        words = [(addr, place, size, read_only) for (addr, size, place, read_only, _), _ in rows]
        self.words = (_array("region", len(words))(*words), len(words))
        self._held = [first for (_, _, _, _, first), _ in rows]
