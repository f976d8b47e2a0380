"""Whether a buffer's memory has only numbers. A copy over a reference to an object, or over a pointer, would crash the
interpreter when that is next used."""
from __future__ import annotations

import ctypes
import gc
import re
import sys
from typing import Any, Iterator, List

_DATA: Any = ctypes._SimpleCData.__base__  # (the base of all objects of ctypes)
_POINTER: Any = ctypes._Pointer
_RECORDS = ctypes.Structure, ctypes.Union
# These are read here, and not as attributes of an object, whose class might have others of these names.
_BASE, _KEPT = vars(_DATA)["_b_base_"], vars(_DATA)["_objects"]

# The types of numbers and characters, as ctypes names them: not O, P, X, z and Z, which are references and pointers.
_SIMPLE = frozenset("?bBcdDfFgGhHiIlLqQuv")
# The formats of one number or character. A record's format isn't read: the names of its fields stand between colons,
# and a name may have a colon itself.
_FORMAT = re.compile("[@=<>!]?(?:[?bBcdDefFgGhHiIlLnNqQuw]|Z[dfg])")


def _is_numbers(kind: Any) -> bool:
    """Returns whether a type of ctypes has only numbers."""
    if issubclass(kind, ctypes._SimpleCData):
        return kind._type_ in _SIMPLE
    if issubclass(kind, ctypes.Array):
        return _is_numbers(kind._type_)
    return issubclass(kind, _RECORDS) and all(_is_numbers(field[1]) for one in kind.__mro__ if issubclass(one, _RECORDS)
                                              for field in vars(one).get("_fields_", ()))


def _views_in(kept: Any) -> Iterator[memoryview]:
    """Returns the views that an object of ctypes keeps, which are those of its `from_buffer`."""
    if type(kept) is memoryview:
        yield kept
    elif type(kept) is dict:
        for one in kept.values():
            yield from _views_in(one)


def _below_data(it: Any) -> List[Any]:
    """Returns in whose memory an object of ctypes lies. (What a pointer leads to isn't in the pointer's own memory.)"""
    if not _is_numbers(type(it)):
        raise TypeError("memory to lend must have numbers, and neither references to Python's objects nor pointers: %s "
                        "may have some" % type(it).__name__)
    base = _BASE.__get__(it)
    return [*_views_in(_KEPT.__get__(it)), *([] if base is None or issubclass(type(base), _POINTER) else [base])]


def _below_array(it: Any, array: Any) -> List[Any]:
    """Returns in whose memory a numpy array lies."""
    if array.dtype.__get__(it).hasobject:
        raise TypeError("memory to lend must have numbers, and no references to Python's objects")
    return [array.base.__get__(it)]


def _below_view(it: memoryview, known: Any) -> List[Any]:
    """Returns what a view is a view of. If this isn't a known kind of object, the view's format has to be that of one
    number."""
    if issubclass(type(it.obj), known):
        return [it.obj]
    if not _FORMAT.fullmatch(it.format):
        raise TypeError("memory to lend must have numbers, and nothing shows that the format %r has" % it.format)
    # A class may have a method __buffer__ (from Python 3.12 on). Then this object keeps the view that it returned.
    is_wrapper = type(it.obj).__name__ == "_buffer_wrapper"
    return [one for one in gc.get_referents(it.obj) if type(one) is memoryview] if is_wrapper else []


def _below_other(it: Any) -> List[Any]:
    """Returns in whose memory an object lies of which a numpy array was made."""
    try:
        return [memoryview(it)]
    except (TypeError, BufferError, ValueError):
        return [getattr(it, "base", None)]


def check_numbers(view: memoryview) -> None:
    """Raises TypeError unless the memory of a view has only numbers, as far as that can be told. A view may be of an
    array that is itself made of an object of ctypes, and so on: each of them is asked."""
    array = getattr(sys.modules.get("numpy"), "ndarray", ())
    known = (_DATA, array) if array else (_DATA,)
    todo: List[Any] = [view]
    seen = {}
    while todo:
        it = todo.pop()
        if it is None or id(it) in seen:
            continue
        seen[id(it)] = it
        if type(it) is memoryview:
            todo += _below_view(it, known)
        elif issubclass(type(it), _DATA):
            todo += _below_data(it)
        elif issubclass(type(it), array):
            todo += _below_array(it, array)
        else:
            todo += _below_other(it)
