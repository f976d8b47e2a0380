"""The shared library, and its structs and calls as _declared.py has them."""
from __future__ import annotations

import ctypes
import os
import re
from typing import Any, Dict, Tuple

from ._declared import CALLS_TABLE, MAX_VERSION, STRUCTS_TABLE, VERSION

u8, u32, u64, size_t = ctypes.c_uint8, ctypes.c_uint32, ctypes.c_uint64, ctypes.c_size_t
byref = ctypes.byref

STRUCTS: Dict[str, Any] = {}
_NUMBERS: Dict[str, Any] = {"u8": u8, "u32": u32, "u64": u64, "i32": ctypes.c_int32, "size": size_t, "void": None}


def _type(kind: str) -> Any:
    """Returns the type of ctypes; pointers to bytes take bytes, too."""
    if kind[0] == "*":
        return ctypes.c_void_p if kind in ("*u8", "*char", "*void") else ctypes.POINTER(_type(kind[1:]))
    return STRUCTS[kind] if kind in STRUCTS else _NUMBERS[kind]


for _name, *_members in map(str.split, STRUCTS_TABLE.strip().split("\n")):
    _fields = [(member, _type(kind)) for member, kind in (it.split(":") for it in _members)]
    STRUCTS[_name] = type("dma330_" + _name, (ctypes.Structure,), {"_fields_": _fields})


def _path() -> str:
    """Returns the library's path, or its name for the loader to search."""
    named = os.environ.get("DMA330_SO")
    here = os.path.dirname(os.path.realpath(__file__))
    files = [os.path.join(here, up, "libdma330.so.1") for up in ("", "../lib", "../../lib", "../../../lib")]
    return named or next(filter(os.path.exists, files), "libdma330.so.1")


def _version_of(library: Any) -> str:
    out, size = ctypes.create_string_buffer(MAX_VERSION), size_t()
    library.dma330_version(out, size_t(MAX_VERSION), byref(size))
    return out.raw[:size.value].decode()


def load(path: str, needed: str) -> Dict[str, Any]:
    """Loads a library that can do what this version can, and returns its calls."""
    try:
        library = ctypes.CDLL(path)
        version = _version_of(library)
    except (OSError, AttributeError) as error:
        raise ImportError("%s isn't loaded as libdma330 (DMA330_SO may name it): %s" % (path, error)) from error
    found, least = ([int(it) for it in re.findall(r"\d+", text)[:2]] for text in (version, needed))
    if len(found) < 2 or found[0] != least[0] or found < least:
        raise ImportError("%s is %s: version %d.%d or a later one of %d is needed" % (path, version, *least, least[0]))
    calls: Dict[str, Any] = {}
    for returned, name, *kinds in map(str.split, CALLS_TABLE.strip().split("\n")):
        calls[name] = getattr(library, "dma330_" + name)
        calls[name].restype, calls[name].argtypes = _type(returned), [_type(kind) for kind in kinds]
    return calls


CALLS = load(_path(), VERSION)


def room_for(kind: Any, count: int) -> Tuple[bytearray, Any]:
    """Returns memory for a number of structs or numbers, and a pointer to it that isn't null."""
    room = bytearray(max(1, count) * ctypes.sizeof(kind))
    return room, byref(kind.from_buffer(room))


def version() -> str:
    """Returns the library's name and version, as "dilkwafam 1.0"."""
    room, out = room_for(u8, MAX_VERSION)
    size = size_t()
    CALLS["version"](out, MAX_VERSION, byref(size))
    return room[:size.value].decode()
