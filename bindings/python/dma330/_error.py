"""The base of the exceptions, and the test of what a call returned."""
from __future__ import annotations

import re
from typing import Dict, Tuple, Type

from ._declared import CODES_TABLE

CODES = {name: int(code) for name, code in (it.split("=") for it in CODES_TABLE.split())}


class Error(Exception):
    """A call was refused. `name` is the code's name in dma330.h, as "BUSY", and `code` its number."""
    name = "OK"
    code = 0
    about: Tuple[str, ...] = ()

    def __init_subclass__(cls) -> None:
        super().__init_subclass__()
        cls.name = re.sub("(?<=[a-z])(?=[A-Z])", "_", cls.__name__).upper()
        cls.code = CODES.get(cls.name, cls.code)
        # (a class of the module's users has the code of its base, if any)
        BY_CODE.setdefault(cls.code, cls)

    def __init__(self, *about: object) -> None:
        super().__init__(*about)
        for name, value in zip(self.about, about):
            setattr(self, name, value)

    def __str__(self) -> str:
        return ", ".join([self.name, *("%s %s" % (it, getattr(value, "name", value))
                                       for it, value in zip(self.about, self.args))])


BY_CODE: Dict[int, Type[Error]] = {}


def check(code: int, *about: object) -> int:
    """Returns what a call returned, or raises the exception of a negative code. `about` is for one that has members."""
    if code < 0:
        refused = BY_CODE[code]
        raise refused(*about[:len(refused.about)])
    return code
