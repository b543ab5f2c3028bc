"""Limits that a message has to keep."""

from __future__ import annotations

import ctypes
from dataclasses import dataclass
from operator import index

from . import _library
from ._errors import bad_value
from ._library import library
from ._values import bool_of, int_of

_GREATEST = 0xFFFF_FFFF
SPECIFICATION = _library.Limits()
library.dbus_wire_specification_limits(ctypes.byref(SPECIFICATION))


@dataclass(frozen=True)
class Limits:
    """Limits that a message has to keep; what is left out is the D-Bus Specification's. Raises
    BadValue of a negative number.

    A number over the specification's stands for the specification's.
    """

    message: int = SPECIFICATION.message
    """The greatest number of bytes of a message."""
    array: int = SPECIFICATION.array
    """The greatest number of bytes of an array's contents."""
    depth: int = SPECIFICATION.depth
    """The greatest number of containers (arrays, structs, variants) open at once, three of the
    header among them."""
    fds_below_count: bool = False
    """Whether indexes of file descriptors have to be below the number in the UNIX_FDS field, which
    is 0 if that is absent."""

    def __post_init__(self) -> None:
        for name in ("message", "array", "depth"):
            number = int_of(getattr(self, name))
            if number is None or number < 0:
                raise bad_value(name, "an int that is not negative", getattr(self, name))
        bool_of("fds_below_count", self.fds_below_count)


def limits_struct(limits: Limits | None) -> _library.Limits:
    """The limits, or the specification's, as the library takes them."""
    if limits is None:
        return SPECIFICATION
    numbers = (min(index(number), _GREATEST) for number in (limits.message, limits.array, limits.depth))
    return _library.Limits(*numbers, _library.FDS_BELOW_COUNT if limits.fds_below_count else _library.FDS_ANY)
