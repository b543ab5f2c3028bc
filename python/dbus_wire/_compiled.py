"""The extension module, if a compiler made it: it builds and reads messages faster.

Of what it does not take its functions return None. Then the modules that call them go on by ctypes,
and raise what is to be raised. They use ctypes alone if the environment variable
DBUS_WIRE_NO_EXTENSION is not empty.
"""

from __future__ import annotations

import contextlib
import ctypes
import importlib
import os
from typing import Any, Protocol, cast

from ._library import library
from ._limits import SPECIFICATION
from ._values import ObjectPath, Signature, UnixFd, Variant


class Objects(Protocol):
    """What _objects.c has. A row are the parts of a message, in the order of _library.Draft: numbers,
    and texts or None. Limits are given by their address."""

    CALLS: str

    def use(self, calls: tuple[int, ...], limits: int, *classes: type) -> None: ...
    def spell(self, signature: object, values: object, order: int, /) -> bytes | None: ...
    def build(self, row: tuple[Any, ...], body: bytes, limits: int, other: bytes | None, /) -> bytes | None: ...
    def parts_of(self, data: bytes, limits: int, /) -> tuple[Any, ...] | None: ...
    def values(self, data: bytes, is_header: bool, /) -> list[Any] | None: ...


objects: Objects | None = None
if not os.environ.get("DBUS_WIRE_NO_EXTENSION"):
    with contextlib.suppress(ImportError):
        objects = cast(Objects, importlib.import_module("._objects", __package__))

if objects:
    _calls = (getattr(library, f"dbus_wire_{name}") for name in objects.CALLS.split())
    _addresses = tuple(ctypes.cast(call, ctypes.c_void_p).value or 0 for call in _calls)
    objects.use(_addresses, ctypes.addressof(SPECIFICATION), Variant, ObjectPath, Signature, UnixFd)
