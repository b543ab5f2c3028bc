"""A checker of messages whose bytes come in pieces."""

from __future__ import annotations

import threading
import weakref
from ctypes import byref
from types import TracebackType

from . import _library
from ._errors import refused
from ._library import NO_CHECKER, NO_MEMORY, REFUSED, WHOLE, Bytes, as_bytes, library
from ._limits import Limits, limits_struct


class Checker:
    """Checks a stream of messages as its bytes come, in some 40,000 bytes of memory whatever the
    messages have.

    It keeps no bytes. It may be shared by threads, whose calls wait for each other. `close`, or the
    end of a `with`, frees it; ValueError is raised by its other calls from then on.

        with Checker() as checker:
            for piece in pieces:
                while piece and (end := checker.take(piece)) is not None:
                    piece = piece[end:]
                    checker.restart()
    """

    __slots__ = ("_handle", "_lock", "_free", "__weakref__")

    def __init__(self, limits: Limits | None = None) -> None:
        """Makes a checker of messages within the limits. Raises MemoryError."""
        self._handle = _library.Checker()
        self._lock = threading.Lock()
        if library.dbus_wire_checker_new(byref(limits_struct(limits)), byref(self._handle)) == NO_MEMORY:
            raise MemoryError
        self._free = weakref.finalize(self, library.dbus_wire_checker_free, byref(self._handle))

    def take(self, piece: Bytes) -> int | None:
        """Takes the bytes that follow those that it has taken. Returns the number of them up to the
        message's end, or None if it goes on after them.

        Raises Refused if the bytes show a fault; its place counts from the message's first byte.
        After a message's end, which may be 0 bytes away, and after a fault it stays as it is until
        it is restarted.
        """
        data, taken = as_bytes(piece), _library.Taken()
        with self._lock:
            answer = library.dbus_wire_checker_take(byref(self._handle), data, len(data), byref(taken))
        _raise_if_closed(answer)
        if answer == REFUSED:
            raise refused(taken.offset, taken.reason, taken.field)
        return taken.count if answer == WHOLE else None

    def restart(self) -> None:
        """Begins again, with the next message: it has taken no bytes, whatever it said before."""
        with self._lock:
            answer = library.dbus_wire_checker_restart(byref(self._handle))
        _raise_if_closed(answer)

    def close(self) -> None:
        """Frees the checker. Once more does nothing."""
        with self._lock:
            self._free()

    def __enter__(self) -> Checker:
        return self

    def __exit__(self, kind: type[BaseException] | None, error: BaseException | None, traceback: TracebackType | None) -> None:
        self.close()


def _raise_if_closed(answer: int) -> None:
    if answer == NO_CHECKER:
        raise ValueError("the checker is closed")
