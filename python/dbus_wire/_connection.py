"""One side of a connection: its handshake, and then messages, with no input and output."""

from __future__ import annotations

import ctypes
import enum
import os
import threading
import weakref
from collections import deque
from ctypes import byref, c_uint32, c_uint64
from typing import NamedTuple

from . import _library
from ._errors import refused
from ._handshake import Client, Server
from ._library import NO_CONNECTION, NO_HANDSHAKE, NO_MEMORY, NO_ROOM, NO_VALUE, REFUSED, REPLY_ROOM
from ._library import Bytes, as_bytes, library
from ._limits import Limits, limits_struct
from ._values import text_of, uint32_of, uint64_of

_REFUSED, _ENDS, _TOO_FEW = 4, (5, 6), 8


class Event(enum.IntEnum):
    """What comes of the bytes of a connection."""

    WANTS = 0
    """Nothing, before more bytes are there."""
    UNSENT = 1
    """There are bytes to send first."""
    BEGUN = 2
    """The handshake succeeded. A client has bytes to send."""
    MESSAGE = 3
    """A message, whose bytes are the last of those that were taken."""
    PASSED = 7
    """A message that is too long. The next calls take its bytes, which need not be there at once."""


class Came(NamedTuple):
    """What came of some bytes, of which `count` were taken: the others are to be passed again."""

    event: Event
    count: int  # type: ignore[assignment]
    wanted: int
    """Of WANTS: nothing comes before so many bytes are there. Of MESSAGE and PASSED: how many it has."""
    call: int | None
    """Of a message that answers a call: the number that the call was given."""
    unix_fds: int
    """Of a message: how many Unix file descriptors are its own, which `Connection.fds` returns."""
    agreed: bool
    """Of BEGUN: whether both ends agreed to pass Unix file descriptors."""
    guid: str | None
    """Of BEGUN: the GUID of the server that accepted this client."""
    type: int
    """Of PASSED: the message's type."""
    flags: int
    """Of PASSED: its flags."""
    serial: int
    """Of PASSED: its serial."""


class Connection:
    """One side of a connection. Pass it the bytes that come, and send those that it has to send. It
    may be shared by threads, whose calls wait for each other."""

    __slots__ = ("_handle", "_lock", "_free", "_is_client", "_fds", "_own", "__weakref__")

    def __init__(
        self, end: Client | Server, limits: Limits | None = None, calls: int = 128, longest: int = 0xFFFF_FFFF
    ) -> None:
        """Makes the side of an end that has taken nothing yet, and is closed by that, for messages
        within the limits, and so many calls that may wait, at most 65,535. A message of more than
        `longest` bytes is passed over; from that of the limits on this has no effect. Raises
        ValueError if the end is closed or a client's has started, and MemoryError."""
        self._handle, self._lock = _library.Connection(), threading.Lock()
        self._is_client, self._fds, self._own = isinstance(end, Client), deque[int](), 0
        with end._lock:
            numbers = uint32_of("longest", longest), uint32_of("calls", calls)
            given = byref(limits_struct(limits)), *numbers, byref(self._handle)
            _raise_if_failed(library.dbus_wire_connection_new(byref(end._handle), *given))
        self._free = weakref.finalize(self, _free, self._handle, self._fds)

    def take(self, data: Bytes) -> Came:
        """Takes what the bytes begin with, which follow those that were taken, and returns what
        that is: at most one line of the handshake, or one message once all of it is there. While
        there are bytes to send it takes none.

        Raises Refused if they are no message, ConnectionError if the handshake fails or a message
        lacks file descriptors, and either from then on; and MemoryError: then pass the same bytes
        again."""
        for fd in self.fds():
            os.close(fd)
        piece, told = as_bytes(data), _library.ConnectionStep()
        self._do(library.dbus_wire_connection_take, piece, len(piece), byref(told))
        if told.event == _REFUSED:
            raise refused(told.offset, told.reason, told.field)
        if told.event == _TOO_FEW:
            raise ConnectionError("fewer file descriptors came than the message says")
        if told.event in _ENDS:
            raise ConnectionError("the connection is over")
        self._own = told.unix_fds
        call, header = told.call if told.is_reply else None, (told.kind, told.flags, told.serial)
        guid = bytes(told.guid).hex() if self._is_client and told.event == Event.BEGUN else None
        return Came(Event(told.event), told.count, told.wanted, call, told.unix_fds, bool(told.descriptors), guid, *header)

    def keep_fd(self, fd: int, at_hand: int) -> bool:
        """Keeps a file descriptor that came with a read, until the message ends that it belongs to.
        Call it before the read's bytes are passed; `at_hand` bytes were there before the read and
        are not taken. False if it is closed, and no message has any from now on: they were not
        agreed on, 253 wait, or a message was passed over, which may have had some."""
        kept = self._do(library.dbus_wire_connection_descriptor, uint64_of("at_hand", at_hand)) != REFUSED
        if kept:
            self._fds.append(fd)
        else:
            os.close(fd)
        return kept

    def fds(self) -> list[int]:
        """The file descriptors of the message that came last, once, which are then the caller's.
        The next call of `take` closes those that are left, as `close` closes all."""
        count, self._own = self._own, 0
        return [self._fds.popleft() for _ in range(count)]

    def unsent(self) -> bytes:
        """The bytes to send, which are then sent."""
        room, count = ctypes.create_string_buffer(REPLY_ROOM), c_uint64()
        self._do(library.dbus_wire_connection_unsent, room, REPLY_ROOM, byref(count))
        return room.raw[: count.value]

    def serial(self) -> int:
        """The serial of a message that is sent now and waits for no reply."""
        serial = c_uint32()
        self._do(library.dbus_wire_connection_serial, byref(serial))
        return serial.value

    def call(self, destination: str | None, number: int) -> int:
        """The serial of a call that is sent now to this name, or to none, and waits for its reply,
        of which `take` tells the number. Raises BlockingIOError if as many calls wait as may,
        ValueError if the name is no bus name, and MemoryError."""
        name, serial = text_of("destination", destination or ""), c_uint32()
        given = name, len(name), uint64_of("number", number), byref(serial)
        answer = self._do(library.dbus_wire_connection_call, *given)
        if answer == REFUSED:
            raise ValueError(f"{destination!r} is no bus name")
        if answer == NO_ROOM:
            raise BlockingIOError("too many calls wait for a reply")
        return serial.value

    def give_up(self, serial: int) -> int | None:
        """Gives up the call of this serial, and returns its number; None if none waits with it."""
        number = c_uint64()
        answer = self._do(library.dbus_wire_connection_give_up, uint32_of("serial", serial), byref(number))
        return None if answer == NO_VALUE else number.value

    def close(self) -> None:
        """Frees it. Once more does nothing; ValueError is raised by its other calls from then on."""
        with self._lock:
            self._free()

    def __enter__(self) -> Connection:
        return self

    def __exit__(self, *error: object) -> None:
        self.close()

    def _do(self, call: ctypes._NamedFuncPointer, *words: object) -> int:
        with self._lock:
            answer: int = call(byref(self._handle), *words)
        _raise_if_failed(answer)
        return answer


def _free(handle: _library.Connection, fds: deque[int]) -> None:
    library.dbus_wire_connection_free(byref(handle))
    while fds:
        os.close(fds.popleft())


def _raise_if_failed(answer: int) -> None:
    if answer == NO_MEMORY:
        raise MemoryError
    if answer == NO_HANDSHAKE:
        raise ValueError("the end is closed, or has started")
    if answer == NO_CONNECTION:
        raise ValueError("the connection is closed")
