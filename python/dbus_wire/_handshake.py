"""Both ends of the authentication handshake."""

from __future__ import annotations

import ctypes
import enum
import socket
import threading
import weakref
from ctypes import byref
from types import TracebackType
from typing import NamedTuple

from . import _library
from ._addresses import connect
from ._library import EXTERNAL_AS_REPORTED, EXTERNAL_AS_USER, GUID_LENGTH, NO_HANDSHAKE, NO_MEMORY, OK, REFUSED
from ._library import REPLY_ROOM, Bytes, as_bytes, library
from ._values import bool_of, text_of, uint32_of


class Status(enum.IntEnum):
    """The status of a handshake."""

    BEGUN = 0
    """It succeeded: the bytes that are not taken are messages."""
    TALKING = 1
    """It goes on."""
    CLOSED = 2
    """It failed: the connection is to be closed."""


class Step(NamedTuple):
    """What an end did with a piece: `count` bytes were taken, the others are to be passed again,
    and `reply` is to be sent."""

    count: int  # type: ignore[assignment]
    reply: bytes
    status: Status


class Bounds(NamedTuple):
    """How many lines an end sends at most: of REJECTED, which only a server sends, and of those that
    leave it in its state, which are ERROR, and AGREE_UNIX_FD of a server. The handshake fails at the
    line that it would answer by one more."""

    rejections: int
    errors: int


class _Handshake:
    __slots__ = ("_handle", "_lock", "_free", "__weakref__")

    def _keep(self, handle: _library.Handshake, bounds: Bounds | None) -> None:
        self._handle = handle
        self._lock = threading.Lock()
        self._free = weakref.finalize(self, library.dbus_wire_handshake_free, byref(handle))
        if bounds is not None:
            numbers = uint32_of("rejections", bounds.rejections), uint32_of("errors", bounds.errors)
            library.dbus_wire_handshake_bound(byref(handle), *numbers)

    def take(self, piece: Bytes = b"") -> Step:
        """Takes at most one line of the piece, which follows what was taken, and answers it. A
        client's first call starts it: it takes nothing, and its reply is the byte 0 and the first
        line. Once the handshake succeeded or failed nothing is taken.

        Raises MemoryError, and changes nothing then: pass the same piece again.
        """
        data, room, told = as_bytes(piece), ctypes.create_string_buffer(REPLY_ROOM), _library.HandshakeStep()
        with self._lock:
            answer = library.dbus_wire_handshake_take(byref(self._handle), data, len(data), room, REPLY_ROOM, byref(told))
        _raise_if_failed(answer)
        return Step(told.count, room.raw[: told.reply], Status(answer))

    def shake_hands(self, connection: socket.socket) -> None:
        """Shakes hands with the other end of a connection that blocks, from the first byte on. It
        reads no byte of what follows, which `messages(connection.makefile("rb"))` reads.

        Raises ConnectionError if the handshake fails or the connection ends before it does, and
        what the socket raises.
        """
        step = self._answer(connection, b"")
        while step.status == Status.TALKING:
            # A byte at a time: the last line may have the first message behind it.
            if not (piece := connection.recv(1)):
                raise ConnectionError("the connection ended in the handshake")
            step = self._answer(connection, piece)
        if step.status == Status.CLOSED:
            raise ConnectionError("the handshake failed")

    def _answer(self, connection: socket.socket, piece: bytes) -> Step:
        step = self.take(piece)
        # After BEGIN a client may be gone, to which nothing can be sent, no bytes either.
        if step.reply:
            connection.sendall(step.reply)
        return step

    @property
    def agreed(self) -> bool:
        """Whether both ends agreed to pass Unix file descriptors, once the handshake succeeded."""
        with self._lock:
            answer = library.dbus_wire_handshake_agreed(byref(self._handle))
        _raise_if_failed(answer)
        return bool(answer == OK)

    def close(self) -> None:
        """Frees the end. Once more does nothing; ValueError is raised by its other calls from then
        on."""
        with self._lock:
            self._free()

    def __enter__(self) -> _Handshake:
        return self

    def __exit__(self, kind: type[BaseException] | None, error: BaseException | None, traceback: TracebackType | None) -> None:
        self.close()


class Server(_Handshake):
    """A server's end of the handshake. It may be shared by threads, whose calls wait for each
    other.

    Its user has to be the one that the transport reports, as SO_PEERCRED of a Unix socket does, and
    not the one that is expected: a client that names no user is let in as that one.
    """

    __slots__ = ()

    def __init__(
        self, guid: str, user: int | None = None, *, anonymous: bool = False, descriptors: bool = False, bounds: Bounds | None = None
    ) -> None:
        """Makes the end of a server of this GUID, which offers EXTERNAL if it has a user, and
        ANONYMOUS, which lets everybody in, if `anonymous` is true. If `descriptors` is true, it
        agrees to pass Unix file descriptors, which is for Unix sockets. Without bounds it answers
        for as long as its client asks. Raises ValueError if the GUID is not 32 hexadecimal digits,
        and MemoryError."""
        handle, text = _library.Handshake(), text_of("guid", guid)
        mechanisms = _mechanisms(0 if user is None else EXTERNAL_AS_USER, user, anonymous, descriptors)
        answer = library.dbus_wire_server_new(text, len(text), byref(mechanisms), byref(handle))
        _raise_if_failed(answer)
        if answer == REFUSED:
            raise ValueError(f"{guid!r} is not 32 hexadecimal digits")
        self._keep(handle, bounds)


class Client(_Handshake):
    """A client's end of the handshake. It may be shared by threads, whose calls wait for each
    other.

        bus = Client(user=os.getuid()).connect("/run/user/1000/bus")
    """

    __slots__ = ()

    def __init__(
        self,
        *,
        user: int | None = None,
        reported: bool = False,
        trace: Bytes | None = None,
        descriptors: bool = False,
        bounds: Bounds | None = None,
    ) -> None:
        """Makes the end of a client that asks for EXTERNAL, as the user of this number or as the
        one that the transport reports to the server, and then for ANONYMOUS if there is a trace,
        which may be empty. If `descriptors` is true, it asks to pass Unix file descriptors, which
        is for Unix sockets. Raises ValueError if the trace has over 255 bytes or both kinds of
        EXTERNAL are asked for, and MemoryError."""
        if bool_of("reported", reported) and user is not None:
            raise ValueError("EXTERNAL is asked for either as a user or as the one that is reported")
        external = EXTERNAL_AS_REPORTED if reported else 0 if user is None else EXTERNAL_AS_USER
        handle, text = _library.Handshake(), as_bytes(b"" if trace is None else trace)
        mechanisms = _mechanisms(external, user, trace is not None, descriptors)
        answer = library.dbus_wire_client_new(byref(mechanisms), text, len(text), byref(handle))
        _raise_if_failed(answer)
        if answer == REFUSED:
            raise ValueError("the trace has more than 255 bytes")
        self._keep(handle, bounds)

    def connect(self, addresses: str | Bytes) -> socket.socket:
        """A connection to a bus by its server addresses, as that of DBUS_SESSION_BUS_ADDRESS, on
        which the client shook hands. Raises what `dbus_wire.connect` and `shake_hands` raise; then
        the connection is closed."""
        connection = connect(addresses)
        try:
            self.shake_hands(connection)
        except BaseException:
            connection.close()
            raise
        return connection

    @property
    def guid(self) -> str | None:
        """The server's GUID, as 32 hexadecimal digits in lower case, once it accepted the client;
        else None."""
        text = ctypes.create_string_buffer(GUID_LENGTH)
        with self._lock:
            answer = library.dbus_wire_handshake_guid(byref(self._handle), text, GUID_LENGTH)
        _raise_if_failed(answer)
        return text.raw.decode("ascii") if answer == OK else None


def _mechanisms(external: int, user: int | None, anonymous: bool, descriptors: bool) -> _library.Mechanisms:
    number = 0 if user is None else uint32_of("user", user)
    return _library.Mechanisms(external, number, int(bool_of("anonymous", anonymous)), int(bool_of("descriptors", descriptors)))


def _raise_if_failed(answer: int) -> None:
    if answer == NO_MEMORY:
        raise MemoryError
    if answer == NO_HANDSHAKE:
        raise ValueError("the end is closed")
