"""One side of a connection over a Unix socket."""

from __future__ import annotations

import os
import socket
import time
from typing import NamedTuple, Sequence

from ._connection import Came, Connection, Event
from ._handshake import Client, Server
from ._messages import Message

# The most bytes that are read at once, and the most file descriptors, which is Linux's.
_PIECE, _FDS = 1 << 18, 253


class Incoming(NamedTuple):
    """A message that came, the file descriptors that came with it, and of a reply the number that
    its call was given. A value of type `h` is an index into the descriptors."""

    message: Message
    fds: list[int]
    call: int | None

    def close(self) -> None:
        """Closes the file descriptors."""
        for fd in self.fds:
            os.close(fd)


class Link:
    """A connection over the socket, of an end of a handshake, which has succeeded once it is made."""

    def __init__(self, connected: socket.socket, end: Client | Server) -> None:
        """Raises ConnectionError if the handshake fails."""
        self.socket, self.side = connected, Connection(end)
        self._data, self._wanted = bytearray(), 0
        while (came := self._take(None)).event != Event.BEGUN:
            self.socket.sendall(self.side.unsent())
        self.socket.sendall(self.side.unsent())
        self.agreed = came.agreed
        """Whether both ends agreed to pass file descriptors."""

    def fileno(self) -> int:
        return self.socket.fileno()

    def send(self, message: Message, fds: Sequence[int] = ()) -> None:
        """Sends a message, with these file descriptors, which stay open."""
        data = memoryview(bytes(message))
        self.socket.sendall(data[socket.send_fds(self.socket, [data], fds) :])

    def receive(self, end: float | None = None) -> Incoming:
        """The next message, until that of time.monotonic(). Raises ConnectionError, TimeoutError,
        and Refused if the bytes are no message. If a socket that does not block has too few bytes,
        it raises BlockingIOError, and a later call goes on."""
        came = self._take(end)
        it = Incoming(Message.parse(bytes(self._data)), self.side.fds(), came.call)
        self._data = bytearray()
        return it

    def _take(self, end: float | None) -> Came:
        """What comes next. No byte is read beyond it."""
        while True:
            while len(self._data) < self._wanted:
                if end is not None:
                    self.socket.settimeout(max(end - time.monotonic(), 1e-6))
                count = min(self._wanted - len(self._data), _PIECE)
                try:
                    words = self.socket, count, _FDS, socket.MSG_CMSG_CLOEXEC
                    piece, fds, _, _ = socket.recv_fds(*words)
                except socket.timeout as error:
                    raise TimeoutError("no message came in time") from error
                kept = [self.side.keep_fd(fd, len(self._data)) for fd in fds]
                if not piece or False in kept:
                    raise ConnectionError("the connection ended")
                self._data += piece
            came = self.side.take(self._data)
            self._wanted = came.wanted if came.event == Event.WANTS else 0
            if came.event == Event.MESSAGE:
                return came
            del self._data[: came.count]
            if came.event != Event.WANTS:
                return came
