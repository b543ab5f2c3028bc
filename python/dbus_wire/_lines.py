"""The lines of a handshake between others."""

from __future__ import annotations

import ctypes
import enum
import threading
from ctypes import byref
from typing import NamedTuple

from . import _library
from ._library import PARTIAL, REFUSED, WHOLE, Bytes, as_bytes, library


class LineCommand(enum.IntEnum):
    """The commands of a handshake's lines. OTHER is one of another name, of the other side, or with
    other words than it takes. NUL is the byte 0 before a client's first line, as a Watch has it."""

    OTHER = 0
    AUTH = 1
    CANCEL = 2
    BEGIN = 3
    DATA = 4
    ERROR = 5
    NEGOTIATE_UNIX_FD = 6
    REJECTED = 7
    OK = 8
    AGREE_UNIX_FD = 9
    NUL = 10


class Line(NamedTuple):
    """A line: its number of bytes, with its CR LF; its command; the mechanism of AUTH; and the
    hexadecimal digits of AUTH, DATA or OK, the text of ERROR, or the mechanisms of REJECTED, with
    the spaces between them and after the last one. What is not there is None.

    A line is exact if it is the very bytes that an end of this library sends to say the same, with
    one space between words, none at the end, and hexadecimal digits in lower case. Who passes lines
    on passes no other ones, since servers differ in what they make of them."""

    length: int
    command: LineCommand
    mechanism: str | None
    text: str | None
    is_exact: bool


class BadLine(ValueError):
    """No line begins so: `at` is the place of the first byte that a line may not have there, or
    None if the line is too long."""

    def __init__(self, at: int | None) -> None:
        super().__init__(at)
        self.at = at

    def __str__(self) -> str:
        return "the line has more than 16,384 bytes" if self.at is None else f"a byte that a line may not have, at byte {self.at}"


def client_line(data: Bytes) -> Line | None:
    """The line that the bytes begin with, of what a client sends in the handshake after its byte 0;
    None if more bytes are needed. After BEGIN messages follow. Raises BadLine."""
    return _line(library.dbus_wire_client_line, as_bytes(data))


def server_line(data: Bytes) -> Line | None:
    """The same of what a server sends."""
    return _line(library.dbus_wire_server_line, as_bytes(data))


class NotPassed(ValueError):
    """Nothing more is to be passed on: `line` is the line that a Watch refused, or None if the bytes
    begin with none."""

    def __init__(self, line: Line | None) -> None:
        super().__init__(line)
        self.line = line

    def __str__(self) -> str:
        return "no line begins so" if self.line is None else f"a line that is not to be passed on: {self.line.command.name}"


class Watch:
    """Looks on at a handshake, for a program that passes on what both sides send. A method gets the
    bytes of its side that were not passed on, and returns the line that they begin with, whose
    `length` bytes are to be passed on; the byte 0 before a client's first line as one of its own.
    It returns None if nothing is to be passed on yet: more bytes are needed, the server has lines
    to answer before BEGIN, or messages have begun, which `has_begun` says. It passes exact lines
    alone, AGREE_UNIX_FD or ERROR alone to answer NEGOTIATE_UNIX_FD, and BEGIN if the server accepted
    the client. Raises NotPassed, now and from then on.

    It may be shared by threads, as by one for each side, whose calls wait for each other."""

    def __init__(self) -> None:
        self._watch = _library.Watch()
        self._lock = threading.Lock()

    def client(self, data: Bytes) -> Line | None:
        return self._look(library.dbus_wire_watch_client, as_bytes(data))

    def server(self, data: Bytes) -> Line | None:
        return self._look(library.dbus_wire_watch_server, as_bytes(data))

    @property
    def has_begun(self) -> bool:
        """Whether BEGIN was passed on: what both sides send after it are messages."""
        with self._lock:
            return int(self._watch.server) == 3

    def _look(self, call: ctypes._NamedFuncPointer, data: bytes) -> Line | None:
        told = _library.Line()
        with self._lock:
            answer = call(byref(self._watch), data, len(data), byref(told))
        if answer == REFUSED:
            raise NotPassed(_told(data, told) if told.length else None)
        return _told(data, told) if answer == WHOLE else None


def _line(call: ctypes._NamedFuncPointer, data: bytes) -> Line | None:
    told = _library.Line()
    answer = call(data, len(data), byref(told))
    if answer == REFUSED:
        raise BadLine(None if told.is_too_long else told.offset)
    return None if answer == PARTIAL else _told(data, told)


def _told(data: bytes, told: _library.Line) -> Line:
    return Line(told.length, LineCommand(told.command), _text_at(data, told.mechanism), _text_at(data, told.text), bool(told.is_exact))


def _text_at(data: bytes, place: _library.Text) -> str | None:
    return data[place.offset : place.offset + place.length].decode("ascii") if place.is_there else None
