"""Messages: one, those of a capture, and one in the other byte order."""

from __future__ import annotations

import ctypes
import enum
import io
import struct
from ctypes import byref
from dataclasses import dataclass, field
from functools import cached_property, lru_cache
from typing import Any, Iterator, Protocol

from . import _library
from ._compiled import objects
from ._errors import bad_json, refused, truncated
from ._library import FIXED_HEADER_LENGTH, NO_MEMORY, NO_ROOM, PARTIAL, REASON_TRAILING, REFUSED, Bytes, as_bytes, library
from ._limits import Limits, limits_struct
from ._values import ObjectPath, Order, Signature, text_at, uint32_of, uint64_of, values_of

# The most bytes that one read asks for, so that a length that is only stated takes no memory.
_PIECE = 1 << 20


class MessageType(enum.IntEnum):
    """The message types that the D-Bus Specification names ("Message Format")."""

    METHOD_CALL = 1
    METHOD_RETURN = 2
    ERROR = 3
    SIGNAL = 4


_TYPES = {int(it): it for it in MessageType}
# The members of _library.Parts and of the texts in it, one after another.
_PARTS = struct.Struct("=2Q6I21Q")
_ORDERS = {ord(it): it for it in Order}


class MessageFlag(enum.IntFlag):
    """The flags of a message. Other bits are kept, and have no meaning."""

    NO_REPLY_EXPECTED = 1
    NO_AUTO_START = 2
    ALLOW_INTERACTIVE_AUTHORIZATION = 4


_flags_of = lru_cache(256)(MessageFlag)

@dataclass(frozen=True)
class Message:
    """A message, as `Message.parse` or `messages` makes it; `bytes(message)` are its bytes.

    A header field that is absent is None; header fields of codes that the specification does not
    name are in the bytes alone.
    """

    data: bytes = field(repr=False)
    """The message's bytes, which `bytes(message)` returns too."""
    order: Order
    type: MessageType | int
    """An int if the specification names no such type: such a message is to be ignored."""
    flags: MessageFlag
    serial: int
    path: ObjectPath | None
    interface: str | None
    member: str | None
    error_name: str | None
    reply_serial: int | None
    destination: str | None
    sender: str | None
    signature: Signature | None
    """The types of the body's values."""
    unix_fds: int
    """The number of file descriptors that came with the message, which is 0 without that field."""

    @classmethod
    def parse(cls, data: Bytes, limits: Limits | None = None) -> Message:
        """The one message within the limits that all the bytes are. Raises Refused or Truncated."""
        return cls._of(as_bytes(data), limits_struct(limits), 0)

    @classmethod
    def _of(cls, data: bytes, limits: _library.Limits, at: int) -> Message:
        """The one message that the bytes are, which are at this place of the input."""
        if objects and (row := objects.parts_of(data, ctypes.addressof(limits))):
            return cls._made(data, row)
        parts, told = _library.Parts(), _library.Checked()
        _check_all(library.dbus_wire_parts_of(data, len(data), byref(limits), byref(parts), byref(told)), told, data, at)
        found = _PARTS.unpack(parts)
        places = zip(found[8::3], found[9::3], found[10::3])
        texts = (text_at(data, offset, length) if is_there else None for offset, length, is_there in places)
        return cls._made(data, (*found[2:8], *texts))

    @classmethod
    def _made(cls, data: bytes, row: tuple[Any, ...]) -> Message:
        """The message of these bytes, which are one, by its parts in the library's order: numbers,
        and texts or None."""
        order, kind, flags, serial, reply_serial, unix_fds, *texts = row
        path, interface, member, error_name, destination, sender, signature = texts
        message = object.__new__(cls)
        message.__dict__.update(
            data=data,
            order=_ORDERS[order],
            type=_TYPES.get(kind, kind),
            flags=_flags_of(flags),
            serial=serial,
            path=None if path is None else ObjectPath(path),
            interface=interface,
            member=member,
            error_name=error_name,
            reply_serial=reply_serial or None,
            destination=destination,
            sender=sender,
            signature=None if signature is None else Signature(signature),
            unix_fds=unix_fds,
        )
        return message

    @property
    def types(self) -> str:
        """The types of the body's values, which is never None: of a message without values some
        senders write an empty SIGNATURE, and others none."""
        return self.signature or ""

    @cached_property
    def body(self) -> list[Any]:
        """The values of the body, read when they are first asked for. What each type becomes, by
        its code in the signature:

        y n q i u x t   int             o   ObjectPath    ay        bytes
        b               bool            g   Signature     a{..}     dict
        d               float           h   UnixFd        other a   list of the elements
        s               str             v   Variant       (..)      tuple of the fields

        No entry of a dictionary is lost: if Python finds two of its keys equal, as it does 0.0 and
        -0.0, it is the list of its pairs, in their order. (The specification has keys differ, and
        does not ask readers to look.)
        """
        return self._values(False)

    @cached_property
    def header_fields(self) -> list[tuple[int, Any]]:
        """The header fields, each as its code and its value, in their order in the message: also
        those whose codes the specification does not name. The values are as those of the body.
        """
        [fields] = self._values(True)
        return [(code, variant.value) for code, variant in fields]

    def _values(self, is_header: bool) -> list[Any]:
        """The values of the body, or the one value of the header fields."""
        if objects and (found := objects.values(self.data, is_header)) is not None:
            return found
        flatten = library.dbus_wire_flatten_fields if is_header else library.dbus_wire_flatten
        data, limits, count, told = self.data, byref(limits_struct(None)), ctypes.c_uint64(), _library.Checked()
        items = (_library.FlatItem * 64)()
        while flatten(data, len(data), limits, 0, items, len(items), byref(count), byref(told)) == NO_ROOM:
            items = (_library.FlatItem * count.value)()
        return values_of(data, self.order, memoryview(items).cast("B")[: count.value * ctypes.sizeof(_library.FlatItem)])

    @property
    def body_bytes(self) -> bytes:
        """The bytes of the body, as `build` takes them."""
        parts, told = _library.Parts(), _library.Checked()
        library.dbus_wire_parts_of(self.data, len(self.data), byref(limits_struct(None)), byref(parts), byref(told))
        return self.data[parts.body :]

    @property
    def wants_reply(self) -> bool:
        """Whether it is a method call that does not say that it expects no reply."""
        return self.type == MessageType.METHOD_CALL and not self.flags & MessageFlag.NO_REPLY_EXPECTED

    def to_json(self, number: int = 1, offset: int = 0, time: int | None = None) -> str:
        """The message as a line of JSON, without a line feed: what `dbus-wire json` writes of it as
        the message of this number, at this offset of its input, and captured at this time, in
        nanoseconds since 1970 began in UTC, if that is known. Its manual page describes the line. No
        two messages have one line. Raises BadValue of a number that is none of 64 bits.
        """
        data, limits, told = self.data, byref(limits_struct(None)), _library.Checked()
        place = _library.LinePlace(uint64_of("number", number), uint64_of("offset", offset))
        if time is not None:
            place.time, place.has_time = uint64_of("time", time), 1
        # Room for most lines; the last two bytes are a line feed and a 0.
        count, answer = ctypes.c_uint64(2 * len(data) + 256), NO_ROOM
        while answer == NO_ROOM:
            out = ctypes.create_string_buffer(count.value + 1)
            answer = library.dbus_wire_json(data, len(data), limits, byref(place), out, len(out), byref(count), byref(told))
        return out.raw[: count.value - 1].decode("utf-8")

    @classmethod
    def from_json(cls, line: str | Bytes, serial: int = 1, limits: Limits | None = None) -> Message:
        """The message within the limits that a line of JSON spells, as `to_json` writes it: what
        `dbus-wire encode` writes of it. Its manual page says which lines spell one: members may
        stand in any order, with white space anywhere, and some may be left out. A message whose line
        tells no serial has this one.

            line = json.loads(message.to_json())
            edited = Message.from_json(json.dumps({**line, "path": "/edited"}))

        Raises BadJson if the line spells none, and BadValue of a serial that is no number of 32 bits.
        """
        data = line.encode("utf-8", "surrogatepass") if isinstance(line, str) else as_bytes(line)
        given, number, told = byref(limits_struct(limits)), uint32_of("serial", serial), _library.Checked()
        # Room for most messages.
        told.length, answer = 2 * len(data) + 256, NO_ROOM
        while answer == NO_ROOM:
            out = ctypes.create_string_buffer(told.length)
            answer = library.dbus_wire_from_json(data, len(data), given, number, out, len(out), byref(told))
        if answer == NO_MEMORY:
            raise MemoryError
        if answer == REFUSED:
            raise bad_json(told.offset, told.reason, told.field)
        return cls.parse(out.raw[: told.length])

    def swapped(self, order: Order | str) -> Message:
        """The same message in the byte order, 'l' or 'B'. Raises BadValue of another."""
        return Message.parse(byteswap(self.data, order))

    def __bytes__(self) -> bytes:
        return self.data


class Readable(Protocol):
    """What reads at most so many bytes, and none at its end, as a binary file does."""

    def read(self, count: int, /) -> bytes | None: ...


def messages(source: Bytes | Readable, limits: Limits | None = None) -> Iterator[Message]:
    """The messages of a capture: of bytes, or of a binary file that blocks, such as a pipe, from
    which it reads no byte past each.

    Raises Refused or Truncated at the first that is none; its place counts from where the file was,
    or from the first byte.
    """
    stream = io.BytesIO(source) if isinstance(source, (bytes, bytearray, memoryview)) else source
    given, at = limits_struct(limits), 0
    while data := _read(stream, FIXED_HEADER_LENGTH):
        length = library.dbus_wire_wanted(data, len(data), byref(given))
        data += _read(stream, length - len(data))
        yield Message._of(data, given, at)
        at += len(data)


def stated_length(data: Bytes, limits: Limits | None = None) -> int | None:
    """The number of bytes of the message that the bytes begin with, as its first 16 bytes state it;
    None if fewer are there.

    For readers of their own, such as those of asyncio. Raises Refused if these 16 are at fault.
    """
    head, given = as_bytes(data)[:FIXED_HEADER_LENGTH], limits_struct(limits)
    told = _library.Checked()
    length: int = library.dbus_wire_wanted(head, len(head), byref(given))
    if length > 0:
        return length
    if library.dbus_wire_check(head, len(head), byref(given), byref(told)) == REFUSED:
        raise refused(told.offset, told.reason, told.field)
    return None


def byteswap(data: Bytes, order: Order | str, limits: Limits | None = None) -> bytes:
    """The one message within the limits that all the bytes are, in the byte order, 'l' or 'B'.
    Raises Refused or Truncated."""
    message, given, asked = as_bytes(data), limits_struct(limits), ord(Order(order).value)
    out, told = ctypes.create_string_buffer(len(message)), _library.Checked()
    _check_all(library.dbus_wire_swap(message, len(message), byref(given), asked, out, len(out), byref(told)), told, message, 0)
    return out.raw


def _read(stream: Readable, count: int) -> bytes:
    """So many bytes, or none if the number is negative; fewer only if the input ends."""
    pieces = []
    while count > 0 and (piece := stream.read(min(count, _PIECE))) != b"":
        if piece is None:
            raise BlockingIOError("the file has no bytes yet, and does not block")
        pieces.append(piece)
        count -= len(piece)
    return b"".join(pieces)


def _check_all(answer: int, told: _library.Checked, data: bytes, at: int) -> None:
    """Raises why the bytes, which are at this place of the input, are not one message, by what a
    call answered and told of them."""
    if answer == PARTIAL:
        raise truncated(at + len(data))
    if answer == REFUSED:
        raise refused(at + told.offset, told.reason, told.field)
    if told.length != len(data):
        raise refused(at + told.length, REASON_TRAILING)
