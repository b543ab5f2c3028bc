"""Why bytes are no message, for a reader."""

from __future__ import annotations

import ctypes
from ctypes import byref
from dataclasses import dataclass
from typing import Any

from . import _library
from ._errors import Refused, refused
from ._library import NO_ROOM, OK, Bytes, as_bytes, library
from ._limits import Limits, limits_struct
from ._values import Order, values_of

# The room of the first call, which most explanations fit in.
_ROOM = 1024


@dataclass(frozen=True)
class StatedText:
    """A text of a message that is refused, which may not be whole."""

    at: int
    """Where it begins in the message, in bytes, behind its length."""
    length: int
    """The length in bytes that is stated before it, which may reach past the bytes."""


@dataclass(frozen=True)
class Explanation:
    """Why bytes are no message, for a reader; as a text, its lines."""

    lines: str
    """The lines that `dbus-wire check --explain` writes, with more of the bytes behind the fault, each ended by a line feed."""
    name: str
    """The name of the place of the fault: a part of the header, or the path to a value, such as
    `body[1]["Title"].value`."""
    head: str | None
    """The head of the message as far as it is whole before the fault, if its type is."""
    rule: str
    """What has to be at the place, with its section of the D-Bus Specification."""
    text: StatedText | None
    """The text of the message that the fault is in, behind its length, if it is in one."""
    fault: Refused
    """Where and why the bytes are refused, as `Message.parse` raises it."""

    def __str__(self) -> str:
        return self.lines


@dataclass(frozen=True)
class WholeParts:
    """What of a message that is refused is whole before its fault."""

    header_fields: list[tuple[int, Any]]
    """Its header fields, each as its code and its value, as `Message.header_fields` has them."""
    body: list[Any]
    """The values of its body, as `Message.body` has them."""


def explain(data: Bytes, limits: Limits | None = None, *, number: int = 1, offset: int = 0) -> Explanation | None:
    """Why the bytes begin with no message within the limits, for a reader; None if they begin with
    one, or show no fault yet.

    `number` and `offset` are those of the message in its input, as the lines name it.
    """
    message, given, place = as_bytes(data), limits_struct(limits), _library.InputPlace(number, offset)
    explained, told = _library.Explained(), _library.Checked()
    room, answer = _ROOM, NO_ROOM
    while answer == NO_ROOM:
        out = ctypes.create_string_buffer(room)
        answer = library.dbus_wire_explain(message, len(message), byref(given), byref(place), out, room, byref(explained), byref(told))
        room = explained.length + 1
    if answer != OK:
        return None
    return _explanation(out.raw[: explained.length], explained, refused(told.offset, told.reason, told.field))


def whole_parts(data: Bytes, limits: Limits | None = None) -> WholeParts | None:
    """The header fields and the values of the body that are whole before the fault of bytes that
    begin with no message within the limits; None if they begin with one, or show no fault yet.

    A field or a value is there if it ends at the fault or before it, and so do all before it.
    """
    message, given, count, told = as_bytes(data), limits_struct(limits), _library.WholeCount(), _library.Checked()
    items, answer = (_library.FlatItem * 64)(), NO_ROOM
    while answer == NO_ROOM:
        answer = library.dbus_wire_flatten_whole(message, len(message), byref(given), 0, items, len(items), byref(count), byref(told))
        if answer == NO_ROOM:
            items = (_library.FlatItem * count.all)()
    if answer != OK:
        return None
    order = Order.BIG if message[:1] == b"B" else Order.LITTLE
    rows, first = memoryview(items).cast("B"), count.fields * ctypes.sizeof(_library.FlatItem)
    fields = values_of(message, order, rows[:first])
    body = values_of(message, order, rows[first : count.all * ctypes.sizeof(_library.FlatItem)])
    return WholeParts([(code, variant.value) for code, variant in fields], body)


def _explanation(lines: bytes, explained: _library.Explained, fault: Refused) -> Explanation:
    """What the library wrote."""

    def part(place: _library.Text) -> str:
        return lines[place.offset : place.offset + place.length].decode()

    head, text = explained.head, explained.text
    return Explanation(
        lines.decode(),
        part(explained.name),
        part(head) if head.is_there else None,
        part(explained.rule),
        StatedText(text.offset, text.length) if text.is_there else None,
        fault,
    )
