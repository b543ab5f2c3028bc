"""What is raised for bytes and for JSON that are no message, and for values that have no bytes."""

from __future__ import annotations

import ctypes
import enum
import reprlib

from ._library import REASON_TRUNCATED, library


class HeaderField(enum.IntEnum):
    """The codes of the header fields that the D-Bus Specification names ("Header Fields")."""

    PATH = 1
    INTERFACE = 2
    MEMBER = 3
    ERROR_NAME = 4
    REPLY_SERIAL = 5
    DESTINATION = 6
    SENDER = 7
    SIGNATURE = 8
    UNIX_FDS = 9


class _AtPlace(ValueError):
    """A place, the reason that is found there, and the header field that it speaks of, if any."""

    def __init__(self, at: int, reason: str, field: HeaderField | None = None) -> None:
        super().__init__(at, reason, field)
        self.at = at
        self.reason = reason
        self.field = field


class NotAMessage(_AtPlace):
    """Bytes are no message; as a text, the line that `dbus-wire check` prints of them.

    `at` is the place, in bytes from the start of the input. `reason` is the reason's name, as
    docs/WIRE-FORMAT.md lists them ("Faults"). `field` is the header field that is missing if the
    reason is "FieldMissing", or the one for which `build` makes no message, and else None.
    """

    def __str__(self) -> str:
        return f"refused at {self.at}: {_with_field(self.reason, self.field)}"


class Refused(NotAMessage):
    """No message begins with the bytes, whatever follows; or bytes follow the one message that was
    asked for ("Trailing")."""


class Truncated(NotAMessage):
    """The input ends within a message; `at` is its end."""


class BadJson(_AtPlace):
    """JSON spells no message; as a text, what `dbus-wire encode` tells of it.

    `at` is the place, in bytes of the UTF-8 from its start, and the column is one more. `reason` is
    the reason's name, as the manual page of dbus-wire lists them ("Refused line"). `field` is the
    header field that is missing if the reason is "FieldMissing", and else None.
    """

    def __str__(self) -> str:
        return f"refused at column {self.at + 1}: {_with_field(self.reason, self.field)}"


class BadValue(ValueError):
    """A value is none of its type, or an argument is none that the call takes. As a text, all three
    of these:

    `path` is the Python expression that leads to it. It begins with `body`, the list or tuple of
    the values, and goes on as in `body[2]["x"].value[0]`; `.value` enters a Variant, and
    `list(body[2])[1]` is a key of a dict. Of an argument it is the name. `wanted` says what may be
    there, and `given` what is there, cut if it is long, with its Python type.
    """

    def __init__(self, path: str, wanted: str, given: str) -> None:
        super().__init__(path, wanted, given)
        self.path = path
        self.wanted = wanted
        self.given = given

    def __str__(self) -> str:
        return f"{self.path}: wanted {self.wanted}, given {self.given}"


class _Shown(reprlib.Repr):
    """Short texts of values."""

    def __init__(self) -> None:
        super().__init__()
        self.maxstring = self.maxother = self.maxlong = 60

    def repr_bytes(self, value: bytes, level: int) -> str:
        return self.repr_instance(value[: self.maxother], level)


def bad_value(path: str, wanted: str, given: object, why: str = "") -> BadValue:
    """The error of a value, with what is to be said of it after its type."""
    try:
        text = _Shown().repr(given)
    except Exception:
        # An int of too many digits, or a type whose own text fails.
        text = object.__repr__(given)
    return BadValue(path, wanted, f"{text} ({type(given).__name__}){why}")


def refused(at: int, reason: int, field: int = 0) -> Refused:
    """The error of a reason's number, and of the code of a field or 0."""
    return Refused(at, _name_of(reason), HeaderField(field) if field else None)


def bad_json(at: int, reason: int, field: int) -> BadJson:
    """The same of JSON."""
    return BadJson(at, _name_of(reason), HeaderField(field) if field else None)


def truncated(at: int) -> Truncated:
    return Truncated(at, _name_of(REASON_TRUNCATED))


def _with_field(reason: str, field: HeaderField | None) -> str:
    """The reason's name, with the code of the field if one is missing, and its name if it is at fault."""
    if field is None:
        return reason
    return f"{reason}({int(field)})" if reason == "FieldMissing" else f"{reason} of {field.name.lower()}"


def _name_of(reason: int) -> str:
    """The reason's name; its number if the library knows a reason that it has no name for."""
    name = ctypes.create_string_buffer(64)
    library.dbus_wire_reason_name(reason, name, len(name))
    return name.value.decode("ascii") or str(reason)
