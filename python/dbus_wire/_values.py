"""The values of a message as Python values."""

from __future__ import annotations

import ctypes
import enum
import operator
import struct
from dataclasses import dataclass
from typing import Any, Callable, NoReturn

from ._errors import bad_value


class Order(str, enum.Enum):
    """A byte order, as the first byte of a message names it. Raises BadValue of another."""

    LITTLE = "l"
    BIG = "B"

    @classmethod
    def _missing_(cls, value: object) -> NoReturn:
        raise bad_value("order", "'l' or 'B'", value)


def order_of(order: Order | str) -> Order:
    """The byte order that is given. Raises BadValue."""
    return order if type(order) is Order else Order(order)


class ObjectPath(str):
    """An OBJECT_PATH."""

    __slots__ = ()

    def __repr__(self) -> str:
        return f"ObjectPath({super().__repr__()})"


class Signature(str):
    """A SIGNATURE: the codes of zero or more complete types."""

    __slots__ = ()

    def __repr__(self) -> str:
        return f"Signature({super().__repr__()})"


class UnixFd(int):
    """A UNIX_FD: an index into the file descriptors that came with the message."""

    __slots__ = ()
    __str__ = int.__repr__

    def __repr__(self) -> str:
        return f"UnixFd({super().__repr__()})"


@dataclass(frozen=True)
class Variant:
    """A VARIANT: a value with the signature of its one type, such as Variant("as", ["a", "b"])."""

    signature: str
    """A Signature if it is read of a message."""
    value: Any


def int_of(value: object) -> int | None:
    """The int that the value is, or None if it is none: it has `__index__`, and is no bool."""
    try:
        return None if isinstance(value, bool) else int.__index__(operator.index(value))  # type: ignore[arg-type]
    except TypeError:
        return None


def float_of(value: object) -> float | None:
    """The float that the value is, or that has the value of an int; else None."""
    if isinstance(value, float):
        return value
    try:
        number = int_of(value)
        return float(number) if number is not None and float(number) == number else None
    except OverflowError:
        return None


def _uint_of(name: str, value: object, bits: int) -> int:
    number = value if type(value) is int else int_of(value)
    if number is None or not 0 <= number < 1 << bits:
        raise bad_value(name, f"an int from 0 to {(1 << bits) - 1}", value)
    return number


def uint32_of(name: str, value: object) -> int:
    """An argument of this name, which is to be a UINT32. Raises BadValue."""
    return _uint_of(name, value, 32)


def uint64_of(name: str, value: object) -> int:
    """An argument of this name, which is to be a UINT64. Raises BadValue."""
    return _uint_of(name, value, 64)


def bool_of(name: str, value: object) -> bool:
    """An argument of this name, which is to be a bool. Raises BadValue."""
    if not isinstance(value, bool):
        raise bad_value(name, "True or False", value)
    return value


def text_of(name: str, value: object) -> bytes:
    """The bytes of an argument of this name, which is to be a str. Raises BadValue."""
    if not isinstance(value, str):
        raise bad_value(name, "a str", value)
    return str.encode(value, "utf-8", "surrogatepass")


def _double(bits: int) -> float:
    return ctypes.c_double.from_buffer(ctypes.c_uint64(bits)).value


_NUMBERS: dict[int, Callable[[int], Any]] = {
    ord("y"): int,
    ord("b"): bool,
    ord("n"): lambda number: ctypes.c_int16(number).value,
    ord("q"): int,
    ord("i"): lambda number: ctypes.c_int32(number).value,
    ord("u"): int,
    ord("x"): lambda number: ctypes.c_int64(number).value,
    ord("t"): int,
    ord("d"): _double,
    ord("h"): UnixFd,
}
_TEXTS: dict[int, Callable[[str], str]] = {ord("s"): str, ord("o"): ObjectPath, ord("g"): Signature}
_VARIANT, _ARRAY, _ENTRY = b"va{"
# What `struct` calls the elements of an array of numbers, and how many bytes each has; and an order.
_FORMS = {ord(code): (form, struct.calcsize(f"={form}")) for code, form in zip("ybnqiuxtdh", "BIhHiIqQdI")}
_ORDERS = {ord(Order.LITTLE): "<", ord(Order.BIG): ">"}
# A FlatItem: its number, its place and its length, its code, and its elements' first code.
_ITEM = struct.Struct("=3Q2I")


def text_at(data: bytes, offset: int, length: int) -> str:
    return data[offset : offset + length].decode("utf-8")


def values_of(data: bytes, order: str, items: memoryview) -> list[Any]:
    """The values of a part of the message, of which the bytes are the FlatItems."""
    rows = list(_ITEM.iter_unpack(items))
    return _values_of(data, order, rows, 0, len(rows))


def _values_of(data: bytes, order: str, rows: list[tuple[int, ...]], at: int, end: int) -> list[Any]:
    values = []
    while at < end:
        number, offset, length, code, element = rows[at]
        at += 1
        if code in _NUMBERS:
            values.append(_NUMBERS[code](number))
        elif code in _TEXTS:
            values.append(_TEXTS[code](text_at(data, offset, length)))
        elif code == _ARRAY and element == ord("y"):
            values.append(data[offset : offset + length])
        elif code == _ARRAY and element in _FORMS:
            values.append(_numbers(data[offset : offset + length], order, element))
        else:
            parts = _values_of(data, order, rows, at, at + number)
            signature = text_at(data, offset, length) if code == _VARIANT else ""
            values.append(_container(code, signature, parts, element))
            at += number
    return values


def _numbers(data: bytes, order: str, code: int) -> list[Any]:
    form, size = _FORMS[code]
    numbers = struct.unpack(f"{_ORDERS[ord(order)]}{len(data) // size}{form}", data)
    return list(map(_NUMBERS[code], numbers)) if code in b"bh" else list(numbers)


def packed_numbers(order: int, element: str, numbers: list[Any] | tuple[Any, ...]) -> bytes:
    """The elements of an array of numbers as they are in a message of the order. Raises struct.error
    if one is out of range."""
    return struct.pack(f"{_ORDERS[order]}{len(numbers)}{_FORMS[ord(element)][0]}", *numbers)


def _container(code: int, signature: str, parts: list[Any], element: int) -> Any:
    if code == _VARIANT:
        return Variant(Signature(signature), parts[0])
    if code != _ARRAY:
        return tuple(parts)
    if element != _ENTRY:
        return parts
    entries = dict(parts)
    return entries if len(entries) == len(parts) else parts
