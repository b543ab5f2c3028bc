"""Python values spelled as the body of a message."""

from __future__ import annotations

import ctypes
import struct
from collections.abc import Iterable, Mapping
from functools import lru_cache
from itertools import repeat
from typing import Any

from . import _library
from ._compiled import objects
from ._errors import BadValue, bad_value
from ._library import NO_ROOM, OK, as_bytes, library
from ._limits import SPECIFICATION
from ._texts import TextKind, check_text
from ._values import Order, Variant, float_of, int_of, order_of, packed_numbers, text_of

# Of each type of integers what errors call it, the least and the greatest.
_INTEGERS = {
    "y": ("a BYTE", 0, (1 << 8) - 1),
    "n": ("an INT16", -1 << 15, (1 << 15) - 1),
    "q": ("a UINT16", 0, (1 << 16) - 1),
    "i": ("an INT32", -1 << 31, (1 << 31) - 1),
    "u": ("a UINT32", 0, (1 << 32) - 1),
    "x": ("an INT64", -1 << 63, (1 << 63) - 1),
    "t": ("a UINT64", 0, (1 << 64) - 1),
    "h": ("a UNIX_FD", 0, (1 << 32) - 1),
}
# Of each type of texts its kind, and what is wanted.
_TEXTS = {
    "s": (TextKind.STRING, "a STRING (a str of UTF-8 without U+0000)"),
    "o": (TextKind.OBJECT_PATH, "an OBJECT_PATH (a str as '/a/b')"),
    "g": (TextKind.SIGNATURE, "a SIGNATURE (a str of complete types)"),
}
# A DOUBLE as its bits.
_DOUBLE, _BITS = struct.Struct("=d"), struct.Struct("=Q")
# What a type is aligned to, by its first code, if not to 4. Each number has as many bytes.
_ALIGNMENTS = {**dict.fromkeys("ygv", 1), **dict.fromkeys("nq", 2), **dict.fromkeys("xtd({", 8)}
_DEPTH, _ARRAY = SPECIFICATION.depth, SPECIFICATION.array
# The calls that put values.
_put_number, _begin_struct = library.dbus_wire_put_number, library.dbus_wire_begin_struct
_put_text, _put_signature = library.dbus_wire_put_text, library.dbus_wire_put_signature
_open_array, _close_array = library.dbus_wire_open_array, library.dbus_wire_close_array


@lru_cache(1024)
def _types_if_valid(text: bytes) -> tuple[str, ...] | None:
    """The complete types of a text, if it is a signature."""
    return None if check_text(TextKind.SIGNATURE, text) else _types_of(text.decode("ascii"))


@lru_cache(1024)
def _types_of(signature: str) -> tuple[str, ...]:
    """The complete types of a signature."""
    found = []
    while signature:
        # If there are several, some type begins with the first one, and none with more.
        fault = check_text(TextKind.SINGLE_TYPE, signature)
        found.append(signature[: fault.at if fault else None])
        signature = signature[len(found[-1]) :]
    return tuple(found)


def _subscript(key: str | int) -> str:
    """An index or a key as Python has it between brackets."""
    if not isinstance(key, str):
        return int.__repr__(key)
    text = str.__repr__(key)
    return text if '"' in text else f'"{text[1:-1]}"'


class _Body:
    """What is spelled, by the library's calls. `build` holds it against its signature."""

    def __init__(self, order: Order) -> None:
        self.writer = _library.Writer(0, ord(order))
        self.room, self.kept = 256, ctypes.create_string_buffer(256)
        self.out = ctypes.c_char_p(ctypes.addressof(self.kept))
        # The way from the value that is bad up to the body: each step is a form of the way up to it
        # and a detail.
        self.steps: list[tuple[str, str | int]] = []
        self.open = 0

    def path(self) -> str:
        """The path to the value that is bad."""
        path = "body"
        for form, detail in reversed(self.steps):
            path = form.format(path, _subscript(detail))
        return path

    def grow(self, least: int = 0) -> None:
        """Makes more room, and at least as much."""
        self.room = max(2 * self.room, least)
        kept = ctypes.create_string_buffer(self.room)
        ctypes.memmove(kept, self.kept, self.writer.length)
        self.kept, self.out = kept, ctypes.c_char_p(ctypes.addressof(kept))

    def put_number(self, code: str, bits: int) -> None:
        width = _ALIGNMENTS.get(code, 4)
        while _put_number(self.out, self.room, self.writer, width, bits) == NO_ROOM:
            self.grow()

    def begin_struct(self) -> None:
        while _begin_struct(self.out, self.room, self.writer) == NO_ROOM:
            self.grow()

    def put_value(self, one: str, value: Any) -> None:
        code = one[0]
        if code in _TEXTS:
            self.put_text(code, value)
        elif code in _INTEGERS:
            self.put_integer(code, value)
        elif code == "d":
            if (number := value if type(value) is float else float_of(value)) is None:
                raise _bad("a DOUBLE (a float, or an int that a float equals)", value)
            self.put_number(code, *_BITS.unpack(_DOUBLE.pack(number)))
        elif code == "b":
            if not isinstance(value, bool):
                raise _bad("a BOOLEAN (True or False)", value)
            self.put_number(code, value)
        elif code == "{":
            self.put_fields(_types_of(one[1:-1]), value)
        else:
            self.put_container(one, value)

    def put_container(self, one: str, value: Any) -> None:
        if self.open == _DEPTH:
            raise _bad(f"at most {_DEPTH} containers in one another", value)
        self.open += 1
        if one == "v":
            self.put_variant(value)
        elif one[0] == "a":
            self.put_array(one[1:], value)
        else:
            self.put_fields(_types_of(one[1:-1]), value)
        self.open -= 1

    def put_integer(self, code: str, value: object) -> None:
        name, least, greatest = _INTEGERS[code]
        number = value if type(value) is int else int_of(value)
        if number is None or not least <= number <= greatest:
            raise _bad(f"{name} (an int from {least} to {greatest})", value)
        self.put_number(code, number)

    def put_text(self, code: str, value: object) -> None:
        kind, wanted = _TEXTS[code]
        data, put = _checked(kind, wanted, value), _put_signature if code == "g" else _put_text
        while (answer := put(self.out, self.room, self.writer, data, len(data))) == NO_ROOM:
            self.grow()
        if answer != OK:
            raise _bad(wanted, value, ", which is too long")

    def put_variant(self, value: Any) -> None:
        if not isinstance(value, Variant):
            raise _bad("a VARIANT (a Variant)", value)
        part = "signature"
        try:
            signature = value.signature
            data, one = (_checked_type if isinstance(signature, str) else _checked_type.__wrapped__)(signature)
            while _put_signature(self.out, self.room, self.writer, data, len(data)) == NO_ROOM:
                self.grow()
            part = "value"
            self.put_value(one, value.value)
        except BadValue:
            self.steps.append((f"{{}}.{part}", 0))
            raise

    def put_fields(self, types: tuple[str, ...], values: Any) -> None:
        """The fields of a struct or a dict entry."""
        fields = tuple(values) if isinstance(values, (tuple, list)) else ()
        if len(fields) != len(types):
            raise _bad(_values_of(types), values)
        self.begin_struct()
        self.put_all(types, fields)

    def put_all(self, types: Iterable[str], values: Iterable[Any]) -> None:
        """Values, each of its type."""
        at = 0
        try:
            for at, (one, value) in enumerate(zip(types, values)):
                self.put_value(one, value)
        except BadValue:
            self.steps.append(("{}[{}]", at))
            raise

    def put_array(self, element: str, values: Any) -> None:
        array, alignment = _library.Array(), _ALIGNMENTS.get(element[0], 4)
        while _open_array(self.out, self.room, self.writer, alignment, array) == NO_ROOM:
            self.grow()
        if element[0] == "{" and isinstance(values, Mapping):
            of_key, of_value = _types_of(element[1:-1])
            self.put_entries(of_key, of_value, values)
        elif isinstance(values, (list, tuple)):
            if not (self.put_texts(values) if element == "s" else self.put_numbers(element, values)):
                self.put_all(repeat(element), values)
        elif element == "y" and _are_bytes(values):
            self.put_bytes(as_bytes(values))
        else:
            also = {"y": ", or bytes-like", "{": ", or a mapping"}.get(element[0], "")
            raise _bad(f"an array of {element!r} (a list or tuple{also})", values)
        if self.writer.length - array.start > _ARRAY:
            raise _bad(f"an array of at most {_ARRAY} bytes", values)
        _close_array(self.out, self.room, self.writer, array)

    def put_bytes(self, data: bytes) -> None:
        """Puts elements of an array that are these bytes."""
        start = self.writer.length
        if start + len(data) > self.room:
            self.grow(start + len(data))
        ctypes.memmove(ctypes.addressof(self.kept) + start, data, len(data))
        self.writer.length = start + len(data)

    def put_texts(self, values: Any) -> bool:
        """Whether all elements are put, as ASCII without a 0, which needs no check of each."""
        if set(map(type, values)) != {str} or not (text := "".join(values)).isascii() or "\0" in text:
            return False
        out, room, writer = self.out, self.room, self.writer
        for data in map(str.encode, values):
            while _put_text(out, room, writer, data, len(data)) == NO_ROOM:
                self.grow()
                out, room = self.out, self.room
        return True

    def put_numbers(self, element: str, values: Any) -> bool:
        """Whether all elements are put, as numbers that are in range, by one copy, as they are read."""
        wanted = float if element == "d" else int if element in _INTEGERS else None
        if set(map(type, values)) != {wanted}:
            return False
        try:
            self.put_bytes(packed_numbers(self.writer.order, element, values))
        except struct.error:
            return False
        return True

    def put_entries(self, of_key: str, of_value: str, entries: Mapping[Any, Any]) -> None:
        """The entries of a dict."""
        at, is_key = 0, True
        key: Any = None
        try:
            for at, (key, value) in enumerate(entries.items()):
                is_key = True
                self.begin_struct()
                self.put_value(of_key, key)
                is_key = False
                self.put_value(of_value, value)
        except BadValue:
            is_written = not is_key and isinstance(key, (str, int))
            of_list = "list({})[{}]" if is_key else "list({}.values())[{}]"
            self.steps.append(("{}[{}]", key) if is_written else (of_list, at))
            raise


def _bad(wanted: str, given: object, why: str = "") -> BadValue:
    """The error of a value, to which the path is not known yet."""
    return bad_value("", wanted, given, why)


def _checked(kind: TextKind, wanted: str, value: object) -> bytes:
    """The bytes of a text of the kind."""
    if kind is TextKind.STRING and type(value) is str and value.isascii() and "\0" not in value:
        # This needs no call.
        return value.encode()
    if not isinstance(value, str):
        raise _bad(wanted, value)
    data = str.encode(value, "utf-8", "surrogatepass")
    if fault := check_text(kind, data):
        why = "is too long" if fault.at is None else f"breaks at its byte {fault.at}"
        raise _bad(wanted, value, f", which {why}")
    return data


@lru_cache(1024)
def _checked_type(signature: str) -> tuple[bytes, str]:
    """A text of one complete type, and its bytes first."""
    data = _checked(TextKind.SINGLE_TYPE, "a str of one complete type", signature)
    return data, data.decode("ascii")


def _are_bytes(values: object) -> bool:
    """Whether each item is a byte, which a memoryview may have otherwise."""
    if isinstance(values, memoryview):
        return values.format == "B" and values.ndim == 1
    return isinstance(values, (bytes, bytearray))


def _values_of(types: tuple[str, ...]) -> str:
    return f"a tuple or list of {len(types)}, one for each type of {''.join(types)!r}"


def spell_body(
    signature: str, values: list[Any] | tuple[Any, ...], order: Order | str = Order.LITTLE
) -> bytes:
    """The bytes of a body, one value for each type of the signature, in the byte order, 'l' or 'B',
    as `build` takes them.

    No value is changed: `Message.body` has equal ones. Of each type, by its code, it takes

        y n q i u x t h   an int of its range, or what has `__index__`, as a number of NumPy has;
                          no bool
        b                 True or False
        d                 a float, or an int that a float equals
        s o g             a str that is a text of its kind
        v                 a Variant
        ay                bytes, a bytearray, a memoryview of bytes, or as another array
        a{..}             a mapping, or a list or tuple of pairs
        other a           a list or tuple of the elements
        (..)              a tuple or list of the fields, as many as there are types

    Raises BadValue of any other value, which names the path to it, of an array of over 64 MiB, and
    of over 64 containers (arrays, structs, variants) in one another; and of a signature and an
    order that are none.
    """
    order = order_of(order)
    if objects and (spelled := objects.spell(signature, values, ord(order))) is not None:
        return spelled
    if (types := _types_if_valid(text_of("signature", signature))) is None:
        raise bad_value("signature", _TEXTS["g"][1], signature)
    body = _Body(order)
    try:
        if not isinstance(values, (tuple, list)) or len(values) != len(types):
            raise _bad(_values_of(types), values)
        body.put_all(types, values)
    except BadValue as bad:
        raise BadValue(body.path(), bad.wanted, bad.given) from None
    return ctypes.string_at(body.out, body.writer.length)
