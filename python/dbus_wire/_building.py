"""Messages that are built of parts, replies among them."""

from __future__ import annotations

import ctypes
import struct
from ctypes import byref
from typing import Any

from . import _library
from ._compiled import objects
from ._errors import bad_value, refused
from ._library import NO_MEMORY, OK, Bytes, as_bytes, library
from ._limits import SPECIFICATION, Limits, limits_struct
from ._messages import Message, MessageFlag, MessageType
from ._spelling import spell_body
from ._values import Order, order_of, text_of, uint32_of

# The parts of a message that are numbers, and those that are texts, as _library.Draft has them after
# the byte order, each text by its place, its length and whether it is there.
_NUMBERS = ("type", "flags", "serial", "reply_serial", "unix_fds")
_TEXTS = ("path", "interface", "member", "error_name", "destination", "sender", "signature")
_DRAFT = struct.Struct("=6I23Q")
_METHOD_CALL, _METHOD_RETURN, _ERROR, _SIGNAL = map(int, MessageType)


def build(
    type: MessageType | int,
    serial: int,
    signature: str | None = None,
    *values: Any,
    order: Order | str = Order.LITTLE,
    flags: int = 0,
    path: str | None = None,
    interface: str | None = None,
    member: str | None = None,
    error_name: str | None = None,
    reply_serial: int | None = None,
    destination: str | None = None,
    sender: str | None = None,
    unix_fds: int = 0,
    body: Bytes | None = None,
    limits: Limits | None = None,
) -> Message:
    """The message within the limits that has exactly these parts. What is None or 0 is no header
    field. The body has the values, one for each type of the signature, as `spell_body` takes them:

        build(MessageType.SIGNAL, 7, "su", "x", 1, path="/a", interface="a.b", member="C")

    Or `body` is its bytes, spelled in the byte order, 'l' or 'B', as `body_bytes` has them.

    The fields are in the order of their codes; `rebuild` changes a message and keeps its fields as
    they are. Raises BadValue of a value that is not of its type, and of a part that is no number or
    no text; and Refused if no message has these parts, whose place counts from the first byte that
    they spell.
    """
    numbers = (type, flags, serial, reply_serial, unix_fds)
    texts = (path, interface, member, error_name, destination, sender, signature)
    return _with_body(values, order, numbers, texts, body, limits)


def call(
    serial: int,
    member: str,
    signature: str | None = None,
    *values: Any,
    path: str,
    interface: str | None = None,
    destination: str | None = None,
    sender: str | None = None,
    flags: int = 0,
    order: Order | str = Order.LITTLE,
    unix_fds: int = 0,
    body: Bytes | None = None,
    limits: Limits | None = None,
) -> Message:
    """A method call, with values as `build` takes them, whose errors it raises:

    call(2, "RequestName", "su", "a.b", 0, path="/org/freedesktop/DBus", destination="org.freedesktop.DBus")
    """
    numbers = (_METHOD_CALL, flags, serial, None, unix_fds)
    texts = (path, interface, member, None, destination, sender, signature)
    return _with_body(values, order, numbers, texts, body, limits)


def signal(
    serial: int,
    path: str,
    interface: str,
    member: str,
    signature: str | None = None,
    *values: Any,
    destination: str | None = None,
    sender: str | None = None,
    flags: int = 0,
    order: Order | str = Order.LITTLE,
    unix_fds: int = 0,
    body: Bytes | None = None,
    limits: Limits | None = None,
) -> Message:
    """A signal, with values as `build` takes them, whose errors it raises:

    signal(7, "/a", "a.b", "Changed", "su", "x", 1)
    """
    numbers = (_SIGNAL, flags, serial, None, unix_fds)
    texts = (path, interface, member, None, destination, sender, signature)
    return _with_body(values, order, numbers, texts, body, limits)


def reply_to(
    call: Message,
    serial: int,
    signature: str | None = None,
    *values: Any,
    sender: str | None = None,
    flags: int = MessageFlag.NO_REPLY_EXPECTED,
    unix_fds: int = 0,
    body: Bytes | None = None,
    limits: Limits | None = None,
) -> Message:
    """The reply to a call, with values as `build` takes them, whose errors it raises:

        reply_to(call, 7, "a{sv}", {"Load": Variant("d", 0.5)})

    Its reply serial is the call's serial, its destination the call's sender, if it has one, and its
    byte order the call's; and it expects no reply itself.
    """
    numbers = (_METHOD_RETURN, flags, serial, call.serial, unix_fds)
    texts = (None, None, None, None, call.sender, sender, signature)
    return _with_body(values, call.order, numbers, texts, body, limits)


def error_to(
    call: Message,
    serial: int,
    name: str,
    signature: str | None = None,
    *values: Any,
    sender: str | None = None,
    flags: int = MessageFlag.NO_REPLY_EXPECTED,
    unix_fds: int = 0,
    body: Bytes | None = None,
    limits: Limits | None = None,
) -> Message:
    """The reply to a call that failed, with the error of this name; otherwise as `reply_to` says:

    error_to(call, 7, "org.freedesktop.DBus.Error.UnknownMethod", "s", "there is no Greet")
    """
    numbers = (_ERROR, flags, serial, call.serial, unix_fds)
    texts = (None, None, None, name, call.sender, sender, signature)
    return _with_body(values, call.order, numbers, texts, body, limits)


def rebuild(message: Message, *, limits: Limits | None = None, **changes: Any) -> Message:
    """The message with other parts: those of `build`, by their names, but for its byte order, and
    with its body as bytes. What becomes None or 0 is no header field any more.

    Each header field stays in its place, also those of codes that the specification does not name.
    Fields that the message does not have come last, in the order of their codes. With no changes it
    is the same message, byte for byte. Raises what `build` raises.
    """
    parts = {name: getattr(message, name) for name in (*_NUMBERS, *_TEXTS)} | {"body": message.body_bytes}
    if unknown := changes.keys() - parts.keys():
        raise TypeError(f"a message has no part {min(unknown)!r} to change")
    parts |= changes
    numbers, texts = (tuple(map(parts.get, names)) for names in (_NUMBERS, _TEXTS))
    return _built(message, message.order, numbers, texts, parts["body"], limits)


def _with_body(
    values: tuple[Any, ...],
    order: Order | str,
    numbers: tuple[Any, ...],
    texts: tuple[Any, ...],
    body: Bytes | None,
    limits: Limits | None,
) -> Message:
    """The message of these parts, in the order of their names above, with the values or the body."""
    if body is None:
        signature = texts[-1]
        body = spell_body("" if signature is None else signature, values, order)
    elif values:
        raise TypeError("a body is either values or bytes")
    return _built(None, order, numbers, texts, body, limits)


def _built(
    of: Message | None,
    order: Order | str,
    numbers: tuple[Any, ...],
    texts: tuple[Any, ...],
    body: Bytes,
    limits: Limits | None,
) -> Message:
    """The message of these parts, in the order of their names above; of another message that they
    change, if there is one."""
    number, given, other = ord(order_of(order)), limits_struct(limits), None if of is None else of.data
    if objects and type(body) is bytes:
        made = objects.build((number, *numbers, *texts), body, ctypes.addressof(given), other)
        if made is not None:
            return Message._of(made, SPECIFICATION, 0)
    row = [number, *[0 if it is None else uint32_of(name, it) for name, it in zip(_NUMBERS, numbers)]]
    encoded = [b"" if it is None else text_of(name, it) for name, it in zip(_TEXTS, texts)]
    if not isinstance(body, (bytes, bytearray, memoryview)):
        raise bad_value("body", "bytes, a bytearray or a memoryview", body)
    body = as_bytes(body)
    # The draft's texts and its body, one after another.
    joined = b"".join((*encoded, body))
    at = ctypes.c_void_p.from_buffer(ctypes.c_char_p(joined)).value or 0
    places: list[int] = []
    for text, it in zip(encoded, texts):
        places += at, len(text), it is not None
        at += len(text)
    draft = byref(_library.Draft.from_buffer_copy(_DRAFT.pack(*row, *places, at, len(body))))
    # Each of seven texts has 16 bytes beside its own at most, and so has each number, the fixed
    # header and the body.
    room = len(other or b"") + len(joined) + 11 * 16
    out, told = ctypes.create_string_buffer(room), _library.Checked()
    if other is None:
        answer = library.dbus_wire_build(draft, byref(given), out, room, byref(told))
    else:
        answer = library.dbus_wire_rebuild(other, len(other), byref(given), draft, out, room, byref(told))
    if answer == NO_MEMORY:
        raise MemoryError
    if answer != OK:
        raise refused(told.offset, told.reason, told.field)
    return Message._made(out.raw[: told.length], (*row, *[None if it is None else str.__str__(it) for it in texts]))
