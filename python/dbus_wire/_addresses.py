"""Server addresses, and connections to a bus by them."""

from __future__ import annotations

import ctypes
import os
import socket
from ctypes import byref, c_uint64

from . import _library
from ._library import NO_VALUE, REFUSED, Bytes, as_bytes, library

# Of a text of 4,096 bytes, the most that there are, no transport and no value has more than 4,095;
# a 0 comes after it.
_ROOM = 4096


class BadAddress(ValueError):
    """A text spells no server addresses.

    `at` is the place, in bytes of the text's UTF-8. `reason` is the reason's name: TooLong,
    Transport, Key, Value or Escape for what has to come there, or KeyTwice or Guid for an address
    that begins there.
    """

    def __init__(self, at: int, reason: str) -> None:
        super().__init__(at, reason)
        self.at = at
        self.reason = reason

    def __str__(self) -> str:
        return f"addresses refused at {self.at}: {self.reason}"


class Address:
    """A server address: a transport, such as "unix", and keys with their values."""

    __slots__ = ("_data", "_number")

    def __init__(self, data: bytes, number: int) -> None:
        self._data = data
        self._number = number

    def __repr__(self) -> str:
        return f"<Address {self._number} of {self._data!r}>"

    @property
    def transport(self) -> str:
        return self._text("transport").decode("ascii")

    def value(self, key: str) -> bytes | None:
        """The value of the key, unescaped; None if the address does not have the key."""
        data = key.encode("utf-8", "surrogatepass")
        try:
            return self._text("value", data, len(data))
        except KeyError:
            return None

    def _text(self, name: str, *key: bytes | int) -> bytes:
        out, count = ctypes.create_string_buffer(_ROOM), c_uint64()
        call = getattr(library, f"dbus_wire_address_{name}")
        if call(self._data, len(self._data), self._number, *key, out, _ROOM, byref(count)) == NO_VALUE:
            raise KeyError(key)
        return out.raw[: count.value]

    def _socket(self) -> bytes | str:
        """What Python calls the address of the socket. Raises ValueError if it is no Unix socket."""
        if self.transport != "unix":
            raise ValueError(f"the transport {self.transport} is not supported")
        values = {key: value for key in ("path", "abstract", "runtime") if (value := self.value(key)) is not None}
        if values == {"runtime": b"yes"}:
            return os.path.join(os.environ["XDG_RUNTIME_DIR"], "bus")
        if len(values) != 1 or "runtime" in values:
            raise ValueError("a Unix socket has one of path, abstract and runtime=yes")
        return b"\0" + values["abstract"] if "abstract" in values else values["path"]


def parse_addresses(text: str | Bytes) -> list[Address]:
    """The server addresses that the text spells, as that of DBUS_SESSION_BUS_ADDRESS: a client tries
    them from the first on. Raises BadAddress.

    This is stricter than the specification: a text has at most 4,096 bytes and no empty address; a
    transport and a key have a byte at least, and none that is escaped or would have to be; a key
    comes once in an address; and the value of `guid` is 32 hexadecimal digits."""
    data = text.encode("utf-8", "surrogatepass") if isinstance(text, str) else as_bytes(text)
    told = _library.Addresses()
    if library.dbus_wire_address_check(data, len(data), byref(told)) == REFUSED:
        raise BadAddress(told.offset, _name_of(told.reason))
    return [Address(data, number) for number in range(told.count)]


def connect(text: str | Bytes) -> socket.socket:
    """A connection to the first of the server addresses that takes one. Only Unix sockets are
    supported, by one of `path`, `abstract` and `runtime=yes`, which is the socket `bus` in the
    folder XDG_RUNTIME_DIR. Raises BadAddress, or ConnectionError with what each address met."""
    met = []
    for number, address in enumerate(parse_addresses(text), 1):
        connection = socket.socket(socket.AF_UNIX)
        try:
            connection.connect(address._socket())
            return connection
        except (OSError, ValueError, KeyError) as error:
            connection.close()
            met.append(f"address {number}: {error}")
    raise ConnectionError("; ".join(met))


def _name_of(reason: int) -> str:
    name = ctypes.create_string_buffer(64)
    library.dbus_wire_address_reason_name(reason, name, len(name))
    return name.value.decode("ascii") or str(reason)
