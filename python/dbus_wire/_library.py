"""The shared library by ctypes: the calls, the structs and the numbers of include/dbus_wire.h,
which says what each means."""

from __future__ import annotations

import contextlib
import ctypes
import os
from ctypes import POINTER, c_char_p, c_size_t, c_uint8, c_uint16, c_uint32, c_uint64, c_void_p
from typing import Union

# The version of the header that this module was written for. A library of another minor version may
# have other calls.
WRITTEN_FOR = (0, 1, 0)
SONAME = "libdbus_wire.so.0"

FIXED_HEADER_LENGTH = 16
OK = WHOLE = 0
PARTIAL = 1
REFUSED = 2
NO_MEMORY = 3
NO_ROOM = 4
NO_VALUE = 5
NO_CHECKER = 7
NO_RULE = 8
NO_HANDSHAKE = 9
NO_CONNECTION = 12
EXTERNAL_AS_USER = 1
EXTERNAL_AS_REPORTED = 2
REPLY_ROOM = 528
GUID_LENGTH = 32
REASON_TRAILING = 23
REASON_TRUNCATED = 25
FDS_ANY = 0
FDS_BELOW_COUNT = 1


class Limits(ctypes.Structure):
    _fields_ = [(name, c_uint32) for name in ("message", "array", "depth", "fds")]


class Checked(ctypes.Structure):
    _fields_ = [(name, c_uint64) for name in ("length", "offset")] + [(name, c_uint32) for name in ("order", "reason", "field", "reserved")]


class Text(ctypes.Structure):
    _fields_ = [(name, c_uint64) for name in ("offset", "length", "is_there")]


class Parts(ctypes.Structure):
    _fields_ = (
        [(name, c_uint64) for name in ("length", "body")]
        + [(name, c_uint32) for name in ("order", "kind", "flags", "serial", "reply_serial", "unix_fds")]
        + [(name, Text) for name in ("path", "interface", "member", "error_name", "destination", "sender", "signature")]
    )


class DraftText(ctypes.Structure):
    _fields_ = [("bytes", c_char_p), ("length", c_size_t), ("is_there", c_uint64)]


class Draft(ctypes.Structure):
    _fields_ = [
        *((name, c_uint32) for name in ("order", "kind", "flags", "serial", "reply_serial", "unix_fds")),
        *((name, DraftText) for name in ("path", "interface", "member", "error_name", "destination", "sender", "signature")),
        ("body", c_char_p),
        ("body_length", c_size_t),
    ]


class FlatItem(ctypes.Structure):
    _fields_ = [
        *((name, c_uint64) for name in ("number", "offset", "length")),
        *((name, c_uint32) for name in ("code", "element")),
    ]


class WholeCount(ctypes.Structure):
    _fields_ = [(name, c_uint64) for name in ("fields", "all")]


class InputPlace(ctypes.Structure):
    _fields_ = [(name, c_uint64) for name in ("number", "offset")]


class Explained(ctypes.Structure):
    _fields_ = [("length", c_uint64)] + [(name, Text) for name in ("name", "head", "rule", "text")]


class LinePlace(ctypes.Structure):
    _fields_ = [(name, c_uint64) for name in ("number", "offset", "time", "has_time")]


class Writer(ctypes.Structure):
    _fields_ = [("length", c_uint64), ("order", c_uint32), ("reserved", c_uint32)]


class Array(ctypes.Structure):
    _fields_ = [(name, c_uint64) for name in ("length_at", "start")]


class TextChecked(ctypes.Structure):
    _fields_ = [("offset", c_uint64), ("is_too_long", c_uint32), ("reserved", c_uint32)]


class Checker(ctypes.Structure):
    _fields_ = [("inner", c_void_p)]


class Taken(ctypes.Structure):
    _fields_ = [("count", c_uint64), ("offset", c_uint64), ("reason", c_uint32), ("field", c_uint32)]


class Rules(ctypes.Structure):
    _fields_ = [("inner", c_void_p)]


class RuleId(ctypes.Structure):
    _fields_ = [("kind", c_uint8), ("hash", c_uint64), ("number", c_uint64)]


class RuleRefused(ctypes.Structure):
    _fields_ = [("offset", c_uint64), ("reason", c_uint32), ("reserved", c_uint32)]


class Mechanisms(ctypes.Structure):
    _fields_ = [(name, c_uint32) for name in ("external", "user", "anonymous", "descriptors")]


class Handshake(ctypes.Structure):
    _fields_ = [("inner", c_void_p)]


class HandshakeStep(ctypes.Structure):
    _fields_ = [("count", c_uint64), ("reply", c_uint64)]


class Connection(ctypes.Structure):
    _fields_ = [("inner", c_void_p)]


class ConnectionStep(ctypes.Structure):
    _fields_ = [
        *((name, c_uint64) for name in ("count", "wanted", "call", "offset")),
        *((name, c_uint32) for name in ("event", "is_reply", "unix_fds", "descriptors", "reason", "field", "serial")),
        *((name, c_uint16) for name in ("kind", "flags")),
        ("guid", c_uint8 * 16),
    ]


class Line(ctypes.Structure):
    _fields_ = [
        *((name, c_uint64) for name in ("length", "offset")),
        ("command", c_uint32),
        *((name, c_uint16) for name in ("is_too_long", "is_exact")),
        *((name, Text) for name in ("mechanism", "text")),
    ]


class Watch(ctypes.Structure):
    _fields_ = [(name, c_uint32) for name in ("server", "unanswered", "started", "asked")]


class Addresses(ctypes.Structure):
    _fields_ = [("count", c_uint64), ("offset", c_uint64), ("reason", c_uint32), ("reserved", c_uint32)]


# Of each call its result, and then its arguments. Python's bytes do not change and are never null,
# so they are passed as they are.
_MESSAGE = (c_char_p, c_size_t, POINTER(Limits))
_ITEMS = (POINTER(FlatItem), c_size_t, POINTER(c_uint64), POINTER(Checked))
_ADDRESS = (c_char_p, c_size_t, c_uint64)
_WRITER = (c_char_p, c_size_t, POINTER(Writer))
_CALLS = {
    "version": (c_uint32,),
    "specification_limits": (None, POINTER(Limits)),
    "check": (c_uint32, *_MESSAGE, POINTER(Checked)),
    "parts_of": (c_uint32, *_MESSAGE, POINTER(Parts), POINTER(Checked)),
    "flatten": (c_uint32, *_MESSAGE, c_size_t, *_ITEMS),
    "flatten_fields": (c_uint32, *_MESSAGE, c_size_t, *_ITEMS),
    "flatten_whole": (c_uint32, *_MESSAGE, c_size_t, POINTER(FlatItem), c_size_t, POINTER(WholeCount), POINTER(Checked)),
    "explain": (c_uint32, *_MESSAGE, POINTER(InputPlace), c_char_p, c_size_t, POINTER(Explained), POINTER(Checked)),
    "json": (c_uint32, *_MESSAGE, POINTER(LinePlace), c_char_p, c_size_t, POINTER(c_uint64), POINTER(Checked)),
    "from_json": (c_uint32, *_MESSAGE, c_uint32, c_char_p, c_size_t, POINTER(Checked)),
    "wanted": (c_uint64, *_MESSAGE),
    "swap": (c_uint32, *_MESSAGE, c_uint32, c_char_p, c_size_t, POINTER(Checked)),
    "build": (c_uint32, POINTER(Draft), POINTER(Limits), c_char_p, c_size_t, POINTER(Checked)),
    "rebuild": (c_uint32, *_MESSAGE, POINTER(Draft), c_char_p, c_size_t, POINTER(Checked)),
    "put_number": (c_uint32, *_WRITER, c_uint32, c_uint64),
    "put_text": (c_uint32, *_WRITER, c_char_p, c_size_t),
    "put_signature": (c_uint32, *_WRITER, c_char_p, c_size_t),
    "begin_struct": (c_uint32, *_WRITER),
    "open_array": (c_uint32, *_WRITER, c_uint32, POINTER(Array)),
    "close_array": (c_uint32, *_WRITER, POINTER(Array)),
    "text_check": (c_uint32, c_uint32, c_char_p, c_size_t, POINTER(TextChecked)),
    "checker_new": (c_uint32, POINTER(Limits), POINTER(Checker)),
    "checker_take": (c_uint32, POINTER(Checker), c_char_p, c_size_t, POINTER(Taken)),
    "checker_restart": (c_uint32, POINTER(Checker)),
    "checker_free": (None, POINTER(Checker)),
    "rules_add": (c_uint32, POINTER(Rules), c_char_p, c_size_t, POINTER(RuleId), POINTER(RuleRefused)),
    "rules_remove": (c_uint32, POINTER(Rules), POINTER(RuleId)),
    "rules_owner": (c_uint32, POINTER(Rules), c_char_p, c_size_t, c_char_p, c_size_t),
    "rules_as_bus": (c_uint32, POINTER(Rules), c_uint32),
    "rules_matching": (c_uint32, POINTER(Rules), *_MESSAGE, POINTER(RuleId), c_size_t, POINTER(c_uint64), POINTER(Checked)),
    "rules_may_match": (c_uint32, POINTER(Rules), *_MESSAGE, c_char_p, c_size_t, POINTER(c_uint32), POINTER(Checked)),
    "rules_text": (c_uint32, POINTER(Rules), POINTER(RuleId), c_char_p, c_size_t, POINTER(c_uint64)),
    "rules_free": (None, POINTER(Rules)),
    "rule_reason_name": (c_size_t, c_uint32, c_char_p, c_size_t),
    "server_new": (c_uint32, c_char_p, c_size_t, POINTER(Mechanisms), POINTER(Handshake)),
    "client_new": (c_uint32, POINTER(Mechanisms), c_char_p, c_size_t, POINTER(Handshake)),
    "handshake_bound": (c_uint32, POINTER(Handshake), c_uint32, c_uint32),
    "handshake_take": (c_uint32, POINTER(Handshake), c_char_p, c_size_t, c_char_p, c_size_t, POINTER(HandshakeStep)),
    "handshake_guid": (c_uint32, POINTER(Handshake), c_char_p, c_size_t),
    "handshake_agreed": (c_uint32, POINTER(Handshake)),
    "handshake_free": (None, POINTER(Handshake)),
    "connection_new": (c_uint32, POINTER(Handshake), POINTER(Limits), c_uint32, c_uint32, POINTER(Connection)),
    "connection_take": (c_uint32, POINTER(Connection), c_char_p, c_size_t, POINTER(ConnectionStep)),
    "connection_descriptor": (c_uint32, POINTER(Connection), c_uint64),
    "connection_unsent": (c_uint32, POINTER(Connection), c_char_p, c_size_t, POINTER(c_uint64)),
    "connection_serial": (c_uint32, POINTER(Connection), POINTER(c_uint32)),
    "connection_call": (c_uint32, POINTER(Connection), c_char_p, c_size_t, c_uint64, POINTER(c_uint32)),
    "connection_give_up": (c_uint32, POINTER(Connection), c_uint32, POINTER(c_uint64)),
    "connection_free": (None, POINTER(Connection)),
    "client_line": (c_uint32, c_char_p, c_size_t, POINTER(Line)),
    "server_line": (c_uint32, c_char_p, c_size_t, POINTER(Line)),
    "watch_client": (c_uint32, POINTER(Watch), c_char_p, c_size_t, POINTER(Line)),
    "watch_server": (c_uint32, POINTER(Watch), c_char_p, c_size_t, POINTER(Line)),
    "address_check": (c_uint32, c_char_p, c_size_t, POINTER(Addresses)),
    "address_transport": (c_uint32, *_ADDRESS, c_char_p, c_size_t, POINTER(c_uint64)),
    "address_value": (c_uint32, *_ADDRESS, c_char_p, c_size_t, c_char_p, c_size_t, POINTER(c_uint64)),
    "address_reason_name": (c_size_t, c_uint32, c_char_p, c_size_t),
    "reason_name": (c_size_t, c_uint32, c_char_p, c_size_t),
}

Bytes = Union[bytes, bytearray, memoryview]


def as_bytes(data: Bytes) -> bytes:
    """The bytes, copied if another thread could write them while the library reads them, or if a
    class of its own could give them another length."""
    return data if type(data) is bytes else bytes(memoryview(data))


def _version_of(number: int) -> tuple[int, int, int]:
    return number >> 16, number >> 8 & 0xFF, number & 0xFF


def _load(path: str) -> ctypes.CDLL:
    """The library, with the types of its calls. Raises ImportError if there is none, or one of
    another version."""
    try:
        library = ctypes.CDLL(path)
        version = _version_of(library.dbus_wire_version())
        if version[:2] != WRITTEN_FOR[:2] or version < WRITTEN_FOR:
            raise ImportError(f"{path} has the version {version}, and this module is for {WRITTEN_FOR}")
        for name, (result, *arguments) in _CALLS.items():
            call = getattr(library, f"dbus_wire_{name}")
            call.restype, call.argtypes = result, arguments
    except (OSError, AttributeError) as error:
        raise ImportError(f"no libdbus_wire at {path}, which DBUS_WIRE_LIBRARY can name: {error}") from error
    return library


def _check_processor() -> None:
    """Raises ImportError on an x86-64 processor on which the library of a wheel would not run."""
    with contextlib.suppress(OSError), open("/proc/cpuinfo") as lines:
        flags = next((line.split() for line in lines if line.startswith("flags")), list[str]())
        if flags and not {"sse4_2", "popcnt"} <= {*flags}:
            raise ImportError("libdbus_wire is for x86-64-v2 processors, and this one has no SSE4.2 and POPCNT")


def _path() -> str:
    """The library that DBUS_WIRE_LIBRARY names, or that is beside the module, as in a wheel, or
    that the dynamic linker finds."""
    beside = os.path.join(os.path.dirname(__file__), SONAME)
    return os.environ.get("DBUS_WIRE_LIBRARY") or (beside if os.path.exists(beside) else SONAME)


_check_processor()
library = _load(_path())
LIBRARY_VERSION = _version_of(library.dbus_wire_version())
