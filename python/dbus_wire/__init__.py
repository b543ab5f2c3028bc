"""D-Bus messages, by libdbus_wire: checked, taken apart into Python values, built of their parts,
byteswapped, and matched by rules; and both ends of the handshake before them, and its lines.

The module finds no place and no number in the bytes itself: each is what a call of
include/dbus_wire.h returns. The library is the file that the environment variable DBUS_WIRE_LIBRARY
names, or else libdbus_wire.so.0: the one beside the module, as in a wheel, or else as the dynamic
linker finds it.

    from dbus_wire import messages

    with open("session.dbus", "rb") as capture:
        for message in messages(capture):
            print(message.serial, message.member, message.body)

Bytes that are no message raise Refused or Truncated, which say where and why, as `dbus-wire check`
does; `explain` says why for a reader, as `dbus-wire check --explain` does, and
`whole_parts` gives the header fields and the values of the body before the fault. `Message.to_json`
writes the line of `dbus-wire json`, and `Message.from_json` reads one; JSON that spells no message
raises BadJson. No value that is given is changed: one that is not of its type raises BadValue,
which says where it is.

An extension module builds and reads messages, if a compiler made it. Without it, and if the
environment variable DBUS_WIRE_NO_EXTENSION is not empty, ctypes makes these calls too: slower, with
the same results.

examples/python has programs. All of it may be called from any thread; a thread needs 256 KiB of
stack for a call. A message of any depth is read within Python's default limit on recursion.
"""

from ._addresses import Address, BadAddress, connect, parse_addresses
from ._building import build, call, error_to, rebuild, reply_to, signal
from ._bus import AsyncBus, Bus
from ._checker import Checker
from ._connection import Came, Connection, Event
from ._errors import BadJson, BadValue, HeaderField, NotAMessage, Refused, Truncated
from ._explaining import Explanation, StatedText, WholeParts, explain, whole_parts
from ._handshake import Bounds, Client, Server, Status, Step
from ._library import LIBRARY_VERSION
from ._limits import Limits
from ._lines import BadLine, Line, LineCommand, NotPassed, Watch, client_line, server_line
from ._link import Incoming, Link
from ._messages import Message, MessageFlag, MessageType, byteswap, messages, stated_length
from ._rules import BadRule, Rule, RuleSet
from ._served import ErrorReply, Method, Property, Signal
from ._spelling import spell_body
from ._texts import TextFault, TextKind, check_text
from ._values import ObjectPath, Order, Signature, UnixFd, Variant

__all__ = [
    "LIBRARY_VERSION",
    "Address",
    "AsyncBus",
    "BadAddress",
    "BadJson",
    "BadLine",
    "BadRule",
    "BadValue",
    "Bounds",
    "Bus",
    "Came",
    "Checker",
    "Client",
    "Connection",
    "ErrorReply",
    "Event",
    "Explanation",
    "HeaderField",
    "Incoming",
    "Limits",
    "Line",
    "LineCommand",
    "Link",
    "Message",
    "MessageFlag",
    "MessageType",
    "Method",
    "NotAMessage",
    "NotPassed",
    "ObjectPath",
    "Order",
    "Property",
    "Refused",
    "Rule",
    "RuleSet",
    "Server",
    "Signal",
    "Signature",
    "StatedText",
    "Status",
    "Step",
    "TextFault",
    "TextKind",
    "Truncated",
    "UnixFd",
    "Variant",
    "Watch",
    "WholeParts",
    "build",
    "byteswap",
    "call",
    "check_text",
    "client_line",
    "connect",
    "error_to",
    "explain",
    "messages",
    "parse_addresses",
    "rebuild",
    "reply_to",
    "server_line",
    "signal",
    "spell_body",
    "stated_length",
    "whole_parts",
]
