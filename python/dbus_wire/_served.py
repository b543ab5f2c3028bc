"""Objects that are served: their interfaces, as tables of members, and what a call of one gives."""

from __future__ import annotations

import functools
from typing import Any, Callable, Dict, NamedTuple, TypeVar, Union

from ._messages import Message
from ._spelling import _types_of
from ._values import Variant

DBUS = "org.freedesktop.DBus"
PEER, PROPERTIES = f"{DBUS}.Peer", f"{DBUS}.Properties"


class ErrorReply(Exception):
    """The reply to a call is the error of this name, with these values. A method that raises one,
    of a text, is answered by it."""

    def __init__(self, name: str, *values: Any) -> None:
        super().__init__(name, *values)
        self.name, self.values = name, values


class Method(NamedTuple):
    """A method: the types that it takes and gives, and what is called. That returns the value, or a
    tuple of several, or nothing."""

    takes: str
    gives: str
    call: Callable[..., Any]

    def values(self, value: Any) -> tuple[Any, ...]:
        """Of what was returned the values."""
        types = len(_types_of(self.gives))
        return () if types == 0 else (value,) if types == 1 else value


class Signal(NamedTuple):
    """A signal, by the types of its values."""

    gives: str


class Property(NamedTuple):
    """A property: its type, what returns its value, and what sets it, if it may be set."""

    gives: str
    get: Callable[[], Any]
    set: Callable[[Any], Any] | None = None


Members = Dict[str, Union[Method, Signal, Property]]
_PING = Method("", "", lambda: None)
_Kind = TypeVar("_Kind", Method, Property)


class Objects:
    """The interfaces of each object, by its path. D-Bus Specification, "Standard Interfaces"."""

    def __init__(self, changed: Callable[..., None]) -> None:
        self.served: dict[str, dict[str, Members]] = {}
        self._changed = changed

    def method(self, call: Message) -> Method:
        """The method that is called. Raises ErrorReply if there is none of these types."""
        path, name = call.path or "/", call.interface
        is_there = path in self.served or path == "/" or self._below(path)
        if not is_there and name != PEER:
            raise _error("UnknownObject", f"there is no object {path}")
        method = self._member(Method, path, name, call.member or "")
        if call.types != method.takes:
            raise _error("InvalidArgs", f"the method takes the types '{method.takes}'")
        return method

    def values(self, path: str, interface: str, *names: str) -> dict[str, Variant]:
        """Of these properties their values."""
        found = {it: self._member(Property, path, interface, it) for it in names}
        return {name: Variant(it.gives, it.get()) for name, it in found.items()}

    def _tables(self, path: str, interface: str | None) -> list[Members]:
        # Of a call that names no interface the object's own come first.
        tables = {**self.served.get(path, {}), **self._standard(path)}
        if interface is not None and interface not in tables:
            raise _error("UnknownInterface", f"{path} has no interface {interface}")
        return [it for name, it in tables.items() if interface in (None, name)]

    def _member(self, kind: type[_Kind], path: str, of: str | None, name: str) -> _Kind:
        for it in (table.get(name) for table in self._tables(path, of)):
            if isinstance(it, kind):
                return it
        raise _error(f"Unknown{kind.__name__}", f"{path} has no such member {name}")

    def _set(self, path: str, interface: str, name: str, value: Variant) -> None:
        it = self._member(Property, path, interface, name)
        if it.set is None:
            raise _error("PropertyReadOnly", f"{name} cannot be set")
        if value.signature != it.gives:
            raise _error("InvalidArgs", f"{name} has the type '{it.gives}'")
        it.set(value.value)
        self._changed(path, interface, name)

    def _all(self, path: str, interface: str) -> dict[str, Variant]:
        [table] = self._tables(path, interface)
        names = (name for name, it in table.items() if isinstance(it, Property))
        return self.values(path, interface, *names)

    def _standard(self, path: str) -> dict[str, Members]:
        get: Callable[..., Any] = lambda of, name: self.values(path, of, name)[name]
        described = functools.partial(self._described, path)
        return {
            PEER: {"Ping": _PING, "GetMachineId": Method("", "s", _machine)},
            f"{DBUS}.Introspectable": {"Introspect": Method("", "s", described)},
            PROPERTIES: {
                "Get": Method("ss", "v", get),
                "GetAll": Method("s", "a{sv}", lambda of: self._all(path, of)),
                "Set": Method("ssv", "", lambda *words: self._set(path, *words)),
                "PropertiesChanged": Signal("sa{sv}as"),
            },
        }

    def _below(self, path: str) -> list[str]:
        """The names right below a path."""
        front = path.rstrip("/") + "/"
        below = (it[len(front) :] for it in self.served if it.startswith(front))
        return sorted({it.split("/")[0] for it in below} - {""})

    def _described(self, path: str) -> str:
        """What Introspect returns."""
        text = "<node>"
        own = self.served.get(path, {})
        for name, table in {**self._standard(path), **own}.items():
            members = "".join(_described(*it) for it in table.items())
            text += f'<interface name="{name}">{members}</interface>'
        below = "".join(f'<node name="{it}"/>' for it in self._below(path))
        return f"{text}{below}</node>"


def _described(name: str, it: Method | Signal | Property) -> str:
    if isinstance(it, Property):
        access = "readwrite" if it.set else "read"
        return f'<property name="{name}" type="{it.gives}" access="{access}"/>'
    kind, takes = ("method", it.takes) if isinstance(it, Method) else ("signal", "")
    args = [(type, "in") for type in _types_of(takes)]
    args += [(type, "out") for type in _types_of(it.gives)]
    text = "".join(f'<arg type="{type}" direction="{side}"/>' for type, side in args)
    return f'<{kind} name="{name}">{text}</{kind}>'


def _machine() -> str:
    with open("/etc/machine-id") as file:
        return file.read().strip()


def _error(name: str, text: str) -> ErrorReply:
    return ErrorReply(f"{DBUS}.Error.{name}", text)
