"""Match rules."""

from __future__ import annotations

import ctypes
import threading
import weakref
from collections.abc import Iterator
from contextlib import contextmanager
from ctypes import byref
from types import TracebackType
from typing import TypeVar

from . import _library
from ._library import NO_MEMORY, NO_ROOM, REFUSED, Bytes, as_bytes, library
from ._limits import limits_struct
from ._messages import Message

_Set = TypeVar("_Set", bound="RuleSet")


class BadRule(ValueError):
    """A text spells no match rule; as a text, what `dbus-wire filter` prints of it.

    `at` is the place, in bytes of the text's UTF-8. `reason` is the reason's name, as
    docs/MATCH-RULES.md lists them.
    """

    def __init__(self, at: int, reason: str) -> None:
        super().__init__(at, reason)
        self.at = at
        self.reason = reason

    def __str__(self) -> str:
        return f"rule refused at {self.at}: {self.reason}"


class RuleSet:
    """Match rules, each with a number, and the owners of names, which a rule's `sender` is compared
    with; the rules that match a message are found without asking each of them.

    It may be shared by threads: those that ask it do not wait for each other, and a call that
    changes it waits for them. `close`, or the end of a `with`, frees it; ValueError is raised by
    its other calls from then on. Each call may raise MemoryError.

        rules = RuleSet()
        number = rules.add("type='signal',sender='org.a.B'")
        rules.set_owner("org.a.B", ":1.7")
        wanted = [message for message in messages(capture) if number in rules.matching(message)]
    """

    __slots__ = ("_handle", "_ids", "_asking", "_idle", "_free", "__weakref__")

    def __init__(self) -> None:
        self._handle = _library.Rules()
        self._ids: dict[int, _library.RuleId] = {}
        self._asking = 0
        self._idle = threading.Condition(threading.Lock())
        self._free = weakref.finalize(self, library.dbus_wire_rules_free, byref(self._handle))

    def add(self, text: str | Bytes) -> int:
        """Adds the rule that the text spells, and returns its number, which no other rule of the
        set has had. Raises BadRule if it spells none."""
        data = text.encode("utf-8", "surrogatepass") if isinstance(text, str) else as_bytes(text)
        told, added = _library.RuleRefused(), _library.RuleId()
        with self._changed():
            answer = library.dbus_wire_rules_add(byref(self._handle), data, len(data), byref(added), byref(told))
            _raise_if_failed(answer)
            if answer == REFUSED:
                raise BadRule(told.offset, _name_of(told.reason))
            self._ids[added.number] = added
        return int(added.number)

    def remove(self, number: int) -> None:
        """Removes the rule of this number. Raises KeyError if there is none."""
        with self._changed():
            _raise_if_failed(library.dbus_wire_rules_remove(byref(self._handle), byref(self._ids[number])))
            del self._ids[number]

    def set_owner(self, name: str, owner: str | None) -> None:
        """Notes the owner of the name, a unique name, in place of the one that was noted before;
        None or an empty text: the name has none from then on. Raises ValueError if one of the two
        is no bus name."""
        names = [text.encode("utf-8", "surrogatepass") for text in (name, owner or "")]
        with self._changed():
            answer = library.dbus_wire_rules_owner(byref(self._handle), *(word for data in names for word in (data, len(data))))
        _raise_if_failed(answer)
        if answer == REFUSED:
            raise ValueError(f"{name!r} or {owner!r} is no bus name")

    def ask_as_bus(self, as_bus: bool = True) -> None:
        """Asks the rules as a bus asks them from now on, or not: of a message with a DESTINATION it
        asks only rules with `eavesdrop='true'`."""
        with self._changed():
            _raise_if_failed(library.dbus_wire_rules_as_bus(byref(self._handle), as_bus))

    def matching(self, message: Message) -> list[int]:
        """The numbers of the rules each key of which holds of the message. A `sender` that is a
        well-known name matches a message whose sender is that name itself, or the owner of it that
        `set_owner` noted."""
        data, count = message.data, ctypes.c_uint64()
        with self._asked():
            found = (_library.RuleId * len(self._ids))()
            answer = library.dbus_wire_rules_matching(
                byref(self._handle), data, len(data), byref(limits_struct(None)), found, len(found), byref(count), byref(_library.Checked())
            )
        _raise_if_failed(answer)
        return [rule.number for rule in found[: count.value]]

    def may_match(self, message: Message, sender: str | None = None) -> bool:
        """Whether any rule may match the message: whether it matches some message that this one may
        be taken for, as docs/MATCH-RULES.md says. Whoever forbids messages asks this. `sender` is
        the unique name that the bus writes as the sender, or None if that is not known.

            if not forbidden.may_match(message, me):
                bus.sendall(bytes(message))
        """
        data, name = message.data, (sender or "").encode("utf-8", "surrogatepass")
        # What cannot be asked is denied.
        limits, may, told = limits_struct(None), ctypes.c_uint32(1), _library.Checked()
        with self._asked():
            library.dbus_wire_rules_may_match(
                byref(self._handle), data, len(data), byref(limits), name, len(name), byref(may), byref(told)
            )
        return may.value == 1

    def text(self, number: int) -> str:
        """The canonical text of the rule of this number. Raises KeyError if there is none."""
        room, length = 256, ctypes.c_uint64()
        while True:
            text = ctypes.create_string_buffer(room)
            with self._asked():
                rule = byref(self._ids[number])
                answer = library.dbus_wire_rules_text(byref(self._handle), rule, text, room, byref(length))
            _raise_if_failed(answer)
            if answer != NO_ROOM:
                return text.value.decode("utf-8")
            room = length.value + 1

    def __len__(self) -> int:
        return len(self._ids)

    def close(self) -> None:
        """Frees the rules. Once more does nothing."""
        with self._idle:
            self._idle.wait_for(lambda: self._asking == 0)
            self._free()

    def __enter__(self: _Set) -> _Set:
        return self

    def __exit__(self, kind: type[BaseException] | None, error: BaseException | None, traceback: TracebackType | None) -> None:
        self.close()

    @contextmanager
    def _changed(self) -> Iterator[None]:
        """While no other call is under way."""
        with self._idle:
            self._idle.wait_for(lambda: self._asking == 0)
            self._raise_if_closed()
            yield

    @contextmanager
    def _asked(self) -> Iterator[None]:
        """While calls that ask may be under way, and none that changes the set."""
        with self._idle:
            self._raise_if_closed()
            self._asking += 1
        try:
            yield
        finally:
            with self._idle:
                self._asking -= 1
                self._idle.notify_all()

    def _raise_if_closed(self) -> None:
        if not self._free.alive:
            raise ValueError("the rules are closed")


class Rule:
    """A match rule by itself: which messages a program wants, as type='signal',path='/a'. As a text
    it is its canonical text.

        with Rule("type='signal',sender='org.a.B'") as rule:
            rule.set_owner("org.a.B", ":1.7")
            wanted = [message for message in messages(capture) if rule.matches(message)]

    It is a RuleSet of one rule, with the same errors.
    """

    __slots__ = ("_rules", "_number")

    def __init__(self, text: str | Bytes) -> None:
        """Makes the rule that the text spells. Raises BadRule if it spells none."""
        self._rules = RuleSet()
        self._number = self._rules.add(text)

    def set_owner(self, name: str, owner: str | None) -> None:
        """Notes the owner of the name, as `RuleSet.set_owner` does."""
        self._rules.set_owner(name, owner)

    def matches(self, message: Message) -> bool:
        """Whether each key of the rule holds of the message, as `RuleSet.matching` says."""
        return bool(self._rules.matching(message))

    def may_match(self, message: Message, sender: str | None = None) -> bool:
        """Whether the rule may match the message, as `RuleSet.may_match` says."""
        return self._rules.may_match(message, sender)

    def __str__(self) -> str:
        return self._rules.text(self._number)

    def close(self) -> None:
        """Frees the rule. Once more does nothing."""
        self._rules.close()

    def __enter__(self) -> Rule:
        return self

    def __exit__(self, kind: type[BaseException] | None, error: BaseException | None, traceback: TracebackType | None) -> None:
        self.close()


def _name_of(reason: int) -> str:
    name = ctypes.create_string_buffer(64)
    library.dbus_wire_rule_reason_name(reason, name, len(name))
    return name.value.decode("ascii") or str(reason)


def _raise_if_failed(answer: int) -> None:
    if answer == NO_MEMORY:
        raise MemoryError
